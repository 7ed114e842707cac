% What the system calls when a variable gets a value.
:- module(main, [main/0]).

main :-
    put_attr(X, main, small), X = 1,
    freeze(Y, woken), Y = 1,
    when(ground(Z), asked), Z = 1,
    when(?=(A, B), ( decided, sure )), A = 1, B = 1,
    put_attr(V, main, small), copy_term(V, _, _).

attr_unify_hook(small, Value) :- check(Value).
check(_).
attribute_goals(V) --> { get_attr(V, main, small) }, shown.
shown --> [shown].
woken.
asked.
decided.
sure.
% The system calls these hooks, no goal of the text.
%- main:main/0 main:attr_unify_hook/2
%- main:main/0 main:attribute_goals/3
