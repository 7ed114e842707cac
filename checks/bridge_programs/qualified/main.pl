% Goals for another module, written before the goal or before what is handed on.
:- module(main, [main/0]).
:- use_module(other, []).

main :-
    other:q1, other:(q2, q3), other:maplist(q4, [1]), maplist(other:q5, [1]), call(other:q6, x), @(own, other),
    forall(other:q7(X), own(X)), other:forall(q8, q9), findall(x, other:own, _), \+ other:q10, \+ \+ (other:q11),
    phrase(other:q12, []), catch(other:q13, _, true), other:inner:deep.

own.
own(_).
