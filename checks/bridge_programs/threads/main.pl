% Goals for other threads.
:- module(main, [main/0]).
:- use_module(library(thread)).

main :-
    concurrent_maplist(one, [1]), first_solution(_, [two, three], []), concurrent(2, [four, five], []),
    thread_create(six, A), thread_join(A), thread_create(seven, B, []), thread_join(B),
    concurrent_forall(eight, nine), thread_self(Me), thread_signal(Me, ten),
    call_in_thread(Me, true) -> true ; true.
one(_).
two.
three.
four.
five.
six.
seven.
eight.
nine.
ten.
% Which of them run is chance.
%+ main:main/0 main:two/0
%+ main:main/0 main:three/0
%+ main:main/0 main:four/0
%+ main:main/0 main:five/0
%+ main:main/0 main:nine/0
%+ main:main/0 main:ten/0
