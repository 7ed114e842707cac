% library(apply_macros) unfolds goals that hand on others: they call the same.
:- module(main, [main/0]).
:- use_module(library(apply_macros)).
:- use_module(library(yall)).

main :- maplist(one, [1]), maplist(two(x), [1], [2]), forall(three, four), once(five), ignore(six), phrase(seven, []),
    maplist([X]>>eight(X), [1]).
one(_).
two(_, _, _).
three.
four.
five.
six.
seven --> [].
eight(_).
