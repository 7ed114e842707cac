% Goals that are handed to predicates which the program itself declares, there or in a file it loads.
:- module(main, [main/0]).
:- use_module(tools).
:- use_module(library(yall)).
:- meta_predicate twice(0), pairwise(2, ?).

main :-
    twice(one),
    twice((two, three)),
    pairwise(four, [1-2]),
    pairwise([X, Y]>>five(X, Y), [1-2]),
    each(six, [1]),
    each(seven(x), [1]),
    each([X]>>each(eight(X), [2]), [1]),
    parse(nine, [a]),
    any(X^ten(X)).

twice(Goal) :- call(Goal), call(Goal).

pairwise(_, []).
pairwise(Goal, [X-Y|Rest]) :- call(Goal, X, Y), pairwise(Goal, Rest).

one.
two.
three.
four(_, _).
five(_, _).
six(_).
seven(_, _).
eight(_, _).
nine --> [a].
ten(_).
