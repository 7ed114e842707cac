% Lambda terms: parameters, free variables, and one within another.
:- module(lambdas, [main/0]).
:- use_module(library(apply)).
:- use_module(library(yall)).

main :-
    plain([1, 2]),
    free([1, 2]),
    older([1, 2]),
    nested([[1], [2]]),
    no_parameters([1]),
    more_arguments([1]),
    shared([1]).

plain(Xs) :- maplist([X]>>first(X), Xs).
free(Xs) :- F = 1, maplist({F}/[X]>>second(F, X), Xs), maplist({F}/tenth(F), Xs).
older(Xs) :- maplist({}/[X]>>third(X), Xs), foldl([X, Y, Z]>>fourth(X, Y, Z), Xs, 0, _).
nested(Xss) :- maplist([Xs]>>maplist([X]>>fifth(X), Xs), Xss).
no_parameters(Xs) :- maplist([]>>sixth, []), maplist([_]>>sixth, Xs).
more_arguments(Xs) :- maplist([X]>>seventh(X), Xs, Xs) -> true ; true.
shared(Xs) :- maplist([X]>>(eighth(X), \+ ninth(X)), Xs).

first(_).
second(_, _).
tenth(_, _).
third(_).
fourth(_, Y, Y).
fifth(_).
sixth.
seventh(_, _).
eighth(_).
ninth(_) :- fail.
