% Coroutines, and terms that are walked.
:- module(main, [main/0]).
:- use_module(library(terms)).
:- use_module(library(lazy_lists)).

main :-
    engine_create(X, one(X), E), engine_next(E, _), engine_destroy(E),
    mapargs(two, f(1), _), mapsubterms(three, f(1), _), foldsubterms(four, f(1), _, 0, _),
    lazy_list(five, List), List = [_|_], foldl(six, [1], [2], 0, _), aggregate_all(bag(Y), seven(Y), _),
    prolog_listen(abort, eight), string_predicate(nine).
one(1).
two(X, X).
three(1, 2).
four(1, _, A, A).
five([1|T], T).
six(_, _, X, X).
seven(1).
eight.
string_predicate(_).
nine(_).
%+ main:main/0 main:eight/0
