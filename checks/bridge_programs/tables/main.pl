% Tables, some of which join their answers by a predicate.
:- module(main, [main/0]).
:- table path/2, shortest(_, lattice(shorter/3)), best(_, po(better/2)).

main :- forall(path(a, _), true), forall(shortest(a, _), true), forall(best(a, _), true).

path(X, Y) :- path(X, Z), edge(Z, Y).
path(X, Y) :- edge(X, Y).
edge(a, b).
edge(b, a).
shortest(a, 1).
shortest(a, 2).
shorter(X, Y, Z) :- least(X, Y, Z).
least(X, Y, Z) :- Z is min(X, Y).
best(a, 1).
best(a, 2).
better(X, Y) :- X < Y.
% The system joins the answers, where the goal was called.
%- main:main/0 main:shorter/3
%+ main:shortest/2 main:shorter/3
%- main:main/0 main:better/2
%+ main:best/2 main:better/2
