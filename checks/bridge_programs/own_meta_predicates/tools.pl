:- module(tools, [each/2, parse/2, any/1]).
:- meta_predicate each(1, ?), parse(//, ?), any(^).

each(_, []).
each(Goal, [X|Xs]) :- call(Goal, X), each(Goal, Xs).

parse(Body, List) :- phrase(Body, List).

any(Goal) :- setof(x, Goal, _).
