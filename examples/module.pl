% A module with operators of its own, and predicates that are declared.
:- module(search, [path/3, reachable/2, op(700, xfx, ===>)]).
:- use_module(library(lists)).
:- op(200, xfy, &).
:- dynamic edge/2, 'seen before'/1.
:- multifile edge/2.
:- discontiguous step/2.
:- set_prolog_flag(double_quotes, codes).

/* A path from one node to another,
   which passes no node twice. */
path(From, To, Path) :-
    walk(From, To, [From], Back),
    turned(Back, [], Path).

walk(To, To, Path, Path).
walk(From, To, Before, Path) :-
    step(From, Next),
    absent(Next, Before),
    walk(Next, To, [Next|Before], Path).

step(From, Next) :- edge(From, Next).
step(From, Next) :- rule(From ===> Next & _).

absent(_, []).
absent(Node, [Other|Others]) :-
    differ(Node, Other), absent(Node, Others).

differ(X, Y) :- X \== Y.

turned([], Path, Path).
turned([Node|Back], Before, Path) :- turned(Back, [Node|Before], Path).

reachable(From, To) :- path(From, To, _), remember('it''s known', "To\x21\", 0'x, -1.5e3).
remember(_, _, _, _).

rule(0x1F ===> b & c).
rule(X ===> X & {curly, [X|_]}).
unreached :- path(a, b, _), unreached.
edge(a, b).
