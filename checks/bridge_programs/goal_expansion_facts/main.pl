% Facts of goal_expansion/2 rewrite goals of the module, and those of user's rewrite goals everywhere after them.
:- module(main, [main/0]).
:- multifile user:goal_expansion/2.
:- dynamic user:goal_expansion/2.

goal_expansion(old(X), new(X)).
goal_expansion(chain, old(2)).
user:goal_expansion(everywhere, here).

main :-
    old(1),
    chain,
    findall(x, old(3), _),
    ( fail ; \+ everywhere ).

new(_).
here :- fail.
