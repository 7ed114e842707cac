% Clauses that files of a program give for one another's predicates.
:- module(main, [main/0]).
:- use_module(registry).
:- use_module(plugin).

:- multifile registry:handler/2.
registry:handler(main, X) :- local(X).
local(_).
main :- dispatch(main, 1), dispatch(plugin, 1).
