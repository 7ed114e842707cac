% A file that is no module leaves its operators in the module that loads it.
:- module(main, [main/0]).
:- ensure_loaded(operators).
:- use_module(exporter).

main :- rule(a ===> b), other(c <~> d), shown(# x).

rule(X ===> Y) :- check(X), check(Y).
other(X <~> Y) :- check(X), check(Y).
check(_).
shown(# X) :- check(X).
