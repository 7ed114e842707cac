% The main/0 of library(main) calls main/1 of the module that starts it.
:- module(script, []).
:- use_module(library(main)).
:- initialization(main, main).

main(Arguments) :- work(Arguments).
work(_).
