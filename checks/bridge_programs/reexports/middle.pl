:- module(middle, [two/0]).
:- reexport([back]).
two :- one.
