:- module(deep, [five/0, seven/0]).
five :- seven.
seven.
