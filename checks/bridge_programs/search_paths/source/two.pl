:- module(two, [two/0]).
two.
