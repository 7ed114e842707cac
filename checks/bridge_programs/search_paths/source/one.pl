:- module(one, [one/0]).
one.
