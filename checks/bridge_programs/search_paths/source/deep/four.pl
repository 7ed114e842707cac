:- module(four, [four/0]).
four.
