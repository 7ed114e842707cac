:- module(fourth, [four/0, two/0]).
four.
two.
