:- module(eighth, [eight/0]).
eight.
