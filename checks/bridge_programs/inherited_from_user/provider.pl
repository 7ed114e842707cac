:- module(provider, [provided/0]).
provided :- hidden.
hidden.
