:- module(ninth, [nine/0]).
nine.
