:- module(tenth, [ten/0]).
ten.
