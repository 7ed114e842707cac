:- module(last, []).
:- reexport(deep, except([seven/0])).
