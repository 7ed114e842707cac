:- module(rest, [six/0, four/0]).
:- use_module(back, except([one/0])).
:- use_module(last).
six :- five, three.
