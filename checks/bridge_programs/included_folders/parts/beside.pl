:- module(beside, [beside/0, near/0]).
beside :- near.
near.
