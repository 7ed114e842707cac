:- module(back, [one/0, three/0, four/0]).
one :- three.
three.
four.
