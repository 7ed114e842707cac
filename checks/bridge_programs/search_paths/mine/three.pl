:- module(three, [three/0]).
three.
