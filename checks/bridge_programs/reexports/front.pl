:- module(front, [own/0]).
:- reexport(middle, [one/0, two/0 as another, three/0]).
own.
