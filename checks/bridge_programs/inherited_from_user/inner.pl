:- module(inner, [inner/0]).
inner :- configuration(_), provided, maplist(own, [1]).
own(_) :- user:own_of_user.
