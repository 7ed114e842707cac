:- module(helper, [helper/0]).
helper :- shared(3), main:local(1).
