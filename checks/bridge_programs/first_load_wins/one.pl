:- module(one, [both/0, mine/0]).
both.
mine :- both.
