:- module(two, [both/0, only_two/0, mine/0]).
both.
only_two :- both.
mine.
