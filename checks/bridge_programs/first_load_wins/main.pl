% Two loads bring one name: the first counts. What the module defines itself counts most.
:- module(main, [main/0]).
:- use_module(one).
:- use_module(two).

main :- both, only_two, mine.
mine.
%+ one:mine/0 one:both/0
