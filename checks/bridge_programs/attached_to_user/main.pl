% Clauses that a module gives to user, and calls that go there.
:- module(main, [main/0]).
:- use_module(helper).

user:shared(X) :- local(X).
local(_).
main :- shared(1), user:shared(2), helper.
