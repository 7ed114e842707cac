% A module that neither defines nor imports a name has that of user: defined there, or imported there.
:- use_module(inner).
:- use_module(provider).

main :- inner, configuration(_).
configuration(x) :- own_of_user.
own_of_user.
