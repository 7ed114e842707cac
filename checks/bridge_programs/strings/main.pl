% Texts in grammars and data that look like calls.
:- module(main, [main/0]).
:- set_prolog_flag(double_quotes, codes).

main :-
    phrase(greeting, "hello", _),
    X = data(1), X = data(_),
    assertz(( kept(Y) :- made(Y) )), kept(1),
    atom_to_term('named(1)', _, _),
    member(Z, [listed(1)]), Z = listed(_).
greeting --> "hel", letters.
letters --> "lo".
data(_).
made(_).
named(_).
listed(_).
:- dynamic kept/1.
% A clause that is made at run time.
%- main:kept/1 main:made/1
