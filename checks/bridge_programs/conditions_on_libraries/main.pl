% Conditions that ask for predicates of libraries: written in Prolog, written in C, loaded by themselves.
:- module(main, [main/0]).
:- use_module(library(lists)).
:- use_module(library(unix)).
:- use_module(library(socket), [tcp_socket/1]).

:- if(current_predicate(fork/1)).
main :- first, next.
:- else.
main :- wrong.
:- endif.

:- if(current_predicate(append/3)).
first :- append([], [], _).
:- else.
first :- wrong.
:- endif.

:- if(current_predicate(tcp_socket/1)).
next :- second.
:- else.
next :- wrong.
:- endif.

:- if(predicate_property(aggregate_all(_, _, _), defined)).
second :- third.
:- else.
second :- wrong.
:- endif.

:- if(\+ current_predicate(tcp_connect/2)).
third :- fourth.
:- else.
third :- wrong.
:- endif.

:- if(current_predicate(memberchk/2)).
fourth.
:- endif.

wrong.
