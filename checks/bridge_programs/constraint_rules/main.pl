% Rules of library(chr).
:- module(main, [main/0]).
:- use_module(library(chr)).
:- chr_option(debug, off).
:- chr_option(optimize, full).
:- chr_constraint start, count(?int), limit(?int).

main :- start, limit(3), count(5).

begin @ start <=> prepare.
over @ limit(L), count(N) <=> above(N, L) | told(N), finish.
prepare.
above(N, L) :- N > L.
told(_).
finish :- fail.
finish.
% Each constraint of a head wakes the rule; what wakes it here is the last one.
%+ main:limit/1 main:above/2
%+ main:limit/1 main:told/1
%+ main:limit/1 main:finish/0
