:- module(plugin, []).
:- use_module(registry).
:- multifile registry:handler/2.
registry:handler(plugin, X) :- local(X), registry:own(X).
local(X) :- twice(X).
twice(_).
registry:(handler(none, X) :- own(X)).
%+ registry:handler/2 registry:own/1
