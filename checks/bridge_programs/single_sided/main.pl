% Rules that match their heads, with guards.
:- module(main, [main/0]).

main :- p(1), p(2), p(x).
p(1) => one.
p(X), integer(X), check(X) => two(X).
p(_) => ( other -> three ; true ).
one.
two(_).
check(_).
other.
three.
