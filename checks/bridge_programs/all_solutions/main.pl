% Predicates that collect solutions.
:- module(main, [main/0]).
:- use_module(library(aggregate)).
:- use_module(library(solution_sequences)).

main :-
    findall(X, p1(X), _), findall(X, p2(X), _, []), findnsols(2, X, p3(X), _), !,
    forall(p4(X), p5(X)),
    setof(X, Y^p6(X, Y), _), bagof(X, Y^Z^p7(X, Y, Z), _),
    aggregate_all(count, p8(_), _), aggregate_all(max(X-Y), p9(X, Y), _), aggregate(count, X^p10(X), _),
    aggregate_all(count, member(_, [1]), _),
    foreach(p11(X), p12(X)),
    findall(X, limit(1, p13(X)), _), findall(X, order_by([asc(X)], p14(X)), _), findall(X, distinct(X, p15(X)), _),
    findall(X, call_nth(p16(X), 1), _), findall(X, offset(0, p17(X)), _), findall(X, distinct(p18(X)), _).

p1(1).
p2(1).
p3(1).
p4(1).
p5(_).
p6(1, 2).
p7(1, 2, 3).
p8(1).
p9(1, 2).
p10(1).
p11(1).
p12(_).
p13(1).
p14(1).
p15(1).
p16(1).
p17(1).
p18(1).
