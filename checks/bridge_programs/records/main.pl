% Predicates that library(record) makes.
:- module(main, [main/0]).
:- use_module(library(record)).
:- record point(x:integer=0, y:integer=0).

main :-
    default_point(P), point_x(P, X), use(X), is_point(P),
    make_point([x(3)], P1), make_point([x(3), z(1)], P2, _),
    set_point_fields([y(1)], P1, P3), set_point_field(x(1), P3, P4), set_x_of_point(2, P4, _),
    use(P2).
use(_).
