% Names that are loaded by themselves, and one of them that the module defines itself.
:- module(main, [main/0]).

main :-
    foldl(add, [1], 0, _), aggregate_all(count, many, _), partition(small, [1], _, _), include(small, [1], _),
    exclude(small, [1], _), convlist(changed, [1], _), predsort(ordered, [1, 2], _), subsumes_chk,
    last([1], _), map_list_to_pairs(key, [1], _), sumlist([1], _), concurrent_forall(many, quick), call_shown.

add(_, X, X).
many.
small(_).
changed(X, X).
ordered(<, _, _).
key(X, X).
last(_, _).
quick.
sumlist(_, _).
subsumes_chk :- list_to_assoc([a-1], A), map_assoc(small, A), list_to_assoc([a-1], B), map_assoc(value, B).
value(_).
call_shown :- rb_new(T0), rb_insert(T0, k, 1, T), rb_map(T, changed, _), rb_fold(kept, T, 0, _).
kept(_, X, X).
