even(nil).
even(cons(X, T)) :- odd(T).
odd(cons(X, T)) :- even(T).
append(nil, L, L).
append(cons(X, T), L, cons(X, R)) :- append(T, L, R).
reverse(nil, nil).
reverse(cons(X, T), R) :- reverse(T, S), append(S, cons(X, nil), R).
report(L) :- reverse(L, R), even(R), write(R).
