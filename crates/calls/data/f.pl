p(X) :- q(X), r.
q(X) :- p(X).
r.
