expression(S, R) :- term(S, T), more_terms(T, R).
more_terms(S, R) :- plus(S, T), term(T, U), more_terms(U, R).
more_terms(S, S).
term(S, R) :- factor(S, T), more_factors(T, R).
more_factors(S, R) :- times(S, T), factor(T, U), more_factors(U, R).
more_factors(S, S).
factor(S, R) :- digit(S, R).
factor(S, R) :- opening(S, T), expression(T, U), closing(U, R).
digit(S, R).
plus(S, R).
times(S, R).
opening(S, R).
closing(S, R).
