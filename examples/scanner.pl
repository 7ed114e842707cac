% An arithmetic text as tokens.
:- module(scanner, [tokens/2]).

tokens(Text, Tokens) :-
    atom_chars(Text, Chars),
    phrase(tokens(Tokens), Chars).

tokens([Token|Tokens]) --> token(Token), !, tokens(Tokens).
tokens([]) --> [].

token(plus) --> [+].
token(times) --> [*].
token(open) --> ['('].
token(close) --> [')'].
token(number(Number)) --> digits(Digits), { Digits = [_|_], number_chars(Number, Digits) }.

digits([Digit|Digits]) --> [Digit], { char_type(Digit, digit) }, !, digits(Digits).
digits([]) --> [].
