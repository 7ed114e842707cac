% What an arithmetic text is worth: `value('2*(3+4)', V)` gives 14.
:- module(calculator, [value/2]).
:- use_module(scanner).

value(Text, Value) :-
    tokens(Text, Tokens),
    phrase(sum(Value), Tokens).

sum(Value) --> product(First), sum(First, Value).

sum(Before, Value) --> [plus], !, product(Next), { Sum is Before + Next }, sum(Sum, Value).
sum(Value, Value) --> [].

product(Value) --> factor(First), product(First, Value).

product(Before, Value) --> [times], !, factor(Next), { Product is Before * Next }, product(Product, Value).
product(Value, Value) --> [].

factor(Value) --> [number(Value)].
factor(Value) --> [open], sum(Value), [close].
