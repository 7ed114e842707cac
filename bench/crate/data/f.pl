% Trees, and what is found in them.
:- dynamic found/1.
found(Value, node(Left, Value, Right)) :- Left \== Right, Value >= 2 * 3 - 1.
found(X, [X|_]).
