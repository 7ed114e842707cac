% Grammar rules: pushback, goals in braces, call//N, negation, strings, and bodies that are handed on.
:- module(main, [main/0]).
:- use_module(library(dcg/basics)).
:- use_module(library(dcg/high_order)).

main :-
    phrase(sentence(_), `ab`, _),
    phrase(items(_), `(1,2)`),
    phrase(looking, [x], _),
    phrase((words, { done }), []),
    phrase(choice, [b]).

sentence(X) --> "a", { known(X) }, \+ closing, rest.
known(_).
closing --> "c".
rest --> call(one_more, 1), call([X, Y]>>same(X, Y)).
one_more(_, [_|Xs], Xs).
same(Xs, Xs).
items(Is) --> sequence("(", item, ",", ")", Is).
item(I) --> integer(I), optional(mark, []).
mark --> "!".
looking, [x] --> [x], seen.
seen --> [].
words --> [].
done.
choice --> ( first -> [] ; second ), third, !.
first --> [a], !.
second --> [b].
third --> { true } .
