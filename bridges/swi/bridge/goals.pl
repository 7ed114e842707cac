/** <module> What a body calls

A walk over goals and grammar bodies that yields call(Module, Name, Arity, goal(Offset, Added,
Negated)) for each goal, in their order. Where a predicate takes goals, what it is given is walked
too, with the arguments that are added to it. Negated is whether a `\+` is around the goal.
*/

:- module(bridge_goals,
          [ calls_in/6,             % +Parts, +Module, +Place, +Expansions, +Tell, -Calls
            calls_of_file/2,        % +Number, -Call
            called//5,              % +Module, +Name, +Arity, +Offset, +Added
            closure//5,             % +Goal, +Position, +Module, +Added, +Default
            grammar//4              % +Body, +Position, +Module, +Default
          ]).

:- use_module(library(lists)).
:- use_module(facts).
:- use_module(handed).
:- use_module(messages).
:- use_module(names).
:- use_module(places).
:- use_module(terms).

%!  calls_in(+Parts, +Module, +Place, +Expansions, +Tell, -Calls) is det.
%
%   The calls of a clause or directive at this place, before which so many facts of goal_expansion/2
%   were read. With Tell, goals that can't be called are told.
calls_in(Parts, Module, Place, Expansions, Tell, Calls) :-
    Place = at(Text, Offset),
    b_setval(bridge_expansions, Expansions),
    b_setval(bridge_used, []),
    b_setval(bridge_negated, false),
    nb_setval(bridge_expanded, 0),
    b_setval(bridge_told_text, told(Tell, Text)),
    catch(phrase(calls_of(Parts, Module, Offset), Found), Error, true),
    (   var(Error)
    ->  Calls = Found
    ;   Calls = [],
        (   Tell == true
        ->  error_text(Error, Told),
            leave_out(Place, "calls of this clause can't be found: ~w", [Told])
        ;   true
        )
    ).

%!  calls_of_file(+Number, -Call) is nondet.
%
%   Each call of the clauses and directives of a file, of which none is told.
calls_of_file(Number, Call) :-
    item(Number, Place, What),
    parts_in(What, Number, Module, Parts, Expansions),
    calls_in(Parts, Module, Place, Expansions, false, Calls),
    member(Call, Calls).

parts_in(clause(_, _, _, Module, Parts, Expansions), _, Module, Parts, Expansions) :- Parts \== [].
parts_in(goal(Goal, At), Number, Module, [goal(Goal, At)], Expansions) :-
    home(Number, Module, _, _),
    flag(bridge_expansions, Expansions, Expansions).

% Default is the offset that counts if none is known.
calls_of([], _, _) --> [].
calls_of([goal(Goal, At)|Parts], M, D) --> goal(Goal, At, M, 0, D), calls_of(Parts, M, D).
calls_of([grammar(Body, At)|Parts], M, D) --> grammar(Body, At, M, D), calls_of(Parts, M, D).

% Added is the number of arguments that what takes the goal adds to it.
goal(Goal, _, _, _, _) --> { var(Goal) }, !.
goal(Goal, At, _, _, D) --> { ( number(Goal) ; string(Goal) ), ! }, { uncallable(Goal, At, D) }.
goal(Goal, _, _, _, _) --> { ( Goal = [_|_] ; is_dict(Goal) ; Goal == [] ; \+ callable(Goal) ) }, !.
goal(Module:Goal, At, _, Added, D) -->
    { atom(Module), ! },
    { starts(At, D, Off), part(2, At, P) },
    goal(Goal, P, Module, Added, Off).
goal(Module:_, At, _, _, D) --> !, { var(Module) -> true ; uncallable(Module, At, D) }.
goal(Goal, At, M, Added, D) --> { rewritten(Goal, M, Added, New) }, !, goal_at(New, At, M, D).
goal((A, B), At, M, 0, D) --> !, both(A, B, At, M, D).
goal((A ; B), At, M, 0, D) --> !, both(A, B, At, M, D).
goal('|'(A, B), At, M, 0, D) --> !, both(A, B, At, M, D).
goal((A -> B), At, M, 0, D) --> !, both(A, B, At, M, D).
goal((A *-> B), At, M, 0, D) --> !, both(A, B, At, M, D).
goal(\+ A, At, M, 0, D) --> !, { part(1, At, P) }, negated(goal(A, P, M, 0, D)).
goal(_^A, At, M, 0, D) --> !, { part(2, At, P) }, goal(A, P, M, 0, D).
goal(Lambda, At, M, Added, D) -->
    { lambda(Lambda, At, Added, Body, P, Left) },
    !,
    lambda_call(M, Added, D),
    goal(Body, P, M, Left, D).
goal(Goal, At, M, Added, D) -->
    { head_name(Goal, Name, Arity0),
      Arity is Arity0 + Added,
      starts(At, D, Off),
      means(M, Name, Arity, Meaning)
    },
    called(M, Name, Arity, Off, Added),
    handed(Goal, Name, Arity0, Arity, At, M, Meaning, Off).

% Lambda terms call their bodies; only declarations for `groups` speak of the terms themselves.
lambda_call(M, Added, D) -->
    (   { option(declare), Arity is Added + 2 }
    ->  called(M, >>, Arity, D, Added)
    ;   []
    ).

%!  called(+Module, +Name, +Arity, +Offset, +Added)// is det.
%
%   A call by the goal that starts at the offset, with so many arguments added to it.
called(M, Name, Arity, Offset, Added) -->
    { b_getval(bridge_negated, Negated) },
    [call(M, Name, Arity, goal(Offset, Added, Negated))].

% What is inside of `\+`.
negated(Calls) -->
    { b_getval(bridge_negated, Before), b_setval(bridge_negated, true) },
    Calls,
    { b_setval(bridge_negated, Before) }.

both(A, B, At, M, D) -->
    { part(1, At, P), part(2, At, Q) },
    goal(A, P, M, 0, D),
    goal(B, Q, M, 0, D).

% What a fact of goal_expansion/2 makes of a goal has the place of the goal. No fact is used again in
% what it made, and a clause uses so many at most: facts may expand each other's goals for ever.
most_expansions(1000).

goal_at(by(Number, Goal), At, M, D) -->
    { starts(At, D, Off), b_getval(bridge_used, Used), b_setval(bridge_used, [Number|Used]) },
    goal(Goal, none, M, 0, Off),
    { b_setval(bridge_used, Used) }.

rewritten(Goal, M, Added, by(Number, New)) :-
    b_getval(bridge_expansions, Count),
    Count > 0,
    head_name(Goal, Name, Arity0),
    Arity is Arity0 + Added,
    expansion(Name, Arity, Number, Owner, Pattern, Expanded),
    Number =< Count,
    ( Owner == M ; Owner == user, inherits_user(M) ; Owner == system ),
    nb_getval(bridge_expanded, Times),
    most_expansions(Most),
    Times < Most,
    b_getval(bridge_used, Used),
    \+ memberchk(Number, Used),
    extended(Goal, Added, Whole),
    subsumes_term(Pattern, Whole),
    !,
    copy_term(Pattern-Expanded, Whole-New),
    New \== Whole,
    More is Times + 1,
    nb_setval(bridge_expanded, More).

% A goal that can't be called is told at its own place.
uncallable(Goal, At, D) :-
    b_getval(bridge_told_text, told(Tell, Text)),
    (   Tell == true
    ->  starts(At, D, Offset),
        plain_text(Goal, Told),
        leave_out(at(Text, Offset), "goal ~w isn't callable", [Told])
    ;   true
    ).

%!  closure(+Goal, +Position, +Module, +Added, +Default)// is det.
%
%   A goal that is handed on. At times it is something else, as the options `[]`, or a number
%   that gets arguments: it calls nothing.
closure(Goal, _, _, Added, _) --> { Added > 0, ( number(Goal) ; string(Goal) ) }, !.
closure(Goal, At, M, Added, D) --> goal(Goal, At, M, Added, D).

%!  grammar(+Body, +Position, +Module, +Default)// is det.
grammar(Body, _, _, _) --> { var(Body) }, !.
grammar(Body, At, _, D) --> { number(Body), ! }, { uncallable(Body, At, D) }.
grammar(Body, _, _, _) -->
    { ( string(Body) ; Body == [] ; Body = [_|_] ; Body == ! ; Body == {} ; \+ callable(Body) ) },
    !.
grammar((A, B), At, M, D) --> !, grammars(A, B, At, M, D).
grammar((A ; B), At, M, D) --> !, grammars(A, B, At, M, D).
grammar('|'(A, B), At, M, D) --> !, grammars(A, B, At, M, D).
grammar((A -> B), At, M, D) --> !, grammars(A, B, At, M, D).
grammar((A *-> B), At, M, D) --> !, grammars(A, B, At, M, D).
grammar(\+ A, At, M, D) --> !, { part(1, At, P) }, negated(grammar(A, P, M, D)).
grammar({Goal}, At, M, D) --> !, { part(1, At, P) }, goal(Goal, P, M, 0, D).
grammar(Module:Body, At, _, D) -->
    { atom(Module), ! },
    { starts(At, D, Off), part(2, At, P) },
    grammar(Body, P, Module, Off).
grammar(Module:_, At, _, D) --> !, { var(Module) -> true ; uncallable(Module, At, D) }.
grammar(Body, At, M, D) --> goal(Body, At, M, 2, D).

grammars(A, B, At, M, D) -->
    { part(1, At, P), part(2, At, Q) },
    grammar(A, P, M, D),
    grammar(B, Q, M, D).

% lambda(+Goal, +Position, +Added, -Body, -BodyPosition, -Left): terms of library(yall), the body,
% and how many arguments are left for it. `Free/[X]>>Body` is read as `(Free/[X])>>Body`.
lambda(Parameters>>Body, At, Added, Body, P, Left) :-
    part(2, At, P),
    (   nonvar(Parameters), Parameters = _/List
    ->  true
    ;   List = Parameters
    ),
    (   is_list(List)
    ->  length(List, Count)
    ;   Count = 0
    ),
    Left is max(0, Added - Count).
lambda(Free/Lambda, At, Added, Body, P, Left) :-
    nonvar(Lambda),
    part(2, At, Q),
    (   Lambda = _>>_
    ->  lambda(Lambda, Q, Added, Body, P, Left)
    ;   nonvar(Free), ( Free = {_} ; Free == {} ),
        Body = Lambda,
        P = Q,
        Left = Added
    ).
lambda(\ Inner, At, Added, Body, P, Left) :-
    Added > 0,
    part(1, At, Q),
    lambda_parameters(Inner, Q, Added, Body, P, Left).

lambda_parameters(Term, At, Added, Body, P, Left) :-
    (   nonvar(Term), Term = _^Inner, Added > 0
    ->  part(2, At, Q),
        Less is Added - 1,
        lambda_parameters(Inner, Q, Less, Body, P, Left)
    ;   Body = Term,
        P = At,
        Left = Added
    ).
