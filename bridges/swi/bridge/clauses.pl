/** <module> Clauses: their heads, and the parts of their bodies that call

Of a head only its name is kept, since its arguments call nothing.
*/

:- module(bridge_clauses,
          [ clause_said/4,          % +Term, +Position, +Place, +Reading
            clause_of/7,            % +Head, +Home, +Added, +Module, +Parts, +Place, +Reading
            test_options/3          % +Options, +Place, +Reading
          ]).

:- use_module(library(lists)).
:- use_module(facts).
:- use_module(files).
:- use_module(messages).
:- use_module(places).
:- use_module(terms).

% Not every release has them.
:- op(1200, xfx, ==>).
:- op(1200, xfx, =>).

%!  clause_said(+Term, +Position, +Place, +Reading) is det.
%
%   Keeps what a clause says; one without a head that a program may define is told.
clause_said(Term, Position, Place, Reading) :-
    Reading = reading(Number, _),
    home(Number, Home, _, _),
    handles_rules(Number),
    rule(Term, Position, Heads, Parts),
    !,
    forall(member(Head, Heads), headed(Head, Home, 0, Home, Parts, Place, Reading)).
clause_said(Owner:Term, Position, Place, Reading) :-
    atom(Owner),
    nonvar(Term),
    Term = (_ :- _),
    !,
    part(2, Position, Inner),
    shape(Term, Inner, Head, Added, Parts),
    headed(Head, Owner, Added, Owner, Parts, Place, Reading).
clause_said(Term, Position, Place, Reading) :-
    Reading = reading(Number, _),
    home(Number, Home, _, _),
    (   option(expand), grammar_rule(Term), catch(dcg_translate_rule(Term, Read), _, fail)
    ->  At = none
    ;   Read = Term,
        At = Position
    ),
    (   shape(Read, At, Head, Added, Parts)
    ->  headed(Head, Home, Added, Home, Parts, Place, Reading)
    ;   no_head(Place)
    ).

headed(Head, Home, Added, Module, Parts, Place, Reading) :-
    (   may_define(Head)
    ->  clause_of(Head, Home, Added, Module, Parts, Place, Reading)
    ;   no_head(Place)
    ).

no_head(Place) :- leave_out(Place, "clause has no head that a program may define", []).

%!  clause_of(+Head, +Home, +Added, +Module, +Parts, +Place, +Reading) is det.
%
%   A clause of the predicate with so many arguments more than its head; its goals are called in
%   Module. Facts of file_search_path/2 and goal_expansion/2 hold for what comes after them.
clause_of(Head, Home, Added, Module, Parts, Place, Reading) :-
    innermost(Head, Home, Owner, Inner),
    head_name(Inner, Name, Arity0),
    Arity is Arity0 + Added,
    define(Owner, Name, Arity),
    holds_from_here(Inner, Owner, Parts, Place, Reading),
    test_of_unit(Inner, Owner, Name, Arity, Place, Reading),
    flag(bridge_expansions, Expansions, Expansions),
    say(Reading, Place, clause(Owner, Name, Arity, Module, Parts, Expansions)).

holds_from_here(file_search_path(Alias, Folder), user, [], _, reading(_, Text)) :-
    !,
    text(Text, Path, _),
    search_path(Alias, Folder, Path).
holds_from_here(goal_expansion(Goal, Expanded), Owner, Parts, _, _) :-
    ( Parts == [] ; Parts = [goal(Body, _)], Body == true ),
    callable(Goal),
    !,
    next_number(bridge_expansions, Count),
    head_name(Goal, Name, Arity),
    assertz(expansion(Name, Arity, Count, Owner, Goal, Expanded)).
% Those of `system` are a library's, for directives of its own: the bridge knows the usual ones.
holds_from_here(Inner, Owner, _, Place, _) :-
    (   head_name(Inner, Name, Arity),
        expands(Name, Arity),
        Owner \== system
    ->  leave_out(Place, "clauses of ~w aren't run: what they add isn't read", [Name/Arity])
    ;   true
    ).

% Between begin_tests/1 and end_tests/1, library(plunit) runs each test/1 and test/2, and goals in
% its options.
test_of_unit(Head, Owner, test, Arity, Place, Reading) :-
    Reading = reading(Number, _),
    testing(Number),
    ( Head = test(_), Options = [] ; Head = test(_, Options) ),
    !,
    say(Reading, Place, root(Owner, test, Arity)),
    test_options(Options, Place, Reading).
test_of_unit(_, _, _, _, _, _).

%!  test_options(+Options, +Place, +Reading) is det.
%
%   Goals in the options of a test or a unit.
test_options(Options, Place, Reading) :-
    (   is_list(Options)
    ->  forall(( member(Option, Options), nonvar(Option), test_goal(Option, Goal) ),
               say(Reading, Place, goal(Goal, none)))
    ;   nonvar(Options), test_goal(Options, Goal)
    ->  say(Reading, Place, goal(Goal, none))
    ;   true
    ).

test_goal(setup(Goal), Goal).
test_goal(cleanup(Goal), Goal).
test_goal(condition(Goal), Goal).
test_goal(true(Goal), Goal).
test_goal(forall(Goal), Goal).

expands(goal_expansion, 2).
expands(goal_expansion, 4).
expands(term_expansion, 2).
expands(term_expansion, 4).

grammar_rule((_ --> _)).
grammar_rule((_ ==> _)).

% The head, how many arguments a grammar adds to it, and the parts of the body. Methods of XPCE
% classes are clauses of the two predicates that XPCE calls.
shape(:->(_, Body), P, pce_principal:send_implementation(_, _, _), 0, [Part]) :-
    !,
    part(2, P, Q),
    method_body(Body, Q, Part).
shape(:<-(_, Body), P, pce_principal:get_implementation(_, _, _, _), 0, [Part]) :-
    !,
    part(2, P, Q),
    method_body(Body, Q, Part).
shape((Left --> Body), P, Head, 2, [grammar(Body, Q)]) :-
    !,
    part(2, P, Q),
    (   nonvar(Left), Left = (Head0, Pushback)
    ->  ( string(Pushback) -> true ; is_list(Pushback) ),
        Head = Head0
    ;   Head = Left
    ).
shape((Left ==> Body), P, Head, 2, Parts) :-
    !,
    guarded(Left, P, Head, grammar(Body, Q), Parts),
    part(2, P, Q).
shape((Left => Body), P, Head, 0, Parts) :-
    !,
    guarded(Left, P, Head, goal(Body, Q), Parts),
    part(2, P, Q).
shape((Head :- Body), P, Head, 0, [goal(Body, Q)]) :- !, part(2, P, Q).
shape(Head, _, Head, 0, []).

method_body(Body, P, goal(Body, P)) :- var(Body), !.
method_body(::(_, Body), P, goal(Body, Q)) :- !, part(2, P, Q).
method_body(Body, P, goal(Body, P)).

guarded(Left, P, Head, Body, [goal(Guard, At), Body]) :-
    nonvar(Left),
    Left = (Head, Guard),
    !,
    part(1, P, LeftAt),
    part(2, LeftAt, At).
guarded(Head, _, Head, Body, [Body]).

% A rule of library(chr) is run by each constraint of its head, which then calls guard and body.
rule(Term, _, _, _) :- var(Term), !, fail.
rule(@(_, Rule), P, Heads, Parts) :- !, part(2, P, Q), rule(Rule, Q, Heads, Parts).
rule(pragma(Rule, _), P, Heads, Parts) :- !, part(1, P, Q), rule(Rule, Q, Heads, Parts).
rule(<=>(Head, Body), P, Heads, Parts) :- !, part(2, P, Q), rule_parts(Head, Body, Q, Heads, Parts).
rule(==>(Head, Body), P, Heads, Parts) :- part(2, P, Q), rule_parts(Head, Body, Q, Heads, Parts).

rule_parts(Head, Body, P, Heads, Parts) :-
    phrase(constraints(Head), Heads),
    (   nonvar(Body), Body = '|'(Guard, Rest)
    ->  part(1, P, GuardAt),
        part(2, P, RestAt),
        Parts = [goal(Guard, GuardAt), goal(Rest, RestAt)]
    ;   Parts = [goal(Body, P)]
    ).

constraints(Head) --> { var(Head) }, !.
constraints(\(Kept, Removed)) --> !, constraints(Kept), constraints(Removed).
constraints((Left, Right)) --> !, constraints(Left), constraints(Right).
constraints(#(Head, _)) --> !, constraints(Head).
constraints(Head) --> [Head].
