/** <module> Goals that are handed to predicates

By declarations (meta_predicate/1, html_meta/1), in the texts of `format`, and in arguments and
options of predicates of SWI-Prolog that no declaration speaks of.
*/

:- module(bridge_handed,
          [ handed//8               % +Goal, +Name, +Written, +Arity, +Position, +Module, +Meaning,
                                    % +Default
          ]).

:- use_module(facts).
:- use_module(goals).
:- use_module(names).
:- use_module(places).

%!  handed(+Goal, +Name, +Written, +Arity, +Position, +Module, +Meaning, +Default)// is det.
%
%   What the goal hands on. Written is the number of the arguments that it has in the text, and
%   Arity that of all.
handed(_, main, _, 0, _, M, Meaning, D) -->
    { starts_program(Meaning) },
    !,
    called(M, main, 1, D, 1).
handed(_, _, 0, _, _, _, _, _) --> !.
handed(Goal, Name, Written, Arity, At, M, Meaning, D) -->
    (   { goal_modes(Meaning, M, Name, Arity, Modes), ! }
    ->  declared(1, Written, Modes, Goal, At, M, D)
    ;   []
    ),
    (   { passes(Name), \+ of_program(Meaning, M) }
    ->  undeclared(Goal, Name, Arity, At, M, D)
    ;   []
    ).

% The main/0 of library(main) calls main/1 of the module that calls it.
starts_program(none) :- autoloaded(main, 0, _).
starts_program(library(_)).
starts_program(taken(prolog_main)).
starts_program(other(prolog_main, _)).

of_program(own, M) :- program_module(M).
of_program(taken(Owner), _) :- program_module(Owner).
of_program(other(Owner, _), _) :- program_module(Owner).

program_module(Module) :-
    home(Number, Module, _, _),
    source(Number, Path, Class),
    Class \== library,
    \+ system_path(Path),
    !.

declared(N, Written, _, _, _, _, _) --> { N > Written }, !.
declared(N, Written, Modes, Goal, At, M, D) -->
    { arg(N, Modes, Mode), arg(N, Goal, Argument) },
    (   { var(Mode) ; var(Argument) }
    ->  []
    ;   { part(N, At, P) },
        by_mode(Mode, Argument, P, M, D)
    ),
    { Next is N + 1 },
    declared(Next, Written, Modes, Goal, At, M, D).

by_mode(Added, Argument, At, M, D) --> { integer(Added) }, !, closure(Argument, At, M, Added, D).
by_mode(^, Argument, At, M, D) -->
    !,
    { without_carets(Argument, At, Goal, P) },
    closure(Goal, P, M, 0, D).
by_mode(//, Argument, At, M, D) --> !, grammar(Argument, At, M, D).
by_mode(html, Argument, At, M, D) --> !, page(Argument, At, M, D).
by_mode(_, _, _, _, _) --> [].

without_carets(Term, At, Term, At) :- var(Term), !.
without_carets(_^Term, At, Goal, P) :- !, part(2, At, Q), without_carets(Term, Q, Goal, P).
without_carets(Term, At, Term, At).

/* What library(http/html_write) writes: `\Body` in it is a grammar body. */

page(Term, _, _, _) --> { \+ compound(Term) }, !.
page(\Body, At, M, D) --> !, { part(1, At, P) }, grammar(Body, P, M, D).
page(Module:Term, At, _, D) --> { atom(Module), ! }, { part(2, At, P) }, page(Term, P, Module, D).
page([First|Rest], At, M, D) --> !, { list_parts(At, Ps) }, pages([First|Rest], Ps, M, D).
page(Term, _, _, _) --> { is_dict(Term) }, !.
page(Term, At, M, D) -->
    { compound_name_arity(Term, _, Arity) },
    page_parts(1, Arity, Term, At, M, D).

pages(List, _, _, _) --> { \+ compound(List) }, !.
pages([First|Rest], [P|Ps], M, D) --> !, page(First, P, M, D), pages(Rest, Ps, M, D).
pages([First|Rest], [], M, D) --> !, page(First, none, M, D), pages(Rest, [], M, D).
pages(Tail, _, M, D) --> page(Tail, none, M, D).

page_parts(N, Arity, _, _, _, _) --> { N > Arity }, !.
page_parts(N, Arity, Term, At, M, D) -->
    { arg(N, Term, Part), part(N, At, P), Next is N + 1 },
    page(Part, P, M, D),
    page_parts(Next, Arity, Term, At, M, D).

/* What no declaration speaks of. */

% The predicates of SWI-Prolog for which undeclared//6 has a rule.
passes(apply).
passes(concurrent).
passes(engine_create).
passes(first_solution).
passes(format).
passes(http_handler).
passes(http_parameters).
passes(in_pce_thread).
passes(in_pce_thread_sync).
passes(load_html).
passes(load_sgml).
passes(load_structure).
passes(load_xml).
passes(on_signal).
passes(pce_global).
passes(portray_clause).
passes(print_term).
passes(prolog_listen).
passes(prolog_walk_code).
passes(sgml_parse).
passes(thread_create).
passes(thread_create_in_pool).
passes('$notrace').
passes(wrap_predicate).
passes(write_term).

undeclared(Goal, format, Arity, At, M, D) -->
    !,
    (   { format_goals(Goal, Arity, At, Goals) }
    ->  goals_at(Goals, M, 0, D)
    ;   []
    ).
undeclared(apply(Closure, List), apply, 2, At, M, D) -->
    !,
    (   { is_list(List), nonvar(Closure) }
    ->  { length(List, Added), part(1, At, P) },
        closure(Closure, P, M, Added, D)
    ;   []
    ).
undeclared(Goal, prolog_listen, _, At, M, D) -->
    !,
    (   { arg(1, Goal, Event), listener_arity(Event, Added), arg(2, Goal, Closure) }
    ->  { part(2, At, P) },
        closure(Closure, P, M, Added, D)
    ;   []
    ).
undeclared(Goal, Name, Arity, At, M, D) -->
    { parses(Name, Arity), ! },
    { arg(Arity, Goal, Options), part(Arity, At, OptionsAt),
      findall(Closure-P-Added, parser_call(Options, OptionsAt, Closure, P, Added), Calls)
    },
    handlers(Calls, M, D).
undeclared(Goal, Name, Arity, At, M, D) -->
    { findall(Closure-P-Added, undeclared_goal(Goal, Name, Arity, At, Closure, P, Added), Calls) },
    handlers(Calls, M, D).

handlers([], _, _) --> [].
handlers([Closure-P-Added|Calls], M, D) --> closure(Closure, P, M, Added, D), handlers(Calls, M, D).

undeclared_goal(Goal, Name, Arity, At, Closure, P, Added) :-
    in_argument(Name, Arity, N, How),
    arg(N, Goal, Argument),
    part(N, At, Q),
    (   How = goals
    ->  item_at(Argument, Q, Closure, P),
        Added = 0
    ;   callable(Argument),
        Closure = Argument,
        P = Q,
        Added = How
    ).
undeclared_goal(Goal, Name, Arity, At, Closure, P, Added) :-
    in_options(Name, Arity, N, Option, Added),
    arg(N, Goal, Options),
    part(N, At, Q),
    item_at(Options, Q, Written, R),
    nonvar(Written),
    functor(Written, Option, 1),
    arg(1, Written, Closure),
    callable(Closure),
    part(1, R, P).

% Each item of a list that may go on with a variable, and its position.
item_at(List, At, Item, P) :-
    list_parts(At, Ps),
    item_in(List, Ps, Item, P).

item_in(List, _, _, _) :- var(List), !, fail.
item_in([Item0|Items], Ps0, Item, P) :-
    next_place(Ps0, P0, Ps),
    (   Item = Item0,
        P = P0
    ;   item_in(Items, Ps, Item, P)
    ).

% in_argument(Name, Arity, Argument, How): a goal with so many arguments added, or a list of goals.
in_argument(concurrent, 3, 2, goals).
in_argument(first_solution, 3, 2, goals).
in_argument(http_handler, 3, 2, 1).
in_argument(pce_global, 2, 2, 1).
in_argument(on_signal, 3, 3, 1).
in_argument('$notrace', 1, 1, 0).
in_argument(wrap_predicate, 4, 4, 0).
in_argument(in_pce_thread, 1, 1, 0).
in_argument(in_pce_thread_sync, 1, 1, 0).

% in_options(Name, Arity, Argument, Option, Added): a goal in an option of a list.
in_options(thread_create, 3, 3, at_exit, 0).
in_options(thread_create_in_pool, 4, 4, at_exit, 0).
in_options(engine_create, 4, 4, at_exit, 0).
in_options(http_parameters, 3, 3, attribute_declarations, 2).
in_options(prolog_walk_code, 1, 1, on_trace, 3).
in_options(prolog_walk_code, 1, 1, on_edge, 3).
in_options(print_term, 2, 2, portray_goal, 2).
in_options(write_term, 2, 2, portray_goal, 2).
in_options(write_term, 3, 3, portray_goal, 2).
in_options(portray_clause, 3, 3, portray_goal, 2).

% Whose last argument is options of the parser, with call(Event, Closure).
parses(sgml_parse, 2).
parses(load_structure, 3).
parses(load_sgml, 3).
parses(load_xml, 3).
parses(load_html, 3).

listener_arity(Event, 2) :- nonvar(Event), Event = _/_, !.
listener_arity(Event, 2) :- nonvar(Event), Event = _:_/_, !.
listener_arity(abort, 0).
listener_arity(this_thread_exit, 0).
listener_arity(thread_start, 1).
listener_arity(thread_exit, 1).
listener_arity(frame_finished, 1).
listener_arity(erase, 1).
listener_arity(break, 3).

parser_call(Options, OptionsAt, Closure, P, Added) :-
    item_at(Options, OptionsAt, Option, Q),
    nonvar(Option),
    Option = call(Event, Closure),
    callable(Closure),
    part(2, Q, P),
    (   memberchk(Event, [begin, error, xmlns, urlns])
    ->  Added = 3
    ;   Added = 2
    ).

/* Arguments of `format` that stand for `~@` are goals. */

format_goals(Goal, Arity, At, Goals) :-
    Arity >= 2,
    compound_name_arity(Goal, _, Arity),
    TextAt is Arity - 1,
    arg(TextAt, Goal, Text),
    ( string(Text) ; atom(Text) ),
    sub_atom(Text, _, _, _, '~'),
    sub_atom(Text, _, _, _, '@'),
    !,
    arg(Arity, Goal, Arguments),
    is_list(Arguments),
    part(Arity, At, ListAt),
    list_parts(ListAt, Ps),
    atom_codes(Text, Codes),
    format_columns(Codes, Arguments, Ps, Goals).

format_columns([0'~|Codes0], Arguments0, Ps0, Goals) :-
    !,
    format_count(Codes0, Codes1, Arguments0, Arguments1, Ps0, Ps1),
    (   Codes1 = [0'@|Codes], Arguments1 = [Goal|Arguments]
    ->  next_place(Ps1, P, Ps),
        Goals = [Goal-P|Rest],
        format_columns(Codes, Arguments, Ps, Rest)
    ;   Codes1 = [Code|Codes], memberchk(Code, `awpqdDfFeEgGhHsicrRkI`), Arguments1 = [_|Arguments]
    ->  next_place(Ps1, _, Ps),
        format_columns(Codes, Arguments, Ps, Goals)
    ;   Codes1 = [_|Codes]
    ->  format_columns(Codes, Arguments1, Ps1, Goals)
    ;   Goals = []
    ).
format_columns([_|Codes], Arguments, Ps, Goals) :- !, format_columns(Codes, Arguments, Ps, Goals).
format_columns([], _, _, []).

format_count([0'*|Codes], Codes, [_|Arguments], Arguments, Ps0, Ps) :- !, next_place(Ps0, _, Ps).
format_count([0'`, _|Codes], Codes, Arguments, Arguments, Ps, Ps) :- !.
format_count([Code|Codes0], Codes, A0, A, Ps0, Ps) :-
    code_type(Code, digit),
    !,
    format_count(Codes0, Codes, A0, A, Ps0, Ps).
format_count(Codes, Codes, A, A, Ps, Ps).

next_place([P|Ps], P, Ps) :- !.
next_place([], none, []).

goals_at([], _, _, _) --> [].
goals_at([Goal-P|Goals], M, Added, D) -->
    closure(Goal, P, M, Added, D),
    goals_at(Goals, M, Added, D).
