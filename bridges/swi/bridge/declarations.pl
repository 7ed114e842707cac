/** <module> Declarations: predicates, their goal arguments, exports, and what expansions make
*/

:- module(bridge_declarations,
          [ declaration/3,          % +Directive, +Place, +Reading
            module_said/4,          % +Module, +Exports, +Place, +Reading
            export_said/2,          % +List, +Reading
            operator/5              % +Priority, +Type, +Names, +Place, +Reading
          ]).

:- use_module(library(apply)).
:- use_module(library(lists)).
:- use_module(clauses).
:- use_module(expansions).
:- use_module(facts).
:- use_module(messages).
:- use_module(operators).
:- use_module(terms).

%!  declaration(+Directive, +Place, +Reading) is semidet.
%
%   What a declaration says; fails for any other directive.
declaration(dynamic(List), Place, Reading) :- declared(dynamic, List, Place, Reading).
declaration(dynamic(List, _), Place, Reading) :- declared(dynamic, List, Place, Reading).
declaration(thread_local(List), Place, Reading) :- declared(dynamic, List, Place, Reading).
declaration(multifile(List), Place, Reading) :- declared(multifile, List, Place, Reading).
declaration(meta_predicate(List), _, Reading) :- metas(List, Reading).
declaration(html_meta(List), _, Reading) :- page_metas(List, Reading).
declaration(table(List), Place, Reading) :- tabled(List, Place, Reading).
declaration(public(List), Place, Reading) :- rooted(List, 0, Place, Reading).
declaration(arithmetic_function(List), Place, Reading) :- rooted(List, 1, Place, Reading).
declaration(format_predicate(_, Head), Place, Reading) :-
    callable(Head),
    rooted(Head, 0, Place, Reading).
declaration(chr_constraint(List), Place, Reading) :- constraints_said(List, Place, Reading).
declaration(constraints(List), Place, Reading) :- constraints_said(List, Place, Reading).
declaration(record(Spec), Place, Reading) :- made(record(Spec), Place, Reading).
declaration(persistent(Spec), Place, Reading) :- made(persistent(Spec), Place, Reading).

%!  module_said(+Module, +Exports, +Place, +Reading) is det.
%
%   The file is that of the module. A module has one file: as in SWI-Prolog the first one counts,
%   and of another one nothing is read.
module_said(Module, Exports, Place, Reading) :-
    Reading = reading(Number, _),
    (   atom(Module), is_list(Exports), \+ item(Number, _, _), home(Number, _, plain, _)
    ->  (   Module == user
        ->  true
        ;   home(Other, Module, module, _), Other \== Number
        ->  source(Other, Path, _),
            shown(Path, Name),
            leave_out(Place, "module ~q is that of ~w: nothing of this file is read",
                      [Module, Name]),
            throw(left_file(Number))
        ;   retractall(home(Number, _, _, _)),
            operators_module(Module, Operators),
            assertz(home(Number, Module, module, Operators)),
            say(Reading, Place, module)
        ),
        export_said(Exports, Reading),
        forall(( member(Item, Exports), nonvar(Item), Item = op(Priority, Type, Names) ),
               exported_operators(Priority, Type, Names, Place, Reading))
    ;   leave_out(Place, "module directive isn't the first clause of its file", [])
    ).

exported_operators(Priority, Type, Names, Place, Reading) :-
    Reading = reading(Number, _),
    operator(Priority, Type, Names, Place, Reading),
    assertz(exported_operator(Number, Priority, Type, Names)).

%!  export_said(+List, +Reading) is det.
export_said(List, reading(Number, _)) :-
    home(Number, Home, _, _),
    forall(( listed_item(List, Home, _, Item), indicator(Item), arity_of(Item, Name, Arity) ),
           note(export(Number, Name, Arity))).

%!  operator(+Priority, +Type, +Names, +Place, +Reading) is det.
operator(Priority, Type, Names, Place, reading(Number, _)) :-
    home(Number, _, _, Operators),
    (   set_operators(Names, Priority, Type, Operators)
    ->  true
    ;   leave_out(Place, "operator isn't set", [])
    ).

declared(How, List, Place, Reading) :-
    Reading = reading(Number, _),
    home(Number, Home, _, _),
    findall(Owner:Item, listed_item(List, Home, Owner, Item), Items),
    partition(indicates, Items, Indicators, Others),
    forall(( member(Owner:Item, Indicators), arity_of(Item, Name, Arity) ),
           define(Owner, Name, Arity)),
    forall(member(_:Item, Others),
           ( plain_text(Item, Told), leave_out(Place, "~w declares no predicate", [Told]) )),
    (   Indicators == []
    ->  true
    ;   say(Reading, Place, declare(How, Indicators))
    ).

indicates(_:Item) :- indicator(Item).

% The first declaration counts.
metas(List, reading(Number, _)) :-
    home(Number, Home, _, _),
    forall(( listed_item(List, Home, Owner, Item), compound(Item), head_name(Item, Name, Arity),
             \+ meta(Owner, Name, Arity, _) ),
           assertz(meta(Owner, Name, Arity, Item))).

% Of library(http/html_write): says more than the declarations before it.
page_metas(List, reading(Number, _)) :-
    home(Number, Home, _, _),
    forall(( listed_item(List, Home, Owner, Item), compound(Item), head_name(Item, Name, Arity) ),
           ( retractall(meta(Owner, Name, Arity, _)), assertz(meta(Owner, Name, Arity, Item)) )).

% Predicates that are called from outside, with so many arguments more.
rooted(List, Added, Place, Reading) :-
    Reading = reading(Number, _),
    home(Number, Home, _, _),
    forall(( listed_item(List, Home, Owner, Item), named(Item, Name, Arity0) ),
           ( Arity is Arity0 + Added, say(Reading, Place, root(Owner, Name, Arity)) )).

named(Item, Name, Arity) :- indicator(Item), !, arity_of(Item, Name, Arity).
named(Head, Name, Arity) :- compound(Head), head_name(Head, Name, Arity).

% A table that joins answers calls what joins them.
tabled(List, Place, Reading) :-
    Reading = reading(Number, _),
    home(Number, Home, _, _),
    forall(( listed_item(List, Home, Owner, Item), compound(Item), \+ indicator(Item),
             arg(_, Item, Mode), joins(Mode, Called, Added) ),
           ( extended(Called, Added, Goal),
             clause_of(Owner:Item, Home, 0, Home, [goal(Goal, none)], Place, Reading) )).

joins(Mode, _, _) :- var(Mode), !, fail.
joins(lattice(Name/3), Name, 3) :- !, atom(Name).
joins(lattice(Head), Name, 3) :- callable(Head), head_name(Head, Name, _).
joins(po(Name/2), Name, 2) :- !, atom(Name).
joins(po(Head), Name, 2) :- callable(Head), head_name(Head, Name, _).

% Constraints of library(chr) are predicates, whether or not a rule has them in its head.
constraints_said(List, Place, Reading) :-
    Reading = reading(Number, _),
    note(handles_rules(Number)),
    findall(Name/Arity, ( listed_item(List, here, _, Item), constraint(Item, Name, Arity) ), Found),
    declared(dynamic, Found, Place, Reading).

constraint(Item, Name, Arity) :- indicator(Item), !, arity_of(Item, Name, Arity).
constraint(Typed, Name, Arity) :- callable(Typed), head_name(Typed, Name, Arity).

% What a library of SWI-Prolog makes of a declaration has its place. Data for the library's own
% module call nothing.
made(Directive, Place, Reading) :-
    Reading = reading(Number, _),
    home(Number, Home, _, _),
    made_clauses(Directive, Home, Clauses),
    forall(member(Clause, Clauses), made_clause(Clause, Place, Reading)).

made_clause((:- dynamic(List)), Place, Reading) :- !, declared(dynamic, List, Place, Reading).
made_clause((:- _), _, _) :- !.
made_clause(_:_, _, _) :- !.
made_clause(Clause, Place, Reading) :- clause_said(Clause, none, Place, Reading).
