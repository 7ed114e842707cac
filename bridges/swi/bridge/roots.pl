/** <module> What is called from outside the text

Hooks that SWI-Prolog or a library calls are roots, as are predicates that a file exports of others.
*/

:- module(bridge_roots,
          [ root/5                  % +Number, -Place, -Module, -Name, -Arity
          ]).

:- use_module(library(lists)).
:- use_module(facts).
:- use_module(imports).
:- use_module(terms).

%!  root(+Number, -Place, -Module, -Name, -Arity) is nondet.
%
%   Something outside calls a predicate that this file says something of.
root(Number, Place, Module, Name, Arity) :-
    item(Number, Place, root(Module, Name, Arity)).
root(Number, Place, Module, Name, Arity) :-
    source(Number, _, named),
    once(item(Number, Place, module)),
    public_name(Number, Exported, Arity),
    provider(Number, Exported, Arity, Definer, Name),
    Definer \== Number,
    home(Definer, Module, _, _).
root(Number, Place, Owner, Name, Arity) :-
    home(Number, Module, _, _),
    findall(O/N/A, hook(Number, Module, O, N, A), Hooks0),
    sort(Hooks0, Hooks),
    member(Owner/Name/Arity, Hooks),
    once(item(Number, Place, clause(Owner, Name, Arity, _, _, _))).

hook(Number, Module, Owner, Name, Arity) :-
    item(Number, _, clause(Owner, Name, Arity, _, _, _)),
    (   Owner == Module
    ->  called_by_system(Name, Arity)
    ;   home(_, Owner, module, _)
    ->  called_by_system(Name, Arity)
    ;   Owner == user
    ->  ( \+ home(_, user, _, _) ; multifile_in(Number, Name, Arity) )
    ;   true
    ).

multifile_in(Number, Name, Arity) :-
    item(Number, _, declare(multifile, Indicators)),
    member(user:Indicator, Indicators),
    arity_of(Indicator, Name, Arity),
    !.

% What SWI-Prolog, or a library of it, calls in any module.
called_by_system(:=, 2).                % functions on dicts
called_by_system(attr_unify_hook, 2).
called_by_system(attr_portray_hook, 2).
called_by_system(attribute_goals, 3).
called_by_system(project_attributes, 2).
called_by_system(goal_expansion, 2).
called_by_system(goal_expansion, 4).
called_by_system(term_expansion, 2).
called_by_system(term_expansion, 4).
