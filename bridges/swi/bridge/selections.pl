/** <module> What a load takes of a file: all, a list of names, or all except a list

Each selection is kept as facts under the number of its load, so that asking for one name takes no
longer if the list is long.
*/

:- module(bridge_selections,
          [ select_items/3,         % +Items, -Load, -How
            brings/4,               % +Load, ?Name, +Arity, ?Plain
            takes/4,                % +Load, +Plain, +Arity, -Name
            selected_name/4         % +Load, -Plain, -Arity, -Name
          ]).

:- use_module(library(lists)).
:- use_module(facts).
:- use_module(terms).

:- dynamic how/2.                   % Load, How

%!  select_items(+Items, -Load, -How) is det.
%
%   Keeps a selection. Items is `all`, a list of indicators, or except(List); an item
%   `Indicator as Name` gives the predicate another name.
select_items(Items, Load, How) :-
    next_number(bridge_loads, Load),
    (   Items == all
    ->  How = all
    ;   nonvar(Items), Items = except(List)
    ->  How = except
    ;   List = Items,
        How = only
    ),
    assertz(how(Load, How)),
    (   is_list(List)
    ->  forall(member(Item, List), keep_item(How, Load, Item))
    ;   true
    ).

keep_item(How, Load, Item) :-
    (   nonvar(Item), Item = as(Indicator, As), atom(As), indicator(Indicator)
    ->  arity_of(Indicator, Name, Arity),
        assertz(pick(Load, Name, Arity, As))
    ;   indicator(Item)
    ->  arity_of(Item, Name, Arity),
        (   How == except
        ->  assertz(drop(Load, Name, Arity))
        ;   assertz(pick(Load, Name, Arity, Name))
        )
    ;   true
    ).

%!  brings(+Load, ?Name, +Arity, ?Plain) is semidet.
%
%   What the load brings under Name is called Plain where it comes from.
brings(Load, Name, Arity, Plain) :-
    (   pick(Load, Plain, Arity, Name)
    ->  true
    ;   how(Load, How),
        How \== only,
        Plain = Name,
        \+ drop(Load, Name, Arity),
        \+ pick(Load, Name, Arity, _)
    ).

%!  takes(+Load, +Plain, +Arity, -Name) is semidet.
%
%   The load takes Plain, if the file has it, and calls it Name.
takes(Load, Plain, Arity, Name) :-
    (   pick(Load, Plain, Arity, Name)
    ->  true
    ;   how(Load, How),
        How \== only,
        \+ drop(Load, Plain, Arity),
        Name = Plain
    ).

%!  selected_name(+Load, -Plain, -Arity, -Name) is nondet.
%
%   The load asks for Plain by its name.
selected_name(Load, Plain, Arity, Name) :-
    how(Load, only),
    pick(Load, Plain, Arity, Name).
