/** <module> What each module takes from others

The first load that brings a name counts, as it does for SWI-Prolog. A name that passes through
several files is looked for along their loads, each file once.
*/

:- module(bridge_imports,
          [ find_imports/0,
            imported/6,             % ?Module, ?Name, ?Arity, ?Definer, ?Plain, ?Load
            public_name/3,          % +Number, -Name, -Arity
            provider/5,             % +Number, +Name, +Arity, -Definer, -Plain
            loaded_name/3,          % +Module, +Name, +Arity
            outside_definer/4       % +Module, +Name, +Arity, -Path
          ]).

:- use_module(facts).
:- use_module(headers).
:- use_module(messages).
:- use_module(selections).

:- dynamic
    public_name/3,          % Number, name, arity: what a load of all takes of the file
    offered/4,              % Number, name, arity, some(Definer, Plain) or none
    visited/3,              % Number, name, arity, in one search
    imported/6.             % Module, name, arity, file that defines it, its name there, load

%!  find_imports is det.
%
%   What each module takes from others, in the order of the loads.
find_imports :-
    retractall(public_name(_, _, _)),
    retractall(offered(_, _, _, _)),
    retractall(imported(_, _, _, _, _, _)),
    forall(export(Number, Name, Arity), make_public(Number, Name, Arity)),
    forall(module_load(Module, Load, file(Other)), import(Module, Load, Other)).

% What a file exports, what others that export the file again export too.
make_public(Number, Name, Arity) :-
    (   public_name(Number, Name, Arity)
    ->  true
    ;   assertz(public_name(Number, Name, Arity)),
        forall(( again(Other, Load, file, Number), takes(Load, Name, Arity, New) ),
               make_public(Other, New, Arity))
    ).

import(Module, Load, Other) :-
    (   home(Other, Module, _, _)
    ->  true
    ;   load(Load, _, Place, _, How),
        forall(brought(How, Load, Other, Plain, Arity, Name),
               take(Module, Name, Arity, Other, Plain, Load, Place))
    ).

brought(only, Load, _, Plain, Arity, Name) :-
    !,
    selected_name(Load, Plain, Arity, Name).
brought(_, Load, Other, Plain, Arity, Name) :-
    public_name(Other, Plain, Arity),
    takes(Load, Plain, Arity, Name).

take(Module, Name, Arity, Other, Plain0, Load, Place) :-
    (   provider(Other, Plain0, Arity, Definer, Plain)
    ->  (   defined(Module, Name, Arity)
        ->  true
        ;   imported(Module, Name, Arity, First, Before, _)
        ->  tell_conflict(First, Before, Definer, Plain, Name/Arity, Place)
        ;   assertz(imported(Module, Name, Arity, Definer, Plain, Load))
        )
    ;   home(Other, Owner, _, _),
        loaded_name(Owner, Plain0, Arity)
    ->  true
    ;   load(Load, _, _, _, only), \+ reexported_library(Other, Plain0, Arity)
    ->  leave_out_once(Place, "~q isn't exported there", [Plain0/Arity])
    ;   true
    ).

reexported_library(Number, Name, Arity) :-
    retractall(visited(_, _, _)),
    from_library_again(Number, Name, Arity).

from_library_again(Number, Name, Arity) :-
    \+ visited(Number, Name, Arity),
    assertz(visited(Number, Name, Arity)),
    again(Number, Load, Kind, Which),
    brings(Load, Name, Arity, Plain),
    (   Kind == outside
    ->  library_export(Which, Plain, Arity, _)
    ;   from_library_again(Which, Plain, Arity)
    ),
    !.

tell_conflict(Definer, Plain, Definer, Plain, _, _) :- !.
tell_conflict(First, _, _, _, Indicator, Place) :-
    home(First, Module, _, _),
    leave_out_once(Place, "~q is taken from ~q, which is loaded before", [Indicator, Module]).

%!  provider(+Number, +Name, +Arity, -Definer, -Plain) is semidet.
%
%   What the module file offers under Name is called Plain in the file Definer.
provider(Number, Name, Arity, Definer, Plain) :-
    (   offered(Number, Name, Arity, Known)
    ->  true
    ;   retractall(visited(_, _, _)),
        (   provided(Number, Name, Arity, Found, FoundPlain)
        ->  Known = some(Found, FoundPlain)
        ;   Known = none
        ),
        assertz(offered(Number, Name, Arity, Known))
    ),
    Known = some(Definer, Plain).

% Each file is visited once in a search, however many ways lead to it.
provided(Number, Name, Arity, Definer, Plain) :-
    \+ visited(Number, Name, Arity),
    assertz(visited(Number, Name, Arity)),
    home(Number, Module, module, _),
    (   export(Number, Name, Arity)
    ->  (   defined(Module, Name, Arity)
        ->  Definer = Number,
            Plain = Name
        ;   taken_from(Module, Name, Arity, Found)
        ->  Found = some(Definer, Plain)
        ;   Definer = Number,
            Plain = Name
        )
    ;   again(Number, Load, file, Other),
        brings(Load, Name, Arity, Plain0),
        provided(Other, Plain0, Arity, Definer, Plain)
    ),
    !.

% The first load of the module that brings the name: some(Definer, Plain), or none for a library.
taken_from(Module, Name, Arity, Found) :-
    module_load(Module, Load, Target),
    brings(Load, Name, Arity, Plain0),
    (   Target = file(Other)
    ->  provided(Other, Plain0, Arity, Definer, Plain),
        Found = some(Definer, Plain)
    ;   Target = outside(Path),
        library_export(Path, Plain0, Arity, _),
        Found = none
    ),
    !.

%!  loaded_name(+Module, +Name, +Arity) is semidet.
%
%   What was read so far loads a file or library into the module that exports the name.
loaded_name(Module, Name, Arity) :-
    outside_definer(Module, Name, Arity, _),
    !.
loaded_name(Module, Name, Arity) :-
    module_load(Module, Load, file(Other)),
    brings(Load, Name, Arity, Plain),
    retractall(visited(_, _, _)),
    ( provided(Other, Plain, Arity, _, _) ; reexported_library(Other, Plain, Arity) ),
    !.

%!  outside_definer(+Module, +Name, +Arity, -Path) is semidet.
%
%   The library that the module loads and that defines the name.
outside_definer(Module, Name, Arity, Definer) :-
    (   header_name(Name, Arity)
    ->  true
    ;   pick(_, Other, Arity, Name),
        Other \== Name
    ->  true
    ),
    module_load(Module, Load, outside(Path)),
    brings(Load, Name, Arity, Plain),
    library_export(Path, Plain, Arity, Definer),
    !.
