/** <module> What a name means in a module

A name means, in this order: a predicate of the module itself, one that a load brought (the first
load counts), one of a library that is looked at, one of `user`, one of the system, and what
SWI-Prolog loads by itself.
*/

:- module(bridge_names,
          [ resolve_names/0,
            read_autoloaded/1,      % :Calls
            loads_itself/1,         % ?Number
            means/4,                % +Module, +Name, +Arity, -Meaning
            of_system/2,            % +Name, +Arity
            autoloaded/3,           % +Name, +Arity, -Path
            goal_modes/5            % +Meaning, +Module, +Name, +Arity, -Modes
          ]).

:- use_module(library(lists)).
:- use_module(facts).
:- use_module(headers).
:- use_module(imports).
:- use_module(texts).

:- meta_predicate read_autoloaded(2).

:- dynamic
    meaning/4,              % Module, name, arity, what it means there
    system_modes/3,         % Name, arity, some(Modes) or none
    library_found/3,        % Name, arity, some(Path) or none
    looked_through/1,       % Number of a file whose calls were looked up
    loads_itself/1.         % Number of a file that is read for what calls it

%!  resolve_names is det.
%
%   Finds the imports of all that was read; what a name means is found when it is asked for.
resolve_names :-
    retractall(meaning(_, _, _, _)),
    find_imports.

%!  means(+Module, +Name, +Arity, -Meaning) is det.
%
%   Meaning is `own`, taken(Owner), other(Owner, Plain) for what has another module or name,
%   library(Path) for a library that is only looked at, or `none`.
means(Module, Name, Arity, Meaning) :-
    (   meaning(Module, Name, Arity, Known)
    ->  true
    ;   (   meant(Module, Name, Arity, Found)
        ->  Known = Found
        ;   Known = none
        ),
        assertz(meaning(Module, Name, Arity, Known))
    ),
    Meaning = Known.

meant(Module, Name, Arity, own) :- defined(Module, Name, Arity).
meant(Module, Name, Arity, Meaning) :-
    imported(Module, Name, Arity, Definer, Plain, _),
    home(Definer, Owner, _, _),
    (   Plain == Name
    ->  Meaning = taken(Owner)
    ;   Meaning = other(Owner, Plain)
    ).
meant(Module, Name, Arity, library(Path)) :-
    Module \== user,
    outside_definer(Module, Name, Arity, Path).
meant(Module, Name, Arity, other(user, Name)) :-
    inherits_user(Module),
    defined(user, Name, Arity).
meant(Module, Name, Arity, other(Owner, Plain)) :-
    inherits_user(Module),
    imported(user, Name, Arity, Definer, Plain, _),
    home(Definer, Owner, _, _).
meant(Module, Name, Arity, library(Path)) :-
    ( Module == user ; inherits_user(Module) ),
    outside_definer(user, Name, Arity, Path).
meant(_, Name, Arity, other(Owner, Plain)) :-
    \+ of_system(Name, Arity),
    autoloaded(Name, Arity, Path),
    source(Number, Path, _),
    provider(Number, Name, Arity, Definer, Plain),
    home(Definer, Owner, _, _).

%!  of_system(+Name, +Arity) is semidet.
of_system(Name, Arity) :-
    functor(Head, Name, Arity),
    '$c_current_predicate'(_, system:Head).

%!  autoloaded(+Name, +Arity, -Path) is semidet.
%
%   The library that SWI-Prolog would load for the name, by its index.
autoloaded(Name, Arity, Path) :-
    (   library_found(Name, Arity, Known)
    ->  true
    ;   (   library_of(Name, Arity, Found)
        ->  Known = some(Found)
        ;   Known = none
        ),
        assertz(library_found(Name, Arity, Known))
    ),
    Known = some(Path).

library_of(Name, Arity, Path) :-
    catch('$autoload':'$find_library'(user, Name, Arity, _, Library), _, fail),
    atom(Library),
    (   exists_file(Library)
    ->  Path = Library
    ;   file_name_extension(Library, pl, Path),
        exists_file(Path)
    ).

%!  read_autoloaded(:Calls) is det.
%
%   Reads what SWI-Prolog would load by itself when it is called, and then what is called there.
%   Calls(Number, Call) says on backtracking what a file calls.
read_autoloaded(Calls) :-
    findall(Number, ( source(Number, _, _), \+ looked_through(Number) ), Numbers),
    findall(Path, ( member(Number, Numbers), loaded_by_itself(Calls, Number, Path) ), Paths0),
    sort(Paths0, Paths),
    forall(member(Number, Numbers), assertz(looked_through(Number))),
    (   Paths == []
    ->  true
    ;   forall(member(Path, Paths),
               ( new_source(Path, library, Number), assertz(loads_itself(Number)) )),
        read_all,
        resolve_names,
        read_autoloaded(Calls)
    ).

loaded_by_itself(Calls, Number, Path) :-
    call(Calls, Number, call(Module, Name, Arity, _)),
    means(Module, Name, Arity, none),
    \+ of_system(Name, Arity),
    autoloaded(Name, Arity, Path),
    \+ source(_, Path, _).

%!  goal_modes(+Meaning, +Module, +Name, +Arity, -Modes) is semidet.
%
%   Which arguments are goals, as the program, a library or the system declares it.
goal_modes(own, Module, Name, Arity, Modes) :- meta(Module, Name, Arity, Modes).
goal_modes(taken(Owner), _, Name, Arity, Modes) :- meta(Owner, Name, Arity, Modes).
goal_modes(other(Owner, Plain), _, _, Arity, Modes) :- meta(Owner, Plain, Arity, Modes).
goal_modes(library(Path), _, Name, Arity, Modes) :- library_modes(Path, Name, Arity, Modes).
goal_modes(none, _, Name, Arity, Modes) :-
    (   system_modes(Name, Arity, Known)
    ->  true
    ;   (   modes_found(Name, Arity, Found)
        ->  Known = some(Found)
        ;   Known = none
        ),
        assertz(system_modes(Name, Arity, Known))
    ),
    Known = some(Modes).

modes_found(Name, Arity, Modes) :-
    functor(Head, Name, Arity),
    (   of_system(Name, Arity)
    ->  predicate_property(system:Head, meta_predicate(Modes))
    ;   autoloaded(Name, Arity, Path),
        library_modes(Path, Name, Arity, Modes)
    ).
