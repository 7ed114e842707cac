/** <module> Loads and includes: which files are read, and what is taken of them

A library is read only if an argument names it, if a search path that the program sets leads to it,
or with `--libraries`. Else its text is looked at for operators and exports.
*/

:- module(bridge_loads,
          [ loads/5,                % +Files, +Items, +Again, +Place, +Reading
            includes/3              % +Files, +Place, +Reading
          ]).

:- use_module(library(lists)).
:- use_module(facts).
:- use_module(files).
:- use_module(headers).
:- use_module(messages).
:- use_module(operators).
:- use_module(selections).
:- use_module(terms).
:- use_module(texts).

%!  loads(+Files, +Items, +Again, +Place, +Reading) is det.
%
%   The file that is being read loads Files and takes Items of each; with Again it exports them.
loads(Files, _, _, Place, _) :-
    var(Files),
    !,
    leave_out(Place, "file specification is a variable", []).
loads([], _, _, _, _) :- !.
loads([File|Files], Items, Again, Place, Reading) :-
    !,
    loads(File, Items, Again, Place, Reading),
    loads(Files, Items, Again, Place, Reading).
loads(Module:File, Items, Again, Place, Reading) :-
    atom(Module),
    !,
    loads(File, Items, Again, Place, Reading).
loads(File, Items, Again, Place, Reading) :-
    Reading = reading(_, Text),
    text(Text, Path, _),
    (   find_source(File, Path, Found)
    ->  load_found(File, Found, Items, Again, Place, Reading)
    ;   unknown_alias(File, Alias),
        library_sets_path(Alias),
        find_source(File, Path, Found)
    ->  load_found(File, Found, Items, Again, Place, Reading)
    ;   tell_missing(File, Place)
    ).

% An alias of which nothing is known yet.
unknown_alias(File, Alias) :-
    compound(File),
    compound_name_arity(File, Alias, 1),
    Alias \== (/),
    \+ system_alias(Alias).

load_found(File, Found, Items, Again, Place, Reading) :-
    Reading = reading(Number, _),
    home(Number, Home, _, Operators),
    (   looked_at(File, Found)
    ->  Target = outside(Found),
        forall(library_operator(Found, Priority, Type, Names),
               ignore(set_operators(Names, Priority, Type, Operators)))
    ;   source_of(File, Found, Number, Loaded),
        Target = file(Loaded),
        read_source(Loaded, Home, Operators),
        load_operators([Loaded], [], Operators)
    ),
    select_items(Items, Load, How),
    assertz(load(Load, Number, Place, Target, How)),
    assertz(module_load(Home, Load, Target)),
    (   Again == true
    ->  Target =.. [Kind, Which],
        assertz(again(Number, Load, Kind, Which))
    ;   true
    ),
    say(Reading, Place, load(Load)).

looked_at(File, Found) :-
    of_library(File, Found),
    \+ option(libraries),
    \+ source(_, Found, _).

source_of(_, Found, _, Loaded) :-
    source(Loaded, Found, _),
    !.
source_of(File, Found, Number, Loaded) :-
    (   ( of_library(File, Found) ; source(Number, _, library) )
    ->  Class = library
    ;   Class = loaded
    ),
    new_source(Found, Class, Loaded).

% The operators that the files and what they export again export.
load_operators([], _, _).
load_operators([Number|Numbers], Seen, Operators) :-
    (   memberchk(Number, Seen)
    ->  load_operators(Numbers, Seen, Operators)
    ;   forall(exported_operator(Number, Priority, Type, Names),
               ignore(set_operators(Names, Priority, Type, Operators))),
        forall(( again(Number, _, outside, Path), library_operator(Path, Priority, Type, Names) ),
               ignore(set_operators(Names, Priority, Type, Operators))),
        findall(Other, again(Number, _, file, Other), Others, Numbers),
        load_operators(Others, [Number|Seen], Operators)
    ).

% Libraries that aren't installed are passed over, as by `groups`, unless they are asked for.
tell_missing(File, Place) :-
    (   compound(File), compound_name_arity(File, Alias, 1), Alias \== (/),
        system_alias(Alias),
        \+ option(libraries)
    ->  true
    ;   plain_text(File, Told),
        leave_out(Place, "file ~w isn't found", [Told])
    ).

%!  includes(+Files, +Place, +Reading) is det.
%
%   What each of the texts says is said by the file that is being read.
includes(Files, Place, Reading) :-
    (   var(Files)
    ->  leave_out(Place, "file specification is a variable", [])
    ;   is_list(Files)
    ->  forall(member(File, Files), includes(File, Place, Reading))
    ;   Reading = reading(_, Text),
        text(Text, Path, _),
        (   find_source(Files, Path, Found)
        ->  include_text(Found, Reading, Place, Files)
        ;   plain_text(Files, Told),
            leave_out(Place, "file ~w isn't found", [Told])
        )
    ).
