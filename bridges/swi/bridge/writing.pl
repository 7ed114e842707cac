/** <module> Writing facts of calls in the profile of `groups`

Each file becomes FOLDER/fN.pl: its module, exports, imports and declarations, and of each clause
the head and every goal that it calls, each on a line of its own, with `_` for each argument.
FOLDER/places has for each such line `N TAB LINE TAB TEXT TAB LINE TAB COLUMN TAB FIELDS`, where it
comes from, and fields of the line that `calls` prints of it. FOLDER/files has for each text its
rank among the names, its name, and that as a JSON string.
FOLDER/words has the new names of the files that arguments name.
*/

:- module(bridge_writing,
          [ write_all/2             % +Folder, +Named
          ]).

:- use_module(library(apply)).
:- use_module(library(lists)).
:- use_module(library(pairs)).
:- use_module(facts).
:- use_module(goals).
:- use_module(headers).
:- use_module(imports).
:- use_module(limits).
:- use_module(lines).
:- use_module(messages).
:- use_module(names).
:- use_module(profile).
:- use_module(roots).

%!  write_all(+Folder, +Named) is det.
write_all(Folder, Named) :-
    written(Folder, places, Map, forall(source(Number, _, _), write_file(Folder, Map, Number))),
    written(Folder, files, Names, write_names(Names)),
    written(Folder, words, Words,
            forall(member(Number, Named), format(Words, "f~d.pl~n", [Number]))).

:- meta_predicate written(+, +, ?, 0).

written(Folder, Name, Out, Goal) :-
    atomic_list_concat([Folder, /, Name], Path),
    setup_call_cleanup(
        open(Path, write, Out, [encoding(utf8), newline(posix)]),
        (   call(Goal)
        ->  true
        ;   throw(error(failed(Name), _))
        ),
        close(Out)).

write_names(Out) :-
    findall(Codes-Text,
            ( text(Text, Path, _), shown(Path, Name), atom_codes(Name, Codes) ),
            Texts0),
    keysort(Texts0, Texts),
    forall(nth1(Rank, Texts, Codes-Text),
           ( maplist(plain_code, Codes, Plain),
             format(Out, "~d\t~d\t~s\t", [Text, Rank, Plain]),
             put_json_string(Codes, Out),
             nl(Out) )).

write_file(Folder, Map, Number) :-
    check_memory,
    atomic_list_concat([f, Number, '.pl'], Name),
    home(Number, Module, Kind, _),
    written(Folder, Name, Out, write_items(to(Out, Map, Number, Module, Kind), Number)).

write_items(To, Number) :-
    forall(item(Number, Place, What), write_item(What, Place, To)),
    write_foreign(Number, To),
    forall(root(Number, Place, Module, Name, Arity), write_root(Place, Module, Name, Arity, To)),
    (   Number =:= 1
    ->  forall(( loads_itself(Other), home(Other, _, module, _) ),
               write_load(Other, [], at(1, 0), To))
    ;   true
    ).

write_root(Place, Module, Name, Arity, To) :-
    Place = at(_, Offset),
    write_directive([call(Module, Name, Arity, goal(Offset, 0, false))], Place, To).

% What a file with a foreign library calls and nothing defines is taken as written in C.
write_foreign(Number, To) :-
    To = to(_, _, _, Module, _),
    findall(Name/Arity, called_in_c(Number, Name, Arity), Called0),
    sort(Called0, Called),
    (   Called == []
    ->  true
    ;   once(item(Number, Place, _)),
        write_declaration(dynamic, Called, Module, Place, To)
    ).

called_in_c(Number, Name, Arity) :-
    foreign(Number),
    \+ option(undefined),
    home(Number, Module, _, _),
    calls_of_file(Number, call(Module, Name, Arity, _)),
    means(Module, Name, Arity, none),
    \+ of_system(Name, Arity),
    \+ autoloaded(Name, Arity, _),
    \+ ( Name == call ; Name == (^) ).

write_item(module, Place, To) :- write_module(Place, To).
write_item(clause(Owner, Name, Arity, Module, Parts, Expansions), Place, To) :-
    calls_told(Parts, Module, Place, Expansions, Calls),
    write_clause(Calls, Parts, Owner, Name, Arity, Place, To).
write_item(declare(How, Items), Place, To) :-
    To = to(_, _, _, Module, Kind),
    (   Kind == plain, Module \== user
    ->  Home = '$none'
    ;   Home = Module
    ),
    write_declaration(How, Items, Home, Place, To).
write_item(load(Load), Place, To) :-
    load(Load, Number, _, Target, _),
    (   Target = file(Loaded), Loaded \== Number
    ->  write_loaded(Load, Loaded, Place, To)
    ;   true
    ).
write_item(goal(Goal, At), Place, To) :-
    To = to(_, _, _, Module, _),
    flag(bridge_expansions, Expansions, Expansions),
    calls_told([goal(Goal, At)], Module, Place, Expansions, Calls),
    write_directive(Calls, Place, To).
write_item(root(_, _, _), _, _).

% Calls of a body. For `--undefined` those are left out that SWI-Prolog itself answers.
calls_told(Parts, Module, Place, Expansions, Calls) :-
    calls_in(Parts, Module, Place, Expansions, true, Found),
    (   option(undefined)
    ->  exclude(answered, Found, Calls)
    ;   Calls = Found
    ).

answered(call(Module, Name, Arity, _)) :-
    means(Module, Name, Arity, Meaning),
    (   Meaning = library(_)
    ;   Meaning == none,
        (   of_system(Name, Arity)
        ;   autoloaded(Name, Arity, _)
        ;   Name == call, Arity > 0
        ;   \+ home(_, Module, _, _), of_looked_at(Module)
        )
    ),
    !.

of_looked_at(Module) :-
    module_load(_, _, outside(Path)),
    library_module(Path, Module).

/* The module, its exports and imports. */

write_module(Place, To) :-
    To = to(Out, _, Number, Module, _),
    findall(Name/Arity, own_export(Number, Name, Arity), Own),
    begin_line(Place, To),
    write(Out, ':- module('),
    put_name(Module, Out),
    write(Out, ', '),
    put_indicators(Own, Out),
    write(Out, ').\n'),
    exclude(defined_in(Module), Own, Absent),
    (   Absent == []
    ->  true
    ;   write_declaration(dynamic, Absent, Module, Place, To),
        tell_absent(Absent, Number, Place)
    ),
    write_plain_imports(Number, Module, To).

own_export(Number, Name, Arity) :-
    export(Number, Name, Arity),
    provider(Number, Name, Arity, Number, Name).

defined_in(Module, Name/Arity) :-
    defined(Module, Name, Arity).

% What SWI-Prolog itself has under the name is no lack of the file.
tell_absent(Absent0, Number, Place) :-
    home(Number, Module, _, _),
    exclude(system_has(Module), Absent0, Absent),
    length(Absent, Count),
    (   Absent == []
    ->  true
    ;   tell_absent(Count, Absent, Number, Place)
    ).

system_has(Module, Name/Arity) :-
    functor(Head, Name, Arity),
    ( '$c_current_predicate'(_, system:Head) ; '$c_current_predicate'(_, Module:Head) ),
    !.

tell_absent(Count, [First|_], Number, Place) :-
    (   foreign(Number)
    ->  Why = "written in C"
    ;   Why = "not defined in the text"
    ),
    (   Count =:= 1
    ->  leave_out(Place, "exported predicate ~q is ~s: it has no clause", [First, Why])
    ;   leave_out(Place, "~d exported predicates are ~s, as ~q: they have no clause",
                  [Count, Why, First])
    ).

write_loaded(Load, Loaded, Place, To) :-
    To = to(Out, _, _, Module, Kind),
    (   Kind == plain, Module \== user
    ->  true
    ;   home(Loaded, Other, module, _)
    ->  (   Other == Module
        ->  write_load(Loaded, [], Place, To)
        ;   imports_of(Load, Module, Groups),
            (   memberchk(Loaded-_, Groups)
            ->  true
            ;   write_load(Loaded, [], Place, To)
            ),
            write_imports(Groups, Place, To)
        )
    ;   begin_line(Place, To),
        format(Out, ":- ensure_loaded(f~d).~n", [Loaded]),
        imports_of(Load, Module, Groups),
        write_imports(Groups, Place, To)
    ).

% What the load brings, by the files that define it.
imports_of(Load, Module, Groups) :-
    findall(Definer-(Name/Arity), imported(Module, Name, Arity, Definer, Name, Load), Pairs0),
    sort(Pairs0, Pairs),
    group_pairs_by_key(Pairs, Groups).

write_imports(Groups, Place, To) :-
    forall(member(Definer-Indicators, Groups), write_load(Definer, Indicators, Place, To)).

write_load(Loaded, Indicators, Place, To) :-
    To = to(Out, _, _, _, _),
    begin_line(Place, To),
    format(Out, ":- use_module(f~d, ", [Loaded]),
    put_indicators(Indicators, Out),
    write(Out, ').\n').

% What files without a module take for the module that loads them.
write_plain_imports(Number, Module, To) :-
    forall(( home(Other, Module, plain, _), Other \== Number,
             load(Load, Other, Place, file(_), _) ),
           ( imports_of(Load, Module, Groups), write_imports(Groups, Place, To) )).

write_declaration(How, Items, Home, Place, To) :-
    To = to(Out, _, _, _, _),
    begin_line(Place, To),
    format(Out, ":- ~w(", [How]),
    maplist(short_indicator(Home), Items, Short),
    put_indicators(Short, Out),
    write(Out, ').\n').

short_indicator(Home, Item, Short) :-
    (   Item = Home:Plain
    ->  Short = Plain
    ;   Short = Item
    ).
