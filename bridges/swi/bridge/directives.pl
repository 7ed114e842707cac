/** <module> Directives: what they say of files, names, operators and roots

A directive that says nothing of these is a goal: what it calls is a root.
*/

:- module(bridge_directives,
          [ directive/4             % +Directive, +Position, +Place, +Reading
          ]).

:- use_module(clauses).
:- use_module(declarations).
:- use_module(facts).
:- use_module(files).
:- use_module(loads).
:- use_module(messages).
:- use_module(operators).
:- use_module(places).
:- use_module(terms).

%!  directive(+Directive, +Position, +Place, +Reading) is det.
directive(Directive, At, Place, Reading) :-
    (   var(Directive)
    ->  leave_out(Place, "directive is a variable", [])
    ;   \+ \+ sets_search_path(Directive, Reading)
    ->  true
    ;   Directive = (First, Second)
    ->  part(1, At, FirstAt),
        part(2, At, SecondAt),
        directive(First, FirstAt, Place, Reading),
        directive(Second, SecondAt, Place, Reading)
    ;   known(Directive, At, Place, Reading)
    ->  true
    ;   innermost(Directive, user, _, Inner),
        callable(Inner),
        head_name(Inner, Name, Arity),
        silent(Name, Arity)
    ->  true
    ;   say(Reading, Place, goal(Directive, At))
    ).

% `:- prolog_load_context(directory, D), asserta(user:file_search_path(app, D)).` and the like.
sets_search_path(Directive, Reading) :-
    asserted_path(Directive, Before, Alias, Folder),
    Reading = reading(_, Text),
    text(Text, Path, _),
    catch(names_folder(Before, Path), _, fail),
    search_path(Alias, Folder, Path).

asserted_path((First, Rest), [First|Before], Alias, Folder) :-
    !,
    nonvar(Rest),
    asserted_path(Rest, Before, Alias, Folder).
asserted_path(Sets, [], Alias, Folder) :-
    compound(Sets),
    Sets =.. [Assert, Fact],
    memberchk(Assert, [assert, asserta, assertz]),
    nonvar(Fact),
    innermost(Fact, user, user, Inner),
    nonvar(Inner),
    Inner = file_search_path(Alias, Folder).

% Goals that only work out the name of a folder from that of the file.
names_folder([], _).
names_folder([Goal|Goals], Path) :-
    nonvar(Goal),
    worked_out(Goal, Path),
    names_folder(Goals, Path).

worked_out(prolog_load_context(Key, Value), Path) :-
    (   Key == directory
    ->  file_directory_name(Path, Value)
    ;   memberchk(Key, [source, file]),
        Value = Path
    ).
worked_out(source_location(File, _), Path) :- File = Path.
worked_out(file_directory_name(File, Folder), _) :- file_directory_name(File, Folder).
worked_out(directory_file_path(Folder, Name, Path), _) :-
    atomic_list_concat([Folder, /, Name], Path).
worked_out(atom_concat(First, Second, Name), _) :- atomic_list_concat([First, Second], Name).
worked_out(atomic_list_concat(Parts, Name), _) :- atomic_list_concat(Parts, Name).

known(initialization(Goal), At, Place, Reading) :- !, goal_said(Goal, At, Place, Reading).
known(initialization(Goal, _), At, Place, Reading) :- !, goal_said(Goal, At, Place, Reading).
known(Directive, _, Place, Reading) :-
    file_directive(Directive, Files, Items, Again),
    !,
    loads(Files, Items, Again, Place, Reading).
known(Directive, _, Place, Reading) :-
    declaration(Directive, Place, Reading),
    !.
known(Directive, _, Place, Reading) :-
    setting(Directive, Place, Reading),
    !.
known(Module:Directive, At, Place, Reading) :-
    atom(Module),
    nonvar(Directive),
    (   qualified(Directive, Module, Plain)
    ->  known(Plain, At, Place, Reading)
    ;   file_directive(Directive, _, _, _)
    ->  known(Directive, At, Place, Reading)
    ).

goal_said(Goal, At, Place, Reading) :-
    part(1, At, P),
    say(Reading, Place, goal(Goal, P)).

% Which files a directive loads, what it takes of them, and whether it exports that again.
file_directive(use_module(Files), Files, all, false).
file_directive(use_module(Files, Items), Files, Items, false).
file_directive(autoload(Files), Files, all, false).
file_directive(autoload(Files, Items), Files, Items, false).
file_directive(ensure_loaded(Files), Files, all, false).
file_directive(consult(Files), Files, all, false).
file_directive([First|Rest], [First|Rest], all, false).
file_directive(load_files(Files), Files, all, false).
file_directive(load_files(Files, Options), Files, Items, Again) :-
    (   is_list(Options), memberchk(imports(Items0), Options)
    ->  Items = Items0
    ;   Items = all
    ),
    (   is_list(Options), memberchk(reexport(true), Options)
    ->  Again = true
    ;   Again = false
    ).
file_directive(reexport(Files), Files, all, true).
file_directive(reexport(Files, Items), Files, Items, true).

qualified(dynamic(List), Module, dynamic(Module:List)).
qualified(multifile(List), Module, multifile(Module:List)).
qualified(meta_predicate(List), Module, meta_predicate(Module:List)).
qualified(thread_local(List), Module, dynamic(Module:List)).
qualified(table(List), Module, table(Module:List)).
qualified(public(List), Module, public(Module:List)).
qualified(op(Priority, Type, Names), _, op(Priority, Type, Names)).
qualified(initialization(Goal), Module, initialization(Module:Goal)).
qualified(initialization(Goal, When), Module, initialization(Module:Goal, When)).

setting(module(Module, Exports), Place, Reading) :- module_said(Module, Exports, Place, Reading).
setting(module(Module, Exports, _), Place, Reading) :- module_said(Module, Exports, Place, Reading).
setting(export(List), _, Reading) :- export_said(List, Reading).
setting(op(Priority, Type, Names), Place, Reading) :-
    operator(Priority, Type, Names, Place, Reading).
setting(include(Files), Place, Reading) :- includes(Files, Place, Reading).
setting(begin_tests(_), _, reading(Number, _)) :- note(testing(Number)).
setting(begin_tests(_, Options), Place, Reading) :-
    Reading = reading(Number, _),
    note(testing(Number)),
    test_options(Options, Place, Reading).
setting(end_tests(_), _, reading(Number, _)) :- retractall(testing(Number)).
setting(encoding(Encoding), Place, _) :-
    leave_out(Place, "encoding ~w isn't known", [Encoding]).
setting(if(_), Place, _) :- leave_out(Place, "condition isn't the whole of its directive", []).
setting(elif(_), Place, _) :- leave_out(Place, "condition isn't the whole of its directive", []).
setting(use_foreign_library(_), _, reading(Number, _)) :- note(foreign(Number)).
setting(use_foreign_library(_, _), _, reading(Number, _)) :- note(foreign(Number)).
setting(load_foreign_library(_), _, reading(Number, _)) :- note(foreign(Number)).
setting(load_foreign_library(_, _), _, reading(Number, _)) :- note(foreign(Number)).
setting(Directive, _, reading(Number, _)) :-
    head_name(Directive, Name, Arity),
    (   begins_class(Name, Arity)
    ->  begin_class(Number)
    ;   ends_class(Name)
    ->  end_class(Number)
    ).
setting(set_prolog_flag(Flag, Goal), Place, Reading) :-
    ( Flag == toplevel_goal ; Flag == toplevel_mode ),
    callable(Goal),
    \+ memberchk(Goal, [default, halt, prolog, backtracking, recursive]),
    say(Reading, Place, goal(Goal, none)).

begins_class(pce_begin_class, 2).
begins_class(pce_begin_class, 3).
begins_class(pce_extend_class, 1).
begins_class(emacs_begin_mode, 5).
begins_class(emacs_extend_mode, 2).
begins_class(draw_begin_shape, 4).

ends_class(pce_end_class).
ends_class(emacs_end_mode).
ends_class(draw_end_shape).

% Directives that say nothing of what calls what.
silent(Name, Arity) :-
    memberchk(Name/Arity,
              [ (discontiguous)/1, (mode)/1, untable/1, (volatile)/1, noprofile/1, non_terminal/1,
                '$hide'/1, '$iso'/1, (module_transparent)/1, set_prolog_flag/2,
                create_prolog_flag/3, style_check/1, license/1, license/2, set_module/1,
                expects_dialect/1, det/1, '$set_source_module'/1, '$set_source_module'/2,
                predicate_options/3, setting/4, chr_option/2, initialize/0
              ]).
