/** <module> Libraries that are looked at and not read as parts of the program

What their first directives export, and, if that is asked for, which arguments of their predicates
are goals. Their texts are read, and none is loaded.
*/

:- module(bridge_headers,
          [ library_export/4,       % +Path, +Name, +Arity, -Definer
            library_operator/4,     % +Path, -Priority, -Type, -Names
            library_modes/4,        % +Path, +Name, +Arity, -Modes
            library_module/2,       % +Path, -Module
            header_name/2,          % +Name, +Arity
            library_sets_path/1     % +Alias
          ]).

:- use_module(library(lists)).
:- use_module(facts).
:- use_module(files).
:- use_module(operators).
:- use_module(selections).
:- use_module(terms).

:- dynamic
    header_read/1,          % Path
    header_module/2,        % Path, module
    header_export/3,        % Path, name, arity
    header_operator/4,      % Path, priority, type, names
    header_again/3,         % Path, path of what is exported again, load
    reached/2,              % Path, paths of what it exports again, itself first
    modes/4,                % Path, name, arity, which arguments are goals
    whole_read/1,           % Path
    export_known/4,         % Path, name, arity, some(Definer) or none
    visited/1,              % Path, in one search
    asked/2.                % Alias, path of a library in which it was looked for

%!  library_module(+Path, -Module) is semidet.
library_module(Path, Module) :-
    header(Path),
    header_module(Path, Module).

%!  header_name(+Name, +Arity) is semidet.
%
%   Some library that was looked at exports the name.
header_name(Name, Arity) :-
    header_export(_, Name, Arity),
    !.

%!  library_operator(+Path, -Priority, -Type, -Names) is nondet.
%
%   The library, or one that it exports again, exports the operators.
library_operator(Path, Priority, Type, Names) :-
    reach(Path, Paths),
    member(Reached, Paths),
    header_operator(Reached, Priority, Type, Names).

% The paths that are reached by reexports, each once however many ways lead there.
reach(Path, Paths) :-
    reached(Path, Known),
    !,
    Paths = Known.
reach(Path, Paths) :-
    reach([Path], [], Paths),
    assertz(reached(Path, Paths)).

reach([], Reversed, Paths) :- reverse(Reversed, Paths).
reach([Path|Rest], Seen, Paths) :-
    (   memberchk(Path, Seen)
    ->  reach(Rest, Seen, Paths)
    ;   header(Path),
        findall(Again, header_again(Path, Again, _), Agains),
        append(Agains, Rest, Next),
        reach(Next, [Path|Seen], Paths)
    ).

%!  library_export(+Path, +Name, +Arity, -Definer) is semidet.
%
%   The library exports the predicate, which the one at the path Definer defines.
library_export(Path, Name, Arity, Definer) :-
    (   export_known(Path, Name, Arity, Known)
    ->  true
    ;   retractall(visited(_)),
        (   search_export(Path, Name, Arity, Found)
        ->  Known = some(Found)
        ;   Known = none
        ),
        assertz(export_known(Path, Name, Arity, Known))
    ),
    Known = some(Definer).

search_export(Path, Name, Arity, Definer) :-
    \+ visited(Path),
    assertz(visited(Path)),
    header(Path),
    (   header_export(Path, Name, Arity)
    ->  Definer = Path
    ;   header_again(Path, Again, Load),
        brings(Load, Name, Arity, Plain),
        search_export(Again, Plain, Arity, Definer)
    ),
    !.

%!  library_modes(+Path, +Name, +Arity, -Modes) is semidet.
%
%   The library's text declares which arguments of its predicate are goals.
library_modes(Path, Name, Arity, Modes) :-
    whole(Path),
    modes(Path, Name, Arity, Modes),
    !.

/* The first directives, up to the first clause. */

header(Path) :- header_read(Path), !.
header(Path) :-
    assertz(header_read(Path)),
    (   too_large(Path)
    ->  true
    ;   catch(read_header(Path), _, true)
    ).

read_header(Path) :-
    setup_call_cleanup(
        open(Path, read, Stream, [encoding(utf8), bom(true)]),
        ( skip_first_line(Stream), header_terms(Stream, Path) ),
        close(Stream)).

skip_first_line(Stream) :-
    (   peek_char(Stream, #), peek_string(Stream, 2, "#!")
    ->  skip(Stream, 0'\n)
    ;   true
    ).

header_terms(Stream, Path) :-
    catch(read_term(Stream, Term,
                    [ module(bridge_header), syntax_errors(error), dotlists(false),
                      cycles(false)
                    ]),
          Error, true),
    (   nonvar(Error)
    ->  Error = error(syntax_error(_), _),
        header_terms(Stream, Path)
    ;   nonvar(Term), Term = (:- Directive), nonvar(Directive)
    ->  ignore(header_said(Directive, Path)),
        header_terms(Stream, Path)
    ;   true
    ).

header_said(module(Module, Exports), Path) :- !, header_exports(Module, Exports, Path).
header_said(module(Module, Exports, _), Path) :- !, header_exports(Module, Exports, Path).
header_said(reexport(Files), Path) :- !, header_agains(Files, all, Path).
header_said(reexport(Files, Items), Path) :- !, header_agains(Files, Items, Path).
header_said(export(List), Path) :- !, header_export_items(List, Path).
header_said(Directive, Path) :- declaration(Directive, Path).

header_exports(Module, Exports, Path) :-
    is_list(Exports),
    assertz(header_module(Path, Module)),
    header_export_items(Exports, Path),
    forall(( member(Item, Exports), nonvar(Item), Item = op(Priority, Type, Names) ),
           ( assertz(header_operator(Path, Priority, Type, Names)),
             set_operators(Names, Priority, Type, bridge_header) )).

header_export_items(List, Path) :-
    forall(( listed_item(List, here, _, Item), indicator(Item), arity_of(Item, Name, Arity) ),
           note(header_export(Path, Name, Arity))).

header_agains(Files, Items, Path) :-
    (   is_list(Files)
    ->  forall(member(File, Files), header_agains(File, Items, Path))
    ;   nonvar(Files),
        find_source(Files, Path, Found),
        select_items(Items, Load, _),
        assertz(header_again(Path, Found, Load))
    ).

%!  library_sets_path(+Alias) is semidet.
%
%   A library that was looked at says by a fact what the alias names.
library_sets_path(Alias) :-
    format(string(Words), "\nuser:file_search_path(~q,", [Alias]),
    forall(( header_read(Path), \+ asked(Alias, Path) ),
           ( assertz(asked(Alias, Path)), catch(set_paths(Path, Words), _, true) )),
    user:file_search_path(Alias, _),
    !.

set_paths(Path, Words) :-
    \+ too_large(Path),
    file_string(Path, String),
    forall(( sub_string(String, Before, _, _, Words), term_at(String, Before, Term),
             Term = user:file_search_path(Alias, Folder), ground(Folder) ),
           library_search_path(Alias, Folder)).

/* Declarations after the first clause: each is read by itself, where its words begin a line. */

whole(Path) :- whole_read(Path), !.
whole(Path) :-
    header(Path),
    assertz(whole_read(Path)),
    (   too_large(Path)
    ->  true
    ;   catch(file_string(Path, String), _, String = ""),
        forall(( member(Words, ["\n:- meta_predicate", "\n:- html_meta"]),
                 sub_string(String, Before, _, _, Words) ),
               catch(declaration_at(String, Before, Path), _, true))
    ).

declaration_at(String, Before, Path) :-
    term_at(String, Before, (:- Directive)),
    declaration(Directive, Path).

term_at(String, Before, Term) :-
    string_length(String, Length),
    Count is min(20000, Length - Before),
    sub_string(String, Before, Count, _, Part),
    setup_call_cleanup(
        open_string(Part, Stream),
        read_term(Stream, Term, [module(bridge_header), syntax_errors(error)]),
        close(Stream)).

declaration(op(Priority, Type, Names), _) :-
    !,
    set_operators(Names, Priority, Type, bridge_header).
declaration(meta_predicate(List), Path) :-
    !,
    forall(( listed_item(List, here, _, Item), compound(Item), head_name(Item, Name, Arity),
             \+ modes(Path, Name, Arity, _) ),
           assertz(modes(Path, Name, Arity, Item))).
declaration(html_meta(List), Path) :-
    forall(( listed_item(List, here, _, Item), compound(Item), head_name(Item, Name, Arity) ),
           ( retractall(modes(Path, Name, Arity, _)), assertz(modes(Path, Name, Arity, Item)) )).
