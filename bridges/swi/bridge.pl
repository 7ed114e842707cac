/** <module> Who calls what in SWI-Prolog programs, for `groups` and `calls`

    swipl bridge.pl -- COMMAND FOLDER OPTION.. -- FILE..

Each file, and each that it loads, is read by SWI-Prolog's own reader and never loaded: no goal of
it is run, except the conditions of `if/1`, as far as they only ask. bridge/writing.pl says what is
in FOLDER then. What was left out is told on standard error. The status is 0; 8 if something of the
program's own files was left out; 3 if a file that is named isn't there; 7 if memory is wanting.
*/

:- module(bridge, [main/0]).

:- set_prolog_flag(generate_debug_info, false).
:- set_prolog_flag(optimise, true).
:- use_module(library(apply)).
:- use_module(library(lists)).
:- use_module(bridge/facts).
:- use_module(bridge/files).
:- use_module(bridge/goals).
:- use_module(bridge/library_goals).
:- use_module(bridge/messages).
:- use_module(bridge/names).
:- use_module(bridge/texts).
:- use_module(bridge/writing).
:- user:use_module(library(lists)).

% Nothing is loaded but these: what the program asks for is looked up, and what isn't there isn't.
:- set_prolog_flag(autoload, explicit).

main :-
    current_prolog_flag(argv, [Command, Folder|Words]),
    catch(run(Command, Folder, Words, Status), Error, true),
    (   var(Error)
    ->  halt(Status)
    ;   Error = unwind(halt(Status))
    ->  halt(Status)
    ;   failed(Command, Error, Status),
        halt(Status)
    ).

failed(Command, error(resource_error(What), _), 7) :-
    !,
    format(user_error, "~w: more ~w is needed than the bridge may take (BRIDGE_KILOBYTES)~n",
           [Command, What]).
failed(Command, Error, 1) :-
    format(user_error, "~w: the bridge failed: ~p~n", [Command, Error]).

run(Command, Folder, Words, Status) :-
    options(Words, Files),
    (   exclude(is_there, Files, [First|More])
    ->  forall(member(File, [First|More]), format(user_error, "~w: no such file~n", [File])),
        Status = 3
    ;   maplist(named_file, Files, Numbers),
        read_all,
        resolve_names,
        (   option(libraries)
        ->  read_autoloaded(calls_of_file)
        ;   true
        ),
        (   option(declare)
        ->  write_library_goals
        ;   write_all(Folder, Numbers)
        ),
        tell_messages(Command),
        tell_version(Command),
        (   something_left_out
        ->  Status = 8
        ;   Status = 0
        )
    ).

% On a terminal, that this SWI-Prolog is another one than was tried.
tell_version(Command) :-
    current_prolog_flag(version, Version),
    (   ( Version =:= 90004 ; \+ stream_property(user_error, tty(true)) )
    ->  true
    ;   format(user_error, "~w: tried with SWI-Prolog 9.0.4; this one is ~d~n", [Command, Version])
    ).

options([--|Files], Files) :- !.
options([Word|Words], Files) :-
    atom_concat('--', Name, Word),
    assertz(option(Name)),
    options(Words, Files).

is_there(File) :-
    named_path(File, _).

named_file(Word, Number) :-
    named_path(Word, Path),
    (   source(Number, Path, _)
    ->  true
    ;   new_source(Path, named, Number)
    ).
