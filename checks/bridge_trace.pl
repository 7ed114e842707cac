/** <module> The calls that a program makes when SWI-Prolog runs it

    swipl -f none bridge_trace.pl -- FOLDER FILE..

Loads the files of FOLDER, runs main/0 of the first one's module, and prints `CALLER CALLEE` for each
call of one of the program's predicates, and `ran CALLEE` for each that was called at all. The caller
is the nearest ancestor frame that is one of the program's predicates, so goals that a library calls
count for who handed them over.

Two kinds of predicates hand on calls instead of making them: those that an expansion made, and those
that the program declares as meta-predicates. Of the latter the programs here call only themselves
and what they were handed, so that every other call inside them is one of the goal.
*/

:- use_module(library(lists)).
:- use_module(library(apply)).
:- use_module(library(debug)).
:- initialization(start, main).

:- dynamic traced/2, before/1, program_file/1.

start :-
    current_prolog_flag(argv, [Folder|Files]),
    working_directory(_, Folder),
    forall(user_predicate(Name/Arity), assertz(before(Name/Arity))),
    load_all(Files, First),
    main_module(First, Module),
    set_prolog_flag(toplevel_print_anon, false),
    visible([-all, +call, +exit, +redo, +fail, +exception, +unify]),
    leash(-all),
    catch(trace_main(Module), Error, ( nodebug, print_message(error, Error), halt(1) )),
    forall(traced(Caller, Callee), print_pair(Caller, Callee)).

load_all([File|Files], Path) :-
    user:load_files(File, [silent(true)]),
    absolute_file_name(File, Path, [file_type(prolog), access(read)]),
    forall(member(Other, Files), user:load_files(Other, [silent(true)])).

main_module(Path, Module) :-
    (   module_property(Found, file(Path))
    ->  Module = Found
    ;   Module = user
    ).

trace_main(Module) :-
    trace,
    (   Module:main
    ->  true
    ;   nodebug,
        throw(error(main_failed, _))
    ),
    nodebug.

user:prolog_trace_interception(Port, Frame, _, continue) :-
    (   Port == call
    ->  catch(called(Frame), Error, print_message(error, Error))
    ;   true
    ).

called(Frame) :-
    frame_predicate(Frame, Callee),
    of_program(Callee),
    \+ made(Callee),
    !,
    caller(Frame, Callee, Caller),
    (   traced(Caller, Callee)
    ->  true
    ;   assertz(traced(Caller, Callee))
    ).
called(_).

caller(Frame, Callee, Caller) :-
    (   prolog_frame_attribute(Frame, parent, Parent)
    ->  frame_predicate(Parent, Found),
        (   of_program(Found),
            \+ made(Found),
            \+ ( hands_on(Found), \+ hands_on(Callee) )
        ->  Caller = Found
        ;   caller(Parent, Callee, Caller)
        )
    ;   Caller = none
    ).

frame_predicate(Frame, Module:Name/Arity) :-
    prolog_frame_attribute(Frame, predicate_indicator, Indicator0),
    strip_module(Indicator0, Module, Indicator),
    (   Indicator = Name/Arity
    ->  true
    ;   Indicator = Name//Arity0,
        Arity is Arity0 + 2
    ).

% Predicates that goal expansion, library(yall) or library(chr) makes.
made(_:Name/_) :-
    ( sub_atom(Name, 0, _, _, '__aux') ; sub_atom(Name, _, _, _, '___') ; sub_atom(Name, _, _, 0, ' tabled') ; sub_atom(Name, 0, _, _, $) ),
    !.

hands_on(Module:Name/Arity) :-
    functor(Head, Name, Arity),
    predicate_property(Module:Head, meta_predicate(Modes)),
    arg(_, Modes, Mode),
    ( integer(Mode) ; memberchk(Mode, [^, //]) ),
    !.

% A predicate of the program has a clause in one of its files, or is declared dynamic in one of its modules.
of_program(Module:Name/Arity) :-
    functor(Head, Name, Arity),
    (   nth_clause(Module:Head, _, Clause),
        clause_property(Clause, file(File)),
        of_folder(File)
    ->  true
    ;   predicate_property(Module:Head, dynamic),
        (   Module == user
        ->  \+ before(Name/Arity),
            user_predicate(Name/Arity)
        ;   module_property(Module, file(File)),
            of_folder(File)
        )
    ),
    !.

of_folder(File) :-
    working_directory(Folder, Folder),
    atom_concat(Folder, _, File).

user_predicate(Name/Arity) :-
    current_predicate(Name/Arity),
    functor(Head, Name, Arity),
    \+ predicate_property(user:Head, imported_from(_)).

print_pair(none, Callee) :- !, format("ran ~q~n", [Callee]).
print_pair(Caller, Callee) :- format("~q ~q~n", [Caller, Callee]).
