/** <module> The calls of a program as SWI-Prolog's own tools tell them

    swipl -f none --no-packs bridge_walk.pl -- MAIN FILE..

Loads MAIN and the files, walks their modules by prolog_walk_code/1, reads the files by xref_source/2,
and prints: `walk CALLER CALLEE`, `xref CALLER CALLEE`, `has PREDICATE` for each predicate in memory,
`unloaded FILE`. A name is MODULE:NAME/ARITY.
*/

:- use_module(library(lists)).
:- use_module(library(prolog_codewalk)).
:- use_module(library(prolog_xref)).
:- initialization(start, main).

:- dynamic told/3, program_file/1, program_module/1.

start :-
    current_prolog_flag(argv, [Main|Files]),
    forall(member(File, Files), assertz(program_file(File))),
    load(Main, []),
    forall(member(File, Files), load(File, [if(not_loaded), imports([])])),
    forall(( member(File, Files), \+ source_file(File) ), format("unloaded ~q~n", [File])),
    find_modules(Files),
    forall(program_module(Module), walk(Module)),
    forall(( current_predicate(Name, Module:Head), program_module(Module),
             \+ predicate_property(Module:Head, imported_from(_)), functor(Head, Name, Arity) ),
           format("has ~q~n", [Module:Name/Arity])),
    cross_reference(Files),
    halt.

load(File, Options) :-
    catch(user:load_files(File, [silent(true)|Options]), Error, print_message(error, Error)).

find_modules(Files) :-
    forall(( current_module(Module), module_property(Module, file(File)), program_file(File) ),
           note(program_module(Module))),
    (   member(File, Files), \+ module_property(_, file(File))
    ->  note(program_module(user))
    ;   true
    ).

note(Fact) :- ( call(Fact) -> true ; assertz(Fact) ).

tell(By, Caller, Callee) :-
    (   told(By, Caller, Callee)
    ->  true
    ;   assertz(told(By, Caller, Callee)),
        format("~w ~q ~q~n", [By, Caller, Callee])
    ).

walk(Module) :-
    catch(prolog_walk_code([ module(Module),
                             module_class([user, library, system, test, development]),
                             undefined(ignore), autoload(true), infer_meta_predicates(false),
                             walk_meta_predicates(true), trace_reference(_), source(false),
                             on_trace(user:traced)
                           ]),
          Error, print_message(error, Error)).

user:traced(Callee, Caller, _) :-
    ignore(( caller_name(Caller, From), callee_name(Callee, Module, To), program_module(Module),
             tell(walk, From, To) )).

caller_name(Module:Head, Module:Name/Arity) :- callable(Head), functor(Head, Name, Arity).

callee_name(Module:Goal, Owner, Owner:Name/Arity) :-
    callable(Goal),
    functor(Goal, Name, Arity),
    (   predicate_property(Module:Goal, implementation_module(Found))
    ->  Owner = Found
    ;   Owner = Module
    ).

/* By prolog_xref: a callee is one that some file of the program defines. */

cross_reference(Files) :-
    forall(member(File, Files), catch(xref_source(File, [silent(true)]), _, true)),
    forall(( member(File, Files), xref_called(File, Goal, By), owner(File, Goal, To),
             owner(File, By, From), defined_somewhere(To) ),
           ( indicator(From, Caller), indicator(To, Callee), tell(xref, Caller, Callee) )).

indicator(Module:Head, Module:Name/Arity) :- functor(Head, Name, Arity).

file_module(File, Module) :- ( xref_module(File, Found) -> Module = Found ; Module = user ).

defined_somewhere(Module:Head) :-
    program_file(File),
    file_module(File, Module),
    xref_defined(File, Head, How),
    How \= imported(_),
    !.

owner(File, Head0, Owner:Head) :-
    file_module(File, Home),
    strip_module(Home:Head0, Module, Head),
    callable(Head),
    (   Module \== Home
    ->  Owner = Module
    ;   xref_defined(File, Head, How), How \= imported(_)
    ->  Owner = Home
    ;   xref_defined(File, Head, imported(From)), defining_module(From, Head, Owner, [])
    ->  true
    ;   Owner = Home
    ).

defining_module(File, Head, Owner, Seen) :-
    \+ memberchk(File, Seen),
    xref_source(File, [silent(true)]),
    (   xref_defined(File, Head, How), How \= imported(_)
    ->  file_module(File, Owner)
    ;   xref_defined(File, Head, imported(Other)),
        defining_module(Other, Head, Owner, [File|Seen])
    ).
