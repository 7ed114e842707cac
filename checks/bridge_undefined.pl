/** <module> What SWI-Prolog's list_undefined/1 says of a program

    swipl -f none bridge_undefined.pl -- FOLDER FILE..

Loads the files of FOLDER and prints each predicate that is called there and nowhere defined.
*/

:- use_module(library(lists)).
:- use_module(library(check)).
:- initialization(start, main).

:- multifile user:message_hook/3.
:- dynamic user:message_hook/3.

user:message_hook(check(undefined_procedures, Grouped), _, _) :-
    forall(member(Indicator-_, Grouped), tell(Indicator)).

start :-
    current_prolog_flag(argv, [Folder|Files]),
    working_directory(_, Folder),
    forall(member(File, Files), user:load_files(File, [silent(true)])),
    list_undefined([module_class([user])]).

tell(Module:Name/Arity) :- format("~q~n", [Module:Name/Arity]).
tell(Name/Arity) :- format("~q~n", [user:Name/Arity]).
