% All ways to load a file.
:- module(main, [main/0]).
:- [first].
:- ensure_loaded(second), consult(third).
:- load_files([fourth], [imports([four/0]), silent(true)]).
:- autoload(fifth).
:- autoload(sixth, [six/0]).
:- use_module([seventh, eighth]).
:- main:use_module(ninth).
:- load_files(tenth, [if(not_loaded), must_be_module(true)]).

main :- one, two, three, four, five, six, seven, eight, nine, ten.
