% Search paths that the program sets.
:- module(main, [main/0]).
:- multifile user:file_search_path/2.
:- dynamic user:file_search_path/2.
:- prolog_load_context(directory, Here), asserta(user:file_search_path(app, Here)).
user:file_search_path(inner, app(source)).
user:file_search_path(library, app(mine)).
:- source_location(File, _), file_directory_name(File, Folder), atom_concat(Folder, '/source', Source),
   assertz(user:file_search_path(more, Source)).
:- asserta(user:file_search_path(deepest, more(deep))).
:- use_module(app('source/one')).
:- use_module(deepest(five)).
:- use_module(inner(two)).
:- use_module(library(three)).
:- use_module(inner(deep/four)).

main :- one, two, three, four, five.
