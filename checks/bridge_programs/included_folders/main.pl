% What an included text loads is looked for beside that text.
:- module(main, [main/0]).
:- include('parts/part').

main :- part, deep, near.
