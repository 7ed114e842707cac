/*  swipl xref_calls.pl -- FILE: what SWI-Prolog's prolog_xref says of the file, a fact a line:
    `module NAME`, `defines NAME/ARITY`, `exports NAME/ARITY`, `calls NAME/ARITY NAME/ARITY`, `directive NAME/ARITY`. What a clause for another
    module calls, a hook's, counts as called by a directive. */

:- use_module(library(prolog_xref)).
:- use_module(library(apply)).
:- initialization(main, main).

main([File]) :-
    absolute_file_name(File, Source, [file_type(prolog), access(read), extensions(['', pl])]),
    xref_source(Source, [silent(true)]),
    (   xref_module(Source, Module)
    ->  true
    ;   Module = user
    ),
    format("module ~q~n", [Module]),
    forall(( xref_defined(Source, Head, How), own(How), plain(Module, Head, Own) ), tell(defines, [Own])),
    forall(xref_exported(Source, Head), tell(exports, [Head])),
    forall(( xref_called(Source, Called, By), plain(Module, Called, To) ),
           ( plain(Module, By, From) -> called(From, To) ; tell(directive, [To]) )).

% What belongs to the module of the file, without its name.
plain(Module, Head, Own) :-
    strip_module(Module:Head, Module, Own).

own(local(_)).
own(dynamic(_)).
own(multifile(_)).
own(thread_local(_)).
own(constraint(_)).
own(foreign(_)).

called('<directive>'(_), Called) :- !, tell(directive, [Called]).
called(By, Called) :- tell(calls, [By, Called]).

tell(Word, Heads) :-
    maplist(named, Heads, Names),
    atomic_list_concat([Word|Names], ' ', Line),
    writeln(Line).

named(Head, Text) :-
    (   callable(Head)
    ->  functor(Head, Name, Arity)
    ;   Name = '?', Arity = 0
    ),
    format(atom(Text), "~q/~d", [Name, Arity]).
