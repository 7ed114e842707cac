% Goals in options.
:- module(main, [main/0]).
:- use_module(library(sgml)).

main :-
    thread_create(work, Id, [at_exit(bye)]),
    thread_join(Id),
    thread_create(more, Id2),
    thread_join(Id2),
    setup_call_cleanup(
        new_sgml_parser(Parser, []),
        setup_call_cleanup(
            open_string("<a>text</a>", Stream),
            sgml_parse(Parser, [source(Stream), call(begin, on_begin), call(end, on_end), max_errors(-1)]),
            close(Stream)),
        free_sgml_parser(Parser)).

work.
bye.
more.
on_begin(_, _, _).
on_end(_, _).
% The debugger doesn't see the end of a thread.
%+ main:main/0 main:bye/0
