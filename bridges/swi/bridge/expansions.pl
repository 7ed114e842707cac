/** <module> Clauses that libraries of SWI-Prolog make of their own directives

`:- record` and `:- persistent` are expanded by SWI-Prolog's own library(record) and
library(persistency), which are loaded for that: from its own folder, whatever search paths the
program sets. No code of the program takes part.
*/

:- module(bridge_expansions,
          [ made_clauses/3          % +Directive, +Module, -Clauses
          ]).

%!  made_clauses(+Directive, +Module, -Clauses) is semidet.
%
%   The clauses and directives that stand for the directive in the module.
made_clauses(record(Spec), _, Clauses) :-
    from_library('record.pl'),
    (record):compile_records(Spec, Clauses).
made_clauses(persistent(Spec), Module, Clauses) :-
    from_library('persistency.pl'),
    phrase(persistency:compile_persistent(Spec, Module, Module), Clauses).

from_library(Name) :-
    current_prolog_flag(home, Home),
    atomic_list_concat([Home, '/library/', Name], Path),
    load_files(bridge_expansions:Path, [if(not_loaded), imports([]), silent(true)]).
