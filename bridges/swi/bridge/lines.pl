/** <module> Clauses and directives in the profile, a call a line
*/

:- module(bridge_lines,
          [ begin_line/2,           % +Place, +To
            write_clause/7,         % +Calls, +Parts, +Owner, +Name, +Arity, +Place, +To
            write_directive/3       % +Calls, +Place, +To
          ]).

:- use_module(library(lists)).
:- use_module(facts).
:- use_module(names).
:- use_module(places).
:- use_module(profile).

% `groups` reads terms of at most 1,000 levels, and each goal of a body is one.
most_calls(400).

%!  begin_line(+Place, +To) is det.
%
%   What is written on this line comes from Place. To is to(Out, Map, Number, Module, Kind) of the
%   file.
begin_line(Place, To) :- begin_line(Place, '', To).

% Fields are those that `calls` gets from here.
begin_line(Place, Fields, to(Out, Map, Number, _, _)) :-
    line_count(Out, Written),
    place_line(Place, Text, Line, Column),
    format(Map, "~d\t~d\t~d\t~d\t~d\t~w~n", [Number, Written, Text, Line, Column, Fields]).

% A clause that a directive stands for ends where that ends.
end_fields(at(Text, Offset), Fields) :-
    (   term_end(Text, Offset, End)
    ->  place_line(at(Text, End), _, Line, Column),
        format(atom(Fields), '"end_line":~d,"end_column":~d', [Line, Column])
    ;   Fields = ''
    ).

%!  write_clause(+Calls, +Parts, +Owner, +Name, +Arity, +Place, +To) is det.
%
%   A long body becomes several clauses of the same place: `calls-swi` tells each line once.
write_clause(Calls, Parts, Owner, Name, Arity, Place, To) :-
    To = to(Out, _, _, Home, Kind),
    first_calls(Calls, First, Rest),
    end_fields(Place, Fields),
    begin_line(Place, Fields, To),
    put_called(Owner, Home, Kind, Name, Arity, Out),
    (   First \== []
    ->  write(Out, ' :-'),
        Place = at(Text, _),
        write_calls(First, Text, To)
    ;   Parts == []
    ->  write(Out, '.\n')
    ;   write(Out, ' :- _.\n')
    ),
    (   Rest == []
    ->  true
    ;   write_clause(Rest, Parts, Owner, Name, Arity, Place, To)
    ).

%!  write_directive(+Calls, +Place, +To) is det.
write_directive([], _, _) :- !.
write_directive(Calls, Place, To) :-
    To = to(Out, _, _, _, _),
    Place = at(Text, _),
    first_calls(Calls, First, Rest),
    write(Out, ':-'),
    write_calls(First, Text, To),
    write_directive(Rest, Place, To).

first_calls(Calls, First, Rest) :-
    most_calls(Most),
    length(Prefix, Most),
    (   append(Prefix, Rest0, Calls)
    ->  First = Prefix,
        Rest = Rest0
    ;   First = Calls,
        Rest = []
    ).

write_calls([call(M, Name, Arity, goal(Offset, Added, Negated))|Calls], Text, To) :-
    To = to(Out, _, _, Home, Kind),
    nl(Out),
    format(atom(Fields), '"added":~d,"negated":~w', [Added, Negated]),
    begin_line(at(Text, Offset), Fields, To),
    put_call(M, Home, Kind, Name, Arity, Out),
    (   Calls == []
    ->  write(Out, '.\n')
    ;   put_char(Out, ','),
        write_calls(Calls, Text, To)
    ).

put_call(M, Home, Kind, Name, Arity, Out) :-
    means(M, Name, Arity, Meaning),
    (   Meaning = other(Owner, Plain)
    ->  put_called(Owner, Home, Kind, Plain, Arity, Out)
    ;   put_called(M, Home, Kind, Name, Arity, Out)
    ).

put_called(M, Home, Kind, Name, Arity, Out) :-
    (   M == Home, ( Kind == module ; M == user )
    ->  true
    ;   put_name(M, Out),
        put_char(Out, :)
    ),
    pattern(Name, Arity, Pattern),
    write(Out, Pattern).
