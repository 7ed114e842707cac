/** <module> Where things are in a text

Offsets count characters from 0, lines and columns from 1. A tab is one column, as for `groups`.
*/

:- module(bridge_places,
          [ note_lines/2,           % +Text, +String
            place_line/4,           % +Place, -Text, -Line, -Column
            bare/2,                 % +Position, -Bare
            part/3,                 % +Number, +Position, -Part
            list_parts/2,           % +Position, -Parts
            starts/3,               % +Position, +Default, -Offset
            ends/2                  % +Position, -Offset
          ]).

:- use_module(library(apply)).
:- use_module(library(lists)).

%!  note_lines(+Text, +String) is det.
%
%   Keeps the offset at which each line of the text starts.
note_lines(Text, String) :-
    split_string(String, "\n", "", Lines),
    foldl(line_start, Lines, Starts, 0, _),
    compound_name_arguments(Table, lines, Starts),
    lines_key(Text, Key),
    nb_setval(Key, Table).

line_start(Line, Start, Start, Next) :-
    string_length(Line, Length),
    Next is Start + Length + 1.

lines_key(Text, Key) :-
    atom_concat(bridge_lines_, Text, Key).

%!  place_line(+Place, -Text, -Line, -Column) is det.
%
%   Most places are on the line of the one before, or on one of the next.
place_line(at(Text, Offset), Text, Line, Column) :-
    lines_key(Text, Key),
    nb_getval(Key, Table),
    (   nb_current(bridge_line, Last)
    ->  true
    ;   Last = 1
    ),
    compound_name_arity(Table, _, Count),
    (   near_line(Table, Offset, Last, Count, Found)
    ->  Line = Found
    ;   line_of(Table, Offset, 1, Count, Line)
    ),
    nb_setval(bridge_line, Line),
    arg(Line, Table, Start),
    Column is Offset - Start + 1.

near_line(Table, Offset, Last, Count, Line) :-
    Last < Count,
    arg(Last, Table, Start),
    Start =< Offset,
    near_line(4, Table, Offset, Last, Count, Line).

near_line(More, Table, Offset, Last, Count, Line) :-
    Next is Last + 1,
    arg(Next, Table, Start),
    (   Offset < Start
    ->  Line = Last
    ;   More > 0,
        Next < Count,
        Fewer is More - 1,
        near_line(Fewer, Table, Offset, Next, Count, Line)
    ).

% The last line that starts at the offset or before it.
line_of(_, _, Line, Line, Line) :- !.
line_of(Table, Offset, Low, High, Line) :-
    Middle is (Low + High + 1) // 2,
    arg(Middle, Table, Start),
    (   Start =< Offset
    ->  line_of(Table, Offset, Middle, High, Line)
    ;   Before is Middle - 1,
        line_of(Table, Offset, Low, Before, Line)
    ).

%!  bare(+Position, -Bare) is det.
%
%   A position of `subterm_positions` without brackets; `none` if the reader gave none.
bare(Position, none) :- var(Position), !.
bare(parentheses_term_position(_, _, Inner), Bare) :- !, bare(Inner, Bare).
bare(Position, Position).

%!  part(+Number, +Position, -Part) is det.
%
%   The position of the argument of that number.
part(Number, Position, Part) :-
    bare(Position, Bare),
    (   Bare = term_position(_, _, _, _, Parts), nth1(Number, Parts, Found)
    ->  Part = Found
    ;   Bare = brace_term_position(_, _, Found)
    ->  Part = Found
    ;   Part = none
    ).

%!  list_parts(+Position, -Parts) is det.
%
%   The positions of the items of a list.
list_parts(Position, Parts) :-
    bare(Position, Bare),
    (   Bare = list_position(_, _, Found, _)
    ->  Parts = Found
    ;   Parts = []
    ).

%!  starts(+Position, +Default, -Offset) is det.
%
%   Where the term starts that is at this position.
starts(Position, Default, Offset) :-
    bare(Position, Bare),
    (   Bare = From-_
    ->  Offset = From
    ;   compound(Bare), arg(1, Bare, From), integer(From)
    ->  Offset = From
    ;   Offset = Default
    ).

%!  ends(+Position, -Offset) is semidet.
%
%   Where the term ends that is at this position, with its brackets.
ends(Position, Offset) :-
    nonvar(Position),
    (   Position = _-To
    ->  Offset = To
    ;   compound(Position), arg(2, Position, To), integer(To)
    ->  Offset = To
    ).
