/** <module> Names, patterns and indicators as the profile of `groups` writes them
*/

:- module(bridge_profile,
          [ name_text/2,            % +Name, -Text
            pattern/3,              % +Name, +Arity, -Text
            put_name/2,             % +Name, +Out
            put_indicators/2,       % +Indicators, +Out
            put_json_string/2       % +Codes, +Out
          ]).

:- use_module(library(apply)).
:- use_module(terms).

:- dynamic known_pattern/3, known_name/2.

%!  pattern(+Name, +Arity, -Text) is det.
%
%   A goal of that name with `_` for each argument.
pattern(Name, Arity, Pattern) :-
    known_pattern(Name, Arity, Pattern),
    !.
pattern(Name, Arity, Pattern) :-
    name_text(Name, Text),
    (   Arity =:= 0
    ->  Pattern = Text
    ;   length(Arguments, Arity),
        maplist(=('_'), Arguments),
        atomic_list_concat(Arguments, ',', List),
        atomic_list_concat([Text, '(', List, ')'], Pattern)
    ),
    assertz(known_pattern(Name, Arity, Pattern)).

%!  name_text(+Name, -Text) is det.
%
%   All names but letter names are quoted. That of a compound may be the reserved symbol [] too,
%   which is no atom there.
name_text(Name, Text) :-
    known_name(Name, Text),
    !.
name_text(Name, Text) :-
    format(codes(Codes), "~w", [Name]),
    (   Codes = [First|Rest], 0'a =< First, First =< 0'z, maplist(goes_on, Rest)
    ->  atom_codes(Text, Codes)
    ;   phrase(quoted(Codes), Quoted),
        atom_codes(Text, Quoted)
    ),
    assertz(known_name(Name, Text)).

goes_on(Code) :- 0'a =< Code, Code =< 0'z, !.
goes_on(Code) :- 0'A =< Code, Code =< 0'Z, !.
goes_on(Code) :- 0'0 =< Code, Code =< 0'9, !.
goes_on(0'_).

quoted(Codes) --> `'`, quoted_rest(Codes).

quoted_rest([]) --> `'`.
quoted_rest([Code|Codes]) --> quoted_code(Code), quoted_rest(Codes).

quoted_code(0'') --> !, `\\'`.
quoted_code(0'\\) --> !, `\\\\`.
quoted_code(Code) --> { 0xD800 =< Code, Code =< 0xDFFF }, !, `?`.
quoted_code(Code) -->
    { Code < 32 ; Code >= 127, Code < 160 },
    !,
    { format(codes(Codes), "\\x~16r\\", [Code]) },
    Codes.
quoted_code(Code) --> [Code].

%!  put_name(+Name, +Out) is det.
put_name(Name, Out) :-
    name_text(Name, Text),
    write(Out, Text).

%!  put_indicators(+Indicators, +Out) is det.
put_indicators(Indicators, Out) :-
    put_char(Out, '['),
    put_indicators(Indicators, '', Out),
    put_char(Out, ']').

put_indicators([], _, _).
put_indicators([Item|Items], Before, Out) :-
    write(Out, Before),
    (   Item = Module:Indicator
    ->  put_name(Module, Out),
        put_char(Out, :)
    ;   Indicator = Item
    ),
    arity_of(Indicator, Name, Arity),
    put_name(Name, Out),
    put_char(Out, /),
    write(Out, Arity),
    put_indicators(Items, ', ', Out).

%!  put_json_string(+Codes, +Out) is det.
put_json_string(Codes, Out) :-
    put_char(Out, '"'),
    maplist(put_json_code(Out), Codes),
    put_char(Out, '"').

put_json_code(Out, Code) :- ( Code =:= 0'" ; Code =:= 0'\\ ), !, format(Out, "\\~c", [Code]).
put_json_code(Out, Code) :- Code < 32, !, format(Out, "\\u~|~`0t~16r~4+", [Code]).
put_json_code(Out, Code) :- char_code(Char, Code), put_char(Out, Char).
