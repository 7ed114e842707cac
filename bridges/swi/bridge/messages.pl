/** <module> What was left out, told with its place

Messages are kept and told at the end, by file and line. Those of one cause in one file are one
line. What libraries leave out is only counted: the status speaks of the files of the program.
*/

:- module(bridge_messages,
          [ leave_out/3,            % +Place, +Format, +Arguments
            leave_out_once/3,       % +Place, +Format, +Arguments
            leave_out_file/3,       % +Number, +Format, +Arguments
            something_left_out/0,
            tell_messages/1,        % +Command
            progress/1,             % +What
            plain_code/2,           % +Code, -Shown
            shown/2                 % +Path, -Name
          ]).

:- use_module(library(apply)).
:- use_module(library(lists)).
:- use_module(library(pairs)).
:- use_module(facts).
:- use_module(places).

:- dynamic
    message/5,              % Path, line, column, format, text
    told/3,                 % Place, format, arguments
    lacks/2.                % Class, number of the file

%!  leave_out(+Place, +Format, +Arguments) is det.
%
%   Something at this place is left out; the text says what.
leave_out(Place, Format, Arguments) :-
    place_line(Place, Text, Line, Column),
    text(Text, Path, Number),
    message(Number, Path, Line, Column, Format, Arguments).

%!  leave_out_once(+Place, +Format, +Arguments) is det.
%
%   The same, told once however often it is found.
leave_out_once(Place, Format, Arguments) :-
    (   told(Place, Format, Arguments)
    ->  true
    ;   assertz(told(Place, Format, Arguments)),
        leave_out(Place, Format, Arguments)
    ).

%!  leave_out_file(+Number, +Format, +Arguments) is det.
%
%   Something of the file as a whole is left out.
leave_out_file(Number, Format, Arguments) :-
    source(Number, Path, _),
    message(Number, Path, 1, 1, Format, Arguments).

message(Number, Path, Line, Column, Format, Arguments) :-
    source(Number, _, Class),
    (   Class == library
    ->  note(lacks(library, Number))
    ;   note(lacks(program, Number)),
        format(atom(Text), Format, Arguments),
        assertz(message(Path, Line, Column, Format, Text))
    ).

% Each of these is a mistake of its own, so each has its own line.
own_line("~w").
own_line("syntax error: ~w").
own_line("goal ~w isn't callable").
own_line("clause has no head that a program may define").

%!  something_left_out is semidet.
%
%   Something of the program's own files was left out.
something_left_out :-
    once(lacks(program, _)).

%!  tell_messages(+Command) is det.
%
%   Writes all messages to standard error, and how many files have something left out.
tell_messages(Command) :-
    progress(done),
    findall(key(Path, Group, Line, Column)-Text,
            ( message(Path, Line, Column, Format, Text),
              ( own_line(Format) -> Group = Text-Line-Column ; Group = Format ) ),
            Messages0),
    sort(Messages0, Messages),
    findall(key(Path, Line, Column, Text)-More,
            merged(Messages, Path, Line, Column, Text, More), Lines0),
    keysort(Lines0, Lines),
    forall(member(key(Path, Line, Column, Text)-More, Lines),
           tell_line(Path, Line, Column, Text, More)),
    tell_count(Command).

% The first of each group, and how many more there are.
merged(Messages, Path, Line, Column, Text, More) :-
    map_list_to_pairs(group_of, Messages, Pairs),
    group_pairs_by_key(Pairs, Groups),
    member((Path-_)-[key(Path, _, Line, Column)-Text|Others], Groups),
    length(Others, More).

group_of(key(Path, Group, _, _)-_, Path-Group).

tell_line(Path, Line, Column, Text, More) :-
    shown(Path, Shown),
    atom_codes(Shown, Codes0),
    maplist(plain_code, Codes0, Codes),
    atom_codes(Name, Codes),
    (   More =:= 0
    ->  format(user_error, "~w:~d:~d: ~w~n", [Name, Line, Column, Text])
    ;   format(user_error, "~w:~d:~d: ~w, and ~d more like it~n", [Name, Line, Column, Text, More])
    ).

tell_count(Command) :-
    (   lacks(_, _)
    ->  aggregate_count(( source(_, _, Class), Class \== library ), Files),
        aggregate_count(lacks(program, _), Lacking),
        aggregate_count(lacks(library, _), Libraries),
        counted(Files, FilesText),
        format(atom(Text), "~w, ~d with something left out", [FilesText, Lacking]),
        (   Libraries =:= 0
        ->  format(user_error, "~w: ~w~n", [Command, Text])
        ;   format(user_error, "~w: ~w; of the libraries ~d~n", [Command, Text, Libraries])
        )
    ;   true
    ).

aggregate_count(Goal, Count) :-
    findall(x, Goal, Found),
    length(Found, Count).

counted(1, "1 file") :- !.
counted(Count, Text) :- format(string(Text), "~d files", [Count]).

%!  progress(+What) is det.
%
%   On a terminal, how many files are read; with `done` the line is wiped.
progress(What) :-
    (   \+ stream_property(user_error, tty(true))
    ->  true
    ;   What == done
    ->  format(user_error, "\r\e[K", [])
    ;   flag(bridge_sources, All, All),
        format(user_error, "\rreading file ~d of ~d\e[K", [What, All])
    ).

%!  plain_code(+Code, -Shown) is det.
%
%   A line has no tab or newline within a name.
plain_code(Code, 0'?) :- Code < 32, !.
plain_code(Code, Code).

%!  shown(+Path, -Name) is det.
%
%   Files below the folder in which the bridge was started are told by their names from there.
shown(Path, Name) :-
    working_directory(Folder, Folder),
    (   atom_concat(Folder, Name, Path)
    ->  true
    ;   Name = Path
    ).
