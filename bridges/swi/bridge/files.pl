/** <module> Which file a specification names, and its text

Only regular files of at most 8 MiB are read: a device or a pipe may have no end.
*/

:- module(bridge_files,
          [ named_path/2,           % +Word, -Path
            find_source/3,          % +Specification, +Path, -Found
            of_library/2,           % +Specification, +Found
            search_path/3,          % +Alias, +Folder, +Path
            library_search_path/2,  % +Alias, +Folder
            system_alias/1,         % +Alias
            read_bytes/4,           % +Path, +Encoding, +Skipped, -String
            first_encoding/3,       % +Path, -Encoding, -Mark
            file_string/2,          % +Path, -String
            too_large/1,            % +Path
            ill_formed/2            % +Path, -Offset
          ]).

:- use_module(library(lists)).

:- dynamic
    alias/2,                % Name of a search path that the program sets, folder
    known_source/3.         % Folder, specification, some(Path) or none

most_bytes(8388608).

%!  named_path(+Word, -Path) is semidet.
%
%   The file that an argument names, as SWI-Prolog finds it from the working directory.
named_path(Word, Path) :-
    catch(absolute_file_name(Word, Path,
                             [ extensions([pl, prolog, plt, '']), access(read), file_type(regular),
                               file_errors(fail)
                             ]), _, fail),
    exists_file(Path).

%!  find_source(+Specification, +Path, -Found) is semidet.
%
%   The file that is meant in the file Path.
find_source(Specification, Path, Found) :-
    file_directory_name(Path, Folder),
    (   known_source(Folder, Specification, Known)
    ->  true
    ;   (   look_for(Specification, Folder, Found0)
        ->  Known = some(Found0)
        ;   Known = none
        ),
        (   ground(Specification)
        ->  assertz(known_source(Folder, Specification, Known))
        ;   true
        )
    ),
    Known = some(Found).

look_for(Specification, Folder, Found) :-
    catch(absolute_file_name(Specification, Found,
                             [ relative_to(Folder), file_type(prolog), access(read),
                               file_errors(fail)
                             ]), _, fail),
    exists_file(Found),
    \+ file_name_extension(_, so, Found).

%!  of_library(+Specification, +Found) is semidet.
%
%   The file isn't one of the program: it was found on a search path that the program doesn't set.
of_library(Specification, Found) :-
    compound(Specification),
    compound_name_arity(Specification, Name, 1),
    Name \== (/),
    \+ ( alias(Name, Folder), atom_concat(Folder, _, Found) ).

%!  system_alias(+Alias) is semidet.
%
%   SWI-Prolog has a search path of this name, and what it leads to is no file of the program.
system_alias(library) :- !.
system_alias(Alias) :-
    \+ alias(Alias, _),
    catch(user:file_search_path(Alias, _), _, fail),
    !.

%!  search_path(+Alias, +Folder, +Path) is det.
%
%   The file Path says that the alias names Folder: files found there are the program's.
search_path(Alias, Folder, Path) :-
    (   atom(Alias),
        ground(Folder),
        file_directory_name(Path, Here),
        catch(absolute_file_name(Folder, Found,
                                 [ relative_to(Here), file_type(directory), access(exist),
                                   file_errors(fail)
                                 ]), _, fail),
        \+ alias(Alias, Found)
    ->  retractall(known_source(_, _, _)),
        assertz(alias(Alias, Found)),
        assertz(user:file_search_path(Alias, Found))
    ;   true
    ).

%!  library_search_path(+Alias, +Folder) is det.
%
%   A library says that the alias names Folder: what is found there is no file of the program.
library_search_path(Alias, Folder) :-
    (   user:file_search_path(Alias, Folder)
    ->  true
    ;   retractall(known_source(_, _, _)),
        assertz(user:file_search_path(Alias, Folder))
    ).

%!  too_large(+Path) is semidet.
too_large(Path) :-
    most_bytes(Most),
    size_file(Path, Size),
    Size > Most.

%!  first_encoding(+Path, -Encoding, -Mark) is det.
%
%   That of the byte order mark, which has so many bytes; else UTF-8.
first_encoding(Path, Encoding, Mark) :-
    (   size_file(Path, 0)
    ->  Encoding = utf8,
        Mark = 0
    ;   setup_call_cleanup(
            open(Path, read, Stream, [encoding(utf8), bom(true)]),
            ( stream_property(Stream, encoding(Encoding)), mark_bytes(Stream, Encoding, Mark) ),
            close(Stream))
    ).

mark_bytes(Stream, Encoding, Mark) :-
    (   \+ stream_property(Stream, bom(true))
    ->  Mark = 0
    ;   Encoding == utf8
    ->  Mark = 3
    ;   Mark = 2
    ).

%!  read_bytes(+Path, +Encoding, +Skipped, -String) is det.
%
%   The text of the file after so many bytes. A file of which the system tells no size isn't opened:
%   what it gives may have no end.
read_bytes(Path, Encoding, Skipped, String) :-
    (   size_file(Path, 0)
    ->  String = ""
    ;   most_bytes(Most),
        setup_call_cleanup(
            open(Path, read, Stream, [encoding(octet), bom(false), newline(posix)]),
            ( skip_bytes(Stream, Skipped),
              set_stream(Stream, encoding(Encoding)),
              read_string(Stream, Most, String)
            ),
            close(Stream))
    ).

skip_bytes(Stream, Skipped) :-
    (   Skipped =:= 0
    ->  true
    ;   seek(Stream, Skipped, bof, _)
    ).

%!  file_string(+Path, -String) is det.
%
%   The text of a library.
file_string(Path, String) :-
    first_encoding(Path, Encoding, Mark),
    read_bytes(Path, Encoding, Mark, String).

%!  ill_formed(+Path, -Offset) is semidet.
%
%   The bytes of the file are no UTF-8, for the first time at this offset, in characters.
ill_formed(Path, Offset) :-
    first_encoding(Path, _, Mark),
    read_bytes(Path, octet, Mark, String),
    string_codes(String, Bytes),
    ill_formed(Bytes, 0, Offset).

ill_formed([Byte|Bytes], At, Offset) :-
    (   following(Byte, Count),
        length(More, Count),
        append(More, Rest, Bytes),
        \+ ( member(Next, More), Next /\ 0xC0 =\= 0x80 )
    ->  Then is At + 1,
        ill_formed(Rest, Then, Offset)
    ;   Offset = At
    ).

following(Byte, 0) :- Byte < 0x80, !.
following(Byte, 1) :- Byte >= 0xC2, Byte < 0xE0, !.
following(Byte, 2) :- Byte >= 0xE0, Byte < 0xF0, !.
following(Byte, 3) :- Byte >= 0xF0, Byte < 0xF5.
