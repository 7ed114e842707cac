/** <module> Reading files, term by term

Each file is read once, where it is first loaded, as SWI-Prolog does it: what it sets holds for what
comes after the load. The text is read whole, for the lines of its places; a directive encoding/1
decodes the rest of it anew.
*/

:- module(bridge_texts,
          [ read_all/0,
            read_source/3,          % +Number, +Module, +Operators
            new_source/3,           % +Path, +Class, -Number
            include_text/4,         % +Path, +Reading, +Place, +Specification
            operators_of/2          % +Reading, -Operators
          ]).

:- use_module(clauses).
:- use_module(conditions).
:- use_module(directives).
:- use_module(facts).
:- use_module(files).
:- use_module(limits).
:- use_module(messages).
:- use_module(operators).
:- use_module(places).
:- use_module(terms).

:- dynamic
    open_text/2,            % Number of a file, path of a text that is being read for it
    warned/1.               % What SWI-Prolog warned of while it read the text

% How deep texts may include each other, and how many one file may include.
most_includes(100, 2000).

%!  new_source(+Path, +Class, -Number) is det.
new_source(Path, Class, Number) :-
    next_number(bridge_sources, Number),
    assertz(source(Number, Path, Class)).

%!  read_all is det.
%
%   Reads each file that isn't read yet.
read_all :-
    source(Number, _, _),
    \+ home(Number, _, _, _),
    !,
    read_source(Number, user, user),
    read_all.
read_all :-
    progress(done).

%!  read_source(+Number, +Module, +Operators) is det.
%
%   Reads the file, unless it is read or being read: as one of Module, unless it declares its own.
read_source(Number, _, _) :-
    home(Number, _, _, _),
    !.
read_source(Number, Module, Operators) :-
    assertz(home(Number, Module, plain, Operators)),
    progress(Number),
    source(Number, Path, _),
    catch(read_text(Path, Number), left_file(Number), true).

%!  include_text(+Path, +Reading, +Place, +Specification) is det.
%
%   Reads what the text at Path says as said by the file that is being read.
include_text(Path, reading(Number, _), Place, Specification) :-
    most_includes(MostDeep, Most),
    findall(x, open_text(Number, _), Open),
    length(Open, Depth),
    atom_concat(bridge_includes_, Number, Counter),
    flag(Counter, Count, Count + 1),
    plain_text(Specification, Told),
    (   open_text(Number, Path)
    ->  leave_out(Place, "file ~w includes itself", [Told])
    ;   Depth > MostDeep
    ->  leave_out(Place, "file ~w is included more than ~d deep", [Told, MostDeep])
    ;   Count >= Most
    ->  leave_out(Place, "file ~w is left out: ~d texts are included before it", [Told, Most])
    ;   read_text(Path, Number)
    ).

read_text(Path, Number) :-
    next_number(bridge_texts, Text),
    assertz(text(Text, Path, Number)),
    (   too_large(Path)
    ->  note_lines(Text, ""),
        leave_out(at(Text, 0), "file is larger than 8388608 bytes", [])
    ;   setup_call_cleanup(
            assertz(open_text(Number, Path)),
            read_decoded(Path, Number, Text),
            retract(open_text(Number, Path)))
    ).

read_decoded(Path, Number, Text) :-
    first_encoding(Path, Encoding, Mark),
    read_bytes(Path, Encoding, Mark, String),
    read_from(0, String, decoded(Path, Encoding, 0, Mark), reading(Number, Text), []).

% Reads on from an offset. decoded(Path, Encoding, From, Byte): the text is decoded so from the
% offset From on, which is the file's byte Byte. Where a directive names another encoding, what
% comes after it is decoded again.
read_from(Offset, String, Decoded, Reading, Conditions) :-
    Reading = reading(_, Text),
    note_lines(Text, String),
    setup_call_cleanup(
        open_string(String, Stream),
        ( skip_to(Stream, Offset), read_terms(Stream, Reading, Conditions, End) ),
        close(Stream)),
    (   End = encoding(Encoding, At, Left)
    ->  decoded_again(Encoding, At, String, Decoded, Again, New),
        read_from(At, Again, New, Reading, Left)
    ;   tell_ill_formed(Decoded, Text)
    ).

decoded_again(Encoding, _, String, Decoded, String, Decoded) :-
    Decoded = decoded(_, Encoding, _, _),
    !.
decoded_again(New, At, String, decoded(Path, Old, From, Byte0), Again, Decoded) :-
    retractall(warned(_)),
    Decoded = decoded(Path, New, At, Byte),
    Count is At - From,
    sub_string(String, From, Count, _, Part),
    bytes_of(Part, Old, Bytes),
    Byte is Byte0 + Bytes,
    sub_string(String, 0, At, _, Before),
    read_bytes(Path, New, Byte, Rest),
    string_concat(Before, Rest, Again).

skip_to(Stream, Offset) :-
    (   Offset > 0
    ->  read_string(Stream, Offset, _)
    ;   peek_string(Stream, 2, "#!")
    ->  skip(Stream, 0'\n)
    ;   true
    ).

bytes_of(String, Encoding, Bytes) :-
    setup_call_cleanup(
        open_null_stream(Stream),
        ( set_stream(Stream, encoding(Encoding)),
          write(Stream, String),
          byte_count(Stream, Bytes)
        ),
        close(Stream)).

:- multifile user:message_hook/3.
:- dynamic user:message_hook/3.

% SWI-Prolog's own warning of such bytes has no place; the bridge tells it with one.
user:message_hook(io_warning(_, Warning), _, _) :-
    assertz(bridge_texts:warned(Warning)).

tell_ill_formed(decoded(Path, Encoding, From, _), Text) :-
    (   retract(warned(_))
    ->  retractall(warned(_)),
        (   Encoding == utf8, From =:= 0, ill_formed(Path, Offset)
        ->  true
        ;   Offset = From
        ),
        leave_out(at(Text, Offset), "bytes here don't fit the encoding ~w", [Encoding])
    ;   true
    ).

/* Terms of one text. Conditions are the states of the `if`s that are open, the innermost first. */

read_terms(Stream, Reading, Conditions, End) :-
    count_step,
    next_term(Stream, Reading, Conditions, Place, Term, Position),
    (   Term == end_of_file
    ->  End = end,
        tell_unclosed(Conditions)
    ;   new_encoding(Term, Conditions, Encoding)
    ->  character_count(Stream, At),
        End = encoding(Encoding, At, Conditions)
    ;   step(Term, Position, Place, Reading, Conditions, Left),
        read_terms(Stream, Reading, Left, End)
    ).

new_encoding(Term, Conditions, Encoding) :-
    nonvar(Term),
    Term = (:- encoding(Encoding)),
    \+ skipping(Conditions),
    atom(Encoding),
    memberchk(Encoding, [ octet, ascii, iso_latin_1, text, utf8, unicode_be, unicode_le, utf16be,
                          utf16le ]).

next_term(Stream, Reading, Conditions, Place, Term, Position) :-
    operators_of(Reading, Operators),
    Reading = reading(_, Text),
    catch(read_term(Stream, Read,
                    [ module(Operators), syntax_errors(error), term_position(At),
                      subterm_positions(Found), quasi_quotations(Quoted), dotlists(false),
                      cycles(false)
                    ]),
          Error, true),
    (   var(Error)
    ->  stream_position_data(char_count, At, Offset),
        Place = at(Text, Offset),
        tell_quoted(Quoted, Conditions, Place),
        note_end(Place, Found),
        Term = Read,
        Position = Found
    ;   tell_unreadable(Error, Text, Conditions, Stream),
        next_term(Stream, Reading, Conditions, Place, Term, Position)
    ).

% The end of a file has no position.
note_end(at(Text, Offset), Position) :-
    (   ends(Position, End)
    ->  assertz(term_end(Text, Offset, End))
    ;   true
    ).

tell_quoted(Quoted, Conditions, Place) :-
    (   ( Quoted == [] ; skipping(Conditions) )
    ->  true
    ;   leave_out(Place, "quasi quotation is left out", [])
    ).

%!  operators_of(+Reading, -Operators) is det.
%
%   The module whose operators hold for the next term.
operators_of(reading(Number, _), Operators) :-
    (   class_operators_of(Number, Own)
    ->  Operators = Own
    ;   home(Number, _, _, Operators)
    ).

% A term that SWI-Prolog can't read is told as it tells it, unless a condition leaves it out.
tell_unreadable(Error, Text, Conditions, Stream) :-
    (   skipping(Conditions)
    ->  true
    ;   (   Error = error(_, stream(_, _, _, Before))
        ->  Offset is Before + 1
        ;   character_count(Stream, Offset)
        ),
        tell_unreadable(Error, at(Text, Offset))
    ).

tell_unreadable(error(syntax_error(What), _), Place) :-
    !,
    syntax_text(What, Told),
    leave_out(Place, "syntax error: ~w", [Told]).
tell_unreadable(Error, Place) :-
    error_text(Error, Told),
    leave_out(Place, "clause cannot be read: ~w", [Told]).

% SWI-Prolog's own words for it, as its messages have them.
syntax_text(What, Text) :-
    (   catch(phrase('$messages':syntax_error(What), Lines), _, fail),
        Lines = [First|_],
        ( First = Format-Arguments ; First = Format, Arguments = [] ),
        atom(Format),
        catch(format(atom(Told), Format, Arguments), _, fail)
    ->  Text = Told
    ;   format(atom(Text), "~w", [What])
    ).

% What one term says; what can't be carried over costs that term alone.
step(Term, Position, Place, Reading, Conditions, Left) :-
    (   condition_directive(Term, Directive)
    ->  condition(Directive, Place, Reading, Conditions, Left)
    ;   Left = Conditions,
        (   skipping(Conditions)
        ->  true
        ;   catch(said(Term, Position, Place, Reading), Error, true),
            (   var(Error)
            ->  true
            ;   Error = left_file(_)
            ->  throw(Error)
            ;   tell_unreadable(Error, Place)
            )
        )
    ).

said(Term, Position, Place, Reading) :-
    (   var(Term)
    ->  leave_out(Place, "clause is a variable", [])
    ;   ( Term = (:- Directive) ; Term = (?- Directive) )
    ->  part(1, Position, Inner),
        directive(Directive, Inner, Place, Reading)
    ;   clause_said(Term, Position, Place, Reading)
    ).
