/** <module> Declarations for `groups` alone

What the program's files call in SWI-Prolog and its libraries takes goals that `groups` doesn't know
of. Declarations of these predicates, in a file beside the program, let it follow such goals.
*/

:- module(bridge_library_goals,
          [ write_library_goals/0
          ]).

:- use_module(library(apply)).
:- use_module(library(lists)).
:- use_module(facts).
:- use_module(goals).
:- use_module(names).
:- use_module(profile).

%!  write_library_goals is det.
%
%   Writes a declaration for each predicate outside the program that a module of it calls and that
%   takes goals.
write_library_goals :-
    findall(Module:Name/Arity, called_outside(Module, Name, Arity), Called0),
    sort(Called0, Called),
    forall(( member(Module:Name/Arity, Called), declared_modes(Module, Name, Arity, Modes) ),
           write_declarations(Module, Name, Arity, Modes)).

called_outside(Module, Name, Arity) :-
    source(Number, _, _),
    calls_of_file(Number, call(Module, Name, Arity, _)),
    means(Module, Name, Arity, Meaning),
    ( Meaning == none ; Meaning = library(_) ),
    \+ known_to_groups(Name, Arity).

% The table in the profile has these.
known_to_groups(call, Arity) :- Arity > 0.
known_to_groups(maplist, Arity) :- Arity > 1.
known_to_groups(Name, Arity) :-
    memberchk(Name/Arity,
              [ once/1, ignore/1, not/1, (initialization)/1, (initialization)/2, findall/3,
                findall/4, bagof/3, setof/3, forall/2, catch/3, phrase/2, phrase/3
              ]).

declared_modes(_, >>, Arity, Modes) :-
    !,
    Arity >= 2,
    length(Arguments, Arity),
    Arguments = [_, 0|_],
    maplist(plain_mode, Arguments),
    Modes =.. [>>|Arguments].
declared_modes(Module, Name, Arity, Modes) :-
    means(Module, Name, Arity, Meaning),
    once(goal_modes(Meaning, Module, Name, Arity, Modes)),
    arg(_, Modes, Mode),
    ( integer(Mode) ; Mode == (^) ; Mode == (//) ),
    !.

plain_mode(Mode) :-
    (   var(Mode)
    ->  Mode = (?)
    ;   true
    ).

write_declarations(Module, Name, Arity, Modes) :-
    write(':- dynamic('),
    put_indicators([Module:Name/Arity], user_output),
    write(').\n:- meta_predicate('),
    put_name(Module, user_output),
    put_char(:),
    Modes =.. [_|Arguments],
    maplist(mode_text, Arguments, Texts),
    name_text(Name, Text),
    atomic_list_concat(Texts, ', ', List),
    format("~w(~w)).~n", [Text, List]).

mode_text(Mode, Text) :-
    (   ( integer(Mode) ; Mode == (^) ; Mode == (//) )
    ->  term_to_atom(Mode, Text)
    ;   Text = (?)
    ).
