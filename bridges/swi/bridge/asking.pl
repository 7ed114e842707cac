/** <module> Conditions that only ask, and their answers

A condition is run if every goal of it is one of a list that asks and changes nothing. Goals that
ask for predicates, modules or files are answered from what the text has said so far; they load no
library. No answer takes long: the number of inferences and the size of powers are bounded.
*/

:- module(bridge_asking,
          [ asks/1,                 % @Goal
            plainly_asks/1,         % @Goal
            answer/3                % +Goal, +Reading, -Answer
          ]).

:- use_module(library(lists)).
:- use_module(facts).
:- use_module(files).
:- use_module(headers).
:- use_module(imports).
:- use_module(names).
:- use_module(terms).

%!  asks(@Goal) is semidet.
%
%   Goal only asks. None of these goals loads a library.
asks(Goal) :-
    asks(Goal, asking),
    \+ takes_long(Goal).

%!  plainly_asks(@Goal) is semidet.
%
%   Goal asks for no more than flags, operators and sources.
plainly_asks(Goal) :-
    asks(Goal, plain),
    \+ takes_long(Goal).

asks(Goal, _) :- var(Goal), !, fail.
asks(Goal, Kind) :-
    connective(Goal, Parts),
    !,
    forall(member(Part, Parts), asks(Part, Kind)).
asks(Module:Goal, Kind) :- !, atom(Module), asks(Goal, Kind).
asks(Goal, Kind) :-
    callable(Goal),
    head_name(Goal, Name, Arity),
    ( plain_question(Name, Arity) ; Kind == asking, question(Name, Arity) ),
    !.

connective((A, B), [A, B]).
connective((A ; B), [A, B]).
connective((A -> B), [A, B]).
connective((A *-> B), [A, B]).
connective(\+ A, [A]).
connective(not(A), [A]).
connective(once(A), [A]).
connective(ignore(A), [A]).
connective(catch(A, _, B), [A, B]).

plain_question(Name, Arity) :-
    memberchk(Name/Arity,
              [ true/0, fail/0, false/0, current_prolog_flag/2, current_op/3, exists_source/1,
                (==)/2, (\==)/2, (=)/2, (\=)/2, (<)/2, (>)/2, (=<)/2, (>=)/2
              ]).

question(Name, Arity) :-
    memberchk(Name/Arity,
              [ (@<)/2, (@>)/2, (@=<)/2, (@>=)/2, (=:=)/2, (=\=)/2, is/2, current_predicate/1,
                current_predicate/2, predicate_property/2, exists_source/2, source_exports/2,
                exists_file/1, exists_directory/1, access_file/2, current_module/1, getenv/2,
                memberchk/2, member/2, current_arithmetic_function/1, prolog_load_context/2,
                atom/1, var/1, nonvar/1, number/1, integer/1, atom_concat/3, sub_atom/5,
                file_search_path/2, file_base_name/2, file_directory_name/2, absolute_file_name/2,
                current_foreign_library/2, module_property/2, compare/3, functor/3, arg/3,
                variant_sha1/2, variant_hash/2, term_hash/2, debugging/1
              ]).

% One step of arithmetic may take hours. Powers and shifts are let in of small numbers by small ones,
% and no product of two variables, which would square a number again and again.
takes_long(Term) :-
    compound(Term),
    compound_name_arguments(Term, Name, Arguments),
    (   Arguments = [Base, Exponent],
        memberchk(Name, [**, ^, <<]),
        \+ ( number(Base), abs(Base) < 0x10000000000000000, integer(Exponent), abs(Exponent) =< 64 )
    ;   Arguments = [Left, Right],
        Name == (*),
        \+ ground(Left),
        \+ ground(Right)
    ;   member(Argument, Arguments),
        takes_long(Argument)
    ),
    !.

%!  answer(+Goal, +Reading, -Answer) is det.
%
%   Answer is `true`, `false`, or `unknown` if it would take too long.
answer(Goal, reading(Number, Text), Answer) :-
    home(Number, Module, _, _),
    text(Text, Path, _),
    file_directory_name(Path, Folder),
    nb_setval(bridge_unsure, false),
    Asked = in_folder(Folder, holds(Goal, asked(Module, Number, Path))),
    catch(( call_with_inference_limit(Asked, 1000000, Result) -> true ; Result = failed ), _,
          Result = failed),
    nb_getval(bridge_unsure, Unsure),
    (   ( Result == inference_limit_exceeded ; Unsure == true )
    ->  Answer = unknown
    ;   Result == failed
    ->  Answer = false
    ;   Answer = true
    ).

in_folder(Folder, Goal) :-
    working_directory(Old, Folder),
    call_cleanup(once(Goal), working_directory(_, Old)).

% If a condition asks for predicates, what the program has so far counts.
holds((A, B), In) :- !, holds(A, In), holds(B, In).
holds((A -> B ; C), In) :- !, ( holds(A, In) -> holds(B, In) ; holds(C, In) ).
holds((A *-> B ; C), In) :- !, ( holds(A, In) *-> holds(B, In) ; holds(C, In) ).
holds((A ; B), In) :- !, ( holds(A, In) ; holds(B, In) ).
holds((A -> B), In) :- !, ( holds(A, In) -> holds(B, In) ).
holds((A *-> B), In) :- !, holds(A, In), holds(B, In).
holds(\+ A, In) :- !, \+ holds(A, In).
holds(not(A), In) :- !, \+ holds(A, In).
holds(once(A), In) :- !, once(holds(A, In)).
holds(ignore(A), In) :- !, ignore(holds(A, In)).
holds(catch(A, Ball, B), In) :- !, catch(holds(A, In), Ball, holds(B, In)).
holds(Module:A, asked(_, Number, Path)) :- !, holds(A, asked(Module, Number, Path)).
holds(current_predicate(Indicator), asked(Module, Number, _)) :-
    nonvar(Indicator),
    innermost(Indicator, Module, Owner, Name/Arity),
    atom(Name),
    !,
    has_predicate(Owner, Name, Arity, Number).
holds(current_predicate(Name, Head), asked(Module, Number, _)) :-
    nonvar(Head),
    innermost(Head, Module, Owner, Inner),
    callable(Inner),
    !,
    head_name(Inner, Name, Arity),
    has_predicate(Owner, Name, Arity, Number).
holds(predicate_property(Head, Property), asked(Module, Number, _)) :-
    nonvar(Head),
    innermost(Head, Module, Owner, Inner),
    callable(Inner),
    !,
    head_name(Inner, Name, Arity),
    has_property(Property, Owner, Name, Arity, Number).
holds(source_exports(File, Indicator), asked(_, _, Path)) :-
    !,
    indicator(Indicator),
    find_source(File, Path, Found),
    arity_of(Indicator, Name, Arity),
    library_export(Found, Name, Arity, _).
holds(debugging(_), _) :- !, fail.
holds(current_op(Priority, Type, Name), asked(_, Number, _)) :-
    !,
    home(Number, _, _, Operators),
    current_op(Priority, Type, Operators:Name).
holds(current_module(Module), _) :- atom(Module), home(_, Module, module, _), !.
holds(current_prolog_flag(Flag, Value), _) :- atom(Flag), own_flag(Flag, Usual), !, Value = Usual.
holds(prolog_load_context(Key, Value), asked(Module, _, Path)) :-
    !,
    load_context(Key, Module, Path, Value).
holds(Goal, _) :-
    user:Goal.

% Flags that the bridge sets for itself, as they are in a program.
own_flag(autoload, true).
own_flag(generate_debug_info, true).
own_flag(optimise, false).

load_context(dialect, _, _, swi).
load_context(module, Module, _, Module).
load_context(source, _, Path, Path).
load_context(file, _, Path, Path).
load_context(directory, _, Path, Folder) :- file_directory_name(Path, Folder).

has_predicate(Module, Name, Arity, _) :-
    so_far(Module, Name, Arity),
    !.
has_predicate(_, Name, Arity, _) :-
    atom(Name),
    integer(Arity),
    functor(Head, Name, Arity),
    '$c_current_predicate'(_, system:Head),
    !.
has_predicate(_, Name, Arity, Number) :-
    not_known(Name, Arity, Number).

% Of its own, of a file that it loads, or of user.
so_far(Module, Name, Arity) :- defined(Module, Name, Arity).
so_far(Module, Name, Arity) :- loaded_name(Module, Name, Arity).
so_far(Module, Name, Arity) :- Module \== user, defined(user, Name, Arity).
so_far(Module, Name, Arity) :- Module \== user, loaded_name(user, Name, Arity).

% What a file that loads a foreign library has in C isn't known: then neither is the answer.
not_known(Name, Arity, Number) :-
    foreign(Number),
    atom(Name),
    integer(Arity),
    nb_setval(bridge_unsure, true),
    fail.

has_property(Property, Module, Name, Arity, Number) :-
    memberchk(Property, [defined, visible]),
    !,
    (   has_predicate(Module, Name, Arity, Number)
    ->  true
    ;   autoloaded(Name, Arity, _)
    ).
has_property(dynamic, Module, Name, Arity, Number) :-
    !,
    home(Number, Module, _, _),
    item(_, _, declare(dynamic, Indicators)),
    member(Module:Indicator, Indicators),
    arity_of(Indicator, Name, Arity),
    !.
has_property(Property, Module, Name, Arity, _) :-
    functor(Head, Name, Arity),
    (   defined(Module, Name, Arity)
    ->  nb_setval(bridge_unsure, true),
        fail
    ;   '$c_current_predicate'(_, system:Head),
        predicate_property(system:Head, Property)
    ).
