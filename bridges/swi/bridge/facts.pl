/** <module> What the bridge knows of the program that it reads

The facts that reading writes and that naming, walking and writing look up. A file has a number, and
so has each text that is read for it: the file itself and what it includes. A place is
at(Text, Offset), with the offset in characters from 0.
*/

:- module(bridge_facts,
          [ option/1,               % Name
            source/3,               % Number, Path, Class
            home/4,                 % Number, Module, Kind, Operators
            text/3,                 % Text, Path, Number
            export/3,               % Number, Name, Arity
            exported_operator/4,    % Number, Priority, Type, Names
            item/3,                 % Number, Place, What
            term_end/3,             % Text, Offset, End
            defined/3,              % Module, Name, Arity
            meta/4,                 % Module, Name, Arity, Modes
            load/5,                 % Load, Number, Place, Target, How
            again/4,                % Number, Load, Kind, Which
            pick/4,                 % Load, Name, Arity, As
            drop/3,                 % Load, Name, Arity
            module_load/3,          % Module, Load, Target
            handles_rules/1,        % Number
            foreign/1,              % Number
            testing/1,              % Number
            expansion/6,            % Name, Arity, Count, Module, Goal, Expanded
            define/3,               % +Module, +Name, +Arity
            say/3,                  % +Reading, +Place, +What
            system_path/1,          % +Path
            inherits_user/1,        % +Module
            next_number/2,          % +Counter, -Number
            note/1                  % :Fact
          ]).

:- meta_predicate note(0).

/** option(?Name)

    An option of the command line: libraries, expand, 'no-run', undefined or declare.
*/
/** source(?Number, ?Path, ?Class)

    A file. Class is `named` if an argument names it, `loaded` if a file of the program loads it,
    and `library` for a library and all that libraries load.
*/
/** home(?Number, ?Module, ?Kind, ?Operators)

    The module of a file that is read or being read. Kind is `module` if it declares that module,
    else `plain`. Operators is the module whose operators hold in the file.
*/
/** item(?Number, ?Place, ?What)

    What the file says, in its order:
    module; clause(Owner, Name, Arity, Module, Parts, Expansions); declare(How, Indicators);
    goal(Goal, Position); root(Module, Name, Arity); load(Load).
    A part of a clause is goal(Goal, Position) or grammar(Body, Position), and Expansions the number
    of facts of goal_expansion/2 that were read before it.
*/
/** term_end(?Text, ?Offset, ?End)

    Where a term ends that starts at the offset, before its full stop.
*/
/** again(?Number, ?Load, ?Kind, ?Which)

    What the load brings the file exports again. Kind and Which are those of the load's target.
*/
/** load(?Load, ?Number, ?Place, ?Target, ?How)

    Target is file(Number), or outside(Path) for a library that is only looked at. How is `all`,
    `only` (what pick/4 lists) or `except` (all but what drop/3 lists; pick/4 has new names).
*/
:- dynamic
    option/1, source/3, home/4, text/3, export/3, exported_operator/4, item/3, term_end/3, defined/3, meta/4,
    load/5, again/4, pick/4, drop/3, module_load/3, handles_rules/1, foreign/1, testing/1,
    expansion/6.

%!  define(+Module, +Name, +Arity) is det.
%
%   The text defines the predicate.
define(Module, Name, Arity) :-
    (   defined(Module, Name, Arity)
    ->  true
    ;   assertz(defined(Module, Name, Arity))
    ).

%!  say(+Reading, +Place, +What) is det.
%
%   The file that is being read says What.
say(reading(Number, _), Place, What) :-
    assertz(item(Number, Place, What)).

%!  system_path(+Path) is semidet.
%
%   The file is one of SWI-Prolog's own library.
system_path(Path) :-
    current_prolog_flag(home, Home),
    atom_concat(Home, Rest, Path),
    ( sub_atom(Rest, 0, _, _, '/library') ; sub_atom(Rest, 0, _, _, '/xpce/prolog/') ),
    !.

%!  inherits_user(+Module) is semidet.
%
%   The module takes from `user` what it lacks: each does, except those of SWI-Prolog's library.
inherits_user(Module) :-
    Module \== user,
    \+ ( home(Number, Module, module, _), source(Number, Path, _), system_path(Path) ).

%!  next_number(+Counter, -Number) is det.
%
%   The next of 1, 2, 3 ..
next_number(Counter, Number) :-
    flag(Counter, Before, Before + 1),
    Number is Before + 1.

%!  note(:Fact) is det.
%
%   The fact is there once.
note(Fact) :-
    (   call(Fact)
    ->  true
    ;   assertz(Fact)
    ).
