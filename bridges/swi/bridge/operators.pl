/** <module> Operators for the reader

Operators of a module are set in a module that holds nothing else; those of `user` in `user`. A file
without a module leaves its operators in the module that loads it.
*/

:- module(bridge_operators,
          [ set_operators/4,        % +Names, +Priority, +Type, +Owner
            operators_module/2,     % +Module, -Operators
            begin_class/1,          % +Number
            end_class/1,            % +Number
            class_operators_of/2    % +Number, -Operators
          ]).

:- use_module(library(lists)).
:- use_module(facts).

:- dynamic class_open/2.            % Number of a file within a class of XPCE, module of operators

%!  set_operators(+Names, +Priority, +Type, +Owner) is semidet.
%
%   Declares one operator or a list of them; fails if that isn't possible.
set_operators(Names, Priority, Type, Owner) :-
    catch(set_each(Names, Priority, Type, Owner), _, fail).

set_each(Names, _, _, _) :- var(Names), !, fail.
set_each([], _, _, _) :- !.
set_each([Name|Names], Priority, Type, Owner) :-
    !,
    set_each(Name, Priority, Type, Owner),
    set_each(Names, Priority, Type, Owner).
set_each(Module:Names, Priority, Type, Owner) :-
    !,
    (   Module == user
    ->  set_each(Names, Priority, Type, user)
    ;   set_each(Names, Priority, Type, Owner)
    ).
set_each(Name, Priority, Type, Owner) :-
    op(Priority, Type, Owner:Name).

%!  operators_module(+Module, -Operators) is det.
operators_module(user, user) :- !.
operators_module(Module, Operators) :-
    atom_concat(bridge_operators_, Module, Operators).

%!  class_operators_of(+Number, -Operators) is semidet.
%
%   The file is within a class of XPCE, whose library has operators of its own there.
class_operators_of(Number, Operators) :-
    class_open(Number, Operators).

%!  begin_class(+Number) is det.
begin_class(Number) :-
    (   class_open(Number, _)
    ->  true
    ;   home(Number, _, _, Outer),
        atom_concat(bridge_class_, Number, Operators),
        set_module(Operators:base(Outer)),
        forall(member(op(Priority, Type, Name),
                      [ op(1200, xfx, :->), op(1200, xfx, :<-), op(910, xfy, ::), op(100, xf, *),
                        op(125, xf, ?), op(150, xf, ...), op(100, xfx, ..)
                      ]),
               op(Priority, Type, Operators:Name)),
        assertz(class_open(Number, Operators))
    ).

%!  end_class(+Number) is det.
end_class(Number) :-
    retractall(class_open(Number, _)).
