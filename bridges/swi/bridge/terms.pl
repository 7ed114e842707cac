/** <module> Heads, indicators and lists of them
*/

:- module(bridge_terms,
          [ head_name/3,            % +Head, -Name, -Arity
            innermost/4,            % +Term, +Default, -Module, -Inner
            may_define/1,           % @Head
            indicator/1,            % @Term
            arity_of/3,             % +Indicator, -Name, -Arity
            listed_item/4,          % +List, +Home, -Module, -Item
            extended/3,             % +Closure, +Added, -Goal
            plain_text/2,           % @Term, -Text
            error_text/2            % +Error, -Text
          ]).

:- use_module(library(apply)).
:- use_module(library(lists)).

%!  head_name(+Head, -Name, -Arity) is det.
head_name(Head, Name, Arity) :-
    (   compound(Head)
    ->  compound_name_arity(Head, Name, Arity)
    ;   Name = Head,
        Arity = 0
    ).

%!  innermost(+Term, +Default, -Module, -Inner) is det.
%
%   Term without the modules before it, of which the last one counts.
innermost(Term, Default, Module, Inner) :-
    (   nonvar(Term), Term = Named:Next, atom(Named)
    ->  innermost(Next, Named, Module, Inner)
    ;   Module = Default,
        Inner = Term
    ).

%!  may_define(@Head) is semidet.
%
%   A program may have clauses with this head: it is no list, no number and no control construct.
may_define(Head) :-
    nonvar(Head),
    (   Head = Owner:Inner
    ->  atom(Owner),
        may_define(Inner)
    ;   callable(Head),
        \+ memberchk(Head, ['[]', {}]),
        \+ Head = [_|_],
        \+ is_dict(Head),
        head_name(Head, Name, Arity),
        \+ control(Name, Arity)
    ).

control(',', 2).
control(;, 2).
control('|', 2).
control(->, 2).
control(*->, 2).
control(!, 0).
control(\+, 1).
control(:-, 1).
control(:-, 2).
control(?-, 1).
control(-->, 2).
control(=>, 2).
control('[|]', 2).

%!  indicator(@Term) is semidet.
%
%   Term is Name/Arity or Name//Arity.
indicator(Term) :-
    nonvar(Term),
    ( Term = Name/Arity ; Term = Name//Arity ),
    atom(Name),
    integer(Arity),
    Arity >= 0,
    !.

%!  arity_of(+Indicator, -Name, -Arity) is det.
arity_of(Name/Arity, Name, Arity).
arity_of(Name//Arity0, Name, Arity) :- Arity is Arity0 + 2.

%!  listed_item(+List, +Home, -Module, -Item) is nondet.
%
%   Each item that a declaration lists, with its module.
listed_item(Term, _, _, _) :- var(Term), !, fail.
listed_item(as(Term, _), Home, Owner, Item) :- !, listed_item(Term, Home, Owner, Item).
listed_item((First, Second), Home, Owner, Item) :-
    !,
    ( listed_item(First, Home, Owner, Item) ; listed_item(Second, Home, Owner, Item) ).
listed_item([], _, _, _) :- !, fail.
listed_item([First|Rest], Home, Owner, Item) :-
    !,
    ( listed_item(First, Home, Owner, Item) ; listed_item(Rest, Home, Owner, Item) ).
listed_item(Module:Term, _, Owner, Item) :- atom(Module), !, listed_item(Term, Module, Owner, Item).
listed_item((Module:Name)/Arity, _, Module, Name/Arity) :- atom(Module), !.
listed_item((Module:Name)//Arity, _, Module, Name//Arity) :- atom(Module), !.
listed_item(Item, Home, Home, Item).

%!  extended(+Closure, +Added, -Goal) is semidet.
%
%   Goal is Closure with so many more arguments.
extended(Closure, 0, Closure) :- !, callable(Closure).
extended(Closure, Added, Goal) :-
    callable(Closure),
    length(More, Added),
    Closure =.. [Name|Arguments],
    append(Arguments, More, All),
    compound_name_arguments(Goal, Name, All).

%!  plain_text(@Term, -Text) is det.
%
%   Term as one would write it, each variable as `_`, so that a text is the same in each run.
plain_text(Term, Text) :-
    copy_term_nat(Term, Copy),
    term_variables(Copy, Variables),
    maplist(=('$VAR'('_')), Variables),
    format(atom(Text), "~W",
           [Copy, [quoted(true), numbervars(true), max_depth(20), spacing(next_argument)]]).

%!  error_text(+Error, -Text) is det.
%
%   What went wrong, in few words.
error_text(Error, Text) :-
    (   Error = error(resource_error(_), _)
    ->  Text = 'it takes too much memory'
    ;   Error = error(Formal, _)
    ->  plain_text(Formal, Text)
    ;   plain_text(Error, Text)
    ).
