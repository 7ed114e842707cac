/** <module> Conditional compilation

The state of each open `if` is branch(State, Place). State is `taken` if this branch is read, `both`
if every branch is, `open` if none was yet, and `closed` if one was, or if what holds the `if` isn't
read.
*/

:- module(bridge_conditions,
          [ skipping/1,             % +Conditions
            condition_directive/2,  % +Term, -Directive
            condition/5,            % +Directive, +Place, +Reading, +Conditions, -Left
            tell_unclosed/1         % +Conditions
          ]).

:- use_module(library(lists)).
:- use_module(asking).
:- use_module(facts).
:- use_module(messages).
:- use_module(terms).

%!  skipping(+Conditions) is semidet.
%
%   What comes now isn't read.
skipping([branch(State, _)|_]) :-
    State \== taken,
    State \== both.

%!  condition_directive(+Term, -Directive) is semidet.
condition_directive((:- Directive), Directive) :-
    nonvar(Directive),
    memberchk(Directive, [if(_), elif(_), else, endif]).

%!  condition(+Directive, +Place, +Reading, +Conditions, -Left) is det.
%
%   Left is what is open after the directive.
condition(if(_), Place, _, Conditions, [branch(closed, Place)|Conditions]) :-
    skipping(Conditions),
    !.
condition(if(Goal), Place, Reading, Conditions, [branch(State, Place)|Conditions]) :-
    !,
    branch(Goal, Place, Reading, State).
condition(elif(Goal), Place, Reading, [branch(open, If)|Conditions], Left) :-
    !,
    Left = [branch(State, If)|Conditions],
    branch(Goal, Place, Reading, State).
condition(elif(_), _, _, [branch(both, If)|Conditions], [branch(both, If)|Conditions]) :- !.
condition(elif(_), _, _, [branch(_, If)|Conditions], [branch(closed, If)|Conditions]) :- !.
condition(else, _, _, [branch(both, If)|Conditions], [branch(both, If)|Conditions]) :- !.
condition(else, _, _, [branch(open, If)|Conditions], [branch(taken, If)|Conditions]) :- !.
condition(else, _, _, [branch(_, If)|Conditions], [branch(closed, If)|Conditions]) :- !.
condition(endif, _, _, [_|Conditions], Conditions) :- !.
condition(_, Place, _, [], []) :-
    leave_out(Place, "no if stands before it", []).

%!  tell_unclosed(+Conditions) is det.
%
%   The text ends while an `if` is open: SWI-Prolog says so too.
tell_unclosed(Conditions) :-
    forall(member(branch(_, Place), Conditions), leave_out(Place, "no endif closes this if", [])).

% A condition that can't be answered leaves open which branch SWI-Prolog reads: both are read.
branch(Goal, Place, Reading, State) :-
    (   answerable(Goal)
    ->  answer(Goal, Reading, Answer)
    ;   Answer = unknown
    ),
    (   Answer == true
    ->  State = taken
    ;   Answer == false
    ->  State = open
    ;   State = both,
        plain_text(Goal, Told),
        leave_out(Place, "condition ~w isn't run, and each branch is read", [Told])
    ).

answerable(Goal) :-
    (   option('no-run')
    ->  plainly_asks(Goal)
    ;   asks(Goal)
    ).
