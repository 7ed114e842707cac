% Conditions within conditions, chains of them, and what they may ask.
:- module(main, [main/0]).

:- if(current_prolog_flag(bounded, false)).
main :- one, five, eight, ten, eleven, twelve.
:- else.
main :- wrong.
:- endif.

:- if(fail).
one :- wrong.
:- elif(current_prolog_flag(no_such_flag, _)).
one :- wrong.
:- elif(true).
:- if(\+ catch(current_op(_, xfx, is), _, fail)).
one :- wrong.
:- else.
one :- two.
:- endif.
:- elif(true).
one :- wrong.
:- else.
one :- wrong.
:- endif.

:- if(current_predicate(one/0)).
two :- three.
:- else.
two :- wrong.
:- endif.

:- if(( prolog_load_context(dialect, swi), \+ current_predicate(five/0) )).
three :- four.
:- endif.
four.

:- if(current_predicate(main:one/0)).
five :- six.
:- endif.
:- if(exists_source(library(lists))).
six :- seven.
:- else.
six :- wrong.
:- endif.
seven.

:- if(( current_prolog_flag(version, V), V >= 70000 )).
eight :- nine.
:- else.
eight :- wrong.
:- endif.
nine.

:- op(700, xfx, ===>).
:- if(( current_op(700, _, ===>), current_module(main) )).
eleven.
:- else.
eleven :- wrong.
:- endif.

:- if(current_prolog_flag(autoload, true)).
twelve.
:- else.
twelve :- wrong.
:- endif.

:- if(predicate_property(nine, dynamic)).
ten :- wrong.
:- elif(predicate_property(main:nine, defined)).
ten.
:- endif.
wrong.
