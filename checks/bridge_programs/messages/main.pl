% Hooks of the system, for messages and for what is printed.
:- module(main, [main/0]).
:- multifile prolog:message//1, user:portray/1, user:message_hook/3.
:- dynamic user:portray/1, user:message_hook/3.

main :-
    message_to_codes,
    print_message(silent, main(x)),
    with_output_to(string(_), print(point(1, 2))).

message_to_codes :- message(x).
message(_).
prolog:message(main(X)) --> text(X).
text(X) --> [ '~w'-[X] ].
user:portray(point(X, Y)) :- draw(X, Y).
draw(_, _) :- write(point).
user:message_hook(main(_), silent, _) :- seen, fail.
seen.
% SWI-Prolog calls these two where its debugger doesn't look.
%+ user:portray/1 main:draw/2
%+ user:message_hook/3 main:seen/0
