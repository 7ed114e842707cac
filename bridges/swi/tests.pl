/** <module> Tests of the bridge's modules

    swipl -g run_tests -t halt tests.pl
*/

:- module(bridge_tests, []).

:- use_module(library(apply)).
:- use_module(library(lists)).
:- use_module(library(plunit)).
:- use_module(bridge/asking).
:- use_module(bridge/conditions).
:- use_module(bridge/goals).
:- use_module(bridge/headers).
:- use_module(bridge/names).
:- use_module(bridge/places).
:- use_module(bridge/profile).
:- use_module(bridge/selections).
:- use_module(bridge/terms).

:- begin_tests(terms).

test(innermost, Module-Inner == c-p(1)) :- innermost(b:c:p(1), a, Module, Inner).
test(innermost_of_a_variable, Inner == X) :- innermost(m:X, a, m, Inner).
test(head_that_may_be, true) :- maplist(may_define, [p, p(_), m:p(_), {_}, f:g:h]).
test(head_that_may_not_be, true) :-
    forall(member(Head, [_, 3, "s", [a], (a, b), (a :- b), 3:p, !]), \+ may_define(Head)).
test(indicators, all(N/A == [p/0, q/3])) :-
    member(Item, [p/0, q//1, p/q, 3/4, _, p / -1]),
    indicator(Item),
    arity_of(Item, N, A).
test(listed, all(M:I == [a:p/0, b:q/1, b:r/2, c:s/0])) :-
    listed_item((p/0, b:[q/1, r/2], (c:s)/0), a, M, I).
test(listed_in_a_partial_list, all(I == [p/0])) :- listed_item([p/0|_], a, _, I).
test(extended, Goal =@= q(a, _, _)) :- extended(q(a), 2, Goal).
test(extended_by_nothing, Goal == q) :- extended(q, 0, Goal).
test(text_without_names, Text == 'p(_, _, \'A\')') :- plain_text(p(_, _, 'A'), Text).

:- end_tests(terms).

:- begin_tests(places, [setup(note_lines(1, "ab\n\n\tcd\n"))]).

test(lines, all(L-C == [1-1, 1-3, 2-1, 3-1, 3-2, 4-1])) :-
    member(Offset, [0, 2, 3, 4, 5, 8]),
    place_line(at(1, Offset), 1, L, C).
test(backwards, L-C == 1-2) :-
    place_line(at(1, 8), _, _, _),
    place_line(at(1, 1), _, L, C).
test(part_in_brackets, Part == 4-5) :-
    part(2, parentheses_term_position(0, 9, term_position(1, 8, 2, 3, [1-2, 4-5])), Part).
test(no_part, Part == none) :- part(3, term_position(1, 8, 2, 3, [1-2]), Part).
test(starts, Offset == 7) :- starts(parentheses_term_position(6, 9, 7-8), 1, Offset).
test(starts_by_default, Offset == 1) :- starts(none, 1, Offset).

:- end_tests(places).

:- begin_tests(selections).

test(all, Name == p) :- select_items(all, Load, all), takes(Load, p, 0, Name).
test(only, all(N == [p, s])) :-
    select_items([p/0, q/1, r/0 as s], Load, only),
    member(P/A, [p/0, q/0, r/0]),
    takes(Load, P, A, N).
test(only_backwards, Plain == r) :- select_items([r/0 as s], Load, only), brings(Load, s, 0, Plain).
test(except, all(N == [r, t])) :-
    select_items(except([p/0, q//0, s/0 as t]), Load, except),
    member(P/A, [p/0, q/2, r/0, s/0]),
    takes(Load, P, A, N).

:- end_tests(selections).

:- begin_tests(profile).

test(letters, Text == aB_1) :- name_text(aB_1, Text).
test(quoted, Text == '\'it\\\'s \\\\ \\xa\\\'') :- name_text('it\'s \\ \n', Text).
test(pattern, Text == 'p(_,_)') :- pattern(p, 2, Text).
test(json, Text == "\"a\\\"\\\\\\u0009\u00e9\"") :-
    with_output_to(string(Text), ( current_output(Out), put_json_string(`a"\\\t\u00e9`, Out) )).

:- end_tests(profile).

:- begin_tests(asking).

test(asks, true) :-
    maplist(asks, [ true, current_predicate(p/0), ( \+ a = b ; X is 2 ** 3, X > 1 ),
                    m:current_op(_, _, a)
                  ]).
test(does, true) :-
    forall(member(Goal, [_, shell(x), (true, halt), m:assertz(p), call(true), X:true]),
           ( \+ asks(Goal), X = X )).
test(takes_long, true) :-
    forall(member(E, [3 ** 100, 3 ** _, _ ** 3, 1 << 65, ( 9 ** 64 ) ** 64, _ * _]), \+ asks(_ is E)).
test(takes_no_time, true) :- forall(member(E, [3 ** 10, _ * 100 + 7, 1 << 20]), asks(_ is E)).
test(plainly_asks, true) :-
    plainly_asks(current_prolog_flag(a, b)),
    \+ plainly_asks(0 < 3 ** ( 3 ** 20 )),
    \+ plainly_asks(exists_file(a)).

:- end_tests(asking).

:- begin_tests(conditions).

test(skips, true) :- skipping([branch(open, _)]), skipping([branch(closed, _)]).
test(reads, true) :-
    forall(member(Open, [[], [branch(taken, _)], [branch(both, _)]]), \+ skipping(Open)).
test(else_of_a_branch_that_was_read, Left == [branch(closed, p)]) :-
    condition(else, x, r, [branch(taken, p)], Left).
test(else_of_a_condition_without_answer, Left == [branch(both, p)]) :-
    condition(else, x, r, [branch(both, p)], Left).
test(within_a_branch_that_is_left_out, Left = [branch(closed, x), branch(open, p)]) :-
    condition(if(true), x, r, [branch(open, p)], Left).
test(endif, Left == []) :- condition(endif, x, r, [branch(open, p)], Left).

:- end_tests(conditions).

:- begin_tests(goals, [setup(note_lines(1, "x"))]).

called(Parts, Names) :-
    calls_in(Parts, m, at(1, 0), 0, false, Calls),
    findall(M:N/A, member(call(M, N, A, _), Calls), Names).

test(control, Names == [m:a/0, m:b/0, m:c/1, n:d/0]) :-
    called([goal(( a -> \+ b ; c(_), n:d ), none)], Names).
test(nothing, Names == []) :- called([goal(( _, [a], "s", 3, _:x ), none)], Names).
test(closures, Names == [m:maplist/3, m:a/3]) :- called([goal(maplist(a(_), _, _), none)], Names).
test(lambda, Names == [m:foldl/4, m:q/2]) :-
    called([goal(foldl([X, A, B]>>q(X, A-B), _, _, _), none)], Names).
test(lambda_with_free_variables, Names == [m:maplist/2, m:q/1]) :-
    called([goal(maplist({X}/[Y]>>q(X-Y), _), none)], Names).
test(carets, Names == [m:setof/3, n:q/1]) :- called([goal(setof(_, X^(n:q(X)), _), none)], Names).
test(grammar, Names == [m:a/2, m:b/3, m:c/0, m:call/4, m:d/3]) :-
    called([grammar(( a, "x", b(_), { c }, call(d, _) ), none)], Names).
test(format, Names == [m:format/2, m:q/0]) :-
    called([goal(format("~*c~w ~@", [3, 0'x, y, q]), none)], Names).
test(option, Names == [m:thread_create/3, m:a/0, m:b/0]) :-
    called([goal(thread_create(a, _, [alias(c), at_exit(b)]), none)], Names).

:- end_tests(goals).

:- begin_tests(headers).

test(export, true) :-
    absolute_file_name(library(lists), Path, [file_type(prolog), access(read)]),
    library_export(Path, append, 3, Path),
    \+ library_export(Path, no_such_name, 3, _).
test(modes, Modes = foldl(3, _, _, _)) :-
    absolute_file_name(library(apply), Path, [file_type(prolog), access(read)]),
    library_modes(Path, foldl, 4, Modes).
test(system, true) :- of_system(findall, 3), \+ of_system(foldl, 4), autoloaded(foldl, 4, _).

:- end_tests(headers).
