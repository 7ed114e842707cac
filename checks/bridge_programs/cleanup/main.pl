% Goals that are run under a limit, a lock or an output, and those that tidy up.
:- module(main, [main/0]).

main :-
    setup_call_cleanup(a1, a2, a3), call_cleanup(a4, a5),
    with_output_to(string(_), a6), call_with_depth_limit(a7, 10, _), call_with_inference_limit(a8, 1000, _),
    with_mutex(m, a9), call_with_time_limit(10, a10), thread_self(T), thread_send_message(T, x), a11,
    notrace(a12), call_time(a13, _), snapshot(a14), transaction(a15),
    format(atom(_), "~w ~@ ~`-t~*c~@", [x, a16, 2, 0'y, a17]), prolog_cut_to_safe,
    catch(call_with_depth_limit(a18, 10, _), _, true), reset(a19, _, _), tnot_free.

prolog_cut_to_safe :- format("~a", ['']), a20(_).
tnot_free :- prolog_current_frame(_).
a1.
a2.
a3.
a4.
a5.
a6.
a7.
a8.
a9.
a10.
a11.
a12.
a13.
a14.
a15.
a16.
a17.
a18.
a19.
a20(_).
% SWI-Prolog hides these two from its debugger.
%+ main:main/0 main:a12/0
%+ main:main/0 main:a14/0
