/** <module> Bounds of memory, whatever a program holds

SWI-Prolog bounds its stacks but not what it keeps of a program, so the bridge looks at that itself.
*/

:- module(bridge_limits,
          [ count_step/0,
            check_memory/0
          ]).

%!  count_step is det.
%
%   Looks at the memory in use once in a thousand steps.
count_step :-
    flag(bridge_steps, Steps, Steps + 1),
    (   Steps mod 1000 =:= 0
    ->  check_memory
    ;   true
    ).

%!  check_memory is det.
%
%   Throws a resource error if the process has more memory than it may. Where the system doesn't
%   tell, nothing is bounded.
check_memory :-
    (   catch(resident(Kilobytes), _, fail),
        most(Most),
        Kilobytes > Most
    ->  throw(error(resource_error(memory), _))
    ;   true
    ).

resident(Kilobytes) :-
    setup_call_cleanup(
        open('/proc/self/statm', read, Stream),
        read_string(Stream, 100, Line),
        close(Stream)),
    split_string(Line, " ", " \n", [_, Pages|_]),
    number_string(Count, Pages),
    Kilobytes is Count * 4.

most(Most) :-
    (   getenv('BRIDGE_KILOBYTES', Text),
        atom_number(Text, Number),
        integer(Number)
    ->  Most = Number
    ;   Most = 1000000
    ).
