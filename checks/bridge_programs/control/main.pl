% Control constructs, written and called.
:- module(main, [main/0]).

main :-
    ( c1 -> c2 ; c3 ), ( c4 *-> c5 ; c6 ), ( \+ c7 ; true ), ( fail ; c8 ), ( fail | c9 ),
    once(c10), ignore(c11), not(c7), call(c12), call((c13, c14 ; c3)), call(c15, x), call(c16(x), y),
    catch(c17, _, true), catch(throw(x), _, c18), catch_with_backtrace(c19, _, true),
    forall(c20, c21), apply(c22, [x]), findall(x, ( c23, c24 ), _),
    ( c7 -> true ; c7 *-> true ; c3 ), c6,
    G = c25, call(G).

c1.
c2.
c3.
c4.
c5.
c6.
c7 :- fail.
c8.
c9.
c10.
c11.
c12.
c13.
c14.
c15(_).
c16(_, _).
c17.
c18.
c19.
c20.
c21.
c22(_).
c23.
c24.
c25.
% Nothing that the text says tells what G is.
%- main:main/0 main:c25/0
