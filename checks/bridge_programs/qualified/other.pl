:- module(other, [own/0]).
q1.
q2.
q3.
q4(_).
q5(_).
q6(_).
q7(x).
q8.
q9.
q10 :- fail.
q11.
q12 --> [].
q13.
own.
inner:deep.
