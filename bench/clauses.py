#!/usr/bin/env python3
"""Times `read_clause` and `read_text` beside SWI-Prolog's `read_term/2`, and a whole run of `groups`, on the same generated text of 8 MiB.

Needs `rt` and `swipl`. Prints a table: the best of five runs of each, in milliseconds and in
nanoseconds a token. `read_text` and `groups` use all processors, the others one. With `--keep FOLDER` the text stays there.
"""

import os
import subprocess
import sys
import time

from common import ROOT, RUNS, best, built, filled, folders, runs

# Reads all terms of a file, and writes their number and the seconds of processor time.
SWI = """
:- initialization(main, main).

main([File]) :-
    setup_call_cleanup(open(File, read, In), timed(In), close(In)).

timed(In) :-
    statistics(cputime, Begun),
    count(In, 0, Count),
    statistics(cputime, Ended),
    Took is Ended - Begun,
    format("~w ~w~n", [Count, Took]).

count(In, Before, Count) :-
    read_term(In, Term, []),
    ( Term == end_of_file
    -> Count = Before
    ;  More is Before + 1,
       count(In, More, Count)
    ).
"""


def clauses(number):
    """Facts and rules with operators, lists, calls, strings and variables."""
    return (
        f":- dynamic price_{number}/3.\n"
        f"price_{number}(bread, \"a loaf\", {number}-eur).\n"
        f"price_{number}('Old cheese', \"half a pound\", [{number}.5, -1, 0'x]).\n"
        f"route_{number}(From, To, [From|Path], Cost) :-\n"
        f"    edge(From, Next, Step), Next \\== To, \\+ member(Next, [From, To]),\n"
        f"    (  Step >= {number} * 2 + 1 -> Cost is Step * (Step - 1) // 2\n"
        f"    ;  Cost = max(Step, {number % 9}), format(\"step ~w of ~w~n\", [Step, To])\n"
        f"    ),\n"
        f"    route_{number + 1}(Next, To, Path, Rest), Rest = Cost : Step.\n"
        f"sum_{number}([], Sum, Sum).\n"
        f"sum_{number}([X|Xs], Before, Sum) :- Then is Before + X, sum_{number}(Xs, Then, Sum).\n\n"
    )


def swi(script, path):
    """The least milliseconds of SWI-Prolog, and its number of terms."""
    found = [out for out, _ in runs("swipl", script, "--", path)]
    return min(float(took) for _, took in found) * 1000, int(found[-1][0])


def whole_run(path):
    """The least milliseconds of a whole run of `groups`."""
    took = []
    for _ in range(RUNS):
        begun = time.perf_counter()
        subprocess.run([ROOT / "groups", path], check=True, stdout=subprocess.DEVNULL)
        took.append(time.perf_counter() - begun)
    return min(took) * 1000


def main():
    with folders(__doc__) as (folder, texts):
        program = built("clauses", "data/f.pl")
        script = folder / "read.pl"
        script.write_text(SWI)
        path = texts / "clauses.pl"
        path.write_text(filled(clauses))
        cut, tokens = best(program, "tokens", path)
        read, count = best(program, "clauses", path)
        whole, kept = best(program, "text", path)
        run = whole_run(path)
        theirs, also = swi(script, path)
        if not count == kept == also:
            sys.exit(f"{count} clauses one by one and {kept} in the text, but SWI-Prolog finds {also}")
        size = path.stat().st_size
        print(f"{size} bytes, {tokens} tokens, {count} clauses; {os.cpu_count()} processors")
        print(f"{'':<20}{'ms':>8}{'ns/token':>10}{'MB/s':>7}")
        for name, took in [("tokens", cut), ("read_clause", read), ("both", cut + read), ("read_text", whole), ("groups", run), ("SWI read_term/2", theirs)]:
            print(f"{name:<20}{took:>8.1f}{took * 1_000_000 / tokens:>10.1f}{size / took / 1000:>7.1f}")
        print(f"A whole run takes {run / (cut + read):.2f} times as long as both, SWI-Prolog's reading {theirs / (cut + read):.2f} times")


if __name__ == "__main__":
    main()
