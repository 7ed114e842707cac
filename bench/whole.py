#!/usr/bin/env python3
"""Times whole runs of `groups` on generated programs, compared with a C++ program that reads only such texts, and SWI-Prolog's `read_term/2`.

The C++ program (`floor.cpp`) writes the same report, and its bytes are compared; SWI-Prolog reads the clauses and finds no groups. The last family is text
as people write it: several clauses a predicate, with arguments, lists, strings and sums. The C++ program can't read it, so there are no factors. Needs `g++`,
`swipl` and `rt`, or the built program. Prints a table: the best of five runs of each, in seconds, and the most memory that one held, in MB. With `--keep FOLDER`
the texts stay there.
"""

import random
import subprocess
import sys

from common import MOST_BYTES, ROOT, RUNS, folders

GROUPS = ROOT / "groups"

SWI = """
:- initialization(main, main).

main(Files) :-
    forall(member(File, Files),
           setup_call_cleanup(open(File, read, In), pass(In), close(In))).

pass(In) :-
    repeat,
    read_term(In, Term, []),
    Term == end_of_file,
    !.
"""


def blocks(count):
    """Rings of ten, each but the first calling one before it."""
    calls = []
    for i in range(count):
        calls.append([i - 9] if i % 10 == 9 else [i + 1] if i + 1 < count else [])
        if i % 10 == 0 and i >= 10:
            calls[i].append(10 * ((i // 10 - 1) // 2))
    return calls


def anywhere(count):
    """One to eight calls to any predicate: one giant group and single ones."""
    source = random.Random(7)
    return [[source.randrange(count) for _ in range(source.randint(1, 8))] for _ in range(count)]


def nearby(count):
    """Most calls go a short way on and few go back, as in programs that people write: groups of all sizes."""
    source = random.Random(11)

    def callee(i):
        if source.random() < 0.04:
            return max(0, i - source.randint(0, 20))
        if source.random() < 0.10:
            return source.randrange(i, count)
        return min(count - 1, i + source.randint(1, 60))

    return [[callee(i) for _ in range(source.randint(0, 5))] for i in range(count)]


def wide(count):
    """Two steps of fan-out: no group is recursive, and bodies are long."""
    width = int(count**0.5)
    return [[width * i + k + 1 for k in range(width) if width * i + k + 1 < count] if i <= width else [] for i in range(count)]


def deep(count):
    """A chain that ends in a ring, each of half of the predicates."""
    return [[i + 1] if i + 1 < count else [count // 2] for i in range(count)]


# How many predicates, what they call, and over how many files they are spread.
FAMILIES = {
    "blocks of ten": (100_000, blocks, 1),
    "anywhere": (200_000, anywhere, 1),
    "nearby": (200_000, nearby, 1),
    "wide": (200_000, wide, 1),
    "deep": (200_000, deep, 1),
    "nearby, 64 files": (200_000, nearby, 64),
    "nearby, 1,024 files": (200_000, nearby, 1_024),
}


def spelled(number):
    """The name of a predicate, with its number to the base 36, so that each text stays below the limit of a file."""
    digits = ""
    while number or not digits:
        digits = "0123456789abcdefghijklmnopqrstuvwxyz"[number % 36] + digits
        number //= 36
    return "p" + digits


def written(folder, calls, count):
    """The names of the files over which the clauses are spread."""
    words = [spelled(number) for number in range(len(calls))]
    lines = [f"{words[i]}{' :- ' if goals else ''}{', '.join(words[goal] for goal in goals)}.\n" for i, goals in enumerate(calls)]
    step = -(-len(lines) // count)
    names = []
    for number in range(count):
        names.append(f"f{number:04}.pl")
        (folder / names[-1]).write_text("".join(lines[number * step : (number + 1) * step]))
    return names


def spoken(count):
    """Predicates of one to four clauses with two to four arguments, until the text is as large as a file may be."""
    source, parts, size, number = random.Random(13), [], 0, 0
    terms = ["[]", "[X|Xs]", "[X, Y|Zs]", "f(X, Y)", "pair(K-V, Rest)", "'a quoted name'", '"a string of text"', "0'c", "42", "-1", "3.14", "X", "Acc", "State"]
    goals = ["Y is X * 2 + 1", "X > 0", "length(Xs, N)", "\\+ member(X, Xs)", "format(\"~w: ~a~n\", [X, Y])", "( X == Y -> true ; fail )", "findall(Z, member(Z, Xs), Zs)", "atom(X)"]
    while True:
        clauses = []
        for _ in range(source.randint(1, 4)):
            body = [source.choice(goals) for _ in range(source.randint(0, 2))]
            for _ in range(source.randint(0, 2)):
                callee = max(0, number + source.randint(-20, 60))
                body.append(f"do_step_{callee}({', '.join(source.choice(terms) for _ in range(2 + callee % 3))})")
            head = f"do_step_{number}({', '.join(source.choice(terms) for _ in range(2 + number % 3))})"
            clauses.append(f"{head} :-\n    " + ",\n    ".join(body) + ".\n" if body else f"{head}.\n")
        text = "% What the step does, in a line.\n" + "".join(clauses) + "\n"
        if size + len(text) > count:
            return "".join(parts)
        parts.append(text)
        size += len(text)
        number += 1


# Starts a program from a small process, since the peak of a child counts what its parent held when it began it.
MEASURED = """
import os, subprocess, sys, time

begun = time.monotonic()
child = subprocess.Popen(sys.argv[1:], stdin=subprocess.DEVNULL)
_, status, used = os.wait4(child.pid, 0)
print(time.monotonic() - begun, used.ru_maxrss / 1024, os.waitstatus_to_exitcode(status), file=sys.stderr)
"""


def once(words, folder):
    """The seconds and the most MB of a run, and what it wrote."""
    with (folder / "written").open("wb") as out:
        run = subprocess.run([sys.executable, "-c", MEASURED, *words], cwd=folder, stdout=out, stderr=subprocess.PIPE, text=True, check=True)
    took, most, status = run.stderr.split()[-3:]
    if status != "0":
        sys.exit(f"{words[0]} ended with status {status}: {run.stderr}")
    return float(took), float(most), (folder / "written").read_bytes()


def best(words, folder):
    found = [once(words, folder) for _ in range(RUNS)]
    return min(took for took, _, _ in found), max(most for _, most, _ in found), found[-1][2]


def main():
    with folders(__doc__) as (folder, texts):
        floor = folder / "floor"
        subprocess.run(["g++", "-O3", "-std=c++17", "-o", floor, ROOT / "bench" / "floor.cpp"], check=True)
        script = folder / "read.pl"
        script.write_text(SWI)
        print(f"{'family':<22}{'calls':>9}{'MB of text':>12}{'floor s':>10}{'groups s':>10}{'factor':>8}{'SWI s':>8}{'floor MB':>10}{'groups MB':>11}{'factor':>8}")
        for name, (count, shape, spread) in FAMILIES.items():
            calls = shape(count)
            names = written(texts, calls, spread)
            size = sum((texts / name).stat().st_size for name in names)
            least, floor_mb, right = best([floor, *names], texts)
            took, mb, answer = best([GROUPS, *names], texts)
            if answer != right:
                sys.exit(f"{name}: the reports differ")
            theirs, _, _ = best(["swipl", script, "--", *names], texts)
            print(
                f"{name:<22}{sum(map(len, calls)):>9}{size / 1e6:>12.1f}{least:>10.3f}{took:>10.3f}{took / least:>8.2f}{theirs:>8.2f}"
                f"{floor_mb:>10.1f}{mb:>11.1f}{mb / floor_mb:>8.2f}",
                flush=True,
            )
        text = spoken(MOST_BYTES)
        (texts / "spoken.pl").write_text(text)
        took, mb, answer = best([GROUPS, "spoken.pl"], texts)
        theirs, _, _ = best(["swipl", script, "--", "spoken.pl"], texts)
        calls = text.count("    do_step_")
        print(f"{'as people write':<22}{calls:>9}{len(text) / 1e6:>12.1f}{'':>10}{took:>10.3f}{'':>8}{theirs:>8.2f}{'':>10}{mb:>11.1f}")


if __name__ == "__main__":
    main()
