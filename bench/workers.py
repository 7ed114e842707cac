#!/usr/bin/env python3
"""Times workers that search one graph in parallel, each in a thread of its own, and compares them with one search.

Needs `rt`, and `strace` and `valgrind` for the counts. Prints three tables.

The first has times in milliseconds, each the best of five runs: of one plain search, and of 1, 2, 4 and 8
workers. In the rows of cost 0 a node is expanded by a copy of its list. There one worker goes on alone while
the others hold back, so the columns are what its claims and turns cost, and what it costs to look at it. In
the other rows it takes about two or twenty microseconds of arithmetic to expand a node, as it does if its
calls must first be found. There the others begin too, and the columns are what they gain. The plain search
expands nodes at the same cost. `one`, `two` and `four` are the times of 1, 2 and 4 workers over that of the
plain search.

The second has counts, each of one run under `strace` on 250 times fewer nodes, since `strace` slows what it
counts. For each number of workers it has how often a thread slept (until the turn was given back, because it
found nothing to do, or because it held back), how often one was woken, how often one let others go on, and
all system calls. A turn that is given back while nobody sleeps makes none.

The third has how often the turn was taken, and the millions of instructions of all threads. These include
the making of the graph. Each is of one run under `valgrind`, which lets one thread run at a time, on 250
times fewer nodes too.

It stops if two numbers of groups differ. Once the program is built it takes about five minutes, and at most
ten. A run that is counted is cut off after twenty seconds, and its row then has dashes.
"""

import re
import shutil
import subprocess
import sys
import tempfile

from common import best, built

# A round is a shift, a multiplication and two more steps, each of which waits for the one before: about two nanoseconds.
TWO_MICROS = 1_000
TWENTY_MICROS = 10_000
GRAPHS = [
    ("blocks", 1_000_000, 0),
    ("ring", 1_000_000, 0),
    ("chain", 1_000_000, 0),
    ("random", 200_000, 0),
    ("blocks", 200_000, TWO_MICROS),
    ("random", 100_000, TWO_MICROS),
    ("blocks", 50_000, TWENTY_MICROS),
    ("random", 20_000, TWENTY_MICROS),
]
JOBS = [1, 2, 4, 8]
# Under `strace` and under `valgrind` a graph has so many times fewer nodes.
FEWER = 250
MOST_SECONDS = 20.0


def ran(*words):
    """What the run said on its errors, or None where it was cut off."""
    try:
        return subprocess.run(words, check=True, capture_output=True, text=True, timeout=MOST_SECONDS).stderr
    except subprocess.TimeoutExpired:
        return None


def counted(*words):
    """Of one run under `strace`: how often threads slept, were woken and let others go on, and all system calls."""
    with tempfile.NamedTemporaryFile("r") as log:
        if ran("strace", "-f", "-qq", "-o", log.name, *words) is None:
            return ("-", "-", "-", "-")
        lines = log.read().splitlines()
    calls = [line for line in lines if "resumed>" not in line]
    return (
        sum("FUTEX_WAIT" in call for call in calls),
        sum("FUTEX_WAKE" in call for call in calls),
        sum("sched_yield(" in call for call in calls),
        len(calls),
    )


def turns(*words):
    """Of one run under `valgrind`, one thread at a time: how often the turn was taken, and the millions of instructions of all threads."""
    with tempfile.NamedTemporaryFile("r") as log:
        tool = ["valgrind", "--tool=callgrind", f"--callgrind-out-file={log.name}"]
        told = ran(*tool, *words)
        if told is None:
            return "-", "-"
        names, called, count = {}, "", 0
        for line in log:
            if named := re.match(r"(c?)fn=\((\d+)\)(?: (.*))?", line):
                is_call, number, name = named.groups()
                names[number] = name or names[number]
                called = names[number] if is_call else called
            elif (calls := re.match(r"calls=(\d+)", line)) and "Claims::take" in called:
                count += int(calls[1])
    collected = int(re.search(r"Collected : (\d+)", told)[1])
    return count, f"{collected / 1_000_000:.1f}"


def show_times(program):
    heads = "".join(f"{f'{jobs} at once':>12}" for jobs in JOBS)
    print(f"{'graph':<8}{'nodes':>10}{'cost':>7}{'groups':>10}{'search':>10}{heads}{'one':>7}{'two':>7}{'four':>7}")
    for shape, count, cost in GRAPHS:
        plain, groups = best(program, "search", shape, str(count), str(cost))
        times = []
        for jobs in JOBS:
            took, also = best(program, "workers", shape, str(count), str(jobs), str(cost))
            if groups != also:
                sys.exit(f"{shape}: {groups} groups, but {jobs} workers find {also}")
            times.append(took)
        columns = "".join(f"{took:>12.1f}" for took in times)
        ratios = "".join(f"{took / plain:>7.2f}" for took in times[:3])
        print(f"{shape:<8}{count:>10}{cost:>7}{groups:>10}{plain:>10.1f}{columns}{ratios}", flush=True)


def show_counts(program):
    print(f"{'graph':<8}{'nodes':>10}{'cost':>7}{'at once':>9}{'slept':>10}{'woken':>10}{'yielded':>10}{'system calls':>14}")
    for shape, count, cost in GRAPHS:
        for jobs in JOBS:
            fewer = str(count // FEWER)
            slept, woken, yielded, calls = counted(program, "workers", shape, fewer, str(jobs), str(cost))
            print(f"{shape:<8}{fewer:>10}{cost:>7}{jobs:>9}{slept:>10}{woken:>10}{yielded:>10}{calls:>14}", flush=True)


def show_turns(program):
    print(f"{'graph':<8}{'nodes':>10}{'at once':>9}{'turns':>10}{'instructions':>14}")
    for shape, count, cost in GRAPHS:
        if cost > 0:
            continue
        fewer = str(count // FEWER)
        print(f"{shape:<8}{fewer:>10}{'plain':>9}{'':>10}{turns(program, 'search', shape, fewer, '0')[1]:>14}", flush=True)
        for jobs in JOBS:
            taken, instructions = turns(program, "workers", shape, fewer, str(jobs), "0")
            print(f"{shape:<8}{fewer:>10}{jobs:>9}{taken:>10}{instructions:>14}", flush=True)


def main():
    program = built("search", "ring", "3")
    show_times(program)
    if shutil.which("strace"):
        print()
        show_counts(program)
    if shutil.which("valgrind"):
        print()
        show_turns(program)


if __name__ == "__main__":
    main()
