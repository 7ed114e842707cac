#!/usr/bin/env python3
"""Runs `groups` with many workers, whose answers must be those of one worker.

With `--jobs N` one worker begins, and the others hold back as long as predicates are expanded cheaply. With
`--order --stream` all search from the start. So each run is made both ways: without a stream the report has
to be that of one worker, byte for byte; in a stream its lines may come in another order.

- Random small graphs, some to a file, with 2, 3 and 8 workers. The report of one worker has as many groups as
  there are classes of mutual reach, which are counted here.
- Hard shapes with 64 workers: a ring of 100,000 predicates, from one root and from all; 200,000 predicates that
  call nothing, each a root; rings of fewer predicates than workers. Eight searches that take turns find the same.
- Half a million predicates, a ring and as many that call nothing, with 4 and 64 workers.

Each run has to end in time. Ends with status 1 if an answer is wrong. `--graphs N` and `--runs N` say how many
graphs there are, and how many runs of hard shapes with and without a stream.
"""

import argparse
import pathlib
import random
import subprocess
import sys
import tempfile
import time

import program

GRAPHS = 10_000
GRAPHS_IN_A_FILE = 20
RUNS = 1_000
JOBS = (1, 2, 3, 8)
MOST_JOBS = 64
MANY_PREDICATES = 530_000
MANY_JOBS = (4, 64)
MOST_SECONDS = 30.0

chosen = []
wrong = []


def run(folder, jobs, *options):
    """The report on the file with so many workers, or by what the options say, or None where the run ends wrong or too late."""
    words = [chosen[0], *options, *(["--jobs", str(jobs)] if jobs else []), "f.pl"]
    try:
        done = subprocess.run(words, cwd=folder, capture_output=True, timeout=MOST_SECONDS)
    except subprocess.TimeoutExpired:
        wrong.append(f"{jobs or options} jobs: no answer in {MOST_SECONDS:.0f} s")
        return None
    if done.returncode != 0 or done.stderr:
        wrong.append(f"{jobs or options} jobs: status {done.returncode}, {done.stderr[:80]!r}")
        return None
    return done.stdout


def spelled(number):
    """The name of a predicate, with its number to the base 36, so that a file has room for many."""
    digits = ""
    while number or not digits:
        digits = "0123456789abcdefghijklmnopqrstuvwxyz"[number % 36] + digits
        number //= 36
    return "p" + digits


def write(folder, calls, roots):
    """A module of these calls that exports the roots, or a file that is no module where all are roots."""
    words = [spelled(i) for i in range(len(calls))]
    lines = []
    if roots is not None:
        lines.append(":- module(m, [" + ", ".join(f"{words[i]}/0" for i in roots) + "]).\n")
    for word, callees in zip(words, calls):
        body = ",".join(words[callee] for callee in callees)
        lines.append(f"{word}:-{body}.\n" if body else f"{word}.\n")
    (folder / "f.pl").write_text("".join(lines))


def small_graph(source, first):
    """A graph of one to twelve predicates, the first of which has this number, and some of them as roots."""
    count = source.randint(1, 12)
    most = source.choice((1, 2, 4))
    calls = [[first + source.randrange(count) for _ in range(source.randint(0, most))] for _ in range(count)]
    return calls, [first + i for i in range(count) if source.random() < 0.4]


def reach(calls, starts):
    met = set(starts)
    left = list(met)
    while left:
        for callee in calls[left.pop()]:
            if callee not in met:
                met.add(callee)
                left.append(callee)
    return met


def class_count(calls, roots):
    """How many classes of mutual reach there are in what the roots reach."""
    reached = {i: reach(calls, [i]) for i in reach(calls, roots)}
    return len({frozenset(q for q in reached[p] if p in reached[q]) for p in reached})


def group_count(report):
    """The number behind the word `groups` in the first line of a report."""
    words = report.split(b"\n", 1)[0].split()
    return int(words[3])


def differ(name, report, expected):
    """Notes where a report isn't the one that was expected."""
    if report is not None and report != expected:
        wrong.append(f"{name}: another report, of {len(report)} bytes for {len(expected)}")


def differ_in_lines(name, report, expected):
    """Notes where a report has other lines than one was expected to have, whatever their order."""
    if report is not None and sorted(report.splitlines()) != sorted(expected.splitlines()):
        wrong.append(f"{name}, in a stream: other lines")


def differ_both_ways(name, folder, jobs, expected):
    """Notes if so many workers report anything else than was expected, without a stream or in one."""
    differ(name, run(folder, jobs), expected)
    differ_in_lines(name, run(folder, jobs, "--order", "--stream"), expected)


def small_graphs(folder, count):
    source = random.Random(13)
    for begun in range(0, count, GRAPHS_IN_A_FILE):
        calls, roots = [], []
        for _ in range(min(GRAPHS_IN_A_FILE, count - begun)):
            more_calls, more_roots = small_graph(source, len(calls))
            calls += more_calls
            roots += more_roots
        all_roots = source.random() < 0.3
        source.shuffle(roots)
        write(folder, calls, None if all_roots else roots)
        expected = run(folder, JOBS[0])
        if expected is None:
            continue
        classes = class_count(calls, range(len(calls)) if all_roots else roots)
        if group_count(expected) != classes:
            wrong.append(f"graphs from {begun} on: {group_count(expected)} groups for {classes} classes")
        for jobs in JOBS[1:]:
            differ_both_ways(f"graphs from {begun} on, {jobs} jobs", folder, jobs, expected)


def ring(count):
    return [[(i + 1) % count] for i in range(count)]


def hard_shapes(count):
    """What the shapes are, with their calls, roots and number of groups, and how many runs each gets."""
    few = max(1, count // 20)
    yield "a ring, from one root", ring(100_000), [0], 1, few
    yield "a ring, from all", ring(100_000), None, 1, few
    yield "roots alone", [[] for _ in range(200_000)], None, 200_000, few
    for nodes in (1, 2, 3, 7, 30):
        yield f"a ring of {nodes}", ring(nodes), None, 1, max(1, (count - 3 * few) // 5)


def hard_runs(folder, count):
    for name, calls, roots, groups, times in hard_shapes(count):
        write(folder, calls, roots)
        begun = time.monotonic()
        expected = run(folder, 1)
        if expected is None:
            continue
        if group_count(expected) != groups:
            wrong.append(f"{name}: {group_count(expected)} groups for {groups}")
        differ(f"{name}, eight searches", run(folder, None, "--searches", "8", "--seed", "1"), expected)
        for _ in range(times):
            differ_both_ways(name, folder, MOST_JOBS, expected)
        print(f"{name}: {times} runs each way in {time.monotonic() - begun:.1f} s", flush=True)


def many_runs(folder, times):
    """Runs over half a million predicates, from all of them."""
    for name, calls, groups in (
        ("a ring of many", ring(MANY_PREDICATES), 1),
        ("many alone", [[] for _ in range(MANY_PREDICATES)], MANY_PREDICATES),
    ):
        write(folder, calls, None)
        begun = time.monotonic()
        expected = run(folder, 1)
        if expected is None:
            continue
        if group_count(expected) != groups:
            wrong.append(f"{name}: {group_count(expected)} groups for {groups}")
        for jobs in MANY_JOBS:
            for _ in range(times):
                differ_both_ways(f"{name}, {jobs} jobs", folder, jobs, expected)
        print(f"{name}: {len(MANY_JOBS) * times} runs each way in {time.monotonic() - begun:.1f} s", flush=True)


def main():
    parser = argparse.ArgumentParser(description=__doc__.split("\n", 1)[0])
    parser.add_argument("--graphs", type=int, default=GRAPHS)
    parser.add_argument("--runs", type=int, default=RUNS)
    program.add_option(parser)
    options = parser.parse_args()
    chosen[:] = [program.of(options)]
    with tempfile.TemporaryDirectory() as name:
        folder = pathlib.Path(name)
        begun = time.monotonic()
        small_graphs(folder, options.graphs)
        print(f"{options.graphs} graphs in {time.monotonic() - begun:.1f} s", flush=True)
        hard_runs(folder, options.runs)
        many_runs(folder, max(1, options.runs // 200))
    for line in wrong[:20]:
        print(line)
    print(f"{len(wrong)} wrong answers")
    sys.exit(1 if wrong else 0)


if __name__ == "__main__":
    main()
