#!/usr/bin/env python3
"""Runs the built programs on the largest programs that they take, with each option, and on the next larger ones.

A private limit of one of its parts, below the ones of docs/report.md, would show here: 1,048,576 predicates in two files with one worker, with many, with
searches that take turns, with a stream, with what comes after the report; 1,024 files; a group, and a path, of a million predicates. `calls` lists the same
programs, and calls with long names. Ends with status 1 if an answer is wrong; prints the seconds and the most memory of each run.
"""

import argparse
import os
import pathlib
import resource
import subprocess
import sys
import tempfile
import time

import program

MOST = 1_048_576
MOST_FILES = 1_024
WAYS = ([], ["--jobs", "4"], ["--jobs", "64"], ["--searches", "3", "--seed", "1"], ["--searches", "64", "--seed", "1"])

chosen = []
wrong = []


def run(folder, *words, tool=None):
    begun = time.monotonic()
    with tempfile.TemporaryFile() as out, tempfile.TemporaryFile() as err:
        process = subprocess.Popen([tool or chosen[0], *words], cwd=folder, stdout=out, stderr=err)
        _, status, used = os.wait4(process.pid, 0)
        process.returncode = os.waitstatus_to_exitcode(status)
        took = time.monotonic() - begun
        # A new process begins with the memory of the one that starts it, so less than that can't be told.
        own = resource.getrusage(resource.RUSAGE_SELF).ru_maxrss
        most = f"{used.ru_maxrss >> 10:5} MB" if used.ru_maxrss > own else " " * 8
        print(f"  {took:6.2f} s, {used.ru_utime + used.ru_stime:6.2f} of processors, {most}: {pathlib.Path(tool or chosen[0]).name} {' '.join(words)[:90]}", flush=True)
        out.seek(0)
        err.seek(0)
        return process.returncode, out.read(), err.read()


def expect(what, found, answer):
    if found != answer:
        wrong.append(f"{what}: status {found[0]}, {len(found[1])} bytes, {found[2][:80]!r}")


def head(predicates, groups, recursive, levels):
    return f"predicates {predicates} groups {groups} recursive {recursive} levels {levels}\n"


def facts(folder):
    """As many facts as a program may have, and one more."""
    half = MOST // 2
    for at in range(2):
        (folder / f"f{at}.pl").write_text("".join(f"p{number}.\n" for number in range(at * half, (at + 1) * half)))
    (folder / "g.pl").write_text("q.\n")
    print(f"{MOST} facts in two files")
    names = sorted(f"user:p{number}/0" for number in range(MOST))
    report = (head(MOST, MOST, 0, 1) + "".join(f"0 plain {name}\n" for name in names)).encode()
    for way in WAYS:
        expect(f"facts {way}", run(folder, *way, "f0.pl", "f1.pl"), (0, report, b""))
    expect("facts, with all that stands beside", run(folder, "--effects", "--loops", "--unreached", "f0.pl", "f1.pl"), (0, report, b""))
    path = f"p0/0,p{MOST - 1}/0"
    told = report + f"no-path user:p0/0 user:p{MOST - 1}/0\n".encode()
    expect("facts, with a path", run(folder, "--path", path, "f0.pl", "f1.pl"), (0, told, b""))
    some = (head(2, 2, 0, 1) + f"0 plain user:p0/0\n0 plain user:p{MOST - 1}/0\n").encode()
    others = "".join(f"unreached {name}\n" for name in names if name not in ("user:p0/0", f"user:p{MOST - 1}/0")).encode()
    expect("facts, from two roots", run(folder, "--roots", path, "--unreached", "f0.pl", "f1.pl"), (0, some + others, b""))
    status, out, err = run(folder, "--order", "--stream", "--jobs", "4", "f0.pl", "f1.pl")
    expect("facts, streamed", (status, b"".join(sorted(out.splitlines(True))), err), (0, b"".join(sorted(report.splitlines(True))), b""))
    expect("one fact more", run(folder, "f0.pl", "f1.pl", "g.pl"), (6, b"", f"groups: more than {MOST} predicates\n".encode()))


def one_group(folder):
    """A ring of as many predicates, whose circuit and whose path are as long."""
    size = 1_000_000
    files = [f"r{at}.pl" for at in range(4)]
    for at, file in enumerate(files):
        lines = (f"p{number} :- p{(number + 1) % size}.\n" for number in range(at * size // 4, (at + 1) * size // 4))
        (folder / file).write_text("".join(lines))
    print(f"a ring of {size}")
    names = sorted(f"user:p{number}/0" for number in range(size))
    report = (head(size, 1, 1, 1) + "0 recursive " + " ".join(names) + "\n").encode()
    for way in WAYS:
        expect(f"a ring {way}", run(folder, *way, *files), (0, report, b""))
    status, out, err = run(folder, "--loops", "--path", "p0/0,p999999/0", *files)
    lines = out.decode().splitlines()
    if (status, err) != (0, b"") or lines[:2] != report.decode().splitlines() or len(lines) != 4 or [len(it.split()) for it in lines[2:]] != [size + 1, size + 1]:
        wrong.append(f"a ring with its circuit and a path: status {status}, lines of {[len(it.split()) for it in lines]} words")


def many_files(folder):
    """As many files as may be read, each loading the next, and one more."""
    for number in range(MOST_FILES + 1):
        is_last = number >= MOST_FILES - 1
        (folder / f"n{number}.pl").write_text(f"p{number}.\n" if is_last else f":- ensure_loaded(n{number + 1}).\np{number} :- p{number + 1}.\n")
    print(f"{MOST_FILES} files")
    report = head(MOST_FILES, MOST_FILES, 0, MOST_FILES) + "".join(f"{number} plain user:p{MOST_FILES - 1 - number}/0\n" for number in range(MOST_FILES))
    expect("files in a row", run(folder, "n0.pl"), (0, report.encode(), b""))
    expect("one file more", run(folder, "n0.pl", f"n{MOST_FILES}.pl"), (6, b"", f"groups: more than {MOST_FILES} files\n".encode()))


def predicate_line(number, name, group, height, recursive):
    """Of a predicate that a file of the command line defines which is no module file."""
    own = f'{{"is":"predicate","id":{number},"module":"user","name":"{name}","arity":0,"group":{group},"height":{height},"recursive":{recursive}'
    return own + ',"exported":false,"meta":null,"root":["file"],"dynamic":false,"multifile":false}\n'


def group_line(least, height, recursive, members):
    return f'{{"is":"group","id":{least},"height":{height},"recursive":{recursive},"members":[{",".join(map(str, members))}]}}\n'


def clause_line(predicate, file, line, term):
    """Of a clause that stands in a line of its own."""
    start = f'{{"is":"clause","predicate":{predicate},"file":"{file}","line":{line},"column":1'
    return start + f',"end_line":{line},"end_column":{len(term) + 1}}}\n'


def call_line(caller, callee, name, file, line, column):
    own = f'{{"is":"call","caller":{caller},"callee":{callee},"module":"user","name":"{name}","arity":0'
    return own + f',"file":"{file}","line":{line},"column":{column},"added":0,"negated":false}}\n'


def expect_lines(what, found, parts):
    """Compares with the lines of several lists one after another."""
    expect(what, found, (0, "".join(line for part in parts for line in part).encode(), b""))


def listed_facts(folder, calls):
    """`calls` on as many facts."""
    names = sorted(f"p{number}" for number in range(MOST))
    ids = {name: number for number, name in enumerate(names)}
    predicates = [predicate_line(number, name, number, 0, "false") for number, name in enumerate(names)]
    groups = (group_line(number, 0, "false", [number]) for number in range(MOST))
    half = MOST // 2
    clauses = (clause_line(ids[f"p{number}"], f"f{number // half}.pl", number % half + 1, f"p{number}") for number in range(MOST))
    expect_lines("facts, listed", run(folder, "f0.pl", "f1.pl", tool=calls), (predicates, groups, clauses))
    expect("facts, undefined calls", run(folder, "--undefined", "f0.pl", "f1.pl", tool=calls), (0, b"", b""))


def listed_ring(folder, calls):
    """`calls` on the ring, whose calls are as many."""
    size, files = 1_000_000, [f"r{at}.pl" for at in range(4)]
    names = sorted(f"p{number}" for number in range(size))
    ids = {name: number for number, name in enumerate(names)}
    places = [(f"p{number}", f"p{(number + 1) % size}", files[number * 4 // size], number % (size // 4) + 1) for number in range(size)]
    predicates = [predicate_line(number, name, 0, 0, "true") for number, name in enumerate(names)]
    clauses = (clause_line(ids[name], file, line, f"{name} :- {next}") for name, next, file, line in places)
    made = (call_line(ids[name], ids[next], next, file, line, len(name) + 5) for name, next, file, line in places)
    expect_lines("a ring, listed", run(folder, *files, tool=calls), (predicates, [group_line(0, 0, "true", range(size))], clauses, made))
    status, out, err = run(folder, "--dot", *files, tool=calls)
    if (status, err, out.count(b" -> ")) != (0, b"", size):
        wrong.append(f"a ring as a graph: status {status}, {out.count(b' -> ')} edges")


def listed_names(folder, calls):
    """`calls` on 5,000 calls with names of 200 characters, and on as many files as may be named."""
    names = [f"{number:05}".rjust(200, "a") for number in range(5_000)]
    (folder / "long.pl").write_text("".join(f"p :- {name}.\n" for name in names))
    clauses = (clause_line(0, "long.pl", number + 1, f"p :- {name}") for number, name in enumerate(names))
    made = (call_line(0, "null", name, "long.pl", number + 1, 6) for number, name in enumerate(names))
    expect_lines("long names, listed", run(folder, "long.pl", tool=calls), ([predicate_line(0, "p", 0, 0, "false")], [group_line(0, 0, "false", [0])], clauses, made))
    status, out, err = run(folder, *(f"n{number}.pl" for number in range(MOST_FILES)), tool=calls)
    if (status, err, out.count(b"\n")) != (0, b"", 4 * MOST_FILES - 1):
        wrong.append(f"{MOST_FILES} files, listed: status {status}, {len(out.splitlines())} lines")


def main():
    parser = argparse.ArgumentParser(description=__doc__.splitlines()[0])
    program.add_option(parser)
    chosen[:] = [program.of(parser.parse_args())]
    with tempfile.TemporaryDirectory() as name:
        folder, calls = pathlib.Path(name), program.calls()
        for part in (facts, one_group, many_files):
            part(folder)
        if calls is None:
            wrong.append("there is no program calls: ./prove builds it")
        for part in (listed_facts, listed_ring, listed_names) if calls else ():
            part(folder, calls)
    for line in wrong:
        print("WRONG", line)
    print("largest:", "wrong" if wrong else "right")
    return 1 if wrong else 0


if __name__ == "__main__":
    sys.exit(main())
