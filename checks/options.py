#!/usr/bin/env python3
"""Runs the built program with each option of its usage line, alone, in each pair and all together, and on names and small programs of every kind.

- each option and each pair of two, in both orders, over the examples, and over a program of SWI-Prolog where that is installed: lawful words answer the report
  with the parts that they ask for, in their order, each as the option gives it alone, and unlawful ones the usage line;
- each prefix of two small programs, and each change of one of their bytes, with all that can be told: a report or faults, and the same with four workers;
- files, modules and predicates whose names have each byte that a name may have: each is told so that it reads back;
- 64 workers whose levels are found as groups come, under less and less memory: the report or want of memory.

Ends with status 1 where an answer is wrong. The whole takes some minutes; with --quick few of the changes are tried.
"""

import argparse
import concurrent.futures
import itertools
import os
import pathlib
import resource
import shutil
import subprocess
import sys
import tempfile

import program

ROOT = pathlib.Path(__file__).resolve().parent.parent
USAGE = f"{program.usage()}\n".encode()
# What each part behind the report begins its lines with, in the order of the parts.
PARTS = {"--unreached": (b"unreached ",), "--effects": (b"effect ",), "--loops": (b"loop ",), "--path": (b"path ", b"no-path ")}
LARGE = (
    ":- module(m, [p/1, q//0]).\n:- use_module(library(lists)).\n:- dynamic d/1, user:h/1.\n:- meta_predicate each(1, ?).\n:- op(700, xfx, ===>).\n"
    "user:h(X) :- p(X).\np(X) :- each(q, [X]), \\+ d(X), write(X), '\\x41\\'.\np(0'a) :- (d(1) -> throw(e) ; assertz(d(2))).\n"
    "q(X) :- p(X), \"s\" = X.\neach(_, []).\neach(G, [X|Xs]) :- call(G, X), each(G, Xs).\nq --> [a], q, {p(1)}.\n/* end */ a ===> b :- true.\n"
)
SMALL = ":- ensure_loaded(g).\np :- q, r(0).\nq :- p ; halt.\nr(X) :- X = f(Y, 'a b'), r(Y). % r\n:- initialization(p).\n"

chosen = []
wrong = []


def run(folder, words, **more):
    try:
        done = subprocess.run([chosen[0], *words], cwd=folder, capture_output=True, timeout=60, **more)
    except subprocess.TimeoutExpired:
        return None, b"", b"no end within 60 s"
    return done.returncode, done.stdout, done.stderr


def each(function, cases):
    with concurrent.futures.ThreadPoolExecutor(os.cpu_count()) as threads:
        for line in threads.map(function, cases):
            if line:
                wrong.append(line)


def is_lawful(options):
    """Whether the words of these options, each once, are lawful before one file or more."""
    names = {option[0] for option in options}
    if "--make" in names or ("--searches" in names) != ("--seed" in names) or {"--jobs", "--searches"} <= names:
        return False
    return "--stream" not in names or ("--order" in names and "--searches" not in names)


def cut(out):
    """The report and the parts behind it, by the words that their lines begin with."""
    found = {None: []} | {option: [] for option in PARTS}
    for line in out.splitlines(True):
        found[next((option for option, begins in PARTS.items() if line.startswith(begins)), None)].append(line)
    return found


def options_over(folder, files, first, second):
    """Tries options over these files, between predicates of which there is a path or none."""
    values = [
        ("--jobs", "4"), ("--searches", "3"), ("--seed", "7"), ("--roots", f"{first},{second}"), ("--order",), ("--stream",), ("--unreached",),
        ("--effects",), ("--loops",), ("--path", f"{first},{second}"), ("--make", "30"),
    ]
    whole = {}
    for roots in ([], [value for value in values if value[0] == "--roots"]):
        words = [word for option in roots for word in option]
        told = run(folder, [*words, "--unreached", "--effects", "--loops", "--path", f"{first},{second}", *files])
        if told[0] != 0:
            wrong.append(f"all parts over {files[:3]}: {told[0]}, {told[2][:80]!r}")
            return
        whole[bool(roots)] = cut(told[1])
        if b"".join(itertools.chain(*whole[bool(roots)].values())) != told[1]:
            wrong.append(f"the parts over {files[:3]} don't stand in their order")

    def try_words(options):
        names = {option[0] for option in options}
        status, out, err = run(folder, [*(word for option in options for word in option), *files])
        if not is_lawful(options):
            return None if (status, out, err) == (2, b"", USAGE) else f"{options}: status {status} where the words aren't lawful"
        parts = whole["--roots" in names]
        wanted = {None: parts[None]} | {option: parts[option] if option in names else [] for option in PARTS}
        found = cut(out)
        if "--order" in names:
            wanted[None], found[None] = sorted(wanted[None]), sorted(found[None])
        return None if (status, err) == (0, b"") and found == wanted else f"{options} over {files[:3]}: status {status}, {len(out)} bytes, {err[:60]!r}"

    def try_twice(options):
        status, out, err = run(folder, [*(word for option in options for word in option), *files])
        return None if (status, out, err) == (2, b"", USAGE) else f"{options}: status {status}"

    lawful = [option for option in values if option[0] not in ("--make", "--searches", "--seed")]
    cases = [[option] for option in values] + [list(pair) for pair in itertools.permutations(values, 2)]
    cases += [lawful, lawful[::-1], [option for option in values if option[0] not in ("--make", "--jobs", "--stream")]]
    each(try_words, cases)
    each(try_twice, [[option, option] for option in values])
    print(f"{len(cases) + len(values)} combinations of options over {len(files)} files")


def changes(folder, quick):
    """Each prefix of the two programs, and each change of one byte."""
    extra = ["--unreached", "--effects", "--loops"]
    cases = []
    for text in (SMALL.encode(), LARGE.encode()):
        cases += [text[:size] for size in range(len(text) + 1)]
        every = 97 if quick else 1
        cases += [text[:at] + bytes([byte]) + text[at + 1 :] for at, byte in list(itertools.product(range(len(text)), range(256)))[::every]]

    def try_text(number):
        place = folder / f"c{number % 64}"
        data = cases[number]
        place.mkdir(exist_ok=True)
        (place / f"f{number}.pl").write_bytes(data)
        (place / "g.pl").write_text("s :- p.\n")
        told = run(place, [*extra, f"f{number}.pl"])
        lawful = (told[0] == 0 and told[1] and not told[2]) or (told[0] == 3 and not told[1] and told[2].endswith(b"\n"))
        others = run(place, [*extra, "--jobs", "4", f"f{number}.pl"]) if number % 8 == 0 else told
        (place / f"f{number}.pl").unlink()
        return None if lawful and others == told else f"a changed program, {number}: status {told[0]} and {others[0]}, {told[2][:60]!r}, {data[:40]!r}"

    each(try_text, range(len(cases)))
    print(f"{len(cases)} prefixes and changed programs")


def escaped(name):
    """The name as the report has it between quotes."""
    def one(character):
        if character in "'\\":
            return "\\" + character
        if character == "\n":
            return "\\n"
        return f"\\x{ord(character):02x}\\" if ord(character) < 32 or ord(character) == 127 else character
    return "'" + "".join(one(character) for character in name) + "'"


def names(folder):
    """Names of predicates, modules and files with each character up to U+0800 and some behind."""
    points = [*range(1, 0x800), 0x20AC, 0xFFFD, 0x10348, 0x10FFFF]
    lines = [f"{escaped(chr(point) + ' x')}.\n" for point in points]
    (folder / "names.pl").write_bytes((":- module('m\\n\\'', []).\n" + "".join(lines)).encode())
    status, out, err = run(folder, ["--unreached", "names.pl"])
    told = {line for line in out.decode().split("\n")}
    missing = [point for point in points if f"unreached {escaped(chr(10).join(['m', chr(39)]))}:{escaped(chr(point) + ' x')}/0" not in told]
    if status != 0 or err or missing:
        wrong.append(f"names of characters: status {status}, missing {missing[:9]}, {err[:60]!r}")
    for byte in range(1, 256):
        name = bytes([byte]) + b"_name.pl" if byte < 128 else bytes([0xC3, byte & 0xBF]) + b".pl"
        if byte in b"/":
            continue
        (folder / os.fsdecode(name)).write_text("x :- y.\ny.\n")
        status, out, err = run(folder, ["--", os.fsdecode(name)])
        if (status, out.splitlines()[1:2], err) != (0, [b"0 plain user:y/0"], b""):
            wrong.append(f"a file whose name has the byte {byte}: status {status}, {err[:60]!r}")
        if byte >= 128 and run(folder, [bytes([byte]) + b".pl"])[:2] != (2, b""):
            wrong.append(f"a word that is no UTF-8, byte {byte}")
    print(f"{len(points)} characters in names, 254 bytes in names of files")


def memory_limits(folder):
    """Less and less memory for 64 workers whose levels are found as groups come."""
    text = "".join(f"p{number} :- p{number // 10 * 10 + (number + 1) % 10}, p{number // 2}.\n" for number in range(60_000))
    (folder / "many.pl").write_text(text)
    words = ["--jobs", "64", "--order", "--stream", "--effects", "--loops", "many.pl"]
    whole = sorted(run(folder, words)[1].splitlines())
    seen = []
    for size in [*range(2, 64, 4), *range(64, 1024, 64)]:
        limit = size << 20
        told = run(folder, words, preexec_fn=lambda: resource.setrlimit(resource.RLIMIT_AS, (limit, limit)))
        seen.append(told[0])
        right = (told[0] == 0 and sorted(told[1].splitlines()) == whole and not told[2]) or (told[0] == 7 and told[1:] in ((b"", b""), (b"", b"groups: out of memory\n")))
        # Below a few MiB the system can't load the program at all.
        if not right and size >= 16:
            wrong.append(f"{size} MiB: status {told[0]}, {len(told[1])} bytes, {told[2][:60]!r}")
    print(f"{len(seen)} limits of memory: {seen.count(0)} reports, {seen.count(7)} times out of memory")


def real(folder):
    """A program of SWI-Prolog that is read as it stands, and two of its predicates."""
    swipl = shutil.which("swipl")
    if swipl is None:
        return
    library = pathlib.Path(os.path.realpath(swipl)).parent.parent.parent / "library"
    for path in sorted(library.glob("*.pl")):
        status, out, _ = run(path.parent, [path.name])
        groups = [line.split() for line in out.decode(errors="replace").splitlines()[1:] if line[:1].isdigit() and "'" not in line]
        if status == 0 and len(groups) > 20:
            options_over(path.parent, [path.name], groups[-1][2], groups[0][2])
            return


def main():
    parser = argparse.ArgumentParser(description=__doc__.splitlines()[0])
    parser.add_argument("--quick", action="store_true", help="try few of the changed programs")
    program.add_option(parser)
    options = parser.parse_args()
    chosen[:] = [program.of(options)]
    with tempfile.TemporaryDirectory() as name:
        folder = pathlib.Path(name)
        files = sorted(it.name for it in (ROOT / "examples").glob("*.pl"))
        for file in files:
            (folder / file).write_bytes((ROOT / "examples" / file).read_bytes())
        options_over(folder, files, "calculator:value/2", "scanner:digits/3")
        real(folder)
        changes(folder, options.quick)
        names(folder)
        memory_limits(folder)
    for line in wrong[:60]:
        print("WRONG", line)
    print("options:", "wrong" if wrong else "right")
    return 1 if wrong else 0


if __name__ == "__main__":
    sys.exit(main())
