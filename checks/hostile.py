#!/usr/bin/env python3
"""Runs `groups` and `calls` on hostile input: each must answer at once, with a valid status and lines.

- each prefix of an example and of a small program, cut at every byte: status 0 or 3, and at 3 one line or more;
- files of random bytes, of quotes, of opening brackets, of `:- ` again and again, and one long line,
  each of a MiB, and one file that is a byte too large;
- a run over three files in which the Nth allocation fails, for each N in turn, with one search, with
  three that take turns, with workers, and for each form that `calls` writes: status 7 with nothing on
  standard output and its line on standard error, or with no line if the arguments weren't read yet, or
  the answer of a run in which none fails. The same with workers over three modules of which two import
  each other. This needs a C compiler, `cc`.

Ends with status 1 if an answer is wrong. The whole takes about two minutes; with --quick each seventh
prefix and each seventh allocation is tried.
"""

import argparse
import pathlib
import random
import subprocess
import sys
import tempfile
import time

import program
import rows

ROOT = pathlib.Path(__file__).resolve().parent.parent
EXAMPLES = ROOT / "examples"
EXAMPLE = EXAMPLES / "module.pl"
SIZE = 1_048_576
TOO_LARGE = 8_388_609
MOST_SECONDS = 20.0

# Cases of checks/rows/imports.txt: a small program, and modules of which two import each other.
FAMILY = "reports_programs 6"
RING = "reports_programs 1"

# Options of the runs in which allocations are refused.
GROUPS_WORDS = (
    [],
    ["--searches", "3", "--seed", "5"],
    ["--jobs", "2"],
    ["--jobs", "3", "--order", "--stream"],
    ["--effects", "--loops", "--path", "calculator:value/2,scanner:digits/3"],
)
CALLS_WORDS = ([], ["--unreached", "--undefined"], ["--dot"], ["--dot", "--condensed"])

# The program, and whether but a part is tried.
chosen = []
wrong = []


def files_of(title):
    """The files of a case by its title."""
    return next(files for it, files, _ in rows.cases(rows.ROWS / "imports.txt") if it == title)


def some(numbers):
    return numbers[::7] if chosen[1] else numbers


def run(folder, data):
    """The status, the outputs and the seconds of a run on a file with these bytes."""
    (folder / "f.pl").write_bytes(data)
    begun = time.monotonic()
    try:
        done = subprocess.run([chosen[0], "f.pl"], cwd=folder, capture_output=True, timeout=3 * MOST_SECONDS)
    except subprocess.TimeoutExpired:
        return None, b"", b"", time.monotonic() - begun
    return done.returncode, done.stdout, done.stderr, time.monotonic() - begun


def check(folder, name, data):
    status, out, err, took = run(folder, data)
    lawful = (status == 0 and out and not err) or (status == 3 and not out and err.endswith(b"\n"))
    if not lawful:
        wrong.append(f"{name}: status {status}, {len(out)} bytes on out, {err[:80]!r}")
    if took > MOST_SECONDS:
        wrong.append(f"{name}: {took:.1f} s")
    return status, took


def prefixes(folder):
    for text in (EXAMPLE.read_bytes(), files_of(FAMILY)["family.pl"]):
        seen = [check(folder, f"prefix of {size} bytes", text[:size])[0] for size in some(range(len(text) + 1))]
        print(f"{len(seen)} prefixes: {seen.count(0)} reports, {seen.count(3)} refused")


def patterns():
    """Names and bytes of hostile files."""
    source = random.Random(20)
    yield "random bytes", bytes(source.randrange(256) for _ in range(SIZE))
    yield "random ASCII", bytes(source.randrange(32, 127) for _ in range(SIZE))
    yield "quotes", b"'" * SIZE
    yield "double quotes", b'"' * SIZE
    for bracket in (b"(", b"[", b"{", b"f("):
        yield f"opening {bracket.decode()}", bracket * (SIZE // len(bracket))
    yield "prefix operators", b":- " * (SIZE // 3)
    yield "minus signs", b"- " * (SIZE // 2)
    yield "infix operators", b"a=" * (SIZE // 2)
    yield "commas", b"a," * (SIZE // 2)
    yield "one long line", b"a" * SIZE
    yield "open comment", b"/*" + b"*" * (SIZE - 2)
    yield "facts", b"".join(b"p%d.\n" % number for number in range(120_000))[:SIZE]
    yield "a long list", b"p([a" + b",b" * 500_000 + b"])."
    yield "one predicate often", b"p.\n" * (SIZE // 3)
    yield "operators set often", b":-op(1,fx,a).\n" * (SIZE // 14)
    yield "a long declaration", b":- dynamic a/1" + b",a/1" * 250_000 + b"."
    yield "a long path", b":- use_module(a" + b"/a" * 900 + b")."
    yield "nothing", b""


def hostile_files(folder):
    for name, data in patterns():
        status, took = check(folder, name, data)
        print(f"{name:<22} status {status}  {took * 1000:7.1f} ms")
    answer = run(folder, b" " * TOO_LARGE)[:3]
    if answer != (6, b"", b"groups: f.pl is larger than 8388608 bytes\n"):
        wrong.append(f"a file that is too large: {answer}")


def shim_of(folder):
    """The library that refuses an allocation, made in the folder, beside the files that the runs read."""
    shim = folder / "failing_malloc.so"
    source = ROOT / "checks" / "failing_malloc.c"
    subprocess.run(["cc", "-O1", "-shared", "-fPIC", "-o", shim, source, "-ldl"], check=True)
    for name in ("calculator.pl", "scanner.pl", "module.pl"):
        (folder / name).write_bytes((EXAMPLES / name).read_bytes())
    for name, data in files_of(RING).items():
        (folder / name).write_bytes(data)
    return shim


def memory(folder, shim, name, tool, *options, files=("calculator.pl", "module.pl")):
    """Refuses each allocation of a run with these options in turn, alone and with all after it, by a library that is loaded before the program."""
    count, words = folder / "count", [tool, *options, *files]

    def answer(number, **more):
        env = {"LD_PRELOAD": str(shim), "FAIL_AT": str(number), "COUNT_TO": str(count), **more}
        try:
            done = subprocess.run(words, cwd=folder, capture_output=True, env=env, timeout=60)
        except subprocess.TimeoutExpired:
            return -1, b"", b"no end within 60 s"
        return done.returncode, done.stdout, done.stderr

    def settled(told):
        """What is written, whatever the order of its lines if workers decide on it."""
        return (told[0], b"".join(sorted(told[1].splitlines(True))), told[2]) if "--stream" in options else told

    whole = settled(answer(0))
    total = int(count.read_text())
    silent, wanting = (7, b"", b""), (7, b"", f"{name}: out of memory\n".encode())
    seen = []
    for number in some(range(1, total + 1)):
        seen.append(settled(answer(number)))
        if seen[-1] not in (silent, wanting, whole):
            wrong.append(f"{name}: allocation {number} {options}: status {seen[-1][0]}, {len(seen[-1][1])} bytes on out")
        on = settled(answer(number, FAIL_ON="1"))
        if on not in (silent, wanting, whole):
            wrong.append(f"{name}: allocations from {number} on {options}: status {on[0]}, {len(on[1])} bytes on out")
    if wanting in seen and silent in seen[seen.index(wanting) :]:
        wrong.append(f"{name}: no line of status 7, though the arguments were read")
    failed = seen.count(silent) + seen.count(wanting)
    print(f"{name} {' '.join(options)}: {total} allocations, {failed} times out of memory, {seen.count(whole)} as without")


def main():
    parser = argparse.ArgumentParser(description=__doc__.splitlines()[0])
    parser.add_argument("--quick", action="store_true", help="try a seventh of the prefixes and of the allocations")
    program.add_option(parser)
    options = parser.parse_args()
    chosen[:] = [program.of(options), options.quick]
    with tempfile.TemporaryDirectory() as name:
        folder = pathlib.Path(name)
        prefixes(folder)
        hostile_files(folder)
        shim = shim_of(folder)
        for words in GROUPS_WORDS:
            memory(folder, shim, "groups", chosen[0], *words)
        memory(folder, shim, "groups", chosen[0], "--jobs", "2", files=("a.pl",))
        calls = program.calls()
        if calls is None:
            wrong.append("there is no program calls: ./prove builds it")
        for words in CALLS_WORDS if calls else ():
            memory(folder, shim, "calls", calls, *words)
    for line in wrong:
        print("WRONG", line)
    sys.exit(1 if wrong else 0)


if __name__ == "__main__":
    main()
