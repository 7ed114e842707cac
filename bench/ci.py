#!/usr/bin/env python3
"""Runs `rt ci` and prints for each crate the seconds of processor time of its proof, its tests and programs, and its mutants.

All processes below `rt` are looked at four times a second, so of a process that ends the last quarter of a second may be missing. What an earlier run kept
isn't proved again and takes nothing: for a table of all crates run it on a machine (or with an account) that has kept nothing. Words are handed to `rt ci`."""

import os
import pathlib
import re
import subprocess
import sys
import threading
import time

import common

TICKS = os.sysconf("SC_CLK_TCK")
KINDS = ("proof", "tests", "mutants")


def processes():
    """The number, the parent and the seconds of processor time of each process that runs."""
    for folder in pathlib.Path("/proc").glob("[0-9]*"):
        try:
            fields = (folder / "stat").read_text().rpartition(")")[2].split()
            yield int(folder.name), int(fields[1]), (int(fields[11]) + int(fields[12])) / TICKS
        except (OSError, IndexError):
            pass


def label(number):
    """The crate that a process works for, and at what; None if that can't be told yet."""
    try:
        words = pathlib.Path(f"/proc/{number}/cmdline").read_bytes().decode(errors="replace").split("\0")
        place = os.readlink(f"/proc/{number}/cwd")
    except OSError:
        return None
    named = re.search(r"\0--crate-name\0(\w+)", "\0".join(words)) or re.search(r"/crates/(\w+)", " ".join([place, *words]))
    if not named:
        return None
    if len(words) > 1 and words[1] == "check":
        return named[1], "mutants"
    return named[1], "proof" if "build" in words[1:2] and "--test" not in words else "tests"


def watch(top, seen, stopped):
    """Notes the seconds of each process below `top`, by its number, until it is stopped."""
    while not stopped.wait(0.25):
        found = {number: (parent, seconds) for number, parent, seconds in processes()}
        below = {top}
        while more := {number for number, (parent, _) in found.items() if parent in below and number not in below}:
            below |= more
        for number in below - {top}:
            if number in found:
                what = label(number) or (seen.get(number) or (None,))[0]  # anew each time: a process is called otherwise before it is loaded
                seen[number] = what, max(found[number][1], (seen.get(number) or (None, 0))[1])


def table(seen):
    """Prints the seconds by crate and kind, in the order of crates.txt."""
    sums = {}
    for what, seconds in seen.values():
        sums[what] = sums.get(what, 0) + seconds
    names = [line.split(":")[0].split()[0] for line in (common.ROOT / "crates.txt").read_text().splitlines() if re.match(r"\w", line)]
    print(f"| {'Crate':16} | {' | '.join(f'{it:>8}' for it in ('Lines', *KINDS))} |")
    print(f"|{'---|' * (2 + len(KINDS))}")
    whole = [0] * (1 + len(KINDS))
    for name in names:
        folder = common.ROOT / "crates" / name
        lines = sum(it.read_bytes().count(b"\n") for part in ("src", "specs", "proofs") for it in (folder / part).rglob("*") if it.is_file())
        row = [lines, *(round(sums.get((name, kind), 0)) for kind in KINDS)]
        whole = [one + other for one, other in zip(whole, row)]
        cells = [f"{it or '':>8}" for it in row]
        print(f"| {name:16} | {' | '.join(cells)} |")
    print(f"| {'all':16} | {' | '.join(f'{it:>8}' for it in whole)} |")
    print(f"other work: {round(sums.get(None, 0))} s")


def main():
    begun, seen, stopped = time.monotonic(), {}, threading.Event()
    process = subprocess.Popen(["rt", "ci", *sys.argv[1:]], cwd=common.ROOT, stdin=subprocess.DEVNULL)
    watcher = threading.Thread(target=watch, args=(process.pid, seen, stopped))
    watcher.start()
    status = process.wait()
    stopped.set()
    watcher.join()
    print(f"\n{round(time.monotonic() - begun)} s; seconds of processor time:")
    table(seen)
    return status


if __name__ == "__main__":
    sys.exit(main())
