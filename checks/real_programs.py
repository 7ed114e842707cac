#!/usr/bin/env python3
"""Runs `groups` on each `.pl` file of the Prolog packages that are installed, in its own folder, and on all files of each package in one run.

Each must end within two seconds with status 0 or 3, and a package within twenty with 0, 3 or 6, and with the same bytes whatever the number of workers; with all
that can be told besides, the report comes first and is the same, and with --order its lines are. Prints for each package how many files were grouped and how many
refused, the slowest, and what the package as a whole came to; then the first cause of each file that was refused, by how many have it. Where no Prolog package is
installed it says so and does nothing. Ends with status 1 where an answer is wrong. Needs Debian's `dpkg`.
"""

import argparse
import collections
import pathlib
import re
import shutil
import subprocess
import sys
import time

import program

MOST_SECONDS = 2.0
MOST_FOR_ALL = 20.0
PATTERNS = ("*prolog*", "*logtalk*", "yap*", "ciao*", "pl-*")

chosen = []
wrong = []
causes = collections.Counter()


def packages():
    """The installed packages whose names say Prolog."""
    listed = subprocess.run(["dpkg-query", "-W", "-f", "${Package} ${db:Status-Abbrev}\n", *PATTERNS], capture_output=True, text=True)
    return [line.split()[0] for line in listed.stdout.splitlines() if line.split()[1:] == ["ii"]]


def sources(package):
    """Its Prolog files, each once, whatever links lead there."""
    listed = subprocess.run(["dpkg", "-L", package], capture_output=True, text=True, check=True).stdout.splitlines()
    return sorted({pathlib.Path(name).resolve() for name in listed if name.endswith(".pl") and pathlib.Path(name).is_file()})


def run(folder, words):
    begun = time.monotonic()
    try:
        done = subprocess.run([chosen[0], *words], cwd=folder, capture_output=True, timeout=120)
    except subprocess.TimeoutExpired:
        wrong.append(f"{folder} {words[:3]}: no end within 120 s")
        return None, b"", b"", 120.0
    return done.returncode, done.stdout, done.stderr, time.monotonic() - begun


def check(folder, files, statuses, most):
    """The status, the lines on standard error and the seconds of a run on the files, which is set beside runs with options."""
    what = f"{folder}/{files[0]}" if len(files) == 1 else f"{len(files)} files"
    status, out, err, took = run(folder, files)
    if status not in statuses:
        wrong.append(f"{what}: status {status}, {err[:80]!r}")
    if took > most:
        wrong.append(f"{what}: {took:.2f} s")
    for words in (["--jobs", "4"], ["--searches", "3", "--seed", "5"], ["--unreached", "--effects", "--loops"], ["--order"], ["--order", "--stream", "--jobs", "4"]):
        others = run(folder, [*words, *files])
        same = others[1] == out
        if "--effects" in words:
            same = others[1].startswith(out)
        if "--order" in words:
            same = sorted(others[1].splitlines()) == sorted(out.splitlines())
        if (others[0], others[2]) != (status, err) or not same or others[3] > most:
            wrong.append(f"{what} {' '.join(words)}: status {others[0]}, {others[3]:.2f} s, or something else is told")
    return status, err.decode(errors="replace").splitlines(), took


def cause_of(line):
    """What a line says, without the place."""
    return re.sub(r"^.*?\.pl(:\d+:\d+)?: ", "", line)


def main():
    parser = argparse.ArgumentParser(description=__doc__.splitlines()[0])
    program.add_option(parser)
    options = parser.parse_args()
    if shutil.which("dpkg-query") is None or not packages():
        print("no Prolog package is installed: nothing to try")
        return 0
    chosen[:] = [program.of(options)]
    for package in packages():
        files = sources(package)
        if not files:
            continue
        seen = []
        for path in files:
            status, lines, took = check(path.parent, [path.name], (0, 3), MOST_SECONDS)
            seen.append((status, took, path))
            if lines:
                causes[cause_of(lines[0])] += 1
        whole = check(pathlib.Path("/"), [str(path)[1:] for path in files], (0, 3, 6), MOST_FOR_ALL)
        told = "a report" if whole[0] == 0 else f"{len(whole[1])} lines, first {whole[1][0]}"
        statuses = [status for status, _, _ in seen]
        slowest = max(seen, key=lambda one: one[1])
        print(f"{package}: {len(seen)} files, {statuses.count(0)} grouped, {statuses.count(3)} refused, slowest {slowest[1]:.3f} s ({slowest[2].name}); all in one run {whole[2]:.2f} s: {told}")
    print("first causes of the files that are refused:")
    for cause, count in causes.most_common(40):
        print(f"{count:7}  {cause}")
    for line in wrong:
        print(line)
    print("real programs:", "wrong" if wrong else "right")
    return 1 if wrong else 0


if __name__ == "__main__":
    sys.exit(main())
