#!/usr/bin/env python3
"""Runs the cases of checks/rows/*.txt, each over files of its own, and compares all that each run writes with what the case says.

A line that begins with one of these marks says what the lines up to the next one are; a case goes from `==` to `==`:

== TITLE        a case, which begins without files; lines below it say why, and are read by nobody
> NAME          a file of these lines
>> NAME         a file of these lines joined, with no newline but those that are written `\\n`; `\\xHH` is a byte
>* NAME         a file of these lines joined as well, each behind a number that says how often it stands
$ WORD ..       a run with these words, as a shell reads them; the lines are those of standard output, and behind a `!` and a blank of standard error, where
                USAGE is the usage line, as docs/help/groups.txt has it
? STATUS        the status of the run above, where it isn't 0

Ends with status 1 where an answer is another one."""

import argparse
import pathlib
import shlex
import subprocess
import sys
import tempfile

import program

ROWS = pathlib.Path(__file__).resolve().parent / "rows"
USAGE = program.usage()
MOST_SECONDS = 120
MARKS = ("==", ">", ">>", ">*", "$", "?")


class Run:
    def __init__(self, words, lines):
        self.words, self.status = shlex.split(words), 0
        self.out = "".join(f"{it}\n" for it in lines if not it.startswith("! "))
        self.err = "".join(f"{USAGE if it == '! USAGE' else it[2:]}\n" for it in lines if it.startswith("! "))


def steps(text):
    """The marks of a file, each with the rest of its line and the lines up to the next one."""
    found = []
    for number, line in enumerate(text.splitlines(), 1):
        mark, _, rest = line.partition(" ")
        if mark in MARKS:
            found.append((number, mark, rest, []))
        elif found:
            found[-1][3].append(line)
    return found


def unescaped(text):
    return text.encode().decode("unicode_escape").encode("latin-1")


def cases(path):
    """Each case with its title, files and runs."""
    found = []
    for number, mark, rest, lines in steps(path.read_text()):
        while lines and not lines[-1] and mark in ("$", "?"):
            lines.pop()
        if mark == "==":
            found.append((rest, {}, []))
        elif mark == ">":
            found[-1][1][rest] = "".join(f"{it}\n" for it in lines).encode()
        elif mark == ">>":
            found[-1][1][rest] = b"".join(map(unescaped, lines))
        elif mark == ">*":
            parts = [it.partition(" ") for it in lines if it]
            found[-1][1][rest] = b"".join(unescaped(text) * int(often) for often, _, text in parts)
        elif mark == "$":
            found[-1][2].append(Run(rest, lines))
        elif lines:
            sys.exit(f"{path.name}:{number}: lines behind a status")
        else:
            found[-1][2][-1].status = int(rest)
    return found


def tried(chosen, name, title, files, run):
    """Whether the run answers what it should; else says what it answers."""
    with tempfile.TemporaryDirectory(prefix="rows-") as room:
        for it, data in files.items():
            path = pathlib.Path(room, it)
            path.parent.mkdir(parents=True, exist_ok=True)
            path.write_bytes(data)
        try:
            done = subprocess.run([chosen, *run.words], cwd=room, stdin=subprocess.DEVNULL, capture_output=True, timeout=MOST_SECONDS)
        except subprocess.TimeoutExpired:
            print(f"{name}: {title}: {shlex.join(run.words)}\n  no answer in {MOST_SECONDS} s")
            return False
    answer = done.returncode, done.stdout.decode(errors="backslashreplace"), done.stderr.decode(errors="backslashreplace")
    if answer != (run.status, run.out, run.err):
        print(f"{name}: {title}: {shlex.join(run.words)}\n  expected {run.status} {run.out!r} {run.err!r}\n  answered {answer[0]} {answer[1]!r} {answer[2]!r}")
    return answer == (run.status, run.out, run.err)


def main():
    parser = argparse.ArgumentParser(description=__doc__.splitlines()[0])
    parser.add_argument("files", nargs="*", type=pathlib.Path, help="files of cases, in place of all of checks/rows/")
    program.add_option(parser)
    options = parser.parse_args()
    chosen, right, wrong = program.of(options), 0, 0
    for path in options.files or sorted(ROWS.glob("*.txt")):
        for title, files, runs in cases(path):
            for run in runs:
                is_right = tried(chosen, path.name, title, files, run)
                right, wrong = right + is_right, wrong + (not is_right)
    print(f"rows: {right} runs answered as they should, {wrong} did not")
    sys.exit(1 if wrong or not right else 0)


if __name__ == "__main__":
    main()
