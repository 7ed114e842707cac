"""The lines of `calls`: how they come, and what they say."""

from __future__ import annotations

import concurrent.futures
import dataclasses
import json
import os
import pathlib
import stat
import subprocess
import sys
import time

TOP = pathlib.Path(__file__).resolve().parent.parent.parent
COMMANDS = {"CALLS": TOP / "calls", "CALLS_SWI": TOP / "bridges" / "swi" / "calls-swi"}
COMPLETE, LEFT_OUT, USAGE = 0, 8, 2
# By so much the times of files may lag behind the clock.
CLOCK_STEP = 10_000_000
# Lines that are read by one call of json, which takes half the time of a call a line.
READ_AT_ONCE = 4096


class Failed(Exception):
    """There is no page: the status, and what is to be said."""

    def __init__(self, status, said=""):
        super().__init__(said)
        self.status = status


@dataclasses.dataclass
class Lines:
    """What `calls` wrote, and what it says that it left out."""

    text: bytes
    since: int  # a source that changed after this isn't what was read
    undefined: bytes | None = None  # calls that SWI-Prolog doesn't define either, if it was asked
    left_out: str = ""
    status: int = COMPLETE


@dataclasses.dataclass
class Program:
    """All fields of the lines that a page needs."""

    predicates: list = dataclasses.field(default_factory=list)
    clauses: list = dataclasses.field(default_factory=list)  # (file, start, end, predicate), each place (line, column)
    calls: list = dataclasses.field(default_factory=list)  # (file, line, column, caller, callee, name, arity)
    directives: list = dataclasses.field(default_factory=list)  # (file, line, column, callee, name, arity)
    files: dict = dataclasses.field(default_factory=dict)  # numbers by names


def read_standard_input():
    """Lines in a file are as old as the file, and lines from a pipe as this process."""
    since = time.time_ns() - CLOCK_STEP
    about = os.fstat(sys.stdin.fileno())
    if stat.S_ISREG(about.st_mode):
        since = about.st_mtime_ns
    return Lines(sys.stdin.buffer.read(), since)


def run(command, arguments):
    try:
        return subprocess.run([command, *arguments], stdin=subprocess.DEVNULL, capture_output=True, check=False)
    except OSError as error:
        raise Failed(127, f"{command}: {error.strerror}") from error


def run_calls(swi, arguments):
    """Reads the program. For SWI-Prolog a second run, in parallel, says which names it doesn't define."""
    name = "CALLS_SWI" if swi else "CALLS"
    command = os.environ.get(name) or str(COMMANDS[name])
    since = time.time_ns() - CLOCK_STEP
    with concurrent.futures.ThreadPoolExecutor() as pool:
        whole = pool.submit(run, command, ["--unreached", *arguments])
        part = pool.submit(run, command, ["--unreached", "--undefined", *arguments]) if swi else None
        ended = whole.result()
        undefined = part.result() if part else None
    left_out = ended.stderr.decode("utf-8", "replace")
    sys.stderr.write(left_out)
    sys.stderr.flush()
    status = ended.returncode if ended.returncode >= 0 else 128 - ended.returncode
    if status not in (COMPLETE, LEFT_OUT):
        raise Failed(status)
    if undefined and undefined.returncode not in (COMPLETE, LEFT_OUT):
        raise Failed(undefined.returncode, undefined.stderr.decode("utf-8", "replace").strip())
    return Lines(ended.stdout, since, undefined and undefined.stdout, left_out, status)


def objects(text):
    """Each line as an object. Lines end at newlines only: a string may hold U+0085."""
    lines = [it for it in text.decode("utf-8").split("\n") if it]
    for at in range(0, len(lines), READ_AT_ONCE):
        yield from json.loads("[" + ",".join(lines[at : at + READ_AT_ONCE]) + "]")


def parse(text):
    """The program that the lines describe; other lines than those of `calls` are an error of usage."""
    program = Program()
    try:
        for it in objects(text):
            kind = it["is"]
            if kind == "predicate":
                program.predicates.append(it)
                continue
            if kind not in ("clause", "call"):
                continue
            file = program.files.setdefault(it["file"], len(program.files))
            place = it["line"], it["column"]
            if kind == "clause":
                program.clauses.append((file, place, (it["end_line"], it["end_column"]), it["predicate"]))
            elif it.get("directive"):
                program.directives.append((file, *place, it["callee"], it["name"], it["arity"]))
            else:
                program.calls.append((file, *place, it["caller"], it["callee"], it["name"], it["arity"]))
    except (ValueError, KeyError, TypeError) as error:
        raise Failed(USAGE, f"these are no lines of calls: {type(error).__name__}: {str(error)[:200]!a}") from error
    return program


def parse_undefined(text):
    """Names and arities of the calls that `calls --undefined` prints; nothing if it wasn't asked."""
    return None if text is None else {(it["name"], it["arity"]) for it in objects(text)}
