#!/usr/bin/env python3
"""Tries the built programs over a disk and streams that are not as one would wish, which no clause can speak of.

- Files that aren't there, may not be read, are folders, pipes or devices, lead round in links, grow while they are read or change between two runs of reads; each read failing in turn, and reads cut
  after each number of bytes.
- Standard output and standard error closed, full, or pipes whose reader is gone; each write failing in turn, and writes cut after each number of bytes.

Each run must end by one of the statuses of docs/report.md, by no signal, with just the bytes that the status promises: the whole report, or the first
bytes of it, or none. So must `calls`, of which the files and the streams are tried alone. Needs `cc` for the failing reads and writes. Ends with status 1
if an answer is wrong.
"""

import argparse
import os
import pathlib
import shutil
import subprocess
import sys
import tempfile
import threading

import program

ROOT = pathlib.Path(__file__).resolve().parent.parent
EXAMPLES = ROOT / "examples"
NOBODY = 65534
FULL = pathlib.Path("/dev/full")
CUTS = [*range(1, 34), 63, 64, 65, 127, 128, 129, 4095, 4096, 4097]

chosen = []
wrong = []


def run(folder, *words, env=None, **streams):
    """The status and the bytes of a run; a signal's death is a negative status. A stream is a file that is handed over."""
    streams = {"stdout": subprocess.PIPE, "stderr": subprocess.PIPE, **streams}
    done = subprocess.run([chosen[0], *words], cwd=folder, env=env, timeout=60, stdin=subprocess.DEVNULL, **streams)
    return done.returncode, done.stdout, done.stderr


def expect(what, found, *answers):
    if found not in answers:
        wrong.append(f"{what}: {found}, not {' or '.join(map(str, answers))}")


def unreadable(file):
    return 4, b"", f"groups: cannot read {file}\n".encode()


def files(folder):
    """What stands under the name of a file and is none, or is no file of a disk."""
    (folder / "folder.pl").mkdir()
    expect("a folder", run(folder, "folder.pl"), unreadable("folder.pl"))
    expect("an absent file", run(folder, "none.pl"), (3, b"", b"none.pl: no such file\n"))
    expect("a path through a file", run(folder, "calculator.pl/x.pl"), unreadable("calculator.pl/x.pl"), (3, b"", b"calculator.pl/x.pl: no such file\n"))
    (folder / "round.pl").symlink_to("round.pl")
    expect("a link to itself", run(folder, "round.pl"), unreadable("round.pl"))
    (folder / "lost.pl").symlink_to("nowhere")
    expect("a link to nowhere", run(folder, "lost.pl"), (3, b"", b"lost.pl: no such file\n"))
    (folder / "zeros.pl").symlink_to("/dev/zero")
    expect("a device without an end", run(folder, "zeros.pl"), (6, b"", b"groups: zeros.pl is larger than 8388608 bytes\n"))
    (folder / "empty.pl").symlink_to("/dev/null")
    expect("an empty device", run(folder, "empty.pl"), (0, b"predicates 0 groups 0 recursive 0 levels 0\n", b""))
    long = "a" * 300 + ".pl"
    expect("a name that is too long for the disk", run(folder, long), unreadable(long), (3, b"", f"{long}: no such file\n".encode()))
    closed = folder / "closed.pl"
    closed.write_text("p.\n")
    closed.chmod(0)
    if os.geteuid() == 0:
        folder.chmod(0o755)
        expect("a file without permission", run(folder, "closed.pl", user=NOBODY), unreadable("closed.pl"))
    else:
        expect("a file without permission", run(folder, "closed.pl"), unreadable("closed.pl"))


def pipe_as_file(folder, whole):
    """A pipe that is named as a file is read to its end, however its writer writes."""
    os.mkfifo(folder / "pipe.pl")
    text = (EXAMPLES / "scanner.pl").read_bytes()

    def write():
        with open(folder / "pipe.pl", "wb", buffering=0) as out:
            for at in range(0, len(text), 7):
                out.write(text[at : at + 7])

    writer = threading.Thread(target=write)
    writer.start()
    found = run(folder, "pipe.pl")
    writer.join()
    expect("a pipe", found, run(folder, "scanner.pl"))


def streams(folder, whole):
    """Where the reader of a stream is gone, or it takes nothing."""
    words = ["calculator.pl"]
    reading, writing = os.pipe()
    os.close(reading)
    expect("a pipe without a reader", run(folder, *words, stdout=writing)[::2], (5, b""))
    expect("errors to a pipe without a reader", run(folder, stderr=writing)[:2], (5, b""))
    expect("an absent file, errors to a pipe without a reader", run(folder, "none.pl", stderr=writing)[:2], (5, b""))
    os.close(writing)
    if FULL.exists():
        with FULL.open("wb") as full:
            expect("a full device", run(folder, *words, stdout=full)[::2], (5, b""))
            expect("errors to a full device", run(folder, "none.pl", stderr=full)[:2], (5, b""))
    shell = 'exec "$0" "$@" >&-'
    done = subprocess.run(["sh", "-c", shell, chosen[0], *words], cwd=folder, stderr=subprocess.PIPE, timeout=60)
    expect("standard output closed", (done.returncode, done.stderr), (5, b""))
    done = subprocess.run(["sh", "-c", 'exec "$0" "$@" 2>&-', chosen[0], "none.pl"], cwd=folder, stdout=subprocess.PIPE, timeout=60)
    expect("standard error closed", (done.returncode, done.stdout), (5, b""))
    done = subprocess.run(["sh", "-c", 'exec "$0" "$@" <&-', chosen[0], *words], cwd=folder, stdout=subprocess.PIPE, stderr=subprocess.PIPE, timeout=60)
    expect("standard input closed", (done.returncode, done.stdout, done.stderr), whole)


def failing(folder, whole):
    """Each read and each write fails in turn, and all of them are cut after each number of bytes."""
    if shutil.which("cc") is None:
        print("no cc: failing reads and writes aren't tried")
        return
    shim, count = folder / "failing_io.so", folder / "count"
    subprocess.run(["cc", "-O1", "-shared", "-fPIC", "-o", shim, ROOT / "checks" / "failing_io.c"], check=True)

    def answer(*words, **settings):
        env = {"LD_PRELOAD": str(shim), "COUNT_TO": str(count), **{key: str(value) for key, value in settings.items()}}
        return run(folder, *words, env=env)

    for words in (["calculator.pl"], ["calculator.pl", "--jobs", "2"], ["calculator.pl", "--order", "--stream"]):
        expect(f"{words} with the library", answer(*words), whole if len(words) < 3 or words[1] == "--jobs" else run(folder, *words))
    for most in CUTS:
        expect(f"reads and writes of {most} bytes", answer("calculator.pl", MOST=most), whole)
    answer("calculator.pl", MOST=64)
    reads, writes = map(int, count.read_text().split())
    names = [unreadable("calculator.pl"), unreadable("scanner.pl")]
    for number in range(1, reads + 1):
        expect(f"read {number} fails", answer("calculator.pl", MOST=64, FAIL_READ=number), *names, whole)
    for number in range(1, writes + 1):
        status, out, err = answer("calculator.pl", MOST=64, FAIL_WRITE=number)
        if (status, err) != (5, b"") or out != whole[1][: 64 * (number - 1)]:
            wrong.append(f"write {number} fails: status {status}, {len(out)} bytes")
    # A file that grows while it is read is taken as it is at its end, or is too large; it never hangs.
    grows = folder / "grows.pl"
    grows.write_text("p :- q.\nq :- p.\n")
    told = (0, b"predicates 2 groups 1 recursive 1 levels 1\n0 recursive user:p/0 user:q/0\n", b"")
    expect("a file that grows", answer("grows.pl", GROW=grows), told, (6, b"", b"groups: grows.pl is larger than 8388608 bytes\n"))
    print(f"{reads} reads and {writes} writes failed in turn, {len(CUTS)} lengths tried")


def other_program(folder):
    """The same of `calls`: files that can't be read, and outputs that take nothing, or a part of what is written."""
    calls = program.calls()
    if calls is None:
        wrong.append("there is no program calls: ./prove builds it")
        return
    chosen[:] = [calls]
    told = run(folder, "calculator.pl")
    expect("calls", told[::2], (0, b""))
    unread = (4, b"", b"calls: cannot read folder.pl\n")
    expect("calls of a folder", run(folder, "folder.pl"), unread)
    absent = (3, b"", b"none.pl: no such file\n")
    expect("calls of an absent file", run(folder, "none.pl"), absent)
    streams(folder, told)
    # The system ends a program that passes its limit on a file's size, unless it asks not to be told.
    shell = "trap '' XFSZ; ulimit -f 1; exec \"$0\" calculator.pl >part"
    done = subprocess.run(["sh", "-c", shell, calls], cwd=folder, stderr=subprocess.PIPE, timeout=60)
    part = (folder / "part").read_bytes()
    if (done.returncode, done.stderr) != (5, b"") or not part or part == told[1] or not told[1].startswith(part):
        wrong.append(f"calls into a file with a limit: status {done.returncode}, {len(part)} of {len(told[1])} bytes")


def main():
    parser = argparse.ArgumentParser(description=__doc__.splitlines()[0])
    program.add_option(parser)
    chosen[:] = [program.of(parser.parse_args())]
    with tempfile.TemporaryDirectory() as name:
        folder = pathlib.Path(name)
        for example in ("calculator.pl", "scanner.pl"):
            shutil.copy(EXAMPLES / example, folder)
        whole = run(folder, "calculator.pl")
        expect("the example", whole[::2], (0, b""))
        files(folder)
        pipe_as_file(folder, whole)
        streams(folder, whole)
        failing(folder, whole)
        other_program(folder)
    for line in wrong:
        print("WRONG", line)
    print("streams:", "wrong" if wrong else "right")
    return 1 if wrong else 0


if __name__ == "__main__":
    sys.exit(main())
