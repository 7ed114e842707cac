"""What the benchmarks share: generated texts, the built program and its runs."""

import argparse
import contextlib
import hashlib
import os
import pathlib
import shutil
import subprocess
import sys
import tempfile

ROOT = pathlib.Path(__file__).resolve().parent.parent
MOST_BYTES = 8_388_608
RUNS = 5


def filled(part):
    """The parts 0, 1, .. one after another, as many as fit into a text."""
    parts, size, number = [], 0, 0
    while size + len(text := part(number)) <= MOST_BYTES:
        parts.append(text)
        size += len(text)
        number += 1
    return "".join(parts)


def laid_out():
    """A copy of the crates beside the benchmark program's, in which it is proved and built; one for each state of them.

    The program isn't one of the repository's crates, so the gate doesn't prove it each time. Its sources stand in `bench/crate`,
    with `.txt` behind the names of those that `rt` reads.
    """
    lines = (ROOT / "crates.txt").read_text() + (ROOT / "bench" / "crate" / "crates-line.txt").read_text()
    state = hashlib.sha256(lines.encode())
    sources = [path for top in ("crates", "bench/crate") for path in sorted((ROOT / top).rglob("*"))
               if path.is_file() and "out" not in path.parts and path.name != "crates-line.txt"]
    for path in sources:
        state.update(str(path.relative_to(ROOT)).encode() + b"\0" + path.read_bytes())
    cache = pathlib.Path(os.environ.get("XDG_CACHE_HOME") or pathlib.Path.home() / ".cache")
    copy = cache / "groups-bench" / state.hexdigest()[:16]
    if not copy.exists():
        for path in sources:
            place = copy / path.relative_to(ROOT)
            if path.is_relative_to(ROOT / "bench" / "crate"):
                place = copy / "crates" / "bench" / str(path.relative_to(ROOT / "bench" / "crate")).removesuffix(".txt")
            place.parent.mkdir(parents=True, exist_ok=True)
            shutil.copy(path, place)
        (copy / "crates.txt").write_text(lines)
        shutil.copy(ROOT / "HANDLES", copy)
    return copy


def built(*words):
    """The benchmark program, which is proved and built first where it isn't there; the words are a lawful run."""
    crate = laid_out() / "crates" / "bench"
    program = crate / "out" / "bench"
    if not program.exists():
        subprocess.run(["rt", "run", "--", *words], cwd=crate, check=True, stdout=sys.stderr)
    return program


def runs(*words):
    """What each of the runs of a command wrote: the words on its output, and those on its errors."""
    for _ in range(RUNS):
        run = subprocess.run(words, capture_output=True, text=True, check=True)
        yield run.stdout.split(), run.stderr.split()


def best(*words):
    """The least time in milliseconds of a program that writes it to its errors in microseconds, and the number that it writes."""
    found = [(int(err[0]) / 1000, int(out[0])) for out, err in runs(*words)]
    return min(found)[0], found[-1][1]


@contextlib.contextmanager
def folders(description, *flags):
    """A folder that goes, the one for texts, which is the same but for `--keep FOLDER`, and whether each of these flags is given."""
    parser = argparse.ArgumentParser(description=description)
    parser.add_argument("--keep", metavar="FOLDER", type=pathlib.Path)
    for flag in flags:
        parser.add_argument(flag, action="store_true")
    options = vars(parser.parse_args())
    with tempfile.TemporaryDirectory() as name:
        yield pathlib.Path(name), options["keep"] or pathlib.Path(name), *(options[it.strip("-")] for it in flags)
