#!/usr/bin/env python3
"""Tells how much of a run's processor time falls on its main thread, for `groups` and for `calls` on the families of `whole.py`.

With four processors a run takes at least as long as its main thread. Needs `cc` and the built programs, or `rt`. A small library that is loaded beside the
program asks the system at the end of the main thread. Prints medians of eleven runs, in milliseconds. With `--keep FOLDER` the texts stay there.
"""

import os
import pathlib
import statistics
import subprocess
import tempfile

from common import MOST_BYTES, ROOT, folders
from whole import FAMILIES, spoken, written

RUNS = 11

AT_END = r"""
#define _GNU_SOURCE
#include <stdio.h>
#include <stdlib.h>
#include <sys/resource.h>
#include <sys/syscall.h>
#include <unistd.h>

static double milliseconds(int who)
{
    struct rusage used;
    getrusage(who, &used);
    return (used.ru_utime.tv_sec + used.ru_stime.tv_sec) * 1e3 + (used.ru_utime.tv_usec + used.ru_stime.tv_usec) / 1e3;
}

void _exit(int status)
{
    FILE *told = fopen(getenv("TELL_THREADS"), "w");
    if (told) {
        fprintf(told, "%f %f\n", milliseconds(RUSAGE_THREAD), milliseconds(RUSAGE_SELF));
        fclose(told);
    }
    syscall(SYS_exit_group, status);
    __builtin_unreachable();
}
"""


def program(name):
    """The program itself, not the script that starts it: what was built here, or the kept one."""
    return next(it for it in (ROOT / "crates" / name / "out" / name, ROOT / "release" / name) if it.is_file())


def once(command, folder, library, told):
    """The milliseconds of the main thread and of the whole run."""
    subprocess.run(command, cwd=folder, stdout=subprocess.DEVNULL, check=True, env={**os.environ, "LD_PRELOAD": str(library), "TELL_THREADS": str(told)})
    main, whole = told.read_text().split()
    return float(main), float(whole)


def main():
    with tempfile.TemporaryDirectory() as made, folders(__doc__) as (_, texts):
        source, library, told = (pathlib.Path(made) / name for name in ("at_end.c", "at_end.so", "told"))
        source.write_text(AT_END)
        subprocess.run(["cc", "-O1", "-shared", "-fPIC", "-o", library, source], check=True)
        print(f"{'family':<22}{'program':>9}{'main ms':>10}{'whole ms':>10}{'share':>7}")
        people = [("as people write", None)]
        for name, family in [*FAMILIES.items(), *people]:
            if family:
                count, shape, spread = family
                names = written(texts, shape(count), spread)
            else:
                names = ["f.pl"]
                (texts / "f.pl").write_text(spoken(MOST_BYTES))
            for tool in ("groups", "calls"):
                runs = [once([program(tool), *names], texts, library, told) for _ in range(RUNS)]
                first, whole = (statistics.median(run[at] for run in runs) for at in (0, 1))
                print(f"{name:<22}{tool:>9}{first:>10.0f}{whole:>10.0f}{first / whole:>7.2f}", flush=True)


if __name__ == "__main__":
    main()
