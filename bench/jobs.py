#!/usr/bin/env python3
"""Times whole runs of `groups` with one, two and four workers, on the families of `whole.py` and on larger ones.

A predicate is expanded at no cost once its calls are known. So one worker goes on alone while the others hold
back, and the factors are what claims, turns and threads cost. Needs the built program. Prints a table: the
medians of nine runs of each, in random order, in milliseconds, and the factors to the run with one worker. It
takes about five minutes. With `--keep FOLDER` the texts stay there.
"""

import random
import statistics
import sys

import whole
from common import folders

RUNS = 9
JOBS = ("1", "2", "4")
FAMILIES = {
    "blocks of ten": (100_000, whole.blocks, 1),
    "anywhere": (200_000, whole.anywhere, 1),
    "nearby": (200_000, whole.nearby, 1),
    "wide": (200_000, whole.wide, 1),
    "deep": (200_000, whole.deep, 1),
    "many in blocks": (1_000_000, whole.blocks, 64),
    "many nearby": (1_000_000, whole.nearby, 64),
}


def medians(names, texts):
    """The median of the milliseconds of the runs with each number of workers, all of which write the same."""
    took = {jobs: [] for jobs in JOBS}
    answers = set()
    for _ in range(RUNS):
        # (in another order each time, so that what one run leaves behind doesn't always meet the same one)
        for jobs in random.sample(JOBS, len(JOBS)):
            seconds, _, answer = whole.once([whole.GROUPS, "--jobs", jobs, *names], texts)
            took[jobs].append(1_000 * seconds)
            answers.add(answer)
    if len(answers) > 1:
        sys.exit("the reports differ")
    return [statistics.median(took[jobs]) for jobs in JOBS]


def main():
    with folders(__doc__) as (_, texts):
        print(f"{'family':<18}{'predicates':>12}" + "".join(f"{f'{jobs} ms':>10}" for jobs in JOBS) + f"{'two':>8}{'four':>8}")
        for name, (count, shape, spread) in FAMILIES.items():
            one, two, four = medians(whole.written(texts, shape(count), spread), texts)
            print(f"{name:<18}{count:>12}{one:>10.0f}{two:>10.0f}{four:>10.0f}{two / one:>8.2f}{four / one:>8.2f}", flush=True)


if __name__ == "__main__":
    main()
