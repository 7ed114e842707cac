#!/usr/bin/env python3
"""Times `calls` beside `groups` on the families of whole.py: the medians of eleven runs of each, in turns, and the factor.

Both run over the same files; `calls` tells all predicates, clauses and calls. Needs the built programs, or `rt`.
"""

import statistics

from common import ROOT, folders
from whole import FAMILIES, GROUPS, once, written

CALLS = ROOT / "calls"
RUNS = 11


def main():
    with folders(__doc__) as (_, texts):
        print(f"{'family':<22}{'calls':>9}{'groups s':>10}{'calls s':>10}{'factor':>8}{'groups MB':>11}{'calls MB':>10}{'MB written':>12}")
        for name, (count, shape, spread) in FAMILIES.items():
            made = shape(count)
            names = written(texts, made, spread)
            runs = [(once([GROUPS, *names], texts), once([CALLS, *names], texts)) for _ in range(RUNS)]
            least, took = (statistics.median(run[program][0] for run in runs) for program in (0, 1))
            groups_mb, calls_mb = (max(run[program][1] for run in runs) for program in (0, 1))
            size = len(runs[-1][1][2])
            print(
                f"{name:<22}{sum(map(len, made)):>9}{least:>10.3f}{took:>10.3f}{took / least:>8.2f}{groups_mb:>11.1f}{calls_mb:>10.1f}{size / 1e6:>12.1f}",
                flush=True,
            )


if __name__ == "__main__":
    main()
