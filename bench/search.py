#!/usr/bin/env python3
"""Times the search of `search_stack` beside a plain Tarjan search in Rust, on the same graphs.

Needs `rt` and `rustc`. Prints two tables: the best of five runs of each, in milliseconds. In the second
many searches take turns on one graph, so that they suspend at each other's nodes over and over.
"""

import pathlib
import subprocess
import sys
import tempfile

from common import ROOT, best, built

GRAPHS = [("ring", 1_000_000), ("chain", 1_000_000), ("random", 200_000)]
SEARCHES = 64
SEED = 42


def time_suspensions(program):
    print(f"{'graph':<8}{'nodes':>10}{'groups':>10}{f'{SEARCHES} in turn':>12}")
    for shape, count in GRAPHS:
        took, groups = best(program, "many", shape, str(count), str(SEARCHES), str(SEED))
        print(f"{shape:<8}{count:>10}{groups:>10}{took:>12.1f}")


def main():
    program = built("search", "ring", "3")
    with tempfile.TemporaryDirectory() as folder:
        tarjan = pathlib.Path(folder) / "tarjan"
        source = ROOT / "bench" / "tarjan.rs"
        subprocess.run(["rustc", "--edition", "2021", "-O", "-o", tarjan, source], check=True)
        print(f"{'graph':<8}{'nodes':>10}{'groups':>10}{'search':>10}{'tarjan':>10}{'factor':>8}")
        for shape, count in GRAPHS:
            ours, groups = best(program, "search", shape, str(count))
            theirs, also = best(tarjan, shape, str(count))
            if groups != also:
                sys.exit(f"{shape}: {groups} groups, but the plain search finds {also}")
            print(f"{shape:<8}{count:>10}{groups:>10}{ours:>10.1f}{theirs:>10.1f}{ours / theirs:>8.2f}")
    print()
    time_suspensions(program)


if __name__ == "__main__":
    main()
