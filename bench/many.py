#!/usr/bin/env python3
"""Times many searches that take turns on one thread beside one search, on the same graphs, and claims of nodes.

Needs `rt`. Prints two tables, each of the best of five runs. The first has milliseconds: of one search
without turns, of 1, 4 and 16 that take turns, and the factor of 1 in turns over the one without. The
second has nanoseconds a claim, by the clock: of one pass that claims each node, and of two in threads of
their own, which both claim each.
"""

import sys

from common import best, built

GRAPHS = [("blocks", 1_000_000), ("ring", 1_000_000), ("chain", 1_000_000), ("random", 200_000)]
SEARCHES = [1, 4, 16]
SEED = 42
NODES = 1_000_000
PASSES = [1, 2]


def time_searches(program):
    heads = "".join(f"{f'{count} in turn':>12}" for count in SEARCHES)
    print(f"{'graph':<8}{'nodes':>10}{'groups':>10}{'search':>10}{heads}{'factor':>8}")
    for shape, count in GRAPHS:
        plain, groups = best(program, "search", shape, str(count))
        times = []
        for searches in SEARCHES:
            took, also = best(program, "many", shape, str(count), str(searches), str(SEED))
            if groups != also:
                sys.exit(f"{shape}: {groups} groups, but {searches} searches find {also}")
            times.append(took)
        columns = "".join(f"{took:>12.1f}" for took in times)
        print(f"{shape:<8}{count:>10}{groups:>10}{plain:>10.1f}{columns}{times[0] / plain:>8.2f}")


def time_claims(program):
    print(f"{'passes':<8}{'claims':>10}{'won':>10}{'ns each':>10}")
    for passes in PASSES:
        took, won = best(program, "claims", str(NODES), str(passes))
        if won != NODES:
            sys.exit(f"{passes} passes: {won} claims were won, of {NODES} nodes")
        claims = passes * NODES
        print(f"{passes:<8}{claims:>10}{won:>10}{took * 1_000_000 / claims:>10.1f}")


def main():
    program = built("search", "ring", "3")
    time_searches(program)
    print()
    time_claims(program)


if __name__ == "__main__":
    main()
