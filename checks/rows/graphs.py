#!/usr/bin/env python3
"""Writes the rows of crates/graph_rows: `stdin` has graphs, `stdout` what is to be told of each, worked out here from what the words mean.

A class is a set of reached nodes that reach one another. Its height is 0 where it calls no other class, else one more than the greatest that it calls. It is
recursive where it has two members or its one member calls itself. Rows with a schedule have the order that the draws of their seed give: it is told in ORDERS,
and isn't worked out."""

import itertools
import pathlib

ROWS = pathlib.Path(__file__).resolve().parent.parent.parent / "crates" / "graph_rows"

# callees of each node, and the roots
NAMED = [
    ("a ring of two, of which one calls a third node, and the root calls the ring", [[1], [2, 0], [], [0]], [3]),
    ("a ring of three, and a node beside it that calls itself and is not reached", [[1], [2], [0], [3]], [0, 1, 2]),
    ("rings that share nodes", [[2], [2], [3], [1, 0], [1]], [0, 4]),
    ("rings that share nodes, without the fifth", [[2], [2], [3], [1, 0]], [0, 1]),
    ("a ring of three", [[1], [2], [0]], [0, 1, 2]),
    ("no node", [], []),
    ("a ring of two", [[1], [0]], [0, 1]),
    ("a ring of three from its last", [[1], [2], [0]], [2, 0, 1]),
    ("two rings joined", [[1], [0, 2], [3], [2]], [3, 0, 2, 1]),
    ("a chain", [[1], [2], [3], []], [0, 1, 2, 3]),
    ("a diamond", [[1, 2], [3], [3], []], [0, 2]),
    ("a node that calls itself", [[0, 1], []], [0, 1]),
    ("parts apart", [[1], [0], [], [2], [4]], [3, 0, 4]),
    ("roots that come twice", [[1], [0], [0]], [2, 1, 2, 1, 0]),
    ("no root", [[1], []], []),
]

# a callee or a root that is no node
REFUSED = ["1 |", "0 | 1"]

# three pairs that share no node, so that the order of release tells which place acted when
PAIRS = [[1], [], [3], [], [5], []], [0, 2, 4]
ORDERS = [
    (2, 1, "[[1], [0], [3], [5], [2], [4]]"),
    (2, 7, "[[3], [2], [1], [0], [5], [4]]"),
    (2, 42, "[[1], [0], [5], [3], [4], [2]]"),
    (3, 42, "[[1], [3], [2], [0], [5], [4]]"),
]


def small():
    """Each graph of one node to three, with each set of roots."""
    for count in range(1, 4):
        lists = [[q for q in range(count) if bits >> q & 1] for bits in range(1 << count)]
        for succs in itertools.product(lists, repeat=count):
            for roots in lists:
                yield list(succs), roots


def line(succs, roots):
    told = ";".join(" ".join(map(str, it)) for it in succs) if succs else "-"
    return f"{told} | {' '.join(map(str, roots))}".rstrip()


def reached(succs, starts):
    found = set(starts)
    while more := {q for p in found for q in succs[p]} - found:
        found |= more
    return found


def answer(succs, roots):
    reach = [reached(succs, [p]) for p in range(len(succs))]
    classes = sorted({tuple(sorted(q for q in reach[p] if p in reach[q])) for p in reached(succs, roots)})
    heights = {}
    # a class reaches more nodes than each class that it calls
    for group in sorted(classes, key=lambda it: len(reach[it[0]])):
        below = [heights[it] for it in classes if it != group and any(q in it for p in group for q in succs[p])]
        heights[group] = 1 + max(below, default=-1)
    recursive = [len(it) > 1 or it[0] in succs[it[0]] for it in classes]
    found = ", ".join(f"({list(it)}, {heights[it]}, {str(is_so).lower()})" for it, is_so in zip(classes, recursive))
    return f"classes {list(map(list, classes))} heights {[heights[it] for it in classes]} searched [{found}] schedules as well"


def main():
    rows = [(line(*it), answer(*it)) for it in [*(named[1:] for named in NAMED), *small()]]
    rows += [(it, "no graph") for it in REFUSED]
    rows += [(f"{line(*PAIRS)} | {searches} {seed}", order) for searches, seed, order in ORDERS]
    for name, column in ("stdin", 0), ("stdout", 1):
        (ROWS / name).write_text("".join(f"{row[column]}\n" for row in rows))


main()
