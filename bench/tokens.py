#!/usr/bin/env python3
"""Times `tokens` beside a scanner by hand in C++, on the same two generated texts of 8 MiB.

Needs `rt` and `g++`. Prints a table: the best of five runs of each, in milliseconds. With
`--keep FOLDER` the texts stay there.
"""

import subprocess
import sys

from common import ROOT, best, built, filled, folders


def dense(number):
    """Facts and rules without arguments, a clause a line."""
    return f"p{number} :- p{number + 1}, q{number % 7}.\n" if number % 3 else f"p{number}.\n"


def ordinary(number):
    """Source of which about a third is comments."""
    return (
        f"%% walk_{number}(Tree, Found): what is found in a tree\n"
        f"walk_{number}(leaf, Found) :- /* nothing more here */ found(Found).\n"
        f"walk_{number}(node(Left, Value, Right), Found) :-\n"
        f"    walk_{number}(Left, Before), % from left\n"
        f"    take(Value, Before, Then),\n"
        f"    walk_{number + 1}(Right, Then),   /* to right */\n"
        f"    settle(Then, Found).\n\n"
    )


def main():
    with folders(__doc__) as (folder, texts):
        program = built("tokens", "data/f.pl")
        scan = folder / "scan"
        subprocess.run(["g++", "-O2", "-o", scan, ROOT / "bench" / "scan.cpp"], check=True)
        print(f"{'text':<10}{'bytes':>10}{'tokens':>10}{'ours':>8}{'C++':>8}{'factor':>8}{'MB/s':>7}")
        for name, part in [("dense", dense), ("ordinary", ordinary)]:
            text = texts / f"{name}.pl"
            text.write_text(filled(part))
            ours, found = best(program, "tokens", text)
            theirs, also = best(scan, text)
            if found != also:
                sys.exit(f"{name}: {found} tokens, but the scanner finds {also}")
            size = text.stat().st_size
            print(f"{name:<10}{size:>10}{found:>10}{ours:>8.1f}{theirs:>8.1f}{ours / theirs:>8.2f}{size / 1000 / ours:>7.0f}")


if __name__ == "__main__":
    main()
