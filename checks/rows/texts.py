#!/usr/bin/env python3
"""Writes crates/text_rows/stdin: the rows of its `stdout`, which is written by hand, without what they answer.

A line of `stdout` that begins with `#` and a blank says what is asked of the rows below it, and each other line is `ROW => ANSWER`. Answers are worked out from
the rules (docs/syntax.md, docs/report.md), and are never what the program says."""

import pathlib

ROWS = pathlib.Path(__file__).resolve().parent.parent.parent / "crates" / "text_rows"


def main():
    lines = (ROWS / "stdout").read_text().split("\n")
    rows = [it if it.startswith("# ") else it.partition(" => ")[0] for it in lines]
    (ROWS / "stdin").write_text("\n".join(rows))
    print(f"{sum(' => ' in it for it in lines)} rows")


if __name__ == "__main__":
    main()
