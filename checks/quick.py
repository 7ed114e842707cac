#!/usr/bin/env python3
"""What can be known within two minutes and without the kit: rows, hostile input, failing streams and workers, over the kept program or the one that `--program` names, and the same of the kept `components`.

Ends with status 1 where an answer is wrong."""

import argparse
import pathlib
import subprocess
import sys
import time

import program

CHECKS = pathlib.Path(__file__).resolve().parent
PARTS = (["rows.py"], ["hostile.py", "--quick"], ["streams.py"], ["workers.py", "--graphs", "400", "--runs", "20"], ["components.py", "--quick"])
# The program of a part, if it is another one.
OTHERS = {"components.py": program.KEPT.with_name("components")}


def main():
    parser = argparse.ArgumentParser(description=__doc__.splitlines()[0])
    program.add_option(parser)
    options = parser.parse_args()
    options.program = options.program or program.KEPT
    chosen, wrong = program.of(options), []
    for name, *words in PARTS:
        begun = time.monotonic()
        if subprocess.run([sys.executable, CHECKS / name, *words, "--program", OTHERS.get(name, chosen)]).returncode:
            wrong.append(name)
        print(f"{name}: {time.monotonic() - begun:.0f} s", flush=True)
    print(f"quick: {'wrong in ' + ', '.join(wrong) if wrong else 'all as it should be'}")
    sys.exit(1 if wrong else 0)


if __name__ == "__main__":
    main()
