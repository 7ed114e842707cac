#!/usr/bin/env python3
"""who_calls.py [MODULE:]NAME/ARITY FILE..: where that predicate is called and by whom, a line each. Needs `calls` beside this folder, or its path in CALLS."""

import json
import os
import pathlib
import subprocess
import sys

CALLS = os.environ.get("CALLS") or str(pathlib.Path(__file__).resolve().parent.parent / "calls")


def main():
    if len(sys.argv) < 3 or "/" not in sys.argv[1]:
        print("usage: who_calls.py [MODULE:]NAME/ARITY FILE..", file=sys.stderr)
        sys.exit(2)
    wanted, names = sys.argv[1], {None: "directive"}
    with subprocess.Popen([CALLS, "--unreached", *sys.argv[2:]], stdout=subprocess.PIPE, text=True, encoding="utf-8") as run:
        for line in run.stdout:
            told = json.loads(line)
            if told["is"] == "predicate":
                names[told["id"]] = f"{told['module']}:{told['name']}/{told['arity']}"
            elif told["is"] == "call" and wanted in (f"{told['name']}/{told['arity']}", names[told["callee"]]):
                print(f"{told['file']}:{told['line']}:{told['column']}: {names[told['caller']]}")
    sys.exit(run.returncode)


if __name__ == "__main__":
    main()
