#!/usr/bin/env python3
"""Counts the instructions of whole runs of `groups` by layer, on the families of `whole.py`, in millions; with `--calls` those of `calls`.

Needs valgrind. What a function of the allocator, of a list, of a sort or of a thread takes is counted to
those that call it, each in the share that its calls have. A function that the compiler laid into another counts to that one. Instructions
are the same each time, whatever else the machine does. With `--keep FOLDER` the texts stay there.
"""

import collections
import re
import subprocess
import sys

from common import ROOT, folders
from whole import FAMILIES, written

# The first pattern that a function's name begins with decides; what fits none is shared among its callers.
OF_CALLS = [
    ("places", "prolog_tokens::places|file_library::spots"),
    ("table", "call_table::"),
    ("lines", "call_writer::|call_told::"),
]
LAYERS = [
    ("tokens", "prolog_tokens::"),
    ("names", "prolog_names::"),
    ("clauses", "prolog_terms::|prolog_ops::|kept_clauses::|clause_text::"),
    ("facts", "module_table::|file_library::"),
    ("calls", "call_edges::|import_rules::program::Program::find|import_rules::predicates::Predicates::find|group_tool::answer::asked_of"),
    ("program", "import_rules::|(?:group_tool|tool_run)::loading::|calls_tool::"),
    ("search", "search_stack::|group_tool::driver::"),
    ("report", "loop_report::|group_release::|group_tool::answer::report_(?:groups|leveled)"),
    ("rest", r"group_tool::|tool_run::|groups::|calls::|\(below main\)|main$|0x"),
]


class Profile:
    """What callgrind counted: for each function its own instructions, and for each pair of functions those of the calls between them."""

    def __init__(self, path):
        self.own = collections.Counter()
        self.edges = collections.defaultdict(collections.Counter)
        names, caller, callee, is_call = {}, None, None, False
        for line in path.read_text().splitlines():
            head, _, rest = line.partition("=")
            if head in ("fn", "cfn"):
                number, _, name = rest.partition(" ")
                name = re.sub(r"'\d+$", "", names.setdefault(number, name) if name else names[number])
                caller, callee = (name, callee) if head == "fn" else (caller, name)
            elif head == "calls":
                is_call = True
            elif re.match(r"[+*\-\d]", line) and caller:
                cost = int(line.split()[1])
                if not is_call:
                    self.own[caller] += cost
                elif callee != caller:
                    self.edges[callee][caller] += cost
                is_call = False


def layer_of(name, layers):
    """The layer of a function by its name, or none."""
    return next((layer for layer, pattern in layers if re.match(pattern, name)), None)


def heaviest(profile, layers):
    """For each function the layer of the one that it spends most in, which tells what a thread of a pool works for."""
    spent = collections.defaultdict(collections.Counter)
    for callee, callers in profile.edges.items():
        layer = layer_of(callee, layers)
        for caller, cost in callers.items():
            if layer not in (None, "rest"):
                spent[caller][layer] += cost
    return {name: counts.most_common(1)[0][0] for name, counts in spent.items()}


def by_layer(profile, layers):
    """The instructions of each layer."""
    working_for = heaviest(profile, layers)
    found, open_costs = collections.Counter(), collections.Counter(profile.own)
    for _ in range(60):
        moved = collections.Counter()
        for name, cost in open_costs.items():
            layer = layer_of(name, layers) or (working_for.get(name) if name.startswith("rayon::") or "fork" in name else None)
            callers = profile.edges[name]
            if layer or not callers:
                found[layer or "rest"] += cost
                continue
            whole = sum(callers.values())
            for caller, share in callers.items():
                moved[caller] += cost * share / whole if whole else cost / len(callers)
        open_costs = moved
    found["rest"] += sum(open_costs.values())
    return found


def program(tool):
    """The program itself, not the script that starts it: what was built here, or the kept one."""
    return next(it for it in (ROOT / "crates" / tool / "out" / tool, ROOT / "release" / tool) if it.is_file())


def main():
    with folders(__doc__, "--calls") as (folder, texts, is_of_calls):
        layers = OF_CALLS + LAYERS if is_of_calls else LAYERS
        counted = program("calls" if is_of_calls else "groups")
        columns = [layer for layer, _ in LAYERS[:-1] + (OF_CALLS if is_of_calls else []) + LAYERS[-1:]]
        print(f"{'family':<22}" + "".join(f"{layer:>9}" for layer in columns) + f"{'run':>9}")
        for name, (count, shape, spread) in FAMILIES.items():
            names = written(texts, shape(count), spread)
            out = folder / "counted"
            words = ["valgrind", "--tool=callgrind", f"--callgrind-out-file={out}", str(counted), *names]
            ran = subprocess.run(words, cwd=texts, stdout=subprocess.DEVNULL, stderr=subprocess.PIPE, text=True)
            if ran.returncode:
                sys.exit(ran.stderr)
            found = by_layer(Profile(out), layers)
            print(f"{name:<22}" + "".join(f"{found[layer] / 1e6:>9.0f}" for layer in columns) + f"{sum(found.values()) / 1e6:>9.0f}", flush=True)


if __name__ == "__main__":
    main()
