#!/usr/bin/env python3
"""Compares the calls that calls-swi tells of whole programs with those that SWI-Prolog's prolog_walk_code/1 and prolog_xref tell.

    bridge_compare.py [--show KIND] [LIBRARY..]

A program is a library of SWI-Prolog with all that it loads: those of bridge_compare.txt, unless others are named. Prints a line for each program; then
how many pairs of a caller and a callee there are, how many of either tool's the bridge lacks, and all differences by kind (docs/bridge.md has the
reasons). --show prints the pairs whose kind begins so. Takes some ten minutes of processor time.
"""

import argparse
import collections
import concurrent.futures
import json
import os
import pathlib
import re
import subprocess

import bridge

HERE = pathlib.Path(__file__).resolve().parent
LIBRARY = pathlib.Path("/usr/lib/swi-prolog/library")
HOOK_MODULES = {"prolog", "system", "user", "sandbox", "prolog_colour", "prolog_debug_tools", "prolog_edit", "prolog_clause", "http", "pengines_sandbox", "prolog_xref"}
XPCE = re.compile(r"pce_principal:(send|get|new)|pce_")
EXPANDED = re.compile(r"clp|nf_|bv_|fourmotz")


def told_by_bridge(main):
    """The place of each pair, the predicates, and the files that are read."""
    words = [bridge.CALLS_BRIDGE, "--unreached", "--libraries", main]
    out = subprocess.run(words, stdin=subprocess.DEVNULL, capture_output=True, text=True, errors="replace", timeout=300).stdout
    names, pairs, files = {}, {}, {}
    for said in map(json.loads, out.splitlines()):
        if said["is"] == "predicate":
            names[said["id"]] = f"{said['module']}:{said['name']}/{said['arity']}"
        elif said["is"] == "clause":
            files[os.path.abspath(said["file"])] = True
        elif said["is"] == "call" and None not in (said["caller"], said["callee"]):
            pairs.setdefault((names[said["caller"]], names[said["callee"]]), f"{said['file']}:{said['line']}")
    return pairs, set(names.values()), list(files)


def told_by_tools(main, files):
    """Pairs of each tool, the predicates in memory, and the files that weren't loaded."""
    words = ["swipl", "-f", "none", "--no-packs", HERE / "bridge_walk.pl", "--", main, *files]
    out = subprocess.run(words, stdin=subprocess.DEVNULL, capture_output=True, text=True, errors="replace", timeout=300).stdout
    told = {"walk": set(), "xref": set(), "has": set(), "unloaded": set()}
    for line in out.splitlines():
        word, *names = [re.sub(r":\((.*)\)/(\d+)$", r":\1/\2", name) for name in bridge.names_in(line)] or [""]
        if word in told and names:
            told[word].add(tuple(names) if len(names) == 2 else names[0])
    return told


def without_made(pairs):
    """Predicates that expansions put between are taken out: A calls AUX, AUX calls B becomes A calls B."""
    successors, found = collections.defaultdict(set), set()
    for caller, callee in pairs:
        successors[caller].add(callee)
    for caller in [it for it in successors if "__aux_" not in it]:
        todo, seen = list(successors[caller]), set()
        while todo:
            callee = todo.pop()
            if callee not in seen:
                seen.add(callee)
                if "__aux_" in callee:
                    todo += successors.get(callee, ())
                else:
                    found.add((caller, callee))
    return found


def program_pairs(told, pairs, predicates):
    """The tool's pairs among the program's modules. A callee that only the tool places elsewhere is the one that the bridge has under the name."""
    modules = {name.partition(":")[0] for name in predicates}
    by_name = collections.defaultdict(list)
    for caller, callee in pairs:
        by_name[caller, callee.partition(":")[2]].append((caller, callee))

    def is_own(name):
        module = name.partition(":")[0]
        return module in modules and (module != "user" or name in predicates)

    found = set()
    for caller, callee in told:
        if is_own(caller) and (callee.partition(":")[0] != "user" or callee in predicates):
            same = by_name.get((caller, callee.partition(":")[2]), ())
            found.update(same if same and (caller, callee) not in pairs and callee not in predicates else [(caller, callee)])
    return found


def bridge_kind(pair, pairs, tools, by):
    """What a pair is that only the bridge tells."""
    caller, callee = pair
    if XPCE.match(callee):
        return "XPCE: written as it is, where the tool has it expanded"
    if callee.startswith("apply:") or EXPANDED.match(caller):
        return "goals that an expansion has taken away"
    if by == "xref":
        return "hooks that other modules call" if callee.partition(":")[0] in HOOK_MODULES else "names that autoloading finds, or library(lists) has"
    if pairs[pair].rpartition(":")[0] in tools["unloaded"]:
        return "file that the walk doesn't load"
    if callee not in tools["has"]:
        return "callee without clauses in memory"
    if caller.partition(":")[0] in HOOK_MODULES:
        return "clauses of hooks, whose modules aren't walked"
    return "clauses that a file gives for another module, and others"


def tool_kind(pair, predicates, by):
    """What a pair is that only the tool tells."""
    caller, callee = pair
    if "<" in caller:
        return "a directive or an export, no clause"
    if callee not in predicates:
        return "callee written in C or made by an expansion"
    if caller not in predicates:
        return "caller made by an expansion, or in a branch that isn't read"
    if EXPANDED.match(caller):
        return "goals that an expansion of library(clp/..) puts in"
    if XPCE.match(callee):
        return "goals that an expansion of XPCE puts in"
    return "others"


def compare(main):
    """One program: its name, its counts, and each difference by tool and kind."""
    pairs, predicates, files = told_by_bridge(main)
    tools = told_by_tools(main, files)
    counts, kinds = {"files": len(files), "bridge": len(pairs)}, collections.defaultdict(list)
    for by in ("walk", "xref"):
        theirs = program_pairs(without_made(tools[by]), pairs, predicates)
        counts[by], counts[f"{by}, bridge too"] = len(theirs), len(theirs & set(pairs))
        for pair in set(pairs) - theirs:
            kinds[f"bridge, not {by}: {bridge_kind(pair, pairs, tools, by)}"].append((pair, pairs[pair]))
        for pair in theirs - set(pairs):
            kinds[f"{by}, not bridge: {tool_kind(pair, predicates, by)}"].append((pair, os.path.basename(main)))
    return main, counts, kinds


def main():
    parser = argparse.ArgumentParser()
    parser.add_argument("--show")
    parser.add_argument("libraries", nargs="*")
    words = parser.parse_args()
    names = words.libraries or (HERE / "bridge_compare.txt").read_text().split()
    total, count, different = collections.Counter(), collections.Counter(), collections.defaultdict(dict)
    with concurrent.futures.ThreadPoolExecutor(bridge.AT_ONCE) as pool:
        for name, counts, kinds in pool.map(compare, [str(LIBRARY / name) for name in names]):
            print(f"{os.path.basename(name)}: {counts}", flush=True)
            total.update(counts)
            for kind, found in kinds.items():
                count[kind] += len(found)
                different[kind].update(found)
    print(f"\n{len(names)} programs, {total['files']} files, {total['bridge']} pairs by the bridge")
    for by in ("walk", "xref"):
        lacking = total[by] - total[f"{by}, bridge too"]
        print(f"{by}: {total[by]} pairs, of which the bridge lacks {lacking}, {100 * lacking / max(1, total[by]):.2f}%")
    for kind in sorted(count):
        print(f"{count[kind]:7} {len(different[kind]):5} different  {kind}")
        if words.show and kind.startswith(words.show):
            for (caller, callee), place in sorted(different[kind].items()):
                print(f"    {caller} > {callee}  {place}")


if __name__ == "__main__":
    main()
