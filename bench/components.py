#!/usr/bin/env python3
"""Times `components` on generated graphs of 1,000,000 nodes and 4,000,000 edges, compared with other programs and libraries, from text to report.

All read the same edges, a pair of names a line; for `sccmap` they are written in the language of Graphviz. The floor (`components_floor.cpp`) prints
the same report, and its bytes are compared. `tsort` takes acyclic graphs only, and prints its order. The libraries (Boost, petgraph, igraph, networkx)
and `sccmap` print the components without heights, in an order of their own. What isn't installed is left out with a line.

Prints a table: the least time of five runs in seconds, and the most memory that one held in MB. If the first run of a peer takes more than 20 seconds, it is
the only one. With `--keep FOLDER` the texts stay there; `--nodes N` makes smaller graphs; `--program FILE` times that program; `--processor`
prints seconds of the processor, if other work disturbs."""

import argparse
import pathlib
import random
import shutil
import subprocess
import sys
import tempfile

from common import ROOT, RUNS

# Starts a program from a small process, since the peak of a child counts what its parent held when it began it.
MEASURED = """
import os, subprocess, sys, time

begun = time.monotonic()
child = subprocess.Popen(sys.argv[1:], stdin=subprocess.DEVNULL)
_, status, used = os.wait4(child.pid, 0)
print(time.monotonic() - begun, used.ru_utime + used.ru_stime, used.ru_maxrss / 1024, os.waitstatus_to_exitcode(status), file=sys.stderr)
"""
ONE_RUN = 20.0
MOST_SECONDS = 300
BENCH = ROOT / "bench"

NETWORKX = """
import sys
import networkx

graph = networkx.read_edgelist(sys.argv[1], create_using=networkx.DiGraph, nodetype=str)
sys.stdout.writelines(" ".join(group) + "\\n" for group in networkx.strongly_connected_components(graph))
"""

IGRAPH = """
import sys
import igraph

graph = igraph.Graph.Read_Ncol(sys.argv[1], names=True, directed=True)
names = graph.vs["name"]
sys.stdout.writelines(" ".join(names[it] for it in group) + "\\n" for group in graph.connected_components(mode="strong"))
"""

CARGO = """
[package]
name = "components_petgraph"
version = "0.1.0"
edition = "2021"

[dependencies]
petgraph = { version = "0.6", default-features = false }
"""


# The shapes: for each node the nodes that it calls, four on average.


def anywhere(count):
    """Calls to any node: one giant component and single nodes."""
    source = random.Random(7)
    return ((at, source.randrange(count)) for at in range(count) for _ in range(4))


def nearby(count):
    """Most calls go a short way on and few go back: components of all sizes."""
    source = random.Random(11)

    def callee(at):
        chance = source.random()
        if chance < 0.04:
            return max(0, at - source.randint(0, 20))
        return source.randrange(at, count) if chance < 0.13 else min(count - 1, at + source.randint(1, 60))

    return ((at, callee(at)) for at in range(count) for _ in range(4))


def chain(count):
    """Each calls the next four: no cycle, and as many levels as nodes."""
    return ((at, min(count - 1, at + step)) for at in range(count - 1) for step in range(1, 5))


def ring(count):
    """Each calls the next four, round: one component."""
    return ((at, (at + step) % count) for at in range(count) for step in range(1, 5))


def blocks(count):
    """Cycles of ten with calls across, and one to the cycle before: many small components."""
    for at in range(count):
        first = at - at % 10
        for step in (1, 3, 7):
            yield at, first + (at + step) % 10
        yield at, max(0, first - 10)


SHAPES = {"random": anywhere, "nearby": nearby, "chain": chain, "ring": ring, "blocks": blocks}


def spelled(number):
    """The name of a node. Neighbours have names that are far from each other in order of bytes."""
    return f"{number * 7_368_787 % 16_777_216:06x}"


def write_texts(folder, edges, has_sccmap):
    """Writes the pairs, and the same for Graphviz."""
    with open(folder / "edges", "w") as out, open(folder / "edges.dot", "w") as dot:
        dot.write("digraph g {\n")
        for at, to in edges:
            start, end = spelled(at), spelled(to)
            out.write(f"{start} {end}\n")
            if has_sccmap:
                dot.write(f"n{start} -> n{end}\n")
        dot.write("}\n")


# The peers: each command, by its name.


def has_module(python, name):
    return subprocess.run([python, "-c", f"import {name}"], capture_output=True).returncode == 0


def petgraph(folder):
    """The program over petgraph, if cargo builds it without a network: from its own store or from Debian's librust-petgraph-dev."""
    if shutil.which("cargo") is None:
        return None
    place = folder / "petgraph"
    (place / "src").mkdir(parents=True)
    (place / "Cargo.toml").write_text(CARGO)
    shutil.copy(BENCH / "components_petgraph.rs", place / "src" / "main.rs")
    debian = ["--config", 'source.crates-io.replace-with="debian"', "--config", 'source.debian.directory="/usr/share/cargo/registry"']
    for words in ([], debian):
        if subprocess.run(["cargo", "build", "--release", "--offline", *words], cwd=place, capture_output=True).returncode == 0:
            return [place / "target" / "release" / "components_petgraph", "edges"]
    return None


def compiled(folder, source, *words):
    program = folder / pathlib.Path(source).stem
    done = subprocess.run(["g++", "-O3", "-std=c++17", "-o", program, BENCH / source, *words], capture_output=True)
    return [program, "edges"] if done.returncode == 0 else None


def library(folder, name, script):
    """The script over a library of Python, with the interpreter that has it."""
    (folder / f"by_{name}.py").write_text(script)
    python = next((it for it in (sys.executable, "/usr/bin/python3") if has_module(it, name)), None)
    return [python, folder / f"by_{name}.py", "edges"] if python else None


def peers(folder, program):
    found = {
        "components": [program, "edges"] if program else None,
        "floor": compiled(folder, "components_floor.cpp"),
        "tsort": ["tsort", "edges"] if shutil.which("tsort") else None,
        "Boost": compiled(folder, "components_boost.cpp"),
        "petgraph": petgraph(folder),
        "igraph": library(folder, "igraph", IGRAPH),
        "networkx": library(folder, "networkx", NETWORKX),
        "sccmap": ["sccmap", "edges.dot"] if shutil.which("sccmap") else None,
    }
    for name, words in found.items():
        if words is None:
            print(f"{name} isn't there, and is left out", file=sys.stderr)
    return {name: words for name, words in found.items() if words}


def once(words, folder, by_processor):
    """The seconds and the most MB of a run, and how it ended; what it wrote is in the file `written`."""
    with open(folder / "written", "wb") as out:
        try:
            run = subprocess.run([sys.executable, "-c", MEASURED, *words], cwd=folder, stdout=out, stderr=subprocess.PIPE, text=True, timeout=MOST_SECONDS)
        except subprocess.TimeoutExpired:
            return MOST_SECONDS, 0.0, "late"
    elapsed, used, most, status = run.stderr.split()[-4:]
    return float(used if by_processor else elapsed), float(most), status


def best(words, folder, by_processor, runs):
    found = [once(words, folder, by_processor)]
    while found[0][0] < ONE_RUN and len(found) < runs and found[-1][2] == "0":
        found.append(once(words, folder, by_processor))
    return min(it[0] for it in found), max(it[1] for it in found), found[-1][2]


def shown(took, most, ended):
    return f"{took:.2f} s {most:.0f} MB" if ended == "0" else "over 300 s" if ended == "late" else f"ended with {ended}"


def main():
    parser = argparse.ArgumentParser(description=__doc__.partition("\n")[0])
    parser.add_argument("--keep", metavar="FOLDER", type=pathlib.Path)
    parser.add_argument("--nodes", type=int, default=1_000_000)
    parser.add_argument("--program", type=pathlib.Path)
    parser.add_argument("--processor", action="store_true", help="seconds of the processor in place of elapsed ones, if other work disturbs")
    parser.add_argument("--runs", type=int, default=RUNS)
    parser.add_argument("--peers", help="these alone, separated by commas")
    parser.add_argument("--shapes", help="these alone, separated by commas")
    options = parser.parse_args()
    built = [ROOT / "crates/components/out/components", ROOT / "release/components"]
    program = options.program or next((it for it in built if it.is_file()), None)
    with tempfile.TemporaryDirectory() as name:
        folder = options.keep.resolve() if options.keep else pathlib.Path(name)
        tools = peers(pathlib.Path(name), program and program.resolve())
        tools = {it: words for it, words in tools.items() if not options.peers or it in options.peers.split(",")}
        print(f"{'shape':<10}" + "".join(f"{it:>19}" for it in tools))
        for shape in options.shapes.split(",") if options.shapes else SHAPES:
            write_texts(folder, SHAPES[shape](options.nodes), "sccmap" in tools)
            print(f"{shape:<10}", end="", flush=True)
            reports = {}
            for it, words in tools.items():
                if it == "tsort" and shape != "chain":
                    print(f"{'-':>19}", end="", flush=True)
                    continue
                print(f"{shown(*best(words, folder, options.processor, options.runs)):>19}", end="", flush=True)
                if it in ("components", "floor"):
                    reports[it] = (folder / "written").read_bytes()
            print()
            if len(reports) == 2 and len(set(reports.values())) == 2:
                sys.exit(f"{shape}: the reports differ")


if __name__ == "__main__":
    main()
