#!/usr/bin/env python3
"""Tries the built program `components` with rows, random graphs, hostile input, failing streams and memory, limits and growth.

- `rows`: runs whose output is written out here.
- `random`: graphs of many shapes with odd names, in texts with every kind of white space, compared with `components_reference.py`; and that
  reference with networkx, if it is installed. With `--order` any reverse topological order is right.
- `hostile`: each prefix of a text, random bytes, files that are no graph.
- `streams`: files that can't be read, pipes, streams that are closed, full or gone; reads and writes that fail in turn, or are cut.
- `memory`: each allocation fails in turn, alone and with all after it.
- `front_ends`: what the scripts of examples/edges/ print, of the tools that are installed.
- `limits`: the last text that each limit takes, and the first that it doesn't; a line of a GiB.
- `growth`: doubles texts of many kinds, names of one hash too: more than 2.5 times the processor time or memory is an error.
- `largest`: 8,000,000 nodes, as a chain, as lines of their own, as one line; prints time and memory.

Names of parts run those alone; `--quick` leaves out `limits` and `largest`, and tries a part of the others. Ends with status 1 if something is wrong."""

import argparse
import filecmp
import itertools
import os
import pathlib
import random
import re
import shutil
import subprocess
import sys
import tempfile
import threading
import time

import components_reference as reference
import program

ROOT = pathlib.Path(__file__).resolve().parent.parent
MOST_SECONDS = 120
GIB = 1_073_741_824

# The program, whether a part is tried only, and what is amiss.
chosen = []
wrong = []


def run(words, data=b"", folder=None, env=None, **streams):
    """The status and the bytes of a run; a signal's death is a negative status, and no end is None."""
    streams = {"stdout": subprocess.PIPE, "stderr": subprocess.PIPE, **streams}
    given = {} if "stdin" in streams else {"input": data}
    try:
        done = subprocess.run([chosen[0], *words], cwd=folder, env=env, timeout=MOST_SECONDS, **given, **streams)
    except subprocess.TimeoutExpired:
        return None, b"", b"no end"
    return done.returncode, done.stdout, done.stderr


def brief(answer):
    return tuple(it if not isinstance(it, bytes) or len(it) < 300 else it[:300] + b" .." for it in answer)


def expect(what, found, *answers):
    if found not in answers:
        wrong.append(f"{what}: {brief(found)}, not {' or '.join(str(brief(it)) for it in answers)}")


def some(things):
    return things[::7] if chosen[1] else things


# Rows: the arguments, the text, and the status, the output and the errors.

RING = b"a b\nb c\nc a\nc d\n"
TWO = b"main parse eval\nparse token parse\neval apply\napply eval\n"
USAGE = "usage"
LONG = b"n" * 65_536
ROWS = (
    ("an empty text", "", b"", 0, b"nodes 0 groups 0 recursive 0 levels 0\n", b""),
    ("only white space", "", b" \t\n\r\n\v\f\n", 0, b"nodes 0 groups 0 recursive 0 levels 0\n", b""),
    ("a node", "", b"a\n", 0, b"nodes 1 groups 1 recursive 0 levels 1\n0 plain a\n", b""),
    ("an edge", "", b"a b\n", 0, b"nodes 2 groups 2 recursive 0 levels 2\n0 plain b\n1 plain a\n", b""),
    ("an edge to itself", "", b"a a\n", 0, b"nodes 1 groups 1 recursive 1 levels 1\n0 recursive a\n", b""),
    ("a cycle of three", "", RING, 0, b"nodes 4 groups 2 recursive 1 levels 2\n0 plain d\n1 recursive a b c\n", b""),
    ("two groups", "", TWO, 0, b"nodes 5 groups 4 recursive 2 levels 3\n0 recursive apply eval\n0 plain token\n1 recursive parse\n2 plain main\n", b""),
    ("lines of one height are by least member", "", b"z\ny\nb a\na b\nx\n", 0, b"nodes 5 groups 4 recursive 1 levels 1\n0 recursive a b\n0 plain x\n0 plain y\n0 plain z\n", b""),
    ("order of bytes, not of letters", "", b"\xc3\xa9\nZ\na\n\xff\n10\n9\n", 0, b"nodes 6 groups 6 recursive 0 levels 1\n0 plain 10\n0 plain 9\n0 plain Z\n0 plain a\n0 plain \xc3\xa9\n0 plain \xff\n", b""),
    ("a name before those that it begins", "", b"ab a abc\nabc ab\na ab\n", 0, b"nodes 3 groups 1 recursive 1 levels 1\n0 recursive a ab abc\n", b""),
    ("no newline at the end", "", b"a b", 0, b"nodes 2 groups 2 recursive 0 levels 2\n0 plain b\n1 plain a\n", b""),
    ("carriage returns", "", b"a b\r\nb a\r\n", 0, b"nodes 2 groups 1 recursive 1 levels 1\n0 recursive a b\n", b""),
    ("all white space", "", b"\va\fb\tc \r d\n", 0, b"nodes 4 groups 4 recursive 0 levels 2\n0 plain b\n0 plain c\n0 plain d\n1 plain a\n", b""),
    ("comments begin a line", "", b"#a b\na #b\n #c\n", 0, b"nodes 3 groups 3 recursive 0 levels 2\n0 plain #b\n0 plain #c\n1 plain a\n", b""),
    ("equal edges", "", b"a b b\na b\n", 0, b"nodes 2 groups 2 recursive 0 levels 2\n0 plain b\n1 plain a\n", b""),
    ("bytes of any kind", "", b"\0 \x80\n\x80 \0\n\x1b[31m\n", 0, b"nodes 3 groups 2 recursive 1 levels 1\n0 recursive \0 \x80\n0 plain \x1b[31m\n", b""),
    ("a name of 65,536 bytes", "", b"a " + LONG, 0, b"nodes 2 groups 2 recursive 0 levels 2\n0 plain " + LONG + b"\n1 plain a\n", b""),
    ("a name that is a byte longer", "", b"#\nx\na \xc3\xa9 " + LONG + b"n\n", 3, b"", b"-:3:6: name is longer than 65536 bytes\n"),
    ("a long comment has no name", "", b"#" + LONG + LONG, 0, b"nodes 0 groups 0 recursive 0 levels 0\n", b""),
    ("the longest path counts", "", b"a b d\nb c\nc d\n", 0, b"nodes 4 groups 4 recursive 0 levels 4\n0 plain d\n1 plain c\n2 plain b\n3 plain a\n", b""),
    ("roots", "--roots b", b"a b\nb c\n", 0, b"nodes 2 groups 2 recursive 0 levels 2\n0 plain c\n1 plain b\n", b""),
    ("two roots, one of them twice", "--roots=e --roots b --roots e", b"a b\nb c\nd\ne\n", 0, b"nodes 3 groups 3 recursive 0 levels 2\n0 plain c\n0 plain e\n1 plain b\n", b""),
    ("a root that isn't there", "--roots b --roots y --roots x", b"a b\n", 2, b"", b"components: no node y\n"),
    ("a root that begins with a dash", "--roots=-x", b"-x a\nb\n", 0, b"nodes 2 groups 2 recursive 0 levels 2\n0 plain a\n1 plain -x\n", b""),
    ("options end", "-- none", b"", 4, b"", b"components: cannot read none\n"),
    ("an error goes before a root", "--roots x", LONG + b"n", 3, b"", b"-:1:1: name is longer than 65536 bytes\n"),
    ("the search's order", "--order", b"a b\nb c\n", 0, b"nodes 3 groups 3 recursive 0 levels 3\n0 plain c\n1 plain b\n2 plain a\n", b""),
    ("threads", "--jobs 4", RING, 0, b"nodes 4 groups 2 recursive 1 levels 2\n0 plain d\n1 recursive a b c\n", b""),
    ("all of them", "--order --jobs=2 --roots c -", RING, 0, b"nodes 4 groups 2 recursive 1 levels 2\n0 plain d\n1 recursive a b c\n", b""),
    ("a number with zeros", "--jobs 00000000000000000064", b"a\n", 0, b"nodes 1 groups 1 recursive 0 levels 1\n0 plain a\n", b""),
    ("no file", "none", b"", 4, b"", b"components: cannot read none\n"),
    ("a folder", "/", b"", 4, b"", b"components: cannot read /\n"),
    *((f"wrong arguments: {words}", words, b"a\n", 2, b"", USAGE) for words in (
        "--jobs", "--jobs 0", "--jobs 65", "--jobs 1x", "--jobs=", "--jobs -1", "--jobs 1 --jobs 1", "--jobs 000000000000000000001", "--roots", "--roots=",
        "--roots -x", "--order --order", "--order=1", "--ord", "-o", "--help", "--searches 2", "f f", "- -", "-- f f", "--stream")),
    ("loops", "--loops", b"a b\nb c\nc a b\nd d\ne d\n", 0, b"nodes 5 groups 3 recursive 2 levels 2\n0 recursive a b c\n0 recursive d\n1 plain e\nloop a b c\nloop d\n", b""),
    ("a shortest cycle, with the least names", "--loops", b"a y b z\nb c\nc a\ny x\nx a\nz z\n", 0, b"nodes 6 groups 2 recursive 2 levels 2\n0 recursive z\n1 recursive a b c x y\nloop z\nloop a b c\n", b""),
    ("JSON", "--json", b'a b\nb a "\xc3\xa9\\\n', 0, b'{"nodes":3,"groups":2,"recursive":1,"levels":2}\n{"id":0,"height":0,"recursive":false,"members":["\\"\xc3\xa9\\\\"]}\n{"id":1,"height":1,"recursive":true,"members":["a","b"]}\n', b""),
    ("JSON with cycles", "--json --loops", b"a b\nb a\n", 0, b'{"nodes":2,"groups":1,"recursive":1,"levels":1}\n{"id":0,"height":0,"recursive":true,"members":["a","b"]}\n{"loop":["a","b"]}\n', b""),
    ("JSON of a name that isn't UTF-8", "--json", b"a\x01\nb \xff\x07\n", 0, b'{"nodes":3,"groups":3,"recursive":0,"levels":2}\n{"id":0,"height":0,"recursive":false,"members":["a\\u0001"]}\n{"id":1,"height":0,"recursive":false,"members":[[255,7]]}\n{"id":2,"height":1,"recursive":false,"members":["b"]}\n', b""),
    ("from JSON", "--from-json", b'{"from":"a","to":"b"}\n\n{"to":"a","from":"b"}\n{ "from" : "c" }\n', 0, b"nodes 3 groups 2 recursive 1 levels 1\n0 recursive a b\n0 plain c\n", b""),
    ("from JSON, to JSON", "--from-json --json", b'{"from":"a b","to":"\\u00e9\\n"}', 0, '{{"nodes":2,"groups":2,"recursive":0,"levels":2}}\n{{"id":0,"height":0,"recursive":false,"members":["é\\u000a"]}}\n{{"id":1,"height":1,"recursive":false,"members":["a b"]}}\n'.replace("{{", "{").replace("}}", "}").encode(), b""),
    ("from JSON: other members", "--from-json", b'{"line":[1,{"to":2}],"to":"b","weight":-0.5e3,"from":"a","x":null}\n', 0, b"nodes 2 groups 2 recursive 0 levels 2\n0 plain b\n1 plain a\n", b""),
    ("from JSON: the last of two members", "--from-json", b'{"from":"a","to":1,"from":"b","to":"c"}', 0, b"nodes 2 groups 2 recursive 0 levels 2\n0 plain c\n1 plain b\n", b""),
    ("from JSON: blank lines", "--from-json", b' \t\r\n{"from":"a"}\r\n\n', 0, b"nodes 1 groups 1 recursive 0 levels 1\n0 plain a\n", b""),
    ("from JSON: escapes", "--from-json --json", b'{"from":"\\u0041\\ud834\\udd1e\\"\\\\\\/\\b\\f\\n\\r\\t","to":""}', 0,
     b'{"nodes":2,"groups":2,"recursive":0,"levels":2}\n{"id":0,"height":0,"recursive":false,"members":[""]}\n{"id":1,"height":1,"recursive":false,"members":["A\xf0\x9d\x84\x9e\\"\\\\/\\u0008\\u000c\\u000a\\u000d\\u0009"]}\n', b""),
    ("from JSON: a root", "--from-json --loops --roots a", b'{"from":"a","to":"a"}\n{"from":"b","to":"a"}', 0, b"nodes 1 groups 1 recursive 1 levels 1\n0 recursive a\nloop a\n", b""),
    ("from JSON: a name that is too long", "--from-json", b'{"from":"b"}\n{"from":"a","to":"' + LONG + b'n"}', 3, b"", b"-:2:1: name is longer than 65536 bytes\n"),
    ("from JSON: the longest name", "--from-json", b'{"from":"' + LONG + b'"}', 0, b"nodes 1 groups 1 recursive 0 levels 1\n0 plain " + LONG + b"\n", b""),
    ("from JSON: the deepest nesting", "--from-json", b'{"x":' + b"[" * 126 + b"]" * 126 + b',"from":"a"}', 0, b"nodes 1 groups 1 recursive 0 levels 1\n0 plain a\n", b""),
    ("from JSON: nested too deep", "--from-json", b'{"x":' + b"[" * 127 + b"]" * 127 + b',"from":"a"}', 3, b"", b"-:1:1: line is not an edge\n"),
    *((f"from JSON: no edge: {line[:40]}", "--from-json", b'{"from":"b"}\n \n' + line + b'\n{"from":1}', 3, b"", b"-:3:1: line is not an edge\n") for line in (
        b"a b", b"[]", b"{}", b'{"to":"a"}', b'{"from":1}', b'{"from":null,"to":"a"}', b'{"from":"a","to":null}', b'{"from":"a","to":["b"]}', b'"from"', b'{"from":"a"',
        b'{"from":"a"}{"from":"b"}', b'{"from":"a"} x', b'{"from":"a",}', b"{'from':'a'}", b'{"from":"\xff"}', b'{"from":"\xc3"}', b'{"from":"\\ud800"}', b'{"from":"\\udc00a"}',
        b'{"from":"\\x41"}', b'{"from":"a\tb"}', b'{"from":"a\0"}', b'{"from":"a","x":01}', b'{"from":"a","x":NaN}', b'{"from":"a","x":"\\ud800"}', b"\v", b"\xef\xbb\xbf{}", b"#", b'{"From":"a"}')),
)


def rows(folder):
    tried = 0
    for title, words, data, status, out, err in ROWS:
        words = words.split()
        wanted = (2, b"", reference.usage_line()) if err == USAGE else (status, out, err)
        expect(f"row: {title}", run(words, data, folder), wanted)
        if status == 0 and "-" not in words:
            (folder / "f.txt").write_bytes(data)
            expect(f"row from a file: {title}", run([*words, "f.txt"], b"x y z", folder), wanted)
        tried += 1
    words = [b"--roots", b"\xff"]
    expect("row: an argument that isn't UTF-8", run(words, b"\xff\n", folder), (2, b"", reference.usage_line()))
    print(f"rows: {tried + 1} of them")


# Random graphs.


def shapes(source):
    """The edges of a graph of some shape, between numbers below the second."""
    count = source.choice((1, 2, 3, 5, 8, 20, 60))
    node = lambda: source.randrange(count)
    yield [(node(), node()) for _ in range(source.randrange(3 * count))], count
    yield [(node(), node()) for _ in range(count)], count
    yield [(at, at + 1) for at in range(count - 1)], count
    yield [(at, (at + 1) % count) for at in range(count)], count
    yield [(at + 1, at) for at in range(count - 1)] + [(node(), node())], count
    yield [(a, b) for a in range(min(count, 8)) for b in range(min(count, 8))], count
    yield [(0, at) for at in range(count)] + [(at, 0) for at in range(count) if source.random() < 0.3], count
    yield [(min(a, b), max(a, b)) for a, b in ((node(), node()) for _ in range(2 * count)) if a != b], count
    yield [(at, at + 1 if at % 5 < 4 else at - 4) for at in range(count - 1)] + [(node(), node()) for _ in range(3)], count
    yield [(at, at) for at in range(count) if source.random() < 0.5], count
    yield [(at, source.randrange(max(0, at - 3), min(count, at + 4))) for at in range(count) for _ in range(2)], count
    yield [], count


def odd_name(source):
    kind = source.randrange(10)
    if kind == 0:
        return bytes(source.choice([it for it in range(256) if it not in b" \t\n\v\f\r"]) for _ in range(source.randint(1, 12)))
    if kind == 1:
        return b"same_begin" + source.choice((b"", b"\0", b"\0\0", b"a", b"\xff", b"ab")) * source.randint(0, 2)
    if kind == 2:
        return source.choice((b"#", b"##x", b"a#", b"-", b"--roots", b"\0", b"\xff", b"\x85", b"\xc2\xa0", "é€𝄞".encode(), b"'", b'"', b"\\", b"\x7f", b"\x1b"))
    if kind == 3:
        return b"l" * source.choice((7, 8, 9, 15, 16, 17, 255, 4_096)) + b"%d" % source.randrange(3)
    return b"%s%d" % (source.choice((b"p", b"node_", b"m:p/", b"")), source.randrange(1_000))


def as_text(source, edges, names):
    """A text that says these edges and names, with odd white space, comments and lines that say the same."""
    gap = lambda: source.choice((b" ", b" ", b" ", b"\t", b"  ", b" \t", b"\v", b"\f", b"\r", b" \r "))
    end = source.choice((b"\n", b"\n", b"\r\n", b" \n"))
    callees, lines = {}, []
    for start, to in edges:
        if source.random() < 0.5:
            callees.setdefault(start, []).append(to)
        else:
            lines.append([start, to])
    lines += [[start, *tos] for start, tos in callees.items()] + [[at] for at in range(len(names)) if source.random() < 0.9]
    lines += [source.choice(lines) for _ in range(source.randrange(4)) if lines]
    source.shuffle(lines)
    parts = []
    for line in lines:
        words = [names[it] for it in line]
        text = gap().join(words) if source.random() < 0.7 else b"".join(word + gap() for word in words)
        parts.append((gap() if source.random() < 0.1 or text.startswith(b"#") else b"") + text)
        if source.random() < 0.1:
            parts.append(source.choice((b"", b"# a b", b"#", b"#\0\xff", b" \t")))
    return end.join(parts) + (end if source.random() < 0.8 else b"")


def escaped(source, name):
    """A string of JSON that means the name, with escapes of all kinds."""
    shorts = {'"': '\\"', "\\": "\\\\", "/": "\\/", "\b": "\\b", "\f": "\\f", "\n": "\\n", "\r": "\\r", "\t": "\\t"}
    parts = []
    for letter in name.decode():
        units = letter.encode("utf-16-be")
        long = "".join(source.choice(("\\u%04x", "\\u%04X")) % int.from_bytes(units[at : at + 2]) for at in range(0, len(units), 2))
        plain = letter if letter >= " " and letter not in '"\\' else long
        parts.append(source.choice((plain, plain, plain, long, shorts.get(letter, plain))))
    return '"' + "".join(parts) + '"'


def as_json_text(source, edges, names):
    """JSON Lines that say these edges and names."""
    gap = lambda: source.choice(("", "", "", " ", "\t", " \r "))
    lines = [(names[a], names[b]) for a, b in edges] + [(name,) for name in names if source.random() < 0.9]
    lines += [source.choice(lines) for _ in range(source.randrange(4)) if lines]
    source.shuffle(lines)
    parts = []
    for line in lines:
        members = [(key, escaped(source, name)) for key, name in zip(("from", "to"), line)]
        members += [(source.choice(("x", "line", "From")), source.choice(("1", "-2.5e3", "true", "null", '"to"', '{"from":1}', "[1,[]]"))) for _ in range(source.randrange(3))]
        source.shuffle(members)
        parts.append(gap() + "{" + gap() + ",".join(f'{gap()}"{key}"{gap()}:{gap()}{value}{gap()}' for key, value in members) + "}" + gap())
        if source.random() < 0.1:
            parts.append(gap())
    return "\n".join(parts).encode()


def random_words(source):
    words = []
    for option, often in ((["--order"], 0.3), (["--jobs", str(source.randint(1, 8))], 0.4), (["--loops"], 0.35), (["--json"], 0.15)):
        if source.random() < often:
            words += option
    return words


def is_order_of(text, found, right):
    """Whether what was printed with `--order` has the lines of the right report, those of groups in a reverse topological order."""
    lines, others = found.split(b"\n"), right.split(b"\n")
    is_group = lambda line: line[:1].isdigit()
    groups = [line.split(b" ")[2:] for line in lines if is_group(line)]
    place = {name: at for at, group in enumerate(groups) for name in group}
    legal = all(place[callee] <= place[words[0]] for words in (line.split() for line in text.split(b"\n") if not line.startswith(b"#")) if words and words[0] in place
                for callee in words[1:])
    rest = lambda lines: [line for line in lines if not is_group(line)]
    return sorted(lines) == sorted(others) and rest(lines) == rest(others) and lines[0] == others[0] and legal


def random_graphs(folder, seed, count):
    try:
        import networkx
    except ImportError:
        networkx = None
        print("random: networkx isn't installed, so nothing is compared with it")
    tried = compared = 0
    number = 0
    while tried < count:
        source = random.Random(f"{seed}/{number}")
        number += 1
        for edges, size in shapes(source):
            names = list({odd_name(source) for _ in range(size)}) if source.random() < 0.7 else [b"n%d" % it for it in range(size)]
            names.sort()
            source.shuffle(names)
            edges = [(a % len(names), b % len(names)) for a, b in edges]
            text = as_text(source, edges, names)
            words = random_words(source)
            for _ in range(source.choice((0, 0, 0, 1, 1, 2))):
                root = source.choice(names)
                if reference.is_utf8(root) and b"\0" not in root and not root.startswith(b"-"):
                    words += ["--roots", root]
            given = [it if isinstance(it, bytes) else it.encode() for it in words]
            right = reference.answer(given, lambda _: text)
            if source.random() < 0.4 and all(map(reference.is_utf8, names)):
                # The same graph as JSON Lines has the same report. With `--order` only its lines have to be the same.
                data = as_json_text(source, edges, names)
                again = reference.answer([b"--from-json", *given], lambda _: data)
                said = [{name for line in read(it, None, reference.Wanted()) for name in line} for read, it in ((reference.lines_of_text, text), (reference.lines_of_json, data))]
                if said[0] == said[1]:
                    expect(f"random graph {seed}/{number - 1} as JSON, by the reference, {words}", again, right)
                same = (lambda it: (it[0], sorted(re.sub(rb'"id":\d+,', b"", it[1]).split(b"\n")), it[2])) if "--order" in words else lambda it: it
                expect(f"random graph {seed}/{number - 1} as JSON, {words} {data[:200]}", same(run(["--from-json", *words], data, folder)), same(again))
            found = run(words, text, folder)
            if "--order" in words and "--json" not in words and right[0] == found[0] == 0:
                if found[2] or not is_order_of(text, found[1], right[1]):
                    wrong.append(f"random graph {seed}/{number - 1}, {words}: {brief(found)} is no order of {brief(right)}")
            elif "--order" in words and "--json" in words and right[0] == 0:
                groups = lambda out: sorted(re.sub(rb'"id":\d+,', b"", out).split(b"\n"))
                expect(f"random graph {seed}/{number - 1}, {words}", (found[0], groups(found[1]), found[2]), (0, groups(right[1]), b""))
            else:
                expect(f"random graph {seed}/{number - 1}, {words} {text[:200]}", found, right)
            tried += 1
            if networkx and "--json" not in words:
                compared += 1
                compare(networkx, text)
    print(f"random: {tried} graphs, {compared} of them also by networkx")


def compare(networkx, text):
    """The reference's groups are those of networkx, and so are the heights."""
    names, callees = reference.graph_of(reference.lines_of_text(text, None, reference.Wanted()))
    graph = networkx.DiGraph()
    graph.add_nodes_from(range(len(names)))
    graph.add_edges_from((at, to) for at, some_ in enumerate(callees) for to in some_)
    groups = reference.groups_of(callees, range(len(names)))
    if sorted(groups) != sorted(map(sorted, networkx.strongly_connected_components(graph))):
        wrong.append(f"networkx has other components: {text[:200]}")
        return
    condensed = networkx.condensation(graph)
    height = {}
    for node in reversed(list(networkx.topological_sort(condensed))):
        height[node] = max((height[it] + 1 for it in condensed.successors(node)), default=0)
    theirs = {min(condensed.nodes[it]["members"]): height[it] for it in condensed}
    if {group[0]: level for group, (level, _) in zip(groups, reference.levels_of(callees, groups))} != theirs:
        wrong.append(f"networkx has other heights: {text[:200]}")


# Hostile input.


def hostile(folder):
    text = b"# a graph\nmain parse\teval \r\nparse token parse\n\xff\0 eval\neval apply\napply eval main"
    for size in some(range(len(text) + 1)):
        expect(f"a prefix of {size} bytes", run([], text[:size], folder), reference.answer([], lambda _: text[:size]))
    source, mib = random.Random(20), 1 << 20
    bytes_of = lambda letters: bytes(source.choice(letters) for _ in range(mib >> (2 if chosen[1] else 0)))
    kinds = {
        "random bytes": bytes_of(range(256)),
        "random white space": bytes_of(b" \t\n\v\f\ra"),
        "small names": bytes_of(b"ab \n"),
        "NUL bytes": b"\0" * 65_536 + b"\n" + b"\0 " * 1_000,
        "number signs": b"#" * mib,
        "number signs as names": b" #" * (mib >> 4),
        "newlines": b"\n" * mib,
        "carriage returns": b"\r" * mib,
        "one word a line": b"a\n" * (mib >> 2),
        "one long line": b" a b" * (mib >> 4),
        "a long name": b"a" * mib,
        "UTF-16": "a b\nb a\n".encode("utf-16"),
        "a program": pathlib.Path("/bin/true").read_bytes(),
        "an archive": bytes(range(256)) * 100,
    }
    for name, data in kinds.items():
        begun = time.monotonic()
        expect(name, run([], data, folder), reference.answer([], lambda _: data))
        expect(f"{name}, with threads", run(["--jobs", "3"], data, folder), reference.answer([], lambda _: data))
        print(f"hostile: {name:<24} {(time.monotonic() - begun) * 1000:7.0f} ms")


# Files and streams.


def streams(folder):
    text = b"a b\nb c a\nc d\n" + b"".join(b"n%d n%d\n" % (at, at // 2) for at in range(3_000))
    (folder / "f.txt").write_bytes(text)
    whole = run(["f.txt"], b"", folder)
    expect("a file", whole, reference.answer([], lambda _: text))
    unread = lambda name: (4, b"", b"components: cannot read " + name + b"\n")
    absent = lambda name: (4, b"", b"components: cannot read " + name + b"\n")
    (folder / "folder").mkdir()
    expect("a folder", run(["folder"], b"", folder), unread(b"folder"))
    with open("/dev/null", "rb") as nothing:
        expect("no input", run([], folder=folder, stdin=nothing), (0, b"nodes 0 groups 0 recursive 0 levels 0\n", b""))
    handle = os.open(folder / "folder", os.O_RDONLY)
    if not is_script():
        expect("a folder as standard input", run([], folder=folder, stdin=handle), unread(b"-"))
    os.close(handle)
    handle = os.open(folder / "f.txt", os.O_WRONLY)
    expect("standard input that can't be read", run([], folder=folder, stdin=handle), unread(b"-"), (0, b"nodes 0 groups 0 recursive 0 levels 0\n", b""))
    os.close(handle)
    expect("an absent file", run(["none"], b"", folder), absent(b"none"))
    expect("a path through a file", run(["f.txt/x"], b"", folder), unread(b"f.txt/x"), absent(b"f.txt/x"))
    (folder / "round").symlink_to("round")
    expect("a link to itself", run(["round"], b"", folder), unread(b"round"))
    (folder / "lost").symlink_to("nowhere")
    expect("a link to nowhere", run(["lost"], b"", folder), absent(b"lost"))
    expect("an empty device", run(["/dev/null"], b"", folder), (0, b"nodes 0 groups 0 recursive 0 levels 0\n", b""))
    long = b"a" * 300
    expect("a name that is too long for the disk", run([long], b"", folder), unread(long), absent(long))
    (folder / "closed").write_bytes(b"a\n")
    (folder / "closed").chmod(0)
    if os.geteuid() == 0:
        folder.chmod(0o755)
        expect("a file without permission", run(["closed"], b"", folder, user=65_534), unread(b"closed"))
    else:
        expect("a file without permission", run(["closed"], b"", folder), unread(b"closed"))
    slow_pipe(folder, text, whole)
    outputs(folder, text, whole)
    failing_streams(folder, text, whole)


def slow_pipe(folder, text, whole):
    """A pipe is read to its end, however its writer writes."""
    reading, writing = os.pipe()

    def write():
        for at in range(0, len(text), 997):
            os.write(writing, text[at : at + 997])
            time.sleep(0.001)
        os.close(writing)

    writer = threading.Thread(target=write)
    writer.start()
    expect("a slow pipe", run([], folder=folder, stdin=reading), whole)
    writer.join()
    os.close(reading)


def outputs(folder, text, whole):
    """Streams that are closed, full, or whose reader is gone."""
    reading, writing = os.pipe()
    os.close(reading)
    expect("a pipe without a reader", run([], text, folder, stdout=writing)[::2], (5, b""))
    expect("errors to a pipe without a reader", run(["none"], text, folder, stderr=writing)[:2], (5, b""))
    os.close(writing)
    with open("/dev/full", "wb") as full:
        expect("a full device", run([], text, folder, stdout=full)[::2], (5, b""))
        expect("errors to a full device", run(["--x"], text, folder, stderr=full)[:2], (5, b""))
    shell = lambda line: subprocess.run(["sh", "-c", f'exec "$0" "$@" {line}', chosen[0], "f.txt"], cwd=folder, capture_output=True, timeout=MOST_SECONDS)
    expect("standard output closed", (done := shell(">&-")) and (done.returncode, done.stderr), (5, b""))
    expect("standard input closed", (done := shell("<&-")) and (done.returncode, done.stdout, done.stderr), whole)
    done = subprocess.run(["sh", "-c", 'exec "$0" none 2>&-', chosen[0]], cwd=folder, stdout=subprocess.PIPE, timeout=MOST_SECONDS)
    expect("standard error closed", (done.returncode, done.stdout), (5, b""))
    limit = "trap '' XFSZ; ulimit -f 1; exec \"$0\" f.txt >part"
    done = subprocess.run(["sh", "-c", limit, chosen[0]], cwd=folder, stderr=subprocess.PIPE, timeout=MOST_SECONDS)
    part = (folder / "part").read_bytes()
    if (done.returncode, done.stderr) != (5, b"") or part == whole[1] or not whole[1].startswith(part):
        wrong.append(f"output into a file with a limit: status {done.returncode}, {len(part)} of {len(whole[1])} bytes")


def shim_of(folder, name):
    """The library that lets calls of the system fail, for programs that load it."""
    if shutil.which("cc") is None:
        print(f"no cc: {name} isn't tried")
        return None
    subprocess.run(["cc", "-O1", "-shared", "-fPIC", "-o", folder / f"{name}.so", ROOT / "checks" / f"{name}.c", "-ldl"], check=True)
    return folder / f"{name}.so"


def is_script():
    """Whether the program is a script, whose interpreter would be tried with it."""
    return pathlib.Path(chosen[0]).read_bytes()[:2] == b"#!"


def failing_streams(folder, text, whole):
    """Each read and each write fails in turn, and all of them are cut after each number of bytes."""
    shim, count = shim_of(folder, "failing_io"), folder / "count"
    if shim is None or is_script():
        return

    def answer(words, **settings):
        env = {"LD_PRELOAD": str(shim), "COUNT_TO": str(count), **{key: str(value) for key, value in settings.items()}}
        return run(words, text, folder, env)

    small = [4_093, 4_096, 65_535] if chosen[1] else [1, 2, 3, 7, 63, 64, 65, 127, 128, 129, 4_093, 4_095, 4_096, 4_097, 65_535]
    for most in small:
        for words in ([], ["f.txt"]):
            expect(f"reads and writes of {most} bytes, {words}", answer(words, MOST=most), whole)
    for words, name in (([], b"-"), (["f.txt"], b"f.txt")):
        answer(words, MOST=2_048)
        reads, writes = map(int, count.read_text().split())
        for number in range(1, reads + 1):
            expect(f"read {number} fails, {words}", answer(words, MOST=2_048, FAIL_READ=number), (4, b"", b"components: cannot read " + name + b"\n"), whole)
        for number in range(1, writes + 1):
            status, out, err = answer(words, MOST=2_048, FAIL_WRITE=number)
            if (status, err) != (5, b"") or out != whole[1][: 2_048 * (number - 1)]:
                wrong.append(f"write {number} fails, {words}: status {status}, {len(out)} bytes")
        print(f"streams: {reads} reads and {writes} writes failed in turn {' '.join(words)}")
    grows = folder / "grows"
    grows.write_bytes(b"a b\n")
    expect("a file that grows", answer(["grows"], GROW=grows), (0, b"nodes 2 groups 2 recursive 0 levels 2\n0 plain b\n1 plain a\n", b""), (6, b"", b"components: grows is larger than %d bytes\n" % GIB))


# Memory.


def memory(folder):
    """Refuses each allocation in turn, alone and with all after it."""
    shim, count = shim_of(folder, "failing_malloc"), folder / "count"
    if shim is None or is_script():
        print("memory: not tried")
        return
    text = b"".join(b"n%d n%d n%d\n" % (at, at * 7 % 5_000, at // 2) for at in range(5_000))
    (folder / "f.txt").write_bytes(text)
    for words in ([], ["--order"], ["--jobs", "3"], ["--roots", "n7", "f.txt"], ["--loops", "--json"], ["x y z"], ["--jobs", "65"]):

        def answer(number, **more):
            return run(words, text, folder, {"LD_PRELOAD": str(shim), "FAIL_AT": str(number), "COUNT_TO": str(count), **more})

        whole, silent, wanting = answer(0), (7, b"", b""), (7, b"", b"components: out of memory\n")
        total, seen = int(count.read_text()), []
        for number in some(range(1, total + 1)):
            seen.append(answer(number))
            expect(f"allocation {number}, {words}", seen[-1], silent, wanting, whole)
            expect(f"allocations from {number} on, {words}", answer(number, FAIL_ON="1"), silent, wanting, whole)
        if wanting in seen and silent in seen[seen.index(wanting) :]:
            wrong.append(f"no line of status 7, though the arguments were read: {words}")
        print(f"memory: {' '.join(words)}: {total} allocations, {seen.count(silent) + seen.count(wanting)} times out of memory, {seen.count(whole)} as without")


# The scripts of examples/edges/. Where a tool isn't installed, what it once printed is used in its place.

MAKEFILE = b"""all: a b | dir
\techo all
a: b c.o
b:: a
c.o: c.c d.h
\tcc -c c.c
dir:
\tmkdir dir
X := 1
a: X = 3
%.z: %.y
\tcp
.PHONY: all
$(info hi: there)
"""
# What `make -pnrR .DEFAULT` of GNU make 4.3 prints of it, without its variables.
DATABASE = b"""# make data base, printed on Thu Jan  1 00:00:00 1970
# Variables
X := 1
CURDIR := /tmp
# Pattern-specific Variable Values
# Implicit Rules
%.z: %.y
#  recipe to execute (from 'Makefile', line 12):
\tcp

# Files

a: b c.o
# a's variables: X = 3
#  Implicit rule search has not been done.

# Not a target:
c.c:
#  Implicit rule search has not been done.

c.o: c.c d.h
#  recipe to execute (from 'Makefile', line 6):
\tcc -c c.c

# Not a target:
d.h:

b:: a

dir:
#  recipe to execute (from 'Makefile', line 8):
\tmkdir dir

.PHONY: all

all: a b | dir
#  Phony target (prerequisite of .PHONY).
\techo all

# files hash-table stats:
# Load=12/1024=1%, Rehash=0, Collisions=1/55=2%
"""
MADE = [b"a b c.o", b"all a b dir", b"b a", b"c.o c.c d.h", b"dir"]
MADE_REPORT = b"nodes 7 groups 6 recursive 1 levels 4\n0 plain c.c\n0 plain d.h\n0 plain dir\n1 plain c.o\n2 recursive a b\n3 plain all\n"
ERLANG = {
    "m.erl": b"-module(m).\n-export([p/1]).\np(X) -> q(X), lists:map(fun(Y) -> q(Y) end, X).\nq([]) -> ok;\nq([X|_]) -> p(X), n:'s t'(X).\n",
    "n.erl": b"-module(n).\n-export(['s t'/1]).\n's t'(X) -> m:p(X).\n",
}
XREF = [b"m:p/1", b"m:p/1 lists:map/2", b"m:p/1 m:q/1", b"m:q/1", b"m:q/1 m:p/1", b"m:q/1 n:'s\\st'/1", b"n:'s\\st'/1", b"n:'s\\st'/1 m:p/1"]
XREF_REPORT = b"nodes 4 groups 2 recursive 1 levels 2\n0 plain lists:map/2\n1 recursive m:p/1 m:q/1 n:'s\\st'/1\n"
GO = {
    "go.mod": b"module t.example/t\n\ngo 1.19\n",
    "main.go": b'package main\nimport (\n"t.example/t/x"\n"t.example/t/y"\n)\nfunc main() { x.F(); y.F() }\n',
    "x/x.go": b'package x\nimport "t.example/t/y"\nfunc F() { y.F() }\n',
    "y/y.go": b"package y\nfunc F() {}\n",
}
LISTED = [b"t.example/t t.example/t/x t.example/t/y", b"t.example/t/x t.example/t/y", b"t.example/t/y"]
LISTED_REPORT = b"nodes 3 groups 3 recursive 0 levels 3\n0 plain t.example/t/y\n1 plain t.example/t/x\n2 plain t.example/t\n"


def front_ends(folder):
    scripts = ROOT / "examples" / "edges"

    def printed(name, *words, data=b"", where=folder):
        done = subprocess.run([scripts / name, *words], cwd=where, input=data, capture_output=True, timeout=MOST_SECONDS)
        return done.returncode, sorted(done.stdout.splitlines()), done.stderr

    def has(*tools):
        missing = [it for it in tools if shutil.which(it) is None]
        if missing:
            print(f"front_ends: {', '.join(missing)} isn't installed: what it once printed is used")
        return not missing

    (folder / "Makefile").write_bytes(MAKEFILE)
    expect("make.sh of a stored database", printed("make.sh", "-", data=DATABASE), (0, MADE, b""))
    if has("make"):
        expect("make.sh", printed("make.sh"), (0, MADE, b""))
        expect("make.sh without a makefile", printed("make.sh", "-C", "none"), (2, [], b"make.sh: make reads no makefile here\n"))
    expect("what make.sh prints", run([], b"\n".join(MADE), folder), (0, MADE_REPORT, b""))
    expect("pairs.sh", printed("pairs.sh", data=b"a b c\n c b b d d\n"), (0, [b"a b", b"b", b"c", b"d"], b""))
    expect("pairs.sh of an odd number", printed("pairs.sh", data=b"a b c")[::2], (1, b"pairs.sh: an odd number of words\n"))
    if has("erlc", "escript"):
        for name, text in ERLANG.items():
            (folder / name).write_bytes(text)
        subprocess.run(["erlc", "+debug_info", *ERLANG], cwd=folder, check=True)
        expect("xref.escript", printed("xref.escript", "."), (0, XREF, b""))
    expect("what xref.escript prints", run([], b"\n".join(XREF), folder), (0, XREF_REPORT, b""))
    if has("go"):
        for name, text in GO.items():
            (folder / "go" / name).parent.mkdir(parents=True, exist_ok=True)
            (folder / "go" / name).write_bytes(text)
        status, lines, err = printed("go.sh", "./...", where=folder / "go")
        expect("go.sh, without the standard library", (status, [it for it in lines if it.startswith(b"t.")], err), (0, LISTED, b""))
    expect("what go.sh prints", run([], b"\n".join(LISTED), folder), (0, LISTED_REPORT, b""))
    print("front_ends: four scripts")


# Limits. Each text is made part by part, since it is large.


def written(folder, parts):
    with open(folder / "large", "wb") as out:
        for part in parts:
            out.write(part)
    return folder / "large"


# Starts the program from a small process, since the peak of a child counts what its parent held when it began it.
MEASURED = """
import os, subprocess, sys

child = subprocess.Popen(sys.argv[1:], stdout=open("out", "wb"), stderr=open("err", "wb"))
_, status, used = os.wait4(child.pid, 0)
print(os.waitstatus_to_exitcode(status), used.ru_utime + used.ru_stime, used.ru_maxrss >> 10)
"""


def measured(words, folder, runs=1):
    """The status, the least seconds of the processor, the least memory in MB, and the path of what was written."""
    found = []
    for _ in range(runs):
        said = subprocess.run([sys.executable, "-c", MEASURED, chosen[0], *words], cwd=folder, stdout=subprocess.PIPE, text=True, check=True).stdout.split()
        found.append((int(said[0]), float(said[1]), int(said[2])))
    return found[-1][0], min(it[1] for it in found), min(it[2] for it in found), folder / "out"


def numbered(form, count, step=100_000):
    """The lines of numbers below the count, some at a time."""
    for begin in range(0, count, step):
        yield b"".join(form % (at,) if form.count(b"%") == 1 else form % (at, at + 1) for at in range(begin, min(count, begin + step)))


def repeated(part, size):
    """A part again and again, so many bytes in all."""
    most = max(1, (1 << 20) // len(part)) * part
    for _ in range(size // len(most)):
        yield most
    yield most[: size % len(most)]


def calls_of_one(count):
    """A line of a node that calls itself so often."""
    return itertools.chain([b"a"], repeated(b" a", 2 * count))


def limit_texts():
    """Each text's parts, with the status, the first line of standard output and the line of standard error."""
    zeros = b"nodes 0 groups 0 recursive 0 levels 0\n"
    too_long = b"large:1:1: name is longer than 65536 bytes\n"
    yield "8,388,608 nodes", numbered(b"%d\n", reference.MOST_NODES), 0, b"nodes 8388608 groups 8388608 recursive 0 levels 1\n", b""
    yield "one more", numbered(b"%d\n", reference.MOST_NODES + 1), 6, b"", b"components: more than 8388608 nodes\n"
    yield "33,554,432 edges, all equal", calls_of_one(reference.MOST_EDGES), 0, b"nodes 1 groups 1 recursive 1 levels 1\n", b""
    yield "one more", calls_of_one(reference.MOST_EDGES + 1), 6, b"", b"components: more than 33554432 edges\n"
    both = itertools.chain(numbered(b"%d\n", reference.MOST_NODES + 1), calls_of_one(reference.MOST_EDGES + 1))
    yield "edges and nodes, both too many", both, 6, b"", b"components: more than 33554432 edges\n"
    yield "a GiB of newlines", repeated(b"\n", GIB), 0, zeros, b""
    yield "a GiB of blanks, one line", repeated(b" ", GIB), 0, zeros, b""
    yield "a comment of a GiB", repeated(b"#", GIB), 0, zeros, b""
    yield "a name of a GiB", repeated(b"a", GIB), 3, b"", too_long
    yield "a line of a GiB with edges", repeated(b"a ", GIB), 6, b"", b"components: more than 33554432 edges\n"
    yield "a GiB and a byte", repeated(b"a", GIB + 1), 6, b"", b"components: large is larger than 1073741824 bytes\n"


def limits(folder):
    if is_script():
        print("limits: not tried with a script")
        return
    for name, parts, status, head, err in limit_texts():
        path = written(folder, parts)
        found, seconds, most, out = measured(["large"], folder)
        with out.open("rb") as report:
            answer = found, report.readline(), (folder / "err").read_bytes()
        expect(name, answer, (status, head, err))
        print(f"limits: {name:<34} status {found} {seconds:7.2f} s {most:6} MB", flush=True)
        path.unlink()


# Growth.

PRIME = 16_777_619
BACK = pow(PRIME, -1, 1 << 32)
LETTERS = b"abcdefghijklmnopqrstuvwxyz"


def stepped(state, byte):
    return (state ^ byte) * PRIME & 0xFFFF_FFFF


def equal_words(begin, end, count):
    """Words of eight letters that lead the hash's state from one value to the other."""
    ahead = {begin: b""}
    for _ in range(4):
        ahead = {stepped(state, letter): word + bytes([letter]) for state, word in ahead.items() for letter in LETTERS}
    found, back = [], {end: b""}
    for _ in range(4):
        back = {(state * BACK & 0xFFFF_FFFF) ^ letter: bytes([letter]) + word for state, word in back.items() for letter in LETTERS}
    for state, word in back.items():
        if state in ahead and len(found) < count:
            found.append(ahead[state] + word)
    return found


blocks = []


def equal_names(count):
    """Names that share all 32 bits of the hash that crates/byte_names uses: three words after one another, in each choice."""
    if not blocks:
        state = 0x811C_9DC5
        for target in (0x1234_5678, 0x2345_6789, 0x3456_789A):
            blocks.append(equal_words(state, target, 50))
            state = target
    first, second, third = blocks
    names = (a + b + c for a in first for b in second for c in third)
    return [name for name, _ in zip(names, range(count))]


def lines_of(names, often=1):
    return b"".join(name + b"\n" for _ in range(often) for name in names)


def complete(edges):
    count = int(edges**0.5)
    every = b" ".join(b"n%d" % at for at in range(count))
    return b"".join(b"n%d %s\n" % (at, every) for at in range(count))


def each(form, count):
    return b"".join(numbered(form, count))


# What makes the text of a size, the first size, the options.
KINDS = {
    "names_of_one_hash": (lambda n: lines_of(equal_names(n)), 10_000, []),
    "names_of_one_hash_again": (lambda n: lines_of(equal_names(n), 10), 5_000, []),
    "edges_of_one_hash": (lambda n: b"a " + b" ".join(equal_names(n) * 4), 5_000, []),
    "one_word_lines": (lambda n: each(b"n%d\n", n), 50_000, []),
    "one_node": (lambda n: b"a\n" * n, 200_000, []),
    "equal_edges": (lambda n: b"a b\n" * n, 100_000, []),
    "equal_edges_of_a_line": (lambda n: b"a" + b" b" * n, 100_000, []),
    "loops_of_one": (lambda n: b"".join(b"n%d n%d\n" % (at, at) for at in range(n)), 50_000, []),
    "chain": (lambda n: each(b"n%d n%d\n", n), 50_000, []),
    "chain_backwards": (lambda n: b"".join(b"n%d n%d\n" % (at + 1, at) for at in range(n)), 50_000, []),
    "chain_order": (lambda n: each(b"n%d n%d\n", n), 50_000, ["--order"]),
    "chain_jobs": (lambda n: each(b"n%d n%d\n", n), 50_000, ["--jobs", "4"]),
    "ring": (lambda n: each(b"n%d n%d\n", n) + b"n%d n0\n" % n, 50_000, []),
    "ring_loops": (lambda n: each(b"n%d n%d\n", n) + b"n%d n0\n" % n, 50_000, ["--loops"]),
    "ring_jobs": (lambda n: each(b"n%d n%d\n", n) + b"n%d n0\n" % n, 50_000, ["--jobs", "4"]),
    "ladder": (lambda n: b"".join(b"n%d n%d n%d\n" % (at, at + 1, max(0, at - 1)) for at in range(n)), 50_000, []),
    "star": (lambda n: b"a " + each(b"n%d ", n), 100_000, []),
    "star_backwards": (lambda n: each(b"n%d a\n", n), 100_000, []),
    "star_of_rings": (lambda n: b"".join(b"a n%d\nn%d m%d\nm%d n%d a\n" % (at, at, at, at, at) for at in range(n)), 20_000, []),
    "complete": (complete, 200_000, []),
    "complete_loops": (complete, 200_000, ["--loops"]),
    "complete_jobs": (complete, 200_000, ["--jobs", "4"]),
    "roots": (lambda n: each(b"n%d n%d\n", n), 50_000, ["--roots", "n0"]),
    "long_names": (lambda n: b"".join(b"x" * 4_000 + b"%d\n" % at for at in range(n)), 500, []),
    "names_of_65_536": (lambda n: b"".join(b"x" * 65_500 + b"%d\n" % at for at in range(n)), 50, []),
    "long_names_backwards": (lambda n: b"".join(b"x" * 4_000 + b"%d\n" % (n - at) for at in range(n)), 500, []),
    "names_that_begin_each_other": (lambda n: b"".join(b"x" * (at % 1_000 + 1) + b"\n" for at in range(n)), 2_000, []),
    "zeros_at_the_end": (lambda n: b"".join(b"x" + b"\0" * (at % 1_000) + b"\n" for at in range(n)), 2_000, []),
    "comments": (lambda n: b"# a b\n" * n, 200_000, []),
    "blank_lines": (lambda n: b" \t\r\n" * n, 500_000, []),
    "blanks_of_a_line": (lambda n: b" " * n, 2_000_000, []),
}
LEAST_SECONDS, MOST_TIMES, LEAST_MB = 0.2, 2.5, 16
MOST_TEXT = 64_000_000


def grows_too_fast(folder, name):
    make, size, options = KINDS[name]

    def at(count, runs=1):
        text = make(count)
        (folder / "f.txt").write_bytes(text)
        status, seconds, most, _ = measured([*options, "f.txt"], folder, runs=runs)
        if status:
            wrong.append(f"growth of {name}: status {status}")
        return len(text), seconds, most

    most_size = 40_000 if "one_hash" in name else 1 << 60
    length, seconds, _ = at(size)
    while seconds < LEAST_SECONDS and 4 * length <= MOST_TEXT and 2 * size <= most_size:
        size *= 2
        length, seconds, _ = at(size)
    runs = 3
    _, seconds, most = at(size, runs)
    _, more_seconds, more = at(2 * size, runs)
    times, by = more_seconds / max(seconds, LEAST_SECONDS / 2), more / max(most, LEAST_MB)
    fast = times > MOST_TIMES or by > MOST_TIMES
    print(f"growth: {name:<28} {size:9} twice: {seconds:6.2f} {more_seconds:6.2f} s, {times:4.2f} times; {most:5} {more:5} MB, {by:4.2f} times{'  TOO FAST' if fast else ''}", flush=True)
    return fast


def growth(folder):
    for name in some(list(KINDS)) if chosen[1] else KINDS:
        # Other work may disturb a measurement, so three of them have to agree.
        if all(grows_too_fast(folder, name) for _ in range(3)):
            wrong.append(f"{name} grows too fast")


# The largest graphs, whose reports are known.


def same_bytes(path, parts):
    """Whether the file has the bytes of the parts, one after another."""
    with path.open("rb") as file:
        return all(file.read(len(part)) == part for part in parts) and not file.read(1)


def ranked_lines(count, form, number_of):
    for begin in range(0, count, 100_000):
        yield b"".join(form % number_of(at) for at in range(begin, min(count, begin + 100_000)))


def largest(folder):
    if is_script():
        print("largest: not tried with a script")
        return
    count = 8_000_000
    names = 80_000
    head = lambda *numbers: b"nodes %d groups %d recursive %d levels %d\n" % numbers
    number = lambda at: (at,)
    pair = lambda at: (at, at + 1)
    wide = b"n%07d"

    def texts():
        yield "a chain", ranked_lines(count - 1, wide + b" " + wide + b"\n", pair), [], [
            [head(count, count, 0, count)], ranked_lines(count, b"%d plain " + wide + b"\n", lambda at: (at, count - 1 - at))]
        yield "a ring", ranked_lines(count, wide + b" " + wide + b"\n", lambda at: (at, (at + 1) % count)), [], [
            [head(count, 1, 1, 1), b"0 recursive"], ranked_lines(count, b" " + wide, number), [b"\n"]]
        yield "lines of one word", ranked_lines(count, wide + b"\n", number), [], [
            [head(count, count, 0, 1)], ranked_lines(count, b"0 plain " + wide + b"\n", number)]
        yield "one line", ranked_lines(count, wide + b" ", number), [], [
            [head(count, count, 0, 2)], ranked_lines(count - 1, b"0 plain " + wide + b"\n", lambda at: (at + 1,)), [b"1 plain n0000000\n"]]
        equal = sorted(equal_names(names))
        yield "80,000 names of one hash", iter([lines_of(equal, 10)]), [], [[head(names, names, 0, 1)], (b"0 plain " + name + b"\n" for name in equal)]

    for name, parts, words, wanted in texts():
        path = written(folder, parts)
        for more in ([], ["--jobs", "4"]):
            status, seconds, most, out = measured([*words, *more, "large"], folder)
            # The generators are read once; with threads the report has to be the same bytes again.
            if status or not (same_bytes(out, itertools.chain(*wanted)) if not more else filecmp.cmp(out, folder / "first", shallow=False)):
                wrong.append(f"{name} {more}: status {status}, or another report")
            if not more:
                out.rename(folder / "first")
            print(f"largest: {name:<26} {' '.join(more):<9} {path.stat().st_size / 1e6:6.1f} MB of text {seconds:7.2f} s {most:6} MB", flush=True)
        path.unlink()


PARTS = {"rows": rows, "random": None, "hostile": hostile, "streams": streams, "memory": memory, "front_ends": front_ends, "limits": limits, "growth": growth, "largest": largest}


def main():
    parser = argparse.ArgumentParser(description=__doc__.splitlines()[0])
    parser.add_argument("--program", type=pathlib.Path, help="the program to try; else the one that was built here, or the kept one")
    parser.add_argument("--quick", action="store_true", help="a part of it")
    parser.add_argument("--count", type=int, help="how many random graphs; else 3,000, or 400 with --quick")
    parser.add_argument("--seed", default="0")
    parser.add_argument("parts", nargs="*", metavar="PART", help=f"of {', '.join(PARTS)}; else all")
    options = parser.parse_args()
    found = options.program or program.components()
    if found is None or not found.is_file() or not set(options.parts) <= set(PARTS):
        parser.error("no such part" if found and found.is_file() else f"there is no program {found or 'components'}")
    chosen[:] = [found.resolve(), options.quick]
    for name in options.parts or [it for it in PARTS if not options.quick or it not in ("limits", "largest")]:
        with tempfile.TemporaryDirectory(prefix="components-") as room:
            if name == "random":
                random_graphs(pathlib.Path(room), options.seed, options.count or (400 if options.quick else 3_000))
            else:
                PARTS[name](pathlib.Path(room))
    for line in wrong[:50]:
        print("WRONG", line)
    print("components:", f"{len(wrong)} wrong" if wrong else "all as it should be")
    sys.exit(1 if wrong else 0)


if __name__ == "__main__":
    main()
