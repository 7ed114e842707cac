"""Pictures by the command dot of Graphviz: of the whole program, and of each recursive group of a few members."""

import collections
import os
import re
import signal
import subprocess
import time
import urllib.parse

from groups_view.graphs import components, reduced
from groups_view.names import RIGHT, many, short

MOST_DRAWN = 300  # groups or modules in a picture
MOST_EDGES = 1500
MOST_MEMBERS = 40  # of a group that has a picture of its own
MOST_SMALL = 1000  # pictures of single groups
SMALL_AT_ONCE = 100  # of these in one run of dot
MOST_NAMED = 8  # members that a box names
DOT_SECONDS = 20  # for all pictures together

HEAD = [
    "digraph picture {",
    'graph [rankdir=TB, nodesep=0.15, ranksep=0.4, bgcolor="transparent", margin=0, fontname="sans-serif"];',
    'node [shape=plaintext, fontname="sans-serif", fontsize=12, height=0.25, margin="0.06,0.03"];',
    "edge [arrowsize=0.6];",
]
SUPERFLUOUS = "a call isn't drawn if a longer path makes it too"


class NoPicture(Exception):
    """Why dot drew nothing."""


def quoted(label):
    """A string of dot that is drawn as this text, also after text that is written from right to left."""
    label = RIGHT.sub("\\g<0>\u200e", label)
    return '"' + label.replace("\\", "\\\\").replace('"', '\\"').replace("&", "&amp;") + '"'


def link(kind, label):
    return quoted(f"#{kind}=" + urllib.parse.quote(label, safe=""))


class Names:
    """Names of predicates, with their module or without."""

    def __init__(self, data):
        self.modules, self.predicates = data["modules"], data["predicates"]

    def full(self, at):
        module, shown, *_ = self.predicates[at]
        return f"{self.modules[module]}:{shown}"

    def after(self, before, at):
        """As it is called in a list, in which the module is named where it changes."""
        module, shown, *_ = self.predicates[at]
        is_same = before is not None and self.predicates[before][0] == module
        return short(shown if len(self.modules) == 1 or is_same else self.full(at))


def node_of_group(data, names, at):
    _, recursive, members = data["groups"][at]
    shown = [names.after(before, it) for before, it in zip([None, *members], members[:MOST_NAMED])]
    if len(members) > MOST_NAMED:
        shown.append(f"and {len(members) - MOST_NAMED:,} more")
    label = "\\n".join(quoted(it)[1:-1] for it in shown)
    first = names.full(members[0])
    kind = ", shape=box, class=recursive" if recursive else ""
    url = link("g" if len(members) > 1 else "p", first)
    return f'g{at} [label="{label}", URL={url}, tooltip={quoted(short(first, 200))}{kind}];'


def graph_of_groups(data, drawn, edges, caption):
    """The lines for dot and the caption; nothing if there are too many edges."""
    order = sorted(drawn, key=lambda at: (data["groups"][at][0], at))
    count = sum(map(len, edges.values()))
    if count > 1.5 * len(order):
        edges = reduced(edges, order)
        if sum(map(len, edges.values())) < count:
            caption = f"{caption}; {SUPERFLUOUS}"
    if sum(map(len, edges.values())) > MOST_EDGES:
        return None
    names = Names(data)
    lines = [node_of_group(data, names, at) for at in order]
    return lines + [f"g{at} -> g{it};" for at in order for it in edges.get(at, ())], caption


def edges_between(data):
    """Which group calls which other, and how often which module calls which other."""
    predicates = data["predicates"]
    groups, modules = collections.defaultdict(set), collections.Counter()
    for at, row in enumerate(data["callees"]):
        for it, count in zip(row[::2], row[1::2]):
            if predicates[at][2] != predicates[it][2]:
                groups[predicates[at][2]].add(predicates[it][2])
            if predicates[at][0] != predicates[it][0]:
                modules[predicates[at][0], predicates[it][0]] += count
    return groups, modules


def shown_calls(between, parts):
    """The calls between modules that are drawn: all in a cycle, and of the others those that no longer path makes."""
    part = {it: number for number, members in enumerate(parts) for it in members}
    outer = collections.defaultdict(set)
    for a, b in between:
        if part[a] != part[b]:
            outer[part[a]].add(part[b])
    kept = reduced(outer, list(range(len(parts))))
    pairs = {(a, b) for a, row in kept.items() for b in row}
    return [(a, b) for a, b in sorted(between) if part[a] == part[b] or (part[a], part[b]) in pairs]


def graph_of_modules(data, between):
    modules = data["modules"]
    counts = collections.Counter(it[0] for it in data["predicates"])
    graph = collections.defaultdict(set)
    for a, b in between:
        graph[a].add(b)
    linked = sorted({it for pair in between for it in pair})
    parts = components(graph, linked)
    in_cycle = {it for members in parts if len(members) > 1 for it in members}
    lines = []
    for at in linked:
        label = quoted(f"{short(modules[at])} ({counts[at]:,})")
        kind = ", shape=box, class=recursive" if at in in_cycle else ""
        lines.append(
            f"m{at} [label={label}, URL={link('m', modules[at])}, tooltip={quoted(short(modules[at], 200))}{kind}];"
        )
    shown = shown_calls(between, parts)
    for a, b in shown:
        tip = quoted(f"{short(modules[a])} calls {short(modules[b])} at {many(between[a, b], 'place')}")
        lines.append(f"m{a} -> m{b} [edgetooltip={tip}, penwidth={1 + min(3, between[a, b] / 20):.2f}];")
    caption = "The modules, each with how many predicates it has. Boxes call one another in a cycle"
    if len(shown) < len(between):
        caption += f"; {SUPERFLUOUS}"
    if len(linked) < len(counts):
        caption += f"; {many(len(counts) - len(linked), 'module')} without calls from or to others left out"
    return lines, caption


def graph_of_recursive(data, reached, edges):
    """The recursive groups alone, with an edge to each that one reaches."""
    groups = data["groups"]
    recursive = [at for at in reached if groups[at][1]]
    if not 0 < len(recursive) <= MOST_DRAWN:
        return None
    bit, below = {at: 1 << number for number, at in enumerate(recursive)}, {}
    for at in sorted(reached, key=lambda it: groups[it][0]):
        below[at] = 0
        for it in edges[at]:
            below[at] |= below.get(it, 0) | bit.get(it, 0)
    rows = {at: [it for it in recursive if below[at] & bit[it]] for at in recursive}
    return graph_of_groups(data, recursive, rows, "The recursive groups alone, each above those that it reaches")


def graph_of_program(data):
    """The lines for dot, or None, and the caption."""
    groups = data["groups"]
    if not groups:
        return None, "There is no predicate to draw"
    edges, between = edges_between(data)
    reached = [at for at, group in enumerate(groups) if group[0] >= 0]
    made = None
    if 0 < len(reached) <= MOST_DRAWN:
        inside = set(reached)
        rows = {at: sorted(edges[at] & inside) for at in reached}
        made = graph_of_groups(data, reached, rows, "The groups, each above those that it calls. Boxes are recursive")
    if not made and between and len(data["modules"]) <= MOST_DRAWN and len(between) <= MOST_EDGES:
        made = graph_of_modules(data, between)
    made = made or graph_of_recursive(data, reached, edges)
    return made or (None, f"There is no picture: more than {MOST_DRAWN} groups are too many to draw")


def graph_of_group(data, group):
    """The calls inside a group."""
    members, names = data["groups"][group][2], Names(data)
    inside, lines = set(members), []
    is_one = len({data["predicates"][it][0] for it in members}) == 1
    for at in members:
        full = names.full(at)
        label = short(data["predicates"][at][1] if is_one else full)
        lines.append(f"p{at} [label={quoted(label)}, URL={link('p', full)}, tooltip={quoted(short(full, 200))}];")
        lines += [f"p{at} -> p{it} [id=e{at}_{it}];" for it in data["callees"][at][::2] if it in inside]
    return lines


def run_dot(graphs, deadline):
    """The graphs as SVG, without the names of nodes and edges."""
    text = "\n".join("\n".join([*HEAD, *lines, "}"]) for lines in graphs)
    try:
        run = subprocess.Popen(
            ["dot", "-Tsvg"],
            stdin=subprocess.PIPE,
            stdout=subprocess.PIPE,
            stderr=subprocess.DEVNULL,
            start_new_session=True,
        )
    except OSError as error:
        raise NoPicture("the command dot of Graphviz isn't found") from error
    try:
        out, _ = run.communicate(text.encode(), timeout=max(0.1, deadline - time.monotonic()))
    except subprocess.TimeoutExpired as error:
        # It may be a script: what that started goes too.
        os.killpg(run.pid, signal.SIGKILL)
        run.communicate()
        raise NoPicture(f"dot takes more than {DOT_SECONDS} s") from error
    found = re.findall(r"<svg.*?</svg>", out.decode("utf-8", "replace"), re.S)
    if run.returncode or len(found) != len(graphs):
        raise NoPicture("dot fails")
    found = [re.sub(r"<!--.*?-->\n?", "", it, flags=re.S) for it in found]
    return [re.sub(r"<title>(?:[gmp]\d+(?:&#45;&gt;[gmp]\d+)?|picture)</title>\n?", "", it) for it in found]


def draw_groups(data, deadline):
    """The pictures of recursive groups of a few members, the largest first, and why some have none."""
    groups, drawn = data["groups"], {}
    small = [at for at, group in enumerate(groups) if group[1] and 2 <= len(group[2]) <= MOST_MEMBERS]
    small = sorted(small, key=lambda at: (-len(groups[at][2]), at))[:MOST_SMALL]
    for at in range(0, len(small), SMALL_AT_ONCE):
        part = small[at : at + SMALL_AT_ONCE]
        try:
            drawn.update(zip(part, run_dot([graph_of_group(data, it) for it in part], deadline)))
        except NoPicture as why:
            return drawn, f"{why}: {many(len(small) - len(drawn), 'group')} without a picture of their own"
    return drawn, None


def draw(data):
    """The picture of the program, its caption, the pictures of groups by their numbers, and why one is missing."""
    lines, caption = graph_of_program(data)
    deadline = time.monotonic() + DOT_SECONDS
    try:
        whole = run_dot([lines], deadline)[0] if lines else ""
    except NoPicture as why:
        return "", f"There is no picture: {why}.", {}, f"{why}: the page has no pictures"
    return whole, caption + ".", *draw_groups(data, deadline)
