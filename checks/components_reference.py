#!/usr/bin/env python3
"""The program `components` again, in Python: `checks/components.py` compares the built program with it.

As a command it takes the arguments of `components` and does the same, slowly: `checks/components.py --program
checks/components_reference.py` tries the check itself. `answer` is the whole of it as a function: arguments and files in, status and
bytes out."""

import errno
import json
import os
import pathlib
import re
import sys

import program

MOST_BYTES = 1_073_741_824
MOST_NAME = 65_536
MOST_NODES = 8_388_608
MOST_EDGES = 33_554_432
MOST_JOBS = 64


def usage_line():
    """The usage line: the first lines of the help page, as one."""
    return program.usage("components").encode() + b"\n"


class Ended(Exception):
    """A run without a report: its status and its line on standard error."""

    def __init__(self, status, line):
        super().__init__(status, line)
        self.status, self.line = status, line


# Arguments.


class Wanted:
    """What the arguments ask for; no file is standard input."""

    def __init__(self):
        self.jobs, self.roots, self.file, self.flags = 1, [], None, set()


def value_of(word, rest):
    """The value of an option: after `=` in the word, or the next word. It isn't empty, and the next word doesn't begin with `-`."""
    name, equals, value = word.partition("=")
    if not equals:
        if not rest:
            raise Ended(2, usage_line())
        value = rest.pop(0)
    if not value or not equals and value.startswith("-"):
        raise Ended(2, usage_line())
    return name, value


def parsed(words):
    found, rest, seen, files = Wanted(), [], set(), []
    for word in words:
        try:
            rest.append(word.decode())
        except UnicodeDecodeError:
            raise Ended(2, usage_line()) from None
    only_files = False
    while rest:
        word = rest.pop(0)
        name = word.partition("=")[0]
        if only_files or word == "-" or not word.startswith("-"):
            files.append(word)
        elif word == "--":
            only_files = True
        elif name == "--roots":
            found.roots.append(value_of(word, rest)[1].encode())
        elif name == "--jobs" and name not in seen:
            number = value_of(word, rest)[1]
            if not re.fullmatch("[0-9]{1,20}", number) or not 1 <= int(number) <= MOST_JOBS:
                raise Ended(2, usage_line())
            found.jobs = int(number)
            seen.add(name)
        elif word in ("--order", "--loops", "--json", "--from-json") and word not in seen:
            seen.add(word)
        else:
            raise Ended(2, usage_line())
    if len(files) > 1 or "" in files:
        raise Ended(2, usage_line())
    found.file = files[0].encode() if files and files[0] != "-" else None
    found.flags = seen
    return found


# Reading.


def bytes_of(file):
    """All bytes of the file, or of standard input."""
    shown = file or b"-"
    try:
        if file is not None and b"\0" in file:
            raise OSError(errno.EINVAL, "")
        handle = 0 if file is None else os.open(file, os.O_RDONLY)
        parts, size = [], 0
        while size <= MOST_BYTES and (part := os.read(handle, 1 << 20)):
            parts.append(part)
            size += len(part)
    except FileNotFoundError:
        raise Ended(4, b"components: cannot read " + shown + b"\n") from None
    except OSError:
        raise Ended(4, b"components: cannot read " + shown + b"\n") from None
    if size > MOST_BYTES:
        raise Ended(6, b"components: " + shown + b" is larger than %d bytes\n" % MOST_BYTES)
    return b"".join(parts)


def fault(file, line, column, text):
    return Ended(3, (file or b"-") + b":%d:%d: %s\n" % (line, column, text))


def is_utf8(name):
    try:
        name.decode()
    except UnicodeDecodeError:
        return False
    return True


def lines_of_text(text, file, wanted):
    """The words of each line that isn't a comment. The first name that may not be one ends the run."""
    for number, line in enumerate(text.split(b"\n"), 1):
        if line.startswith(b"#"):
            continue
        words = line.split()
        if any(len(word) > MOST_NAME for word in words):
            for word in re.finditer(rb"[^ \t\v\f\r]+", line):
                if len(word[0]) > MOST_NAME:
                    raise fault(file, number, word.start() + 1, b"name is longer than %d bytes" % MOST_NAME)
        if words:
            yield words


def no_number(word):
    """Python reads `NaN` and `Infinity`, which are no JSON."""
    raise ValueError(word)


def names_of_json(line):
    """The two names, or the one, of an object with strings `from` and perhaps `to`."""
    whole = json.loads(line.decode(), parse_constant=no_number)
    names = [whole[key] for key in ("from", "to") if key == "from" or key in whole] if isinstance(whole, dict) else [None]
    if not all(isinstance(it, str) for it in names):
        raise ValueError("a name is no string")
    return [it.encode() for it in names]


def lines_of_json(text, file, wanted):
    """The names of each object. The first line that isn't such an object ends the run."""
    for number, line in enumerate(text.split(b"\n"), 1):
        if not line.strip(b" \t\r"):
            continue
        try:
            names = names_of_json(line)
        except (ValueError, KeyError):
            raise fault(file, number, 1, b"line is not an edge") from None
        if any(len(name) > MOST_NAME for name in names):
            raise fault(file, number, 1, b"name is longer than %d bytes" % MOST_NAME)
        yield names


def graph_of(lines):
    """The names in order of bytes, and for each the indices of its callees."""
    edges, met, count = [], {}, 0
    for words in lines:
        places = [met.setdefault(word, len(met)) for word in words]
        count += len(places) - 1
        edges += ((places[0], it) for it in places[1:])
    if count > MOST_EDGES:
        raise Ended(6, b"components: more than %d edges\n" % MOST_EDGES)
    if len(met) > MOST_NODES:
        raise Ended(6, b"components: more than %d nodes\n" % MOST_NODES)
    names = sorted(met)
    rank = [0] * len(names)
    for at, name in enumerate(names):
        rank[met[name]] = at
    callees = [set() for _ in names]
    for start, end in edges:
        callees[rank[start]].add(rank[end])
    return names, [sorted(it) for it in callees]


# The search.


def groups_of(callees, roots):
    """The strongly connected components that the roots reach, callees first, members ascending: Tarjan's algorithm without recursion."""
    index, low, on_stack = {}, {}, set()
    stack, found = [], []
    for root in roots:
        if root in index:
            continue
        frames = [(root, iter(callees[root]))]
        index[root] = low[root] = len(index)
        stack.append(root)
        on_stack.add(root)
        while frames:
            node, rest = frames[-1]
            callee = next(rest, None)
            if callee is None:
                frames.pop()
                if frames:
                    low[frames[-1][0]] = min(low[frames[-1][0]], low[node])
                if low[node] == index[node]:
                    group = [stack.pop()]
                    while group[-1] != node:
                        group.append(stack.pop())
                    on_stack.difference_update(group)
                    found.append(sorted(group))
            elif callee not in index:
                index[callee] = low[callee] = len(index)
                stack.append(callee)
                on_stack.add(callee)
                frames.append((callee, iter(callees[callee])))
            elif callee in on_stack:
                low[node] = min(low[node], index[callee])
    return found


def levels_of(callees, groups):
    """For each group its height, and whether it is recursive."""
    group_of = {member: at for at, group in enumerate(groups) for member in group}
    found = []
    for at, group in enumerate(groups):
        below = {group_of[callee] for member in group for callee in callees[member]}
        height = max((found[it][0] + 1 for it in below if it != at), default=0)
        found.append((height, len(group) > 1 or at in below))
    return found


def cycle_of(callees, group):
    """A shortest cycle through the first member; of several the one with the lesser member where they first differ."""
    first, inside = group[0], set(group)
    if first in callees[first]:
        return [first]
    callers = {member: [] for member in group}
    for member in group:
        for callee in callees[member]:
            if callee in inside:
                callers[callee].append(member)
    steps, layer = {first: 0}, [first]
    while layer:
        layer = [it for node in layer for it in callers[node] if steps.setdefault(it, steps[node] + 1) == steps[node] + 1]
        layer = list(dict.fromkeys(layer))
    path = [first]
    node = min((it for it in callees[first] if it in inside), key=lambda it: (steps[it], it))
    while node != first:
        path.append(node)
        node = next(it for it in callees[node] if it in inside and steps[it] == steps[node] - 1)
    return path


# The report.


def text_lines(names, groups, levels, cycles, order):
    yield b"nodes %d groups %d recursive %d levels %d\n" % (sum(map(len, groups)), len(groups), sum(it for _, it in levels), max((it + 1 for it, _ in levels), default=0))
    for at in order:
        height, recursive = levels[at]
        yield b"%d %s %s\n" % (height, b"recursive" if recursive else b"plain", b" ".join(names[it] for it in groups[at]))
    for cycle in cycles:
        yield b"loop " + b" ".join(names[it] for it in cycle) + b"\n"


def as_json(value):
    """A string with no escapes but those of `"`, `\\` and control characters, a list, a number or a truth."""
    if isinstance(value, str):
        return '"' + "".join(f"\\u{ord(it):04x}" if it < " " else "\\" + it if it in '"\\' else it for it in value) + '"'
    if isinstance(value, list):
        return "[" + ",".join(map(as_json, value)) + "]"
    return str(value).lower()


def json_lines(names, groups, levels, cycles, order):
    def line(**members):
        return ("{" + ",".join(f'"{key}":{as_json(value)}' for key, value in members.items()) + "}\n").encode()

    shown = lambda name: name.decode() if is_utf8(name) else list(name)
    yield line(nodes=sum(map(len, groups)), groups=len(groups), recursive=sum(it for _, it in levels), levels=max((it + 1 for it, _ in levels), default=0))
    for number, at in enumerate(order):
        height, recursive = levels[at]
        yield line(id=number, height=height, recursive=recursive, members=[shown(names[it]) for it in groups[at]])
    for cycle in cycles:
        yield line(loop=[shown(names[it]) for it in cycle])


def report(names, callees, wanted):
    places = {name: at for at, name in enumerate(names)} if wanted.roots else {}
    for root in wanted.roots:
        if root not in places:
            raise Ended(2, b"components: no node " + root + b"\n")
    groups = groups_of(callees, [places[it] for it in wanted.roots] or range(len(names)))
    levels = levels_of(callees, groups)
    by_height = sorted(range(len(groups)), key=lambda at: (levels[at][0], groups[at][0]))
    cycles = [cycle_of(callees, groups[at]) for at in by_height if levels[at][1]] if "--loops" in wanted.flags else []
    write = json_lines if "--json" in wanted.flags else text_lines
    return b"".join(write(names, groups, levels, cycles, range(len(groups)) if "--order" in wanted.flags else by_height))


def answer(words, read=bytes_of):
    """The status of a run with these arguments, and its bytes on standard output and standard error; `read` returns the bytes of a file."""
    try:
        wanted = parsed(words)
        lines = (lines_of_json if "--from-json" in wanted.flags else lines_of_text)(read(wanted.file), wanted.file, wanted)
        return 0, report(*graph_of(lines), wanted), b""
    except Ended as ended:
        return ended.status, b"", ended.line


def written(handle, data):
    """Whether all bytes were written."""
    try:
        while data:
            data = data[os.write(handle, data) :]
    except OSError:
        return False
    return True


def main():
    status, out, err = answer([os.fsencode(it) for it in sys.argv[1:]])
    os._exit(status if written(1, out) and written(2, err) else 5)


if __name__ == "__main__":
    main()
