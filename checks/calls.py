#!/usr/bin/env python3
"""What `calls` writes is read back: its JSON by Python's `json`, its graph by Graphviz's `dot -Tcanon`.

The examples and two hundred random programs are told, with names of any characters, over one file and over modules. Of each, the predicates,
groups and heights are those of the report of `groups`, the clauses and the calls of a random program are those that it was made of, each at its
place, and the graph has a node for each predicate and an edge for each pair of a caller and a callee. Its clusters are the recursive groups. The
condensed graph has a node for each group and an edge for each pair of groups between which a call leads. Names with each code point are told
and read back. Of two hundred programs of checks/random_programs.py, what is marked at predicates is what the reader of checks/evaluator.py finds: whether
 a module file exports them, their declarations, why reach begins there, also with `--roots`, and whether directives declare them `dynamic` or
 `multifile`. So are all calls, each with how many arguments are added and whether it is negated. The cases of checks/rows/calls/ are held against answers
 that are written by hand. Needs `calls` and `groups`; where `dot` isn't installed it says so, and reads no graph back. Ends with status 1 at the first difference.

--xref N takes each Nth `.pl` file of the Prolog packages that are installed, and sets the pairs of a caller and a callee inside its module beside
those that SWI-Prolog's prolog_xref tells, where `calls` reads it: how many are told by both, and each that is told by one alone (docs/calls.md has the
reasons). Needs `swipl` too.
"""

import argparse
import collections
import json
import os
import pathlib
import random
import re
import shutil
import subprocess
import sys
import tempfile

import bridge
import evaluator
import random_programs
import real_programs
import rows

ROOT = pathlib.Path(__file__).resolve().parent.parent
CALLS = str(ROOT / "calls")
GROUPS = str(ROOT / "groups")
HAS_DOT = shutil.which("dot") is not None
PROPERTIES = ("dynamic", "multifile")
ODD = ["p", "q", "r2", "aB", "", "it's", 'a"b', "back\\slash", "new\nline", "tab\t", "bell\a", "\x7f", "é", "日本"]
ODD += ["\U0001f600", "a b", "[]", "<N>", "\\n", "{}x"]


def output(words, folder):
    run = subprocess.run(words, cwd=folder, stdout=subprocess.PIPE, stderr=subprocess.PIPE)
    if run.returncode:
        sys.exit(f"{words}: status {run.returncode}: {run.stderr.decode()}")
    return run.stdout.decode()


def quoted(name):
    escapes = {"'": "\\'", "\\": "\\\\", "\n": "\\n"}
    return "'" + "".join(escapes.get(c) or (c if c >= " " and c != "\x7f" else f"\\x{ord(c):02x}\\") for c in name) + "'"


def made(source):
    """A program of one file: its lines, and of each clause its extent and the head, and of each goal the column, the name and whether it is negated."""
    names = source.sample(ODD, source.randint(2, len(ODD)))
    heads = [name for name in names if name != "[]"]  # no clause has that head
    lines, clauses, calls = [], [], []
    for _ in range(source.randint(1, 30)):
        head = source.choice(heads)
        line = quoted(head)
        goals = [source.choice(names) for _ in range(source.randint(0, 4))]
        for number, goal in enumerate(goals):
            negated = source.random() < 0.2
            line += (", " if number else " :- ") + ("\\+ " if negated else "")
            calls.append((len(lines) + 1, len(line) + 1, head, goal, 0, negated))
            line += quoted(goal)
        clauses.append((len(lines) + 1, 1, len(lines) + 1, len(line) + 1, head))
        lines.append(line + ".")
    return "\n".join(lines) + "\n", clauses, calls


def told(words, folder):
    lines = [json.loads(line) for line in output([CALLS, *words], folder).split("\n")[:-1]]
    return [[line for line in lines if line["is"] == kind] for kind in ("predicate", "group", "clause", "call")]


def beside_groups(words, folder, predicates, told_groups):
    """The groups and heights are those of the report, and the lines of the groups say what those of their members do."""
    mine = {}
    for line in predicates:
        if line["group"] is not None:
            mine.setdefault((line["height"], line["group"], line["recursive"]), []).append(line["id"])
    of_members = [{"is": "group", "id": least, "height": height, "recursive": recursive, "members": members}
                  for (height, least, recursive), members in sorted(mine.items(), key=lambda it: it[0][1])]
    if told_groups != of_members:
        sys.exit(f"{words}: lines of groups {told_groups} beside {of_members}")
    report = output([GROUPS, *words], folder).split("\n")
    groups = [line for line in report[1:] if re.match(r"\d", line)]
    if len(groups) != len(mine):
        sys.exit(f"{words}: {len(mine)} groups, and {len(groups)} in the report")
    for line, ((height, least, recursive), members) in zip(groups, sorted(mine.items())):
        begins = f"{height} {'recursive' if recursive else 'plain'} "
        if not line.startswith(begins) or least != min(members):
            sys.exit(f"{words}: {line!r} beside {height} {recursive} {members}")


def read_graph(text):
    """The names of the nodes, of the edges and of the clusters of a graph, as Graphviz reads it."""
    canon = subprocess.run(["dot", "-Tcanon"], input=text.encode(), stdout=subprocess.PIPE, check=True).stdout.decode()
    nodes = set(re.findall(r"^\s*([gn]\d+)\s*\[", canon, re.M))
    edges = set(re.findall(r"^\s*([gn]\d+) -> ([gn]\d+)", canon, re.M))
    return nodes, edges, set(re.findall(r"^\s*subgraph cluster_(\d+) ", canon, re.M))


def dot_label(line):
    text = f"{line['module']}:{line['name']}/{line['arity']}"
    return text.replace("\\", "\\\\").replace('"', '\\"').replace("\n", "\\n")


def pairs_of(calls):
    """The pairs of caller and callee; a call of a directive has no caller."""
    return {(line["caller"], line["callee"]) for line in calls if None not in (line["caller"], line["callee"])}


def beside_graph(words, folder, predicates, calls):
    """The graph has the nodes and the edges of the lines, and a cluster for each recursive group."""
    text = output([CALLS, "--dot", *words], folder)
    if not HAS_DOT:
        return
    nodes, edges, clusters = read_graph(text)
    if nodes != {f"n{line['id']}" for line in predicates}:
        sys.exit(f"{words}: the graph has other nodes")
    if edges != {(f"n{one}", f"n{other}") for one, other in pairs_of(calls)}:
        sys.exit(f"{words}: the graph has other edges")
    if clusters != {str(line["group"]) for line in predicates if line["recursive"]}:
        sys.exit(f"{words}: the graph has other clusters")


def beside_condensed(words, folder, predicates, calls):
    """The condensed graph is that of the lines, line by line."""
    text = output([CALLS, "--dot", "--condensed", *words], folder)
    nodes = {line["id"]: line["id"] if line["group"] is None else line["group"] for line in predicates}
    names = {line["id"]: f"{'n' if line['group'] is None else 'g'}{nodes[line['id']]}" for line in predicates}
    labels = collections.defaultdict(list)
    for line in predicates:
        labels[nodes[line["id"]]].append(dot_label(line))
    edges = {(nodes[one], nodes[other]) for one, other in pairs_of(calls) if nodes[one] != nodes[other]}
    lines = [f'  {names[node]} [label="' + "\\n".join(labels[node]) + '"];' for node in sorted(labels)]
    lines += [f"{names[one]} -> {names[other]};" for one, other in sorted(edges)]
    if text != "".join(f"{line}\n" for line in ["digraph calls {", *lines, "}"]):
        sys.exit(f"{words}: another condensed graph")
    if HAS_DOT and read_graph(text)[:2] != (set(names[node] for node in labels), {(names[one], names[other]) for one, other in edges}):
        sys.exit(f"{words}: Graphviz reads another condensed graph")


def one_random(number, folder):
    source = random.Random(number)
    text, clauses, calls = made(source)
    (folder / "f.pl").write_text(text)
    predicates, told_groups, found, goals = told(["--unreached", "f.pl"], folder)
    names = {line["id"]: line["name"] for line in predicates}
    if [(line["line"], line["column"], line["end_line"], line["end_column"], names[line["predicate"]]) for line in found] != clauses:
        sys.exit(f"random program {number}: other clauses")
    if [(line["line"], line["column"], names[line["caller"]], line["name"], line["added"], line["negated"]) for line in goals] != calls:
        sys.exit(f"random program {number}: other calls")
    for line in goals:
        means = [name for name in names.values() if name == line["name"]]
        if (names[line["callee"]] if line["callee"] is not None else None) != (means[0] if means else None):
            sys.exit(f"random program {number}: {line} means {means}")
    undefined = [json.loads(line) for line in output([CALLS, "--unreached", "--undefined", "f.pl"], folder).split("\n")[:-1]]
    if undefined != [line for line in goals if line["callee"] is None]:
        sys.exit(f"random program {number}: other undefined names")
    beside_groups(["f.pl"], folder, predicates, told_groups)
    beside_graph(["--unreached", "f.pl"], folder, predicates, goals)
    beside_condensed(["--unreached", "f.pl"], folder, predicates, goals)
    if "p" in names.values():
        words = ["--roots", "p/0", "--unreached", "f.pl"]
        predicates, _, _, goals = told(words, folder)
        beside_graph(words, folder, predicates, goals)
        beside_condensed(words, folder, predicates, goals)


def marked(program, roots):
    """What the line of each predicate of the program says of it: whether it is exported, its declaration, why reach begins there, and its properties."""
    exported, declared, properties = set(), {}, set()
    for source in program.in_order():
        if source.module_position is not None:
            exported.update((source.module, *key) for key in source.keys())
        for key, arguments in source.declarations:
            declared.setdefault(key, list(arguments))
        properties.update(source.properties)
    by_export, by_file = set(), set()
    for source in map(program.sources.get, program.named):
        if source.module_position is not None:
            by_export.update((source.module, *key) for key in source.keys())
        else:
            by_file.update([clause.key for clause in source.clauses] + source.bare())
    reasons = {"export": by_export, "directive": program.started, "file": by_file} if roots is None else {"roots": roots}
    return {
        key: (key in exported, declared.get(key), [word for word, keys in reasons.items() if key in keys], *((word, key) in properties for word in PROPERTIES))
        for key in program.predicates
    }


class Program(evaluator.Program):
    """A program that notes each call of a goal: its position, its module, name and number of arguments, how many of them are added, whether it is
    negated, and what it means."""

    def __init__(self, names, read):
        self.met = []
        super().__init__(names, read)

    def call(self, goal, module, added, negated, stack):
        answer = super().call(goal, module, added, negated, stack)
        name, arity, meant = answer
        self.met.append((goal.position, module, name, arity, added, negated, meant))
        return answer

    def calls_in(self, source, body, is_grammar):
        """The calls of a body, each with its file, line and column in place of its position."""
        self.met = []
        list(self.calls(source, body, is_grammar, []))
        for position, *said in self.met:
            _, line, column, _ = source.line(position, "")[len(source.name):].split(":")
            yield source.name, int(line), int(column), *said

    def of_clauses(self):
        return {(clause.key, *it) for source in self.in_order() for clause in source.clauses if clause.body
                for it in self.calls_in(source, clause.body, clause.is_grammar)}

    def of_directives(self):
        return {(None, *it) for source in self.in_order() for goal in source.goals for it in self.calls_in(source, goal, False)}


def calls_told(calls, keys):
    """The same as `calls` tells it: first of clauses and then of directives, each by file and position and once."""
    if any((it["caller"] is None) != (it.get("directive") is True) for it in calls):
        sys.exit(f"calls without a caller are those of directives: {calls}")
    told = [(keys.get(it["caller"]), it["file"], it["line"], it["column"], it["module"], it["name"], it["arity"], it["added"], it["negated"],
             keys.get(it["callee"])) for it in calls]
    places = [(it[0] is None, *it[1:4]) for it in told]
    if len(set(told)) != len(told) or places != sorted(places):
        sys.exit(f"calls out of order: {told}")
    return set(told)


def marks_beside_reader(made, source, folder):
    """How many predicates the program has, if it has no errors: their lines, and those of all calls, say what the reader of evaluator.py finds."""
    for name, data in made.files.items():
        (folder / name).parent.mkdir(parents=True, exist_ok=True)
        (folder / name).write_bytes(data)
    files = [it for it in made.arguments if it in made.files] or sorted(made.files)
    try:
        program = Program(files, lambda name: evaluator.read_file(os.path.join(folder, name)))
    except evaluator.Refusal:
        return 0
    plain = [key for key in sorted(program.predicates) if all(re.fullmatch("[a-z][a-z0-9]*", name) for name in key[:2])]
    given = set(source.sample(plain, min(2, len(plain))))
    for roots in (None, given) if given else (None,):
        words = ["--roots", ",".join(f"{key[0]}:{key[1]}/{key[2]}" for key in sorted(given))] if roots else []
        predicates, _, _, calls = told([*words, "--unreached", *files], folder)
        lines = {(it["module"], it["name"], it["arity"]): (it["exported"], it["meta"], it["root"], *(it[word] for word in PROPERTIES)) for it in predicates}
        if lines != marked(program, roots):
            sys.exit(f"{words} {files} {made.files}: {lines} beside {marked(program, roots)}")
        keys = {it["id"]: (it["module"], it["name"], it["arity"]) for it in predicates}
        if calls_told(calls, keys) != program.of_clauses() | program.of_directives():
            sys.exit(f"{words} {files} {made.files}: {calls_told(calls, keys)} beside {program.of_clauses() | program.of_directives()}")
    return len(program.predicates)


def random_marks(wanted):
    """Compares what is marked in so many random programs without errors. How many predicates they have."""
    count, number, found = 0, 0, 0
    while count < wanted:
        number += 1
        made = random_programs.made(7, number)
        with tempfile.TemporaryDirectory() as name:
            here = marks_beside_reader(made, random.Random(number), pathlib.Path(name))
        count += here > 0
        found += here
    return found


def all_code_points(folder):
    """A name with each code point is told as it is; `a` stands before it, so that no name is that of a control construct."""
    points = [point for point in range(0x110000) if not 0xD800 <= point < 0xE000]
    for start in range(0, len(points), 200_000):
        part = points[start : start + 200_000]
        (folder / "f.pl").write_text("".join(f"'a\\x{point:x}\\'.\n" for point in part))
        predicates, _, _, _ = told(["--unreached", "f.pl"], folder)
        if sorted(line["name"] for line in predicates) != [f"a{chr(point)}" for point in part]:
            sys.exit(f"code points from {start}: other names")


def pairs_by_xref(path):
    """The module, its predicates, and the pairs of a caller and a callee that prolog_xref tells."""
    status, out, _ = bridge.run(["swipl", str(ROOT / "checks" / "xref_calls.pl"), "--"], path)
    module, defined, pairs = "user", set(), set()
    for line in out.splitlines():
        word, *names = [bridge.plain(name) for name in bridge.NAME.findall(line)]
        if word == "module":
            module = names[0]
        elif word == "defines":
            defined.add(names[0])
        elif word == "calls":
            pairs.add(tuple(names))
    return (module, defined, pairs) if status == 0 else None


def pairs_here(path, module):
    """The module's predicates, and the pairs of a caller and a callee in it, or nothing where the file isn't read."""
    status, out, _ = bridge.run([CALLS, "--unreached"], path)
    if status:
        return None
    lines = [json.loads(line) for line in out.split("\n")[:-1]]
    names = {line["id"]: f"{line['name']}/{line['arity']}" for line in lines if line["is"] == "predicate" and line["module"] == module}
    calls = [(line["caller"], line["callee"]) for line in lines if line["is"] == "call" and line["file"] == path.name]
    return set(names.values()), {(names[one], names[other]) for one, other in calls if one in names and other in names}


def beside_xref(every):
    counts = collections.Counter()
    for path in sorted({path for package in real_programs.packages() for path in real_programs.sources(package)})[::every]:
        counts["files"] += 1
        theirs = pairs_by_xref(path)
        mine = theirs and pairs_here(path, theirs[0])
        if not mine:
            continue
        defined = theirs[1] & mine[0]
        here, there = ({pair for pair in pairs if defined.issuperset(pair)} for pairs in (mine[1], theirs[2]))
        counts.update({"compared": 1, "the same": here == there, "by both": len(here & there)})
        counts.update({"here alone": len(here - there), "by prolog_xref alone": len(there - here)})
        for what, pairs in (("here alone", here - there), ("by prolog_xref alone", there - here)):
            for caller, callee in sorted(pairs):
                print(f"{path}: {what}: {caller} calls {callee}")
    print(", ".join(f"{what} {count}" for what, count in counts.items()))


def as_the_cases_say():
    """How many runs of the cases by hand answered as they should; ends where one did not."""
    runs = [(path.name, title, files, run) for path in sorted((rows.ROWS / "calls").glob("*.txt")) for title, files, tried in rows.cases(path) for run in tried]
    if not all([rows.tried(CALLS, *it) for it in runs]):
        sys.exit("calls answers otherwise than checks/rows/calls/ says")
    return len(runs)


def main():
    parser = argparse.ArgumentParser()
    parser.add_argument("--xref", type=int, metavar="N")
    every = parser.parse_args().xref
    if every is not None:
        return beside_xref(every)
    by_hand = as_the_cases_say()
    with tempfile.TemporaryDirectory() as name:
        folder = pathlib.Path(name)
        for number in range(200):
            one_random(number, folder)
        found = random_marks(200)
        all_code_points(folder)
        examples = sorted((ROOT / "examples").glob("*.pl"))
        for path in examples:
            predicates, told_groups, _, goals = told([path.name], path.parent)
            beside_groups([path.name], path.parent, predicates, told_groups)
            beside_graph([path.name], path.parent, predicates, goals)
            beside_condensed([path.name], path.parent, predicates, goals)
    if not HAS_DOT:
        print("dot isn't installed: no graph is read back")
    print(f"{by_hand} runs by hand, 200 random programs, {found} predicates of 200 more, each code point and {len(examples)} examples are read back")


if __name__ == "__main__":
    sys.exit(main())
