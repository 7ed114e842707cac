"""The data of a page: predicates, groups, who calls what, clauses. Names are indices into lists."""

import collections

from groups_view import lines, sources
from groups_view.names import atom

MOST_NOTES = 500
MOST_DIRECTIVES = 40  # of one predicate or name
# What a predicate is, by one bit each, as data.js has them.
MARKS = ("exported", "dynamic", "multifile")
ROOTS = ("export", "directive", "file", "roots")


def groups_of(predicates):
    """Each group as [height, recursive, members], and the group of each predicate; one that isn't reached is alone."""
    groups, numbers, of_predicate = [], {}, []
    for at, it in enumerate(predicates):
        key = it["group"] if it["group"] is not None else ("alone", at)
        if key not in numbers:
            numbers[key] = len(groups)
            groups.append([-1 if it["height"] is None else it["height"], int(bool(it["recursive"])), []])
        groups[numbers[key]][2].append(at)
        of_predicate.append(numbers[key])
    return groups, of_predicate


class Calls:
    """Who calls what and how often, and by file where each call is and what it means."""

    def __init__(self, program, numbers):
        self.callees = [{} for _ in program.predicates]
        self.outside = [{} for _ in program.predicates]
        self.others, self.named = {}, []
        self.targets = collections.defaultdict(list)
        for file, line, column, caller, callee, name, arity in program.calls:
            row = numbers[caller]
            if callee is None:
                target = self.other(name, arity)
                self.outside[row][target] = self.outside[row].get(target, 0) + 1
                target = -1 - target
            else:
                target = numbers[callee]
                self.callees[row][target] = self.callees[row].get(target, 0) + 1
            self.targets[file].append((line, column, target, name))

    def other(self, name, arity):
        """The number of a name that means no predicate of the files."""
        label = f"{atom(name)}/{arity}"
        if label not in self.others:
            self.named.append((name, arity))
        return self.others.setdefault(label, len(self.others))


def marks_of(predicate):
    """What is declared of a predicate, and why it is an entry point, as one number."""
    holds = [*(predicate[it] for it in MARKS), *(it in predicate["root"] for it in ROOTS)]
    return sum(1 << at for at, it in enumerate(holds) if it)


def directives_of(program, numbers, calls):
    """Where goals of directives call what: the first few places, and how many more there are. A name that means no predicate is -1 less its index."""
    found = {}
    for *place, callee, name, arity in program.directives:
        target = numbers[callee] if callee is not None else -1 - calls.other(name, arity)
        row = found.setdefault(target, [[], 0])
        if len(row[0]) < MOST_DIRECTIVES:
            row[0].append(place)
        else:
            row[1] += 1
    return found


def flat(rows):
    return [[it for pair in sorted(row.items()) for it in pair] for row in rows]


def data_of(read, title):
    """All that the page holds, and what is to be said of sources that can't be shown."""
    program = lines.parse(read.text)
    undefined = lines.parse_undefined(read.undefined)
    numbers = {it["id"]: at for at, it in enumerate(program.predicates)}
    modules = {name: at for at, name in enumerate(sorted({it["module"] for it in program.predicates}))}
    groups, group_of = groups_of(program.predicates)
    calls = Calls(program, numbers)
    directives = directives_of(program, numbers, calls)
    shown = sources.Shown(len(program.predicates))
    by_file = collections.defaultdict(list)
    for file, start, end, predicate in program.clauses:
        by_file[file].append((start, end, numbers[predicate]))
    names = list(program.files)
    for file, clauses in by_file.items():
        shown.add_file(file, names[file], clauses, calls.targets[file], read.since)
    notes = [it for it in [*read.left_out.splitlines(), *shown.lost] if it]
    data = {
        "title": title or title_of(names),
        "files": names,
        "modules": [atom(name) for name in modules],
        "predicates": [
            [modules[it["module"]], f"{atom(it['name'])}/{it['arity']}", group, marks_of(it)]
            for it, group in zip(program.predicates, group_of)
        ],
        "groups": groups,
        "directives": directives,
        "callees": flat(calls.callees),
        "outside": flat(calls.outside),
        "others": list(calls.others),
        "undefined": None if undefined is None else [at for at, it in enumerate(calls.named) if it in undefined],
        "clauses": shown.clauses,
        "more": shown.more,
        "notes": notes[:MOST_NOTES],
        "notesLeft": max(0, len(notes) - MOST_NOTES),
    }
    return data, shown.lost


def title_of(names):
    if not names:
        return "Prolog program"
    first = names[0].rpartition("/")[2]
    return first + (f" and {len(names) - 1} more" if len(names) > 1 else "")
