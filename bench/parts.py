#!/usr/bin/env python3
"""Times whole runs of `groups` with what stands beside its report, and on programs of many modules, files and declarations.

Each row is held against another run of the same kind: with a word more, with a declaration more, or four times as large. Needs the
built program. Prints a table: the medians of 21 runs of each, in turns, of the seconds and of the most memory that a run held, in MB, and the factors. With
`--keep FOLDER` the texts stay there.
"""

import random
import statistics

import whole
from common import MOST_BYTES, folders

RUNS = 21


def spread(folder, stem, clauses):
    """The names of as many files as the clauses fill, in their order."""
    names, parts, size = [], [], 0
    for clause in [*clauses, None]:
        if parts and (clause is None or size + len(clause) > MOST_BYTES):
            names.append(f"{stem}_{len(names)}.pl")
            (folder / names[-1]).write_text("".join(parts))
            parts, size = [], 0
        if clause is not None:
            parts.append(clause)
            size += len(clause)
    return names


def facts(folder, count, files):
    """So many facts over so many files."""
    step = count // files
    names = []
    for number in range(files):
        names.append(f"facts{count}_{number}.pl")
        (folder / names[-1]).write_text("".join(f"p{at}.\n" for at in range(number * step, (number + 1) * step)))
    return names


def hooks(folder, files):
    """Files of a module each that all give a hundred clauses of one predicate of `user`."""
    names = []
    for number in range(files):
        names.append(f"hooks{files}_{number}.pl")
        (folder / names[-1]).write_text(f":- module(m{number}, []).\n:- multifile user:hook/1.\n" + "user:hook(X) :- q(X).\nq(_).\n" + "user:hook(_).\n" * 98)
    return names


def library(folder, declared):
    """200,000 predicates, 2,000 of which take a goal, and 1,000,000 calls of these; the goals are declared or not."""
    source = random.Random(5)

    def clauses():
        for at in range(2_000):
            yield (f":- meta_predicate t{at}(0, ?).\n" if declared else "") + f"t{at}(_, _).\n"
        for at in range(198_000):
            goals = [f"t{source.randrange(2_000)}(p{source.randrange(198_000)}, x)" for _ in range(5 + (at % 20 == 0))]
            yield f"p{at} :- {', '.join(goals)}.\n"

    return spread(folder, "declared" if declared else "plain", clauses())


def rings(folder, count, size):
    """So many rings of so many predicates, each but the first calling the one before it."""

    def clauses():
        for ring in range(count):
            for at in range(size):
                words = [f"p{whole.spelled(ring * size + (at + 1) % size)}"]
                if at == 0 and ring:
                    words.append(f"p{whole.spelled((ring - 1) * size)}")
                yield f"p{whole.spelled(ring * size + at)} :- {', '.join(words)}.\n"

    return spread(folder, f"rings{count}", clauses())


def effects(folder):
    """The family "nearby" of whole.py, where each tenth predicate writes."""
    calls = whole.nearby(200_000)
    name = "effects.pl"
    with (folder / name).open("w") as out:
        for at, goals in enumerate(calls):
            body = [whole.spelled(goal) for goal in goals] + (["nl"] if at % 10 == 0 else [])
            out.write(f"{whole.spelled(at)}{' :- ' if body else ''}{', '.join(body)}.\n")
    return [name], whole.spelled(0), whole.spelled(199_999)


def in_turns(one, other, folder):
    """The medians of so many runs of each, in turns, so that what else the machine does meets both: seconds, and MB."""
    runs = [(whole.once([whole.GROUPS, *one], folder), whole.once([whole.GROUPS, *other], folder)) for _ in range(RUNS)]
    return [(statistics.median(run[side][0] for run in runs), statistics.median(run[side][1] for run in runs)) for side in (0, 1)]


def main():
    with folders(__doc__) as (folder, texts):
        names, first, last = effects(texts)
        path = f"{first}/0,{last}/0"
        plain, both = library(texts, False), library(texts, True)
        single, giant = rings(texts, 100_000, 1), rings(texts, 1, 1_000_000)
        pairs = [
            ("facts: 262,144, and 1,048,576", facts(texts, 262_144, 2), facts(texts, 1_048_576, 2)),
            ("files that give clauses of one predicate: 256, and 1,024", hooks(texts, 256), hooks(texts, 1_024)),
            ("1,000,000 calls of 2,000 predicates: not declared, and declared", plain, both),
            ("nearby: and --effects", names, ["--effects", *names]),
            ("nearby: and --loops --path", names, ["--loops", "--path", path, *names]),
            ("100,000 recursive groups: and --loops", single, ["--loops", *single]),
            ("one group of 1,000,000: and --loops", giant, ["--loops", *giant]),
        ]
        print(f"{'runs':<68}{'s':>8}{'s':>8}{'factor':>8}{'MB':>8}{'MB':>8}{'factor':>8}")
        for name, one, other in pairs:
            (took, mb), (more, most) = in_turns(one, other, texts)
            print(f"{name:<68}{took:>8.3f}{more:>8.3f}{more / took:>8.2f}{mb:>8.1f}{most:>8.1f}{most / mb:>8.2f}", flush=True)


if __name__ == "__main__":
    main()
