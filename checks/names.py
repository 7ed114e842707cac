#!/usr/bin/env python3
"""Prints names that hide their subject, and fails if there are more of a kind than are written here. So they can only become fewer.

- files: a file with types bears the name of one of them, in the singular or the plural.
- definitions: a name of specs/ is in one crate, or ONE_MEANING says what it means in all of them.
- functions: none is a bare participle, as `opened`. Its name says what it does, or what it returns.

Crates of tests and examples don't count. With --all it prints each such name, and passes. Takes a second."""

import argparse
import collections
import pathlib
import re
import sys

ROOT = pathlib.Path(__file__).resolve().parent.parent
TESTS = re.compile(r"_(?:tests|rows|example)$")
MOST = {"files": 24, "definitions": 174, "functions": 7}
# Names that several crates define, each for a type or a list of its own, with the one thing that they mean.
ONE_MEANING = {
    "value_of": "what contracts see of a type, from its fields",
    "both": "what a pass knows into which two were joined",
    "spent": "what a pass knows that was joined into another one",
}
TYPE = re.compile(r"(?m)^pub(?:\(crate\))? (?:struct|enum|trait|type) (\w+)")
DEFINITION = re.compile(r"(?m)^(?:(?:abbrev|unfoldable) )?pub (?:record |data )?([A-Za-z_]\w*)(?=[ :(])(?! as\b)")
FUNCTION = re.compile(r"^ *(?:pub(?:\(crate\)|\(super\))? )?fn ([a-z]+)[(<]")
PARTICIPLE = re.compile(r"\w+ed|(?:be)?gun|drawn|found|given|gone|held|kept|known|led|left|made|met|sent|shown|spent|taken|told|written")
# Words that end like a participle and aren't one, and names of public methods that are fixed.
FREE = {"embed", "feed", "need", "seed", "speed", "asked", "blocked", "met", "opened", "released", "wanted"}


def snake(name):
    return re.sub(r"(?<!^)([A-Z])", r"_\1", name).lower()


def sources(part, ending):
    """The files below that folder of each crate that isn't of tests: the crate, the path and the text."""
    for folder in sorted((ROOT / "crates").iterdir()):
        if not TESTS.search(folder.name):
            for path in sorted((folder / part).rglob(f"*.{ending}")):
                yield folder.name, path, path.read_text()


def nameless_files():
    for _, path, text in sources("src", "rt"):
        types = [snake(it) for it in TYPE.findall(text)]
        if types and path.stem not in ("lib", "main") and not {path.stem, path.stem.removesuffix("s"), path.stem.removesuffix("es")} & set(types):
            yield f"{path.relative_to(ROOT)} holds {', '.join(types)}"


def shared_definitions():
    crates = collections.defaultdict(set)
    for crate, path, text in sources("specs", "antt"):
        if path.stem != "Lib":
            for name in DEFINITION.findall(text):
                crates[name].add(crate)
    for name, found in sorted(crates.items()):
        if len(found) > 1 and name not in ONE_MEANING:
            yield f"{name} is in {', '.join(sorted(found))}"


def bare_participles():
    for _, path, text in sources("src", "rt"):
        for number, line in enumerate(text.splitlines(), 1):
            name = FUNCTION.match(line)
            if name and name[1] not in FREE and PARTICIPLE.fullmatch(name[1]):
                yield f"{path.relative_to(ROOT)}:{number}: {name[1]}"


def main():
    parser = argparse.ArgumentParser(description=__doc__.splitlines()[0])
    parser.add_argument("--all", action="store_true")
    shows_all = parser.parse_args().all
    amiss = False
    for kind, found in (("files", nameless_files()), ("definitions", shared_definitions()), ("functions", bare_participles())):
        lines = list(found)
        too_many = len(lines) > MOST[kind]
        print(f"names: {len(lines)} {kind}, {MOST[kind]} at most")
        if shows_all or too_many:
            print("\n".join(f"  {it}" for it in lines))
        amiss = amiss or too_many
    sys.exit(amiss and not shows_all)


if __name__ == "__main__":
    main()
