#!/usr/bin/env python3
"""Sees that the documents name what is there, and that each command which they show prints what they show.

- docs/proved.md: each word in `code` of its account of a crate is in the sources of the repository's crates;
- docs/definitions.md: each definition is in the module that its entry names, and its cases are tests, or titles of rows;
- each link of a document leads to a file, each path in `code` to one too, and docs/architecture.md names each crate;
- each block ```console whose first line begins with `$ ` is run: after each command come the lines that it prints, on standard output and standard error.
  A command goes on in lines that begin with `> `. It runs in a folder where the repository's files are links, and where the blocks ```prolog FILE,
  ```text FILE and ```makefile FILE of the document are files. If a command needs a program that isn't installed, it is passed over with a line.

With names of documents only their blocks are run. Prints what is amiss, and ends with status 1 then."""

import argparse
import pathlib
import re
import shutil
import subprocess
import sys
import tempfile

ROOT = pathlib.Path(__file__).resolve().parent.parent
WORD = re.compile(r"[A-Za-z_][A-Za-z_0-9-]*")
CODE = re.compile(r"`([^`]+)`")
FENCE = re.compile(r"^```(\S*) ?(.*)$")
# Paths that a document may name; below crates/ only those without a placeholder.
PATH = re.compile(r"(?:docs|checks|bench|examples|completions|\.ci|release|crates)/[a-z][\w./-]*")
DOCUMENTS = [ROOT / "README.md", ROOT / "CONTRIBUTING.md", ROOT / "CHANGES.md", *sorted((ROOT / "docs").glob("*.md"))]
# Titles of rows and names of tests are here, beside the crates.
ROW_FILES = [*(ROOT / "checks" / "rows").glob("**/*.txt"), *ROOT.glob("crates/*/src/*.rt"), *ROOT.glob("crates/*/stdin")]
# What a command needs, by what it says.
NEEDS = {"jq": r"\bjq\b|(?:undefined|modules|around|check)\.sh", "dot": r"\bdot -|(?:graph|modules|around)\.(?:sh|svg)|groups-page (?!--help)", "make": r"edges/make\.sh", "swipl": r"\bswipl\b|-swi\b|library-goals"}
MOST_SECONDS = 60


def words_of(paths):
    return {word for path in paths if path.is_file() for word in WORD.findall(path.read_text(errors="replace"))}


def sources(crate):
    return [path for kind in ("*.rt", "*.antt") for path in (ROOT / "crates" / crate).rglob(kind) if "out" not in path.parts]


def account_words(text, known):
    """What the account of proofs names that no source has."""
    for crate, body in re.findall(r"^### (\w+)$(.*?)(?=^#|\Z)", text, re.M | re.S):
        for code in CODE.findall(body):
            if "/" not in code:
                yield from (f"docs/proved.md: {crate}: `{word}` is nowhere" for word in WORD.findall(code) if word not in known)


def definition_entries(text):
    """Each entry of the page on definitions: its crate, its names, its modules, and the names of its cases."""
    for crate, body in re.findall(r"^### (\w+)$(.*?)(?=^##|\Z)", text, re.M | re.S):
        for item in re.split(r"\n(?=- )|\n\n", body):
            entry = re.match(r"- (.+?) \(((?:`\w+`(?:, )?)+)\):(.*)", " ".join(item.split()))
            if entry:
                names, modules, rest = entry.groups()
                cases = rest.partition("Cases: ")[2]
                yield crate, CODE.findall(names), CODE.findall(modules), CODE.findall(cases)


def definition_rows(text, evaluators):
    """What the page on definitions names that isn't where it says."""
    for crate, names, modules, cases in definition_entries(text):
        files = [ROOT / "crates" / crate / "specs" / f"{it}.antt" for it in modules]
        yield from (f"docs/definitions.md: there is no {path.relative_to(ROOT)}" for path in files if not path.exists())
        known = words_of(files)
        for name in (WORD.match(it) for it in names):
            if name and name[0] not in known:
                yield f"docs/definitions.md: {crate}: `{name[0]}` isn't in {', '.join(modules)}"
        yield from (f"docs/definitions.md: {crate}: `{it}`, a case of {names[0]}, is nowhere" for it in cases if WORD.fullmatch(it) and it not in evaluators)


def broken_links(path):
    for target in re.findall(r"\]\(([^)#:]+)(?:#[^)]*)?\)", path.read_text()):
        if not (path.parent / target).exists():
            yield f"{path.relative_to(ROOT)}: the link to {target} leads nowhere"


def lost_paths(path):
    """Paths in `code` at which there is nothing."""
    for code in sorted({it.rstrip("/") for it in CODE.findall(without_blocks(path.read_text()))}):
        if PATH.fullmatch(code) and not (ROOT / code).exists():
            yield f"{path.relative_to(ROOT)}: there is no {code}"


def without_blocks(text):
    return "".join(re.split(r"(?ms)^```.*?^```$\n?", text))


def blocks(text):
    """Each fenced block: the two words behind its fence, and its lines."""
    found, inside = [], None
    for line in text.splitlines():
        fence = FENCE.match(line)
        if inside is not None and line == "```":
            found.append(inside)
            inside = None
        elif inside is None and fence:
            inside = (fence[1], fence[2], [])
        elif inside is not None:
            inside[2].append(line)
    return found


def shown(lines):
    """The commands of a block, each with the lines that it is to print."""
    commands = []
    for line in lines:
        if line.startswith("$ "):
            commands.append([line[2:], []])
        elif line.startswith("> ") and not commands[-1][1]:
            commands[-1][0] += "\n" + line[2:]
        else:
            commands[-1][1].append(line)
    return commands


def missing_program(command):
    return next((it for it, pattern in NEEDS.items() if re.search(pattern, command) and not shutil.which(it)), None)


def run_blocks(path):
    """What the commands of a document print otherwise than it shows."""
    parts = blocks(path.read_text())
    name = path.relative_to(ROOT)
    with tempfile.TemporaryDirectory(prefix="documents-") as room:
        for it in ROOT.iterdir():
            (pathlib.Path(room) / it.name).symlink_to(it)
        for kind, title, lines in parts:
            if kind in ("prolog", "text", "makefile") and title:
                (pathlib.Path(room) / title).write_text("".join(f"{line}\n" for line in lines))
        for kind, _, lines in parts:
            if kind != "console" or not lines or not lines[0].startswith("$ "):
                continue
            for command, wanted in shown(lines):
                if missing_program(command):
                    print(f"{name}: {missing_program(command)} isn't installed, so this isn't run: {command}")
                    continue
                ran = subprocess.run(["bash", "-c", command], cwd=room, stdin=subprocess.DEVNULL, stdout=subprocess.PIPE, stderr=subprocess.STDOUT, text=True, timeout=MOST_SECONDS)
                if ran.stdout.splitlines() != wanted:
                    yield f"{name}: $ {command}\n  shown:   {wanted}\n  printed: {ran.stdout.splitlines()}"


def main():
    parser = argparse.ArgumentParser(description=__doc__.splitlines()[0])
    parser.add_argument("documents", nargs="*", type=pathlib.Path, help="run the commands of these alone")
    chosen = [it.resolve() for it in parser.parse_args().documents]
    amiss = [line for path in chosen or DOCUMENTS for line in run_blocks(path)]
    if not chosen:
        crates = sorted(path.name for path in (ROOT / "crates").iterdir() if path.is_dir())
        known = words_of(path for crate in crates for path in sources(crate)) | set(crates)
        docs = ROOT / "docs"
        architecture = (docs / "architecture.md").read_text()
        amiss += [
            *account_words((docs / "proved.md").read_text(), known),
            *definition_rows((docs / "definitions.md").read_text(), words_of(ROW_FILES) | known),
            *(line for path in DOCUMENTS for line in [*broken_links(path), *lost_paths(path)]),
            *(f"docs/architecture.md names no crate {crate}" for crate in crates if crate not in architecture),
        ]
    if amiss:
        print("\n".join(amiss))
    elif chosen:
        print(f"{', '.join(it.name for it in chosen)}: each command prints what is shown")
    else:
        print("documents: they name what is there, and their commands print what they show")
    sys.exit(bool(amiss))


if __name__ == "__main__":
    main()
