#!/usr/bin/env python3
"""Tries wrong bodies, crates/NAME/wrong/*.edit, many in one check: each has to be refused at the very function that it edits.

Functions are proved apart, so edits of different functions of a crate don't hide each other: they are laid into one copy, and the check is asked for their
functions alone. Two of one function, and those that stand in each other's way, are tried in turn. An edit that is let through, that can't be applied or that
is refused elsewhere fails.

With no names, of each crate those are tried that this machine hasn't seen refused over the same files of the crate, of those below and of the kit; --all tries
all, --gate also those of must-fail/. It stands on the libraries that the gate leaves in crates/*/out/rlib; where one isn't there or is older than its files,
`rt lib` makes it, which may prove it. On a kit that doesn't take the words of such a check it says so, and tries each alone by `rt must-fail`, in a copy.

Ends with status 1 where an edit isn't refused as it should be."""

import argparse
import concurrent.futures
import functools
import hashlib
import os
import pathlib
import re
import shutil
import subprocess
import sys
import tempfile

import kit

ROOT = kit.ROOT
TABLE = kit.crates()
CACHE = pathlib.Path(os.environ.get("XDG_CACHE_HOME") or pathlib.Path.home() / ".cache") / "groups-wrong-bodies"
MOST_JOBS = 4
# Whether an edit fails whose refusal shows only that the text of the proof no longer fits.
STRICT = False


class Edit:
    """One wrong body: what it writes in place of what, and the function that it is in."""

    def __init__(self, crate, path):
        self.name, self.text, self.pairs, self.why = f"{crate.name}/{path.parent.name}/{path.name}", path.read_text(), [], ""
        file, old = None, None
        for line in self.text.splitlines():
            if line.startswith("file: "):
                file = line.removeprefix("file: ").strip()
            elif line.startswith("old: "):
                old = line.removeprefix("old: ")
            elif line.startswith("new:") and file and old:
                self.pairs.append((file, old, line.removeprefix("new:").removeprefix(" ")))
                old = None
        try:
            applied(crate, [self])
            self.function = self.enclosing(crate)
        except (OSError, ValueError) as error:
            self.why = f"can't be applied: {error}"

    def enclosing(self, crate):
        """The function that the first pair is in, as the prover names it; of a constant, which is in none, its module."""
        file, old, _ = self.pairs[0]
        head = (crate / file).read_text().partition(old)[0] + old
        name = re.findall(r"(?m)^\s*(?:pub(?:\(\w+\))? )?(?:const )?fn (\w+)", head)[-1:]
        tops = re.findall(r"(?m)^(?:impl(?:<[^{]*?>)? (?:(\w+)(?:<[^{]*?>)? for )?(\w+)|(}))", head)
        trait, of, closed = tops[-1] if tops else ("", "", "}")
        inside = [] if closed or not name else [of + trait]
        if inside:
            file = home_of(crate, of) or file
        module = file.removeprefix("src/").removesuffix(".rt").removesuffix("/mod").split("/")
        if name and closed and re.search(r"(?m)^(?:pub(?:\(\w+\))? )?(?:const|static) .*\Z", head.rpartition("\n")[2]):
            name = []
        return "::".join([*(it for it in module if it not in ("lib", "main")), *inside, *name])


def home_of(crate, name):
    """The file in which the type stands: the prover names its functions by that one, wherever their `impl` is."""
    for path in sorted(crate.glob("src/**/*.rt")):
        if re.search(rf"(?m)^(?:pub(?:\(\w+\))? )?(?:struct|enum) {name}\b", path.read_text()):
            return str(path.relative_to(crate))
    return None


def applied(crate, edits):
    """The texts of the files that these edits change, by their names."""
    texts = {}
    for edit in edits:
        if not edit.pairs:
            raise ValueError("it has no 'file:', 'old:' and 'new:'")
        for file, old, new in edit.pairs:
            text = texts.get(file) or (crate / file).read_text()
            if text.count(old) != 1:
                raise ValueError(f"a text stands {text.count(old)} times in {file}, and not once: {old}")
            texts[file] = text.replace(old, new)
            if texts[file] == text:
                raise ValueError(f"it changes nothing in {file}")
    return texts


def rounds(crate, edits):
    """The edits in lists in which each function is edited once, and each can be applied beside the others."""
    found = []
    for edit in edits:
        for round in found:
            if edit.function not in [it.function for it in round]:
                try:
                    applied(crate, [*round, edit])
                    round.append(edit)
                    break
                except ValueError:
                    pass
        else:
            found.append([edit])
    return found


def said_of(crate, edits):
    """What one check of the crate says, with these edits laid into a copy of it, of their functions."""
    with tempfile.TemporaryDirectory(prefix="wrong-") as room:
        for part in kit.PARTS:
            if (crate / part).is_dir():
                shutil.copytree(crate / part, f"{room}/{part}")
        for file, text in applied(crate, edits).items():
            pathlib.Path(room, file).write_text(text)
        only = [word for edit in edits for word in ("--only", edit.function)]
        here = kit.kit()
        words = [here / "bin" / "rattle", "check", *kit.words(ROOT, crate.name, "--logic-built", f"{here}/logic_built", "--jobs", "1"), *only]
        ran = subprocess.run(words, cwd=room, stdin=subprocess.DEVNULL, stdout=subprocess.PIPE, stderr=subprocess.STDOUT, text=True, errors="replace")
        return ran.stdout


def verdict(crate, edit, said):
    """Whether the edit's own function is refused by itself, and what is said of it."""
    # (a closure is named by the function that it stands in, behind the word `fn`)
    module, _, name = edit.function.rpartition("::")
    closure = f"{module}::fn::{name}" if module else f"fn::{name}"
    named = f"{re.escape(edit.function)}(?:::\\S+)?|{re.escape(closure)}::\\S+"
    lines = re.findall(rf"(?m)^fn {re.escape(crate.name)}::({named}): (.*)$", said)
    refused = [f"{at}: {it}" for at, it in lines if it.startswith(("no proof", "not proved")) and "it calls" not in it]
    # (where it also calls what isn't proved, an error in its own proof shows that it is refused by itself)
    errors = re.findall(rf"(?m)^(?:\./)?proofs/{re.escape(edit.function.replace('::', '/'))}/\w+\.antt:\d+:\d+: error.*$", said)
    # (a proof that names a call or a branch that the edit takes away doesn't fit the body, whatever the clauses say)
    if errors and all(re.search(r"has no (field )?`|can be named from here", it) for it in errors):
        return not STRICT, f"its proof's text alone doesn't fit: {errors[0]}"
    if refused or errors:
        return True, (refused or errors)[0]
    if lines and all(it.startswith("proved") for _, it in lines):
        return False, "it is let through"
    if lines:
        return False, f"it is not refused by itself: {lines[0][1]}"
    others = re.findall(r"(?m)^.*(?:error\[|: error|^rattle|no verdict).*$", said)
    return False, f"nothing is said of its function: {(others or said.splitlines() or ['no output'])[-1 if not others else 0]}"


def tried(crate, edits):
    """Tries the edits of one crate, and gives each with whether it is refused, and what is said of it."""
    found, todo = [(it, False, it.why) for it in edits if it.why], rounds(crate, [it for it in edits if not it.why])
    while todo:
        round = todo.pop(0)
        said = said_of(crate, round)
        for edit in round:
            refused, line = verdict(crate, edit, said)
            if refused or len(round) == 1:
                found.append((edit, refused, line))
            else:
                # (another wrong body may stand in its way)
                todo.append([edit])
    return found


def files_of(name):
    return sorted(it for part in kit.PARTS for it in (ROOT / "crates" / name).glob(f"{part}/**/*") if it.is_file())


@functools.cache
def version():
    return kit.version()


@functools.cache
def sum_of_files(name):
    return hashlib.sha256(repr([(str(it.relative_to(ROOT)), it.read_bytes()) for it in files_of(name)]).encode()).hexdigest()


def sum_of_crate(name):
    """A sum of the kit, and of the files of the crate and of those below it."""
    whole = [version(), *map(sum_of_files, [*kit.below(name, TABLE), name])]
    return hashlib.sha256(repr(whole).encode()).hexdigest()


class Seen:
    """The edits that this machine has seen refused, each under a sum of all that it stands on."""

    VERSION = 1

    def __init__(self, name):
        self.sum = f"{self.VERSION} {sum_of_crate(name)}"

    def place(self, edit):
        return CACHE / hashlib.sha256(repr((self.sum, edit.name, edit.text)).encode()).hexdigest()

    def has(self, edit):
        return self.place(edit).is_file()

    def add(self, edit):
        try:
            CACHE.mkdir(parents=True, exist_ok=True)
            self.place(edit).write_text(f"{edit.name}\n")
        except OSError:
            pass


def is_fresh(name):
    """Whether the crate's library was put there after its files were last written."""
    made = kit.rlib(ROOT, name)
    return made.is_dir() and all(it.stat().st_mtime <= made.parent.stat().st_mtime for it in files_of(name))


def make_libraries(names):
    """Has rt make the libraries that aren't there; gives those that it couldn't."""
    for name in [it for it in names if not is_fresh(it)]:
        print(f"{name}: its library isn't there, so rt makes it", flush=True)
        ran = subprocess.run(["rt", "lib", "--jobs", "1"], cwd=ROOT / "crates" / name, stdin=subprocess.DEVNULL, stdout=subprocess.PIPE, stderr=subprocess.STDOUT, text=True)
        if ran.returncode:
            print(ran.stdout[-2000:])
            return name
    return None


def by_must_fail(todo):
    """Tries each edit alone, by the kit's own command, in a copy whose must-fail/ has them."""
    print("this kit doesn't take the words of a check of many wrong bodies, so each is tried alone, and whether at its own function isn't looked at", flush=True)
    wrong = 0
    with tempfile.TemporaryDirectory(prefix="wrong-") as room:
        top = pathlib.Path(room, "repo")
        shutil.copytree(ROOT, top, ignore=lambda at, names: [it for it in names if it in (".git", "out", "release", "must-fail")])
        (top / ".git").mkdir()
        for name, edits in todo.items():
            (top / "crates" / name / "must-fail").mkdir()
            for edit in edits:
                (top / "crates" / name / "must-fail" / edit.name.replace("/", "_")).write_text(edit.text)
        said = subprocess.run(["rt", "must-fail", *todo], cwd=top, stdin=subprocess.DEVNULL, stdout=subprocess.PIPE, stderr=subprocess.STDOUT, text=True).stdout
        for name, edits in todo.items():
            for edit in edits:
                line = re.search(rf"(?m)^.*must-fail {name}/{re.escape(edit.name.replace('/', '_'))}: (.*)$", said)
                refused = bool(line) and line[1].startswith("refused")
                wrong += not refused
                print(f"{edit.name}: {'refused' if refused else 'NOT REFUSED'}: {line[1] if line else 'nothing is said of it'}")
    return wrong


def chosen(options):
    """The edits to try by the names of their crates, with what this machine has seen of them, and the number of those that it passes over."""
    todo, passed = {}, 0
    for name in options.names or TABLE:
        crate = ROOT / "crates" / name
        paths = [it for folder in (["must-fail", "wrong"] if options.gate else ["wrong"]) for it in sorted(crate.glob(f"{folder}/*.edit"))]
        edits = [Edit(crate, it) for it in paths]
        seen = Seen(name) if edits else None
        left = [it for it in edits if options.all or it.why or not seen.has(it)]
        passed += len(edits) - len(left)
        if left:
            todo[name] = seen, left
    return todo, passed


def main():
    parser = argparse.ArgumentParser(description=__doc__.splitlines()[0])
    parser.add_argument("names", nargs="*", metavar="NAME", help="crates; all where none is named")
    parser.add_argument("--all", action="store_true", help="also try those that were seen refused over the same files")
    parser.add_argument("--gate", action="store_true", help="also try those of must-fail/")
    parser.add_argument("--strict", action="store_true", help="also fail if the proof's text alone doesn't fit, so that nothing is known of a clause")
    parser.add_argument("--list", action="store_true", help="only list them, each with its function")
    parser.add_argument("--jobs", type=int, default=min(MOST_JOBS, os.cpu_count() or 1), help="how many crates are tried at once, at most 4")
    options = parser.parse_args()
    global STRICT
    STRICT = options.strict
    unknown = [it for it in options.names if it not in TABLE]
    if unknown:
        sys.exit(f"crates.txt has no crate {unknown[0]}")
    if kit.kit() is None:
        sys.exit("the command rt of the Rattle kit isn't on the PATH")
    todo, passed = chosen(options)
    if options.list:
        for edit in [it for _, edits in todo.values() for it in edits]:
            print(f"{edit.name}: {edit.why or edit.function}")
        return 0
    if todo and not kit.has_words("check", "--only", "--logic-built", "--extern", "--jobs"):
        return 1 if by_must_fail({name: edits for name, (_, edits) in todo.items()}) else 0
    lacks = make_libraries([it for it in TABLE if any(it == name or it in kit.below(name, TABLE) for name in todo) and not (ROOT / "crates" / it / "src" / "main.rt").is_file()])
    if lacks:
        sys.exit(f"the library {lacks} isn't proved, so nothing was tried")
    refused, wrong = 0, 0
    with concurrent.futures.ThreadPoolExecutor(max(1, min(options.jobs, MOST_JOBS))) as pool:
        runs = {pool.submit(tried, ROOT / "crates" / name, edits): seen for name, (seen, edits) in todo.items()}
        for run in concurrent.futures.as_completed(runs):
            for edit, is_refused, line in run.result():
                refused, wrong = refused + is_refused, wrong + (not is_refused)
                print(f"{edit.name}: {'refused' if is_refused else 'NOT REFUSED'}: {line[:160]}", flush=True)
                if is_refused:
                    runs[run].add(edit)
    print(f"wrong bodies: {refused} refused at their functions, {wrong} not, {passed} seen refused before over the same files")
    return 1 if wrong else 0


if __name__ == "__main__":
    sys.exit(main())
