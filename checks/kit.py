"""The crates of crates.txt, and the words of the kit's own prover and builder, as the gate gives them."""

import pathlib
import re
import shutil
import subprocess

ROOT = pathlib.Path(__file__).resolve().parent.parent
PARTS = ("src", "specs", "proofs")


def kit():
    """The folder of the kit whose `rt` is on the PATH, or None."""
    found = shutil.which("rt")
    return pathlib.Path(found).resolve().parent.parent if found else None


def version():
    return subprocess.run(["rt", "version"], capture_output=True, text=True, check=True).stdout.strip()


def crates(root=ROOT):
    """The libraries that each crate stands on, by its name."""
    lines = [line.partition("#")[0].partition(":") for line in (root / "crates.txt").read_text().splitlines()]
    return {head.split()[0]: deps.split() for head, _, deps in lines if head.strip()}


def below(name, table):
    """The repository's libraries below a crate, each after those that it stands on."""
    found = []
    for dep in table[name]:
        if dep in table:
            found += [it for it in [*below(dep, table), dep] if it not in found]
    return found


def rlib(root, name):
    return root / "crates" / name / "out" / "rlib" / f"{name}.rlib"


def has_words(verb, *words):
    """Whether the kit's prover takes these words."""
    if kit() is None or not (kit() / "bin" / "rattle").is_file():
        return False
    said = subprocess.run([kit() / "bin" / "rattle", verb, "--help"], capture_output=True, text=True).stdout
    return all(re.search(rf"(?<![\w-]){it}(?![\w-])", said) for it in words)


def words(root, name, *more):
    """What a check or a build of the crate is told, in a folder with its src, specs and proofs, over the libraries that stand built below `root`."""
    table, here = crates(root), kit()
    found = ["--crate-name", name, "src/main.rt" if (root / "crates" / name / "src" / "main.rt").is_file() else "src/lib.rt"]
    for it in ["std", *(it for it in table[name] if it not in table)]:
        found += ["--extern", f"{it}={here}/rlibs/{it}.rlib"]
    found += ["-L", f"dependency={here}/rlibs"]
    for it in [it for it in table[name] if it in table]:
        found += ["--extern", f"{it}={rlib(root, it)}"]
    for it in below(name, table):
        found += ["-L", f"dependency={rlib(root, it).parent}"]
    found += ["--antt-project", f"{here}/rattle/logic/antt-project.json"]
    return [*found, *more, "--links", f"{name}="]
