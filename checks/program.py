"""Which program a check runs: the one that `--program` names, or what the gate or ./prove built here, or else the kept one."""

import pathlib
import sys

ROOT = pathlib.Path(__file__).resolve().parent.parent
BUILT = ROOT / "crates" / "groups" / "out" / "groups"
KEPT = ROOT / "release" / "groups"


def add_option(parser):
    parser.add_argument("--program", type=pathlib.Path, help="the program to try; else the one that was built here, or the kept one")


def of(options):
    """The program to run, as a whole path; says so and ends with status 1 where there is none."""
    found = next((it for it in [options.program] if it), None) or next((it for it in (BUILT, KEPT) if it.is_file()), None)
    if found is None or not found.is_file():
        print(f"{found or 'no program'} isn't there: ./prove builds one", file=sys.stderr)
        sys.exit(1)
    return found.resolve()


def calls():
    """The program `calls` that was built here, or the kept one; None where there is neither."""
    places = (ROOT / "crates" / "calls" / "out" / "calls", ROOT / "release" / "calls")
    return next((it for it in places if it.is_file()), None)


def components():
    """The program `components` that was built here, or the kept one; None where there is neither."""
    places = (ROOT / "crates" / "components" / "out" / "components", ROOT / "release" / "components")
    return next((it for it in places if it.is_file()), None)


def usage(name="groups"):
    """The usage line of a program: the first lines of its help page, as one."""
    page = (ROOT / "docs" / "help" / f"{name}.txt").read_text()
    return " ".join(page.partition("\n\n")[0].split())
