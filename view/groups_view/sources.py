"""The text of clauses, with the called names in it as links.

`calls` says where a clause starts and ends, and where a goal starts. So this reads tokens of Prolog to find which token
of a goal is its name."""

import bisect
import os
import re
import stat

from groups_view.names import atom

MOST_CLAUSES = 40  # of one predicate, with their text
MOST_TEXT = 6000  # characters of one clause
MOST_GOAL = 400  # characters in which the name of a goal is looked for
MOST_BYTES = 8_388_608  # of a file, as `groups` has it

# No text is matched in two ways, so a token that isn't closed takes no longer than one that is.
ESCAPE = r"\\(?:x[0-9a-fA-F]+\\|[0-7]+\\|(?!x[0-9a-fA-F]+\\|[0-7]+\\).)"
QUOTED = "|".join(rf"{quote}(?:[^{quote}\\]|{ESCAPE}|{quote}{quote})*{quote}" for quote in ("'", '"', "`"))
TOKEN = re.compile(
    r"%[^\n]*|/\*.*?(?:\*/|\Z)"
    r"|0'(?:\\x[0-9a-fA-F]+\\?|\\.|''|[^\\])"
    rf"|{QUOTED}"
    r"|[-+*/\\^<>=~:.?@#&$]+|\w+|\s+|.",
    re.S,
)
WORD = re.compile(r"\w")


class Source:
    """A file's text as `calls` read it, by line and column."""

    def __init__(self, name, since):
        """`text` is None, and `why` says why, if the file isn't there as it was."""
        self.text, self.why = None, None
        try:
            about = os.stat(name)
            if not stat.S_ISREG(about.st_mode) or about.st_size > MOST_BYTES:
                self.why = "can't be read any more"
                return
            with open(name, "rb") as stream:
                data = stream.read(MOST_BYTES)
            about = os.stat(name)
        except (OSError, ValueError):
            self.why = "can't be read any more"
            return
        if max(about.st_mtime_ns, about.st_ctime_ns) > since:
            self.why = "changed after it was read"
            return
        self.text = decode(data)
        self.starts = [0] + [it.end() for it in re.finditer("\n", self.text)]

    def offset(self, line, column):
        """Where that position is in the text, its end too; None if there is no such position."""
        if self.text is None or line > len(self.starts):
            return None
        offset = self.starts[line - 1] + column - 1
        end = self.starts[line] - 1 if line < len(self.starts) else len(self.text)
        return offset if offset <= end else None


def decode(data):
    """Text with a character for each that the reader counted: UTF-8, or else a character a byte."""
    try:
        return data.decode("utf-8").removeprefix("\ufeff")
    except UnicodeDecodeError:
        return data.decode("latin-1")


def units(text):
    """Its length as JavaScript counts it."""
    return len(text) if text.isascii() else len(text.encode("utf-16-le")) // 2


def name_in_goal(text, at, name):
    """Where the called name is in a goal that starts at `at`, and how long it is there."""
    if text.startswith(name, at) and name[:1].islower() and not WORD.match(text, at + len(name)):
        return at, len(name)
    first, here, written = None, at, atom(name)
    while here < min(len(text), at + MOST_GOAL):
        found = TOKEN.match(text, here)
        token = found.group()
        if first is None and not token.isspace():
            first = (found.start(), len(token))
        if token in (name, written) or token[:1] == "'" and token[1:-1] == name:
            return found.start(), len(token)
        here = found.end()
    return first or (at, 0)


class Shown:
    """The clauses of a page: of each predicate the positions, and the text of the first few."""

    def __init__(self, predicates):
        self.clauses = [[] for _ in range(predicates)]
        self.more = [0] * predicates
        self.lost = []  # what is to be said of sources without text

    def add_file(self, file, name, clauses, targets, since):
        """Adds the clauses (start, end, predicate) of a file whose calls are (line, column, target, name)."""
        source = Source(name, since)
        if source.why:
            self.lost.append(f"{name} {source.why}: its clauses are shown without their text")
        clauses.sort()
        targets.sort(key=lambda it: it[:2])
        places = [it[:2] for it in targets]
        for start, end, predicate in clauses:
            if len(self.clauses[predicate]) >= MOST_CLAUSES:
                self.more[predicate] += 1
                continue
            inside = range(bisect.bisect_left(places, start), bisect.bisect_left(places, end))
            self.clauses[predicate].append([file, *start, *clause_text(source, start, end, targets, inside)])


def clause_text(source, first, last, targets, inside):
    """The text of the clause at these places and its links, and its full stop if that follows; nothing without a source."""
    start, end = source.offset(*first), source.offset(*last)
    if start is None or end is None:
        return []
    end += source.text.startswith(".", end)
    text = source.text[start : min(end, start + MOST_TEXT)]
    found = {}
    for at in inside:
        line, column, target, name = targets[at]
        offset = source.offset(line, column)
        if offset is None or offset - start >= len(text):
            continue
        where, length = name_in_goal(text, offset - start, name)
        if length and (where not in found or found[where][1] < 0):
            found[where] = (length, target)
    return [text + (" ..." if end - start > MOST_TEXT else ""), flat_links(text, found)]


def flat_links(text, found):
    """Offset, length and target of each link, as JavaScript counts characters; none overlaps another."""
    links, last, at = [], 0, 0
    for where, (length, target) in sorted(found.items()):
        if where < last:
            continue
        at += units(text[last:where])
        size = units(text[where : where + length])
        links += [at, size, target]
        at, last = at + size, where + length
    return links
