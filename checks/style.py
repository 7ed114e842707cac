#!/usr/bin/env python3
"""Counts the sentences and some words of the documents, and fails above the limits that stand here.

- The mean sentence of each page has at most 17 words, and no sentence has more than 45. A sentence ends at `.`, `!` or `?`, with a paragraph and with an item
  of a list. Text in `code` counts as one word; blocks and headings don't count. Cells of tables end at `;` too, and count for the longest alone.
- Words that the field has better ones for stand at most so often, in all documents together and in all comments of the sources together. Names in
  `code` aren't counted.

With --all it prints the figures of each page and each word, and passes. Takes about a second."""

import argparse
import pathlib
import re
import sys

ROOT = pathlib.Path(__file__).resolve().parent.parent
PAGES = [*(ROOT / name for name in ("README.md", "CONTRIBUTING.md", "CHANGES.md")), *sorted((ROOT / "docs").glob("*.md")), *sorted((ROOT / "docs").glob("*.1"))]
MOST_MEAN, MOST_WORDS = 17, 45
# What is counted, by its better words, and how often it may stand.
WORDS = {
    "print, report, declare": (r"\b(?:tells?|told|telling)\b", 3),
    "out of memory": (r"\b(?:wanting|want of memory)\b", 10),
    "except": (r"\bbut (?:for|at)\b", 0),
    "in parallel": (r"\bside by side\b", 0),
    "compared with, next to": (r"\bbesides?\b", 22),
    "after": (r"\bbehind\b", 1),
    "is": (r"\b(?:stands?|stood|standing)\b", 0),
    "exactly, only": (r"\bjust\b", 0),
    "valid": (r"\blawful\b", 1),
    "arguments": (r"\bthe words\b", 12),
    "CI": (r"\bthe gate\b", 2),
    "mutant": (r"\bwrong bod(?:y|ies)\b", 2),
    "depend on": (r"\bhangs? on\b", 0),
    "resolve, compute": (r"\bworked out\b", 0),
    "theorem": (r"\blaws?\b", 1),
    "return": (r"\banswers?\b", 64),
}
# The same in the comments of crates/*/src. Some are right in another sense there: a node stands for a name, words are words of memory, an answer is a noun.
RIGHT = {"except": 2, "is": 6, "arguments": 7, "return": 24}
IN_COMMENTS = {better: (pattern, RIGHT.get(better, 0)) for better, (pattern, _) in WORDS.items() if better not in ("CI", "mutant")}
MACRO = re.compile(r"^[.'](?:[A-Z]{1,2}|br|in)\b ?")


def markdown(text):
    """The paragraphs and items of a page, and the cells of its tables."""
    prose, cells = [], []
    text = re.sub(r"(?ms)^ *```.*?^ *```$", "", text)
    text = re.sub(r"`[^`]+`", "code", text)
    for part in re.split(r"\n\s*\n|\n(?=\s*(?:[-*]|\d+\.) )|\n(?=\|)", text):
        part = part.strip()
        if part.startswith("|"):
            cells += part.strip("|").split(" | ")
        elif not part.startswith(("#", "!")) and not re.match(r" {4}", part):
            prose.append(re.sub(r"^(?:[-*]|\d+\.) ", "", part))
    return prose, cells


def manual(text):
    """The paragraphs of a page of the manual."""
    text = re.sub(r"(?ms)^\.(?:EX|TS)$.*?^\.(?:EE|TE)$", "", text)
    lines = []
    for line in text.splitlines():
        if re.match(r"[.'](?:TH|SH|TP|PP|in|\\\")", line):
            lines.append("")
        else:
            lines.append(re.sub(r"\\f.|\\[&|]", "", MACRO.sub("", line)).replace("\\-", "-"))
    return re.split(r"\n\s*\n", "\n".join(lines)), []


def comments():
    """The comments of all sources."""
    lines = [line.strip() for path in sorted(ROOT.glob("crates/*/src/**/*.rt")) for line in path.read_text().splitlines()]
    return re.sub(r"`[^`\n]+`", "code", "\n".join(re.sub(r"^//[/!]? ?", "", it) for it in lines if it.startswith("//")))


def sentences(parts, ends):
    """Each sentence, with how many words it has."""
    found = [" ".join(it.split()) for part in parts for it in re.split(rf"[{ends}](?=[\s)*\"]|$)", part)]
    return [(len(re.findall(r"[\w'-]+", it)), it) for it in found if re.search(r"\w", it)]


def main():
    parser = argparse.ArgumentParser(description=__doc__.splitlines()[0])
    parser.add_argument("--all", action="store_true")
    shows_all = parser.parse_args().all
    amiss, texts = [], []
    for path in PAGES:
        prose, cells = (markdown if path.suffix == ".md" else manual)(path.read_text())
        texts += prose + cells
        lengths = sentences(prose, ".!?")
        most, words = max(lengths + sentences(cells, ".!?;"))
        mean = sum(number for number, _ in lengths) / len(lengths)
        line = f"{path.relative_to(ROOT)}: {len(lengths)} sentences, {mean:.1f} words in the mean, {most} in the longest"
        if shows_all:
            print(line)
        if mean > MOST_MEAN:
            amiss.append(f"{line}: the mean is over {MOST_MEAN}")
        if most > MOST_WORDS:
            amiss.append(f"{line}: over {MOST_WORDS}: {words[:90]} ..")
    for where, words, texts in (("documents", WORDS, texts), ("comments", IN_COMMENTS, [comments()])):
        for better, (pattern, most) in words.items():
            count = sum(len(re.findall(pattern, text)) for text in texts)
            if shows_all:
                print(f"{where}: {count} times {pattern}: {better}")
            if count > most:
                amiss.append(f"{where}: {count} times {pattern}, {most} at most: the field says {better}")
    print("\n".join(amiss) if amiss else f"style: {len(PAGES)} pages within their limits")
    sys.exit(bool(amiss) and not shows_all)


if __name__ == "__main__":
    main()
