"""Names as Prolog writes them, in which each character that can't be seen is an escape."""

import functools
import re
import unicodedata

# Characters that draw nothing, or a blank, though their category doesn't say so.
IGNORED = re.compile(
    "[\u034f\u115f\u1160\u17b4\u17b5\u180b-\u180f\u2800\u3164\ufe00-\ufe0f\uffa0\ufff0-\uffff\U000e0000-\U000e0fff]"
)
HIDDEN = {"Cc", "Cf", "Co", "Cs", "Zl", "Zp", "Zs"}
# Scripts that are written from right to left.
RIGHT = re.compile("[\u0590-\u08ff\ufb1d-\ufdff\ufe70-\ufefc\U00010800-\U00010fff\U0001e800-\U0001efff]+")
COMMON = re.compile("[a-z][a-zA-Z0-9_]*")
GRAPHIC = re.compile(r"[-+*/\\^<>=~:.?@#&$]+")
SOLO = {"[]", "{}", "!", ";"}
ESCAPES = {"\\": "\\\\", "'": "\\'", "\n": "\\n", "\t": "\\t"}
MOST_MARKS = 2  # combining marks on one letter


def is_odd(character):
    """Whether a reader can't see this character for what it is."""
    if character.isascii():
        return not character.isprintable()
    return unicodedata.category(character) in HIDDEN or bool(IGNORED.match(character))


def is_bare(text):
    """Whether Prolog writes this atom without quotes."""
    if COMMON.fullmatch(text) or text in SOLO:
        return True
    if GRAPHIC.fullmatch(text):
        return text != "." and not text.startswith("/*")
    return text[:1].islower() and text.replace("_", "a").isalnum() and not any(map(is_odd, text))


@functools.lru_cache(maxsize=100000)
def atom(text):
    """The atom as Prolog writes it, with what can't be seen as \\x..\\."""
    if is_bare(text):
        return text
    shown, marks = [], 0
    for it in text:
        marks = marks + 1 if unicodedata.combining(it) else 0
        if it in ESCAPES:
            shown.append(ESCAPES[it])
        elif is_odd(it) or marks > MOST_MARKS:
            shown.append(f"\\x{ord(it):x}\\")
        else:
            shown.append(it)
    return "'" + "".join(shown) + "'"


def visible(text):
    """Text that isn't a name, with what can't be seen as its number."""
    return "".join(f"U+{ord(it):04X}" if is_odd(it) else it for it in text)


def short(label, most=44):
    return label if len(label) <= most else label[: most - 1] + "\u2026"


def many(count, what):
    return f"{count:,} {what}" + ("" if count == 1 else "s")
