#!/usr/bin/env python3
"""Prints what `groups` prints, from what `docs/syntax.md` and `docs/report.md` say alone.

    python3 checks/evaluator.py [--roots LIST] [--unreached] [--effects] [--loops] [--path LIST] FILE..

It is a second program for the same documents, and shares no text with the first one. Where both differ, a document misleads or a program is wrong;
`checks/random_programs.py` looks for such differences. `--jobs`, `--searches` and `--seed` are checked and have no effect. `--order` and `--make` are not
known. Nothing here recurses over its input.
"""

import os
import re
import sys
from collections import deque
from dataclasses import dataclass, field
from typing import NamedTuple
from unicodedata import category

MAXIMUM_VALUE = 4_294_967_295
MAXIMUM_DEPTH = 1000
MAXIMUM_FILES = 1024
MAXIMUM_FILE_BYTES = 8_388_608
MAXIMUM_BYTES = 33_554_432
MAXIMUM_PREDICATES = 1_048_576
MAXIMUM_LIST_BYTES = 65_536

USAGE = ("usage: groups [--jobs N | --searches K --seed S] [--roots LIST] [--order [--stream]] [--unreached] [--effects] [--loops] [--path LIST] FILE..."
         " | groups --make N [--jobs N | --searches K --seed S]\n")


class SourceError(Exception):
    """The first error of a text: what is wrong, and at which character (or byte, before the text is decoded)."""

    def __init__(self, position, text):
        super().__init__(text)
        self.position = position
        self.text = text


class Refusal(Exception):
    """A run that ends without a report: its status, and its lines of standard error."""

    def __init__(self, status, lines):
        super().__init__(lines)
        self.status = status
        self.lines = lines


# Characters and tokens.

WHITE_SPACE = "\t-\r \x85\xa0\u1680\u2000-\u200a\u2028\u2029\u202f\u205f\u3000"
LAYOUT = re.compile(r"(?:[%s]+|%%[^\n]*|/\*.*?\*/)*" % WHITE_SPACE, re.S)
WHITE = re.compile("[%s]" % WHITE_SPACE)
WORD = re.compile("[A-Za-z0-9_\x80-\U0010ffff]*")
GRAPHIC = re.compile(r"[#$&*+\-./:<=>?@^~\\]+")
BASED = re.compile("0b([01]+)|0o([0-7]+)|0x([0-9a-fA-F]+)")
FLOAT = re.compile(r"[0-9]+\.[0-9]+(?:[eE][+-]?[0-9]+)?")
DIGITS = re.compile("[0-9]+")
ASCII_END = r"[A-Za-z0-9_]*(?![A-Za-z0-9_\x80-\U0010ffff])"
SIMPLE = re.compile(rf"([a-z]{ASCII_END}|[!;])|([A-Z_]{ASCII_END})|([()\[\]{{}},|])|([0-9]+(?![.'box0-9]))")
CONTINUE_NOW = "\u200c\u200d\u30fb\uff65"  # XID_Continue since Unicode 15.1; Python may have an older one.
SIMPLE_KINDS = (None, "name", "variable", None, "integer")
NUMBERED_ESCAPE = re.compile(r"\\(?:([0-7]+)|x([0-9a-fA-F]+))\\")
PLAIN = {quote: re.compile(r"[^\\%s]*" % quote) for quote in "'\"`"}
SIMPLE_ESCAPES = {"a": "\x07", "b": "\x08", "f": "\x0c", "n": "\n", "r": "\r", "t": "\t", "v": "\x0b", "\\": "\\", "'": "'", '"': '"', "`": "`", "\n": ""}
QUOTED_KINDS = {"'": "quoted", '"': "string", "`": "back string"}
TERM_STARTS = {"name", "quoted", "variable", "integer", "float", "string", "back string", "(", "[", "{"}


class Token(NamedTuple):
    """`kind` is a bracket, `,`, `|`, or one of name, quoted, variable, integer, float, string, back string, end. `direct`: no layout is before it."""

    kind: str
    value: object
    position: int
    direct: bool


def is_start(character):
    return "a" <= character <= "z" or character > "\x7f" and character.isidentifier() and not is_capital(character)


def is_capital(character):
    return category(character) in ("Lu", "Lt")


def is_variable_start(character):
    return "A" <= character <= "Z" or character == "_" or character > "\x7f" and character.isidentifier() and is_capital(character)


def word_end(text, start):
    """The end of the longest run of characters that continue a word."""
    end = WORD.match(text, start).end()
    word = text[start:end]
    if not word.isascii():
        for offset, character in enumerate(word):
            if character > "\x7f" and not ("a" + character).isidentifier() and character not in CONTINUE_NOW:
                return start + offset
    return end


def escape(text, at):
    """The value of the escape whose backslash is at `at`, and where it ends."""
    character = text[at + 1:at + 2]
    if character and character in SIMPLE_ESCAPES:
        return SIMPLE_ESCAPES[character], at + 2
    match = NUMBERED_ESCAPE.match(text, at)
    if match:
        value = int(match[1], 8) if match[1] else int(match[2], 16)
        if value <= 0x10FFFF and not 0xD800 <= value <= 0xDFFF:
            return chr(value), match.end()
    raise SourceError(at, "escape is not known")


def quoted_item(text, start):
    """The value of the quoted item that opens at `start`, and where it ends."""
    quote = text[start]
    parts = []
    at = start + 1
    while True:
        match = PLAIN[quote].match(text, at)
        parts.append(match[0])
        at = match.end()
        if at == len(text):
            raise SourceError(start, "quoted item is not closed")
        if text[at] == "\\":
            value, at = escape(text, at)
            parts.append(value)
        elif text.startswith(quote, at + 1):
            parts.append(quote)
            at += 2
        else:
            return "".join(parts), at + 1


def known(digits, base):
    """The value of an integer, or None if it is not known."""
    digits = digits.lstrip("0") or "0"
    value = int(digits, base) if len(digits) <= 32 else MAXIMUM_VALUE + 1
    return value if value <= MAXIMUM_VALUE else None


def character_code(text, start):
    """The code after the `0'` at `start` and where it ends, or None if there is none."""
    at = start + 2
    if text.startswith("''", at):
        return ord("'"), at + 2
    character = text[at:at + 1]
    if character in ("", "'", "\n"):
        return None
    if character == "\\":
        value, end = escape(text, at)
        if not value:
            raise SourceError(at, "escape is not known")
        return ord(value), end
    return ord(character), at + 1


def number(text, start):
    """Kind, value and end of the number at `start`."""
    if text.startswith("0'", start):
        code = character_code(text, start)
        if code:
            return "integer", code[0], code[1]
    match = BASED.match(text, start)
    if match:
        return "integer", known(match[match.lastindex], (2, 8, 16)[match.lastindex - 1]), match.end()
    match = FLOAT.match(text, start)
    if match:
        return "float", None, match.end()
    match = DIGITS.match(text, start)
    return "integer", known(match[0], 10), match.end()


def token_at(text, at):
    """Kind, value and end of the token at `at`, where neither layout nor a simple token begins."""
    character = text[at]
    if "0" <= character <= "9":
        return number(text, at)
    if character in QUOTED_KINDS:
        value, end = quoted_item(text, at)
        return QUOTED_KINDS[character], value, end
    match = GRAPHIC.match(text, at)
    if match:
        if text.startswith("/*", at):
            raise SourceError(at, "comment is not closed")
        end = match.end()
        if match[0] == "." and (end == len(text) or text[end] == "%" or WHITE.match(text, end)):
            return "end", ".", end
        return "name", match[0], end
    if is_start(character) or is_variable_start(character):
        end = word_end(text, at)
        return "name" if is_start(character) else "variable", text[at:end], end
    raise SourceError(at, "character cannot begin a token")


def tokens_of(text):
    at = 1 if text.startswith("\ufeff") else 0
    if text.startswith("#!", at):
        at = text.find("\n", at)
        at = len(text) if at < 0 else at
    tokens = []
    while True:
        end = LAYOUT.match(text, at).end()
        if end == len(text):
            return tokens
        direct = end == at and bool(tokens)
        match = SIMPLE.match(text, end)
        if match:
            value, at = match[0], match.end()
            kind = SIMPLE_KINDS[match.lastindex] or value
            if kind == "integer":
                value = known(value, 10)
        else:
            kind, value, at = token_at(text, end)
        tokens.append(Token(kind, value, end, direct))


# Operators.

class Operators:
    """The operators of one text, by place and name, as (priority, type). Comma and Bar are no names, and stand apart."""

    BEGIN = ((1200, "xfx", ":- -->"), (1200, "fx", ":- ?-"), (1150, "fx", "dynamic discontiguous multifile meta_predicate mode public initialization table"),
             (1100, "xfy", ";"), (1050, "xfy", "->"), (900, "fy", "\\+"), (700, "xfx", "= \\= == \\== @< @=< @> @>= =.. is =:= =\\= < =< > >="),
             (500, "yfx", "+ - /\\ \\/"), (400, "yfx", "* / // rem mod div << >>"), (200, "xfx", "**"), (200, "xfy", "^ :"), (200, "fy", "- + \\"))
    FIXED = {",", "|", "[]", "{}"}
    TYPES = {"xfx": "infix", "xfy": "infix", "yfx": "infix", "fy": "prefix", "fx": "prefix", "xf": "postfix", "yf": "postfix"}

    def __init__(self, begin=None):
        self.prefix, self.infix, self.postfix = (dict(begin.prefix), dict(begin.infix), {}) if begin else ({}, {}, {})
        if not begin:
            for priority, kind, names in self.BEGIN:
                self.of(kind).update((name, (priority, kind)) for name in names.split())

    def of(self, kind):
        return getattr(self, self.TYPES[kind])

    def set(self, priority, kind, name, position):
        if name in self.FIXED:
            raise SourceError(position, "operator cannot be changed")
        table = self.of(kind)
        if priority == 0:
            table.pop(name, None)
            return
        if table is self.infix and name in self.postfix or table is self.postfix and name in self.infix:
            raise SourceError(position, "operator would be infix and postfix")
        table[name] = (priority, kind)


BEGIN = Operators()


def side(priority, letter):
    return priority - 1 if letter == "x" else priority


# Terms.

class Term:
    """`kind`: variable, integer, negative, float, string, back string, atom, compound, list or curly. A list has its items, and `tail` or None."""

    __slots__ = ("kind", "name", "arguments", "tail", "position", "functional")

    def __init__(self, kind, position, name=None, arguments=(), tail=None, functional=False):
        self.kind = kind
        self.position = position
        self.name = name
        self.arguments = arguments
        self.tail = tail
        self.functional = functional

    def is_atom(self):
        return self.kind == "atom"

    def is_form(self, name, arity):
        return self.kind == "compound" and self.name == name and len(self.arguments) == arity

    def is_callable(self):
        return self.kind in ("atom", "compound")

    def is_nil(self):
        return self.kind == "atom" and self.name == "[]"


class Operand(NamedTuple):
    """A whole term with its depth and priority. `start` is its first token, brackets counted."""

    term: Term
    depth: int
    priority: int
    start: int


class Frame(NamedTuple):
    """What is open around the next operand, innermost first. No frame is ever changed.

    `kind`: text, round, curly, functional, list, tail, prefix or infix. `maximum`: the greatest priority of the operand. `level`: how many forms are
    open, this one counted. `least`: the least depth of a clause with the parts that are complete. `parts`: these parts, last first, as pairs.
    """

    parent: object
    kind: str
    maximum: int
    level: int
    least: int
    name: object
    start: int
    priority: int
    parts: object


TEXT_FRAME = Frame(None, "text", 1200, 0, 0, None, 0, 0, None)


def opened(parent, kind, maximum, start, name=None, priority=0, left=None):
    level = parent.level + 1
    least = max(parent.least, level + left.depth) if left else parent.least
    return Frame(parent, kind, maximum, level, least, name, start, priority, (None, left) if left else None)


def with_part(frame, operand, kind):
    return frame._replace(kind=kind, least=max(frame.least, frame.level + operand.depth), parts=(frame.parts, operand))


def parts_of(frame, last):
    operands = [last]
    parts = frame.parts
    while parts:
        parts, operand = parts
        operands.append(operand)
    operands.reverse()
    return operands


def form(frame, operand):
    """The whole term that the frame becomes after its last part."""
    operands = parts_of(frame, operand)
    depth = 1 + max(part.depth for part in operands)
    terms = tuple(part.term for part in operands)
    if frame.kind == "round":
        return Operand(operand.term, depth, 0, frame.start)
    if frame.kind == "curly":
        term = Term("curly", frame.start, None, terms)
    elif frame.kind == "list":
        term = Term("list", frame.start, None, terms)
    elif frame.kind == "tail":
        term = Term("list", frame.start, None, terms[:-1], terms[-1])
    else:
        term = Term("compound", frame.start, frame.name, terms, None, frame.kind == "functional")
    return Operand(term, depth, frame.priority, frame.start)


# What can go on. A state is (mode, frame, what, condition); several are kept until the next token decides between them.
#   operand: an operand is expected. `condition` False: its `(` may not be directly after the operator.
#   name:    the token `what` was read as an operand. `condition` True: `(` must directly follow it.
#   bracket: the token `what`, `[` or `{`, was read, which may be an atom yet.
#   after:   the operand `what` is complete.
BRACKETS = {"[": ("list", 999, "]"), "{": ("curly", 1200, "}")}
CLOSING = {")": ("round", "functional"), "]": ("list", "tail"), "}": ("curly",)}
CONSTANTS = {"variable", "integer", "float", "string", "back string"}


class Reader:
    """Reads the clauses of a list of tokens, one after another, by the operators as they are then."""

    def __init__(self, tokens, length, operators):
        self.tokens = tokens
        self.length = length
        self.operators = operators
        self.at = 0

    def clause(self):
        """The next clause as a term, or None after the last one."""
        if self.at == len(self.tokens):
            return None
        states = [("operand", TEXT_FRAME, None, None)]
        begin = self.at
        while self.at < len(self.tokens):
            token = self.tokens[self.at]
            self.at += 1
            if token.kind == "end":
                return self.complete(states, token)
            states = self.step(states[0], token) if len(states) == 1 else [new for state in states for new in self.step(state, token)]
            if not states:
                raise SourceError(token.position, "no clause goes on with this token")
            if self.at - begin >= MAXIMUM_DEPTH and min(map(depth_of, states)) > MAXIMUM_DEPTH:  # A form has a token of its own.
                raise SourceError(token.position, "term is nested deeper than 1000")
        raise SourceError(self.length, "clause has no end")

    def complete(self, states, token):
        for mode, frame, what, condition in states:
            if mode == "name" and not condition:
                mode, what = "after", after_atom(frame, what, what.value)[2]
            if mode == "after":
                frame, operand = closed(frame, what, 1201)
                if frame.kind == "text":
                    return operand.term
        raise SourceError(token.position, "no clause goes on with this token")

    def step(self, state, token):
        mode, frame, what, condition = state
        if mode == "after":
            return self.after(frame, what, token)
        if mode == "operand":
            barred = condition is False and token.kind == "(" and token.direct
            return [] if barred else self.operand(frame, token)
        if mode == "bracket":
            kind, maximum, closing = BRACKETS[what.kind]
            if token.kind == closing:
                return [after_atom(frame, what, what.kind + closing)]
            return self.operand(opened(frame, kind, maximum, what.position), token)
        return [new for meaning, frame, operand, condition in self.meanings(state, token) for new in self.named(meaning, frame, operand, condition, token)]

    def named(self, meaning, frame, operand, condition, token):
        if meaning == "arguments":
            return [("operand", frame, None, None)]
        if meaning == "number":
            return [("after", frame, operand, None)]
        if meaning == "atom":
            return self.after(frame, operand, token, condition)
        return [(*new[:3], condition) for new in self.operand(frame, token)]

    def operand(self, frame, token):
        if token.kind in CONSTANTS:
            term = Term(token.kind, token.position, token.value)
            return [("after", frame, Operand(term, 1, 0, token.position), None)]
        if token.kind in ("name", "quoted"):
            return [("name", frame, token, None)]
        if token.kind == "(":
            return [("operand", opened(frame, "round", 1200, token.position), None, None)]
        if token.kind in ("[", "{"):
            return [("bracket", frame, token, None)]
        return []

    def meanings(self, state, token):
        """What the name of `state` may be if `token` follows: (meaning, frame, operand, condition of the next token)."""
        _, frame, name, must = state
        if token.kind == "(" and token.direct:
            return [("arguments", opened(frame, "functional", 999, name.position, name.value), None, None)]
        if must:
            return []
        if name.kind == "name" and name.value == "-" and token.direct and token.kind in ("integer", "float"):
            return [("number", frame, Operand(Term("negative", name.position), 1, 0, name.position), None)]
        atom = after_atom(frame, name, name.value)[2]
        if name.value not in self.operators.prefix or token.kind not in TERM_STARTS:
            return [("atom", frame, atom, None)]
        is_name = token.kind in ("name", "quoted")
        is_infix = is_name and token.value in self.operators.infix and token.value not in self.operators.prefix
        priority, kind = self.operators.prefix[name.value]
        found = [("atom", frame, atom, False)] if is_infix else []
        if priority <= frame.maximum:
            inner = opened(frame, "prefix", side(priority, kind[1]), name.position, name.value, priority)
            found.append(("prefix", inner, None, True if is_infix else None))
        return found

    def after(self, frame, operand, token, condition=None):
        kind = token.kind
        if kind in CLOSING:
            frame, operand = closed(frame, operand, 1201)
            return [("after", frame.parent, form(frame, operand), None)] if frame.kind in CLOSING[kind] else []
        if kind == ",":
            frame, operand = closed(frame, operand, 1000)
            if frame.kind in ("functional", "list"):
                return [("operand", with_part(frame, operand, frame.kind), None, None)]
            return infix(frame, operand, ",", 1000, "xfy", None)
        if kind == "|":
            frame, operand = closed(frame, operand, 1100)
            if frame.kind == "list":
                return [("operand", with_part(frame, operand, "tail"), None, None)]
            return infix(frame, operand, "|", 1100, "xfy", None)
        if kind not in ("name", "quoted"):
            return []
        if token.value in self.operators.infix:
            priority, kind = self.operators.infix[token.value]
            frame, operand = closed(frame, operand, priority)
            return infix(frame, operand, token.value, priority, kind, condition)
        if token.value in self.operators.postfix:
            priority, kind = self.operators.postfix[token.value]
            frame, operand = closed(frame, operand, priority)
            if priority > frame.maximum or operand.priority > side(priority, kind[0]):
                return []
            term = Term("compound", operand.start, token.value, (operand.term,))
            return [("after", frame, Operand(term, operand.depth + 1, priority, operand.start), None)]
        return []


def after_atom(frame, token, name):
    return ("after", frame, Operand(Term("atom", token.position, name), 1, 0, token.position), None)


def infix(frame, operand, name, priority, kind, condition):
    if priority > frame.maximum or operand.priority > side(priority, kind[0]):
        return []
    return [("operand", opened(frame, "infix", side(priority, kind[2]), operand.start, name, priority, operand), None, condition)]


def closed(frame, operand, priority):
    """Closes the operators whose right sides can't hold an operator of this priority."""
    while frame.kind in ("prefix", "infix") and frame.maximum < priority:
        frame, operand = frame.parent, form(frame, operand)
    return frame, operand


def depth_of(state):
    """The least depth of a clause that goes on from here."""
    mode, frame, what, condition = state
    own = what.depth if mode == "after" else 2 if mode == "name" and condition else 1
    return max(frame.least, frame.level + own)


# Clauses and directives.

NOTHING = {("discontiguous", 1), ("mode", 1), ("public", 1), ("table", 1), ("set_prolog_flag", 2)}
OUTSIDE = {("if", 1), ("elif", 1), ("else", 0), ("endif", 0), ("include", 1), ("use_module", 3), ("reexport", 1), ("reexport", 2)}
CONTROL = {(",", 2), (";", 2), ("|", 2), ("->", 2), ("!", 0), ("\\+", 1), (":-", 1), (":-", 2), ("?-", 1), ("-->", 2)}
INDICATOR_ERROR = "predicate indicator is expected"


class Export(NamedTuple):
    name: str
    arity: int
    position: int


class Load(NamedTuple):
    """`file` is None for a file of the system. `names` is None if all exports are imported. `is_use`: it must be a module file."""

    file: object
    position: int
    is_use: bool
    names: object


class Clause(NamedTuple):
    key: tuple
    body: object
    is_grammar: bool


@dataclass
class Source:
    """What one file says."""

    name: str
    text: str = ""
    error: object = None
    module: str = "user"
    module_position: object = None
    exports: list = field(default_factory=list)
    loads: list = field(default_factory=list)
    clauses: list = field(default_factory=list)
    properties: list = field(default_factory=list)
    declarations: list = field(default_factory=list)
    goals: list = field(default_factory=list)

    def keys(self):
        """Names and numbers of arguments of the exports."""
        return {(export.name, export.arity) for export in self.exports}

    def bare(self):
        """What `dynamic` and `multifile` declare, and so define."""
        return [key for _, key in self.properties]

    def line(self, position, text):
        row = self.text.count("\n", 0, position) + 1
        column = position - self.text.rfind("\n", 0, position)
        return f"{self.name}:{row}:{column}: {text}"


def resolve(specification, folder):
    """The name of a file, or None if the text names none."""
    absolute = specification.startswith("/")
    parts = []
    for part in (specification if absolute else folder + specification).split("/"):
        if part == ".." and parts and parts[-1] != "..":
            parts.pop()
        elif part == "..":
            if not absolute and not folder.startswith("/"):
                parts.append(part)
        elif part not in ("", "."):
            parts.append(part)
    if not parts or parts[-1] == "..":
        return None
    name = "/".join(parts)
    if absolute or folder.startswith("/"):
        name = "/" + name
    return name if name.endswith(".pl") else name + ".pl"


def left_to_right(term, name):
    """The parts of a term whose nodes are the infix `name`, in order."""
    stack = [term]
    while stack:
        part = stack.pop()
        if part.is_form(name, 2):
            stack.extend(reversed(part.arguments))
        else:
            yield part


def directive_of(term):
    return term.arguments[0] if term.is_form(":-", 1) or term.is_form("?-", 1) else None


def set_operators(term, operators):
    """Sets what the directive `term` says of operators."""
    directive = directive_of(term)
    if directive is None:
        return
    for part in left_to_right(directive, ","):
        if part.is_form("op", 3):
            set_operator(part, operators)
        elif part.is_form("module", 2) and part.arguments[1].kind == "list":
            for item in part.arguments[1].arguments:
                if item.is_form("op", 3):
                    set_operator(item, operators)


def set_operator(term, operators):
    priority, kind, names = term.arguments
    if priority.kind != "integer" or priority.name is None or priority.name > 1200:
        raise SourceError(priority.position, "operator priority is not 0 to 1200")
    if not kind.is_atom() or kind.name not in Operators.TYPES:
        raise SourceError(kind.position, "operator type is not known")
    items = names.arguments if names.kind == "list" else (names,)
    if names.tail or not all(item.is_atom() for item in items):
        raise SourceError(names.position, "operator name is not an atom or a list of atoms")
    for item in items:
        operators.set(priority.name, kind.name, item.name, item.position)


def arity_of(term, more):
    """The value of an arity with what `//` adds, or None."""
    if term.kind != "integer" or term.name is None or term.name + more > MAXIMUM_VALUE:
        return None
    return term.name + more


def indicator(term):
    """(name term, number of arguments) of `N/A` or `N//A` with any N, or None."""
    for name, more in (("/", 0), ("//", 2)):
        if term.is_form(name, 2):
            arity = arity_of(term.arguments[1], more)
            return None if arity is None else (term.arguments[0], arity)
    return None


def plain_indicator(term):
    found = indicator(term)
    if not found or not found[0].is_atom():
        raise SourceError(term.position, INDICATOR_ERROR)
    return Export(found[0].name, found[1], term.position)


def proper_items(term, error):
    """The items of a list without a tail, or of `[]`."""
    if term.is_nil():
        return ()
    if term.kind != "list" or term.tail:
        raise SourceError(term.position, error)
    return term.arguments


class Analysis:
    """Says what the clauses of one file mean, and raises the first error."""

    def __init__(self, source, terms):
        self.source = source
        self.terms = terms
        self.folder = source.name[:source.name.rfind("/") + 1]

    def run(self):
        for number, term in enumerate(self.terms):
            directive = directive_of(term)
            if directive is not None:
                self.directives(directive, number == 0)
            elif term.is_form(":-", 2):
                self.clause(term.arguments[0], term.arguments[1], False)
            elif term.is_form("-->", 2):
                self.clause(term.arguments[0], term.arguments[1], True)
            else:
                self.clause(term, None, False)

    def clause(self, head, body, is_grammar):
        if is_grammar and head.is_form(",", 2):
            pushback = head.arguments[1]
            if pushback.kind in ("list", "string") or pushback.is_nil():
                head = head.arguments[0]
        module = self.source.module
        while head.is_form(":", 2) and head.arguments[0].is_atom():
            module = head.arguments[0].name
            head = head.arguments[1]
        if not head.is_callable() or head.is_form(":", 2) or head.is_atom() and head.name in ("[]", "{}"):
            raise SourceError(head.position, "clause head is not an atom or a compound term")
        arity = len(head.arguments)
        if (head.name, arity) in CONTROL:
            raise SourceError(head.position, "control construct cannot be defined")
        self.source.clauses.append(Clause((module, head.name, arity + 2 * is_grammar), body, is_grammar))

    def directives(self, term, is_first):
        if is_first and term.is_form("module", 2):
            self.module(term)
            return
        for part in left_to_right(term, ","):
            self.directive(part)

    def directive(self, term):
        name = term.name if term.is_callable() else None
        arguments = term.arguments
        key = (name, len(arguments))
        if term.kind == "list":
            self.load_all(term, False)
        elif key == ("module", 2):
            raise SourceError(term.position, "module directive is not the first clause")
        elif key in OUTSIDE:
            raise SourceError(term.position, "directive is outside this profile")
        elif key == ("use_module", 1) and arguments[0].kind == "list":
            self.load_all(arguments[0], True)
        elif key == ("use_module", 1):
            self.load(arguments[0], True, None)
        elif key == ("use_module", 2):
            self.use_some(*arguments)
        elif key in (("ensure_loaded", 1), ("consult", 1)):
            self.load(arguments[0], False, None)
        elif key in (("dynamic", 1), ("multifile", 1)):
            self.define(name, arguments[0])
        elif key == ("meta_predicate", 1):
            self.declare(arguments[0])
        elif key not in NOTHING and key != ("op", 3):
            self.source.goals.append(term)

    def module(self, term):
        name, exports = term.arguments
        if not name.is_atom() or name.name == "user":
            raise SourceError(name.position, INDICATOR_ERROR)
        self.source.module = name.name
        self.source.module_position = term.position
        for item in proper_items(exports, INDICATOR_ERROR):
            if not item.is_form("op", 3):
                self.source.exports.append(plain_indicator(item))

    def load_all(self, term, is_use):
        for item in proper_items(term, "file name is expected"):
            self.load(item, is_use, None)

    def use_some(self, specification, names):
        file = self.file(specification)
        items = [plain_indicator(item) for item in proper_items(names, INDICATOR_ERROR)]
        self.source.loads.append(Load(file, specification.position, True, items))

    def load(self, specification, is_use, names):
        self.source.loads.append(Load(self.file(specification), specification.position, is_use, names))

    def file(self, specification):
        """The file that is named, or None for one of the system."""
        if specification.kind == "compound" and specification.functional and len(specification.arguments) == 1:
            return None
        parts = list(left_to_right(specification, "/"))
        name = None
        if all(part.is_atom() for part in parts):
            name = resolve("/".join(part.name for part in parts), self.folder)
        if name is None:
            raise SourceError(specification.position, "file name is expected")
        return name

    def define(self, word, term):
        stack = [(term, self.source.module, True)]
        while stack:
            part, module, may_be_several = stack.pop()
            if may_be_several and part.is_form(",", 2):
                stack.extend((item, module, False) for item in reversed(list(left_to_right(part, ","))))
            elif may_be_several and (part.kind == "list" or part.is_nil()):
                stack.extend((item, module, False) for item in reversed(proper_items(part, INDICATOR_ERROR)))
            elif part.is_form(":", 2) and part.arguments[0].is_atom():
                stack.append((part.arguments[1], part.arguments[0].name, True))
            else:
                self.source.properties.append((word, self.predicate(part, module)))

    def predicate(self, term, module):
        name, arity = indicator(term) or (None, None)
        if name and name.is_form(":", 2) and all(argument.is_atom() for argument in name.arguments):
            module, name = name.arguments[0].name, name.arguments[1]
        if not name or not name.is_atom():
            raise SourceError(term.position, INDICATOR_ERROR)
        return (module, name.name, arity)

    def declare(self, term):
        stack = [(term, self.source.module)]
        while stack:
            part, module = stack.pop()
            if part.is_form(",", 2):
                stack.extend((argument, module) for argument in reversed(part.arguments))
            elif part.kind == "list":
                stack.extend((item, module) for item in reversed(part.arguments if not part.tail else ()))
            elif part.is_form(":", 2):
                if part.arguments[0].is_atom():
                    stack.append((part.arguments[1], part.arguments[0].name))
            elif part.kind == "compound":
                key = (module, part.name, len(part.arguments))
                self.source.declarations.append((key, tuple(map(declared_argument, part.arguments))))


def declared_argument(term):
    """What a declaration says of an argument: a number of added arguments, `^`, `//` or None."""
    if term.kind == "integer" and term.name is not None and term.name <= 9:
        return term.name
    return term.name if term.is_atom() and term.name in ("^", "//") else None


def source_of(name, data):
    """What the file `name` with these bytes says; its first error is kept as `error`."""
    try:
        source = Source(name, data.decode("utf-8"))
    except UnicodeDecodeError as wrong:
        source = Source(name, data[:wrong.start].decode("utf-8"))
        source.error = SourceError(len(source.text), "byte is not UTF-8")
        return source
    try:
        operators = Operators(BEGIN)
        reader = Reader(tokens_of(source.text), len(source.text), operators)
        terms = []
        while (term := reader.clause()) is not None:
            set_operators(term, operators)
            terms.append(term)
        Analysis(source, terms).run()
    except SourceError as error:
        source.error = error
    return source


# Programs.

DECLARED_GOALS = {("call", 1): {0: 0}, ("once", 1): {0: 0}, ("ignore", 1): {0: 0}, ("not", 1): {0: 0}, ("initialization", 1): {0: 0},
                  ("initialization", 2): {0: 0}, ("findall", 3): {1: 0}, ("findall", 4): {1: 0}, ("bagof", 3): {1: "^"}, ("setof", 3): {1: "^"},
                  ("forall", 2): {0: 0, 1: 0}, ("catch", 3): {0: 0, 2: 0}, ("phrase", 2): {0: "//"}, ("phrase", 3): {0: "//"}}
GOAL_CONTROL = {(",", 2), (";", 2), ("|", 2), ("->", 2), ("\\+", 1)}
NOT_CALLABLE = {"integer", "negative", "float", "string", "back string"}


def known_goals(name, arity):
    if name in ("call", "maplist") and arity >= 2:
        return {0: arity - 1}
    return DECLARED_GOALS.get((name, arity), {})


class Program:
    """The files that are named and all that they load."""

    def __init__(self, names, read):
        self.named = sorted(set(names))
        self.sources = {}
        self.missing = set()
        self.read_all(read)
        self.check_files()
        self.predicates = {}
        self.collect()
        self.imports = {}
        self.check_imports()
        self.declarations = {}
        self.effects = {}
        self.started = set()
        self.resolve_goals()

    def in_order(self):
        return [self.sources[name] for name in sorted(self.sources)]

    def read_all(self, read):
        wave, seen, total = self.named, set(self.named), 0
        while wave:
            if len(seen) > MAXIMUM_FILES:
                raise Refusal(6, [f"groups: more than {MAXIMUM_FILES} files"])
            loads = set()
            for name in wave:
                data = read(name)
                if data is None:
                    self.missing.add(name)
                    continue
                total += len(data)
                if len(data) > MAXIMUM_FILE_BYTES:
                    raise Refusal(6, [f"groups: {name} is larger than {MAXIMUM_FILE_BYTES} bytes"])
                if total > MAXIMUM_BYTES:
                    raise Refusal(6, [f"groups: more than {MAXIMUM_BYTES} bytes of text"])
                source = self.sources[name] = source_of(name, data)
                if not source.error:
                    loads.update(load.file for load in source.loads if load.file)
            wave = sorted(loads - seen)
            seen |= loads

    def check_files(self):
        lines = {name: f"{name}: no such file" for name in self.missing.intersection(self.named)}
        for source in self.sources.values():
            if source.error:
                lines[source.name] = source.line(source.error.position, source.error.text)
        if lines:
            raise Refusal(3, [lines[name] for name in sorted(lines)])

    def collect(self):
        """The predicates of the program, each with no call yet."""
        for source in self.in_order():
            for key in [clause.key for clause in source.clauses] + source.bare():
                self.predicates.setdefault(key, set())
        if len(self.predicates) > MAXIMUM_PREDICATES:
            raise Refusal(6, [f"groups: more than {MAXIMUM_PREDICATES} predicates"])

    def check_imports(self):
        errors = []
        first = {}
        for source in self.in_order():
            if source.module_position is not None:
                first.setdefault(source.module, source)
        clashes = set()
        for source in self.in_order():
            if source.module_position is not None:
                if first[source.module] is not source:
                    errors.append((source, source.module_position, 21, "module is declared in two files"))
                for export in source.exports:
                    if (source.module, export.name, export.arity) not in self.predicates:
                        errors.append((source, export.position, 25, "exported predicate is not defined"))
            for load in source.loads:
                if load.file:
                    self.check_load(source, load, first, clashes, errors)
        if errors:
            errors.sort(key=lambda error: (error[0].name, error[1], error[2]))
            raise Refusal(3, [source.line(position, text) for source, position, _, text in errors])

    def check_load(self, source, load, first, clashes, errors):
        if load.file not in self.sources:
            errors.append((source, load.position, 22, "no such file"))
            return
        loaded = self.sources[load.file]
        if loaded.module_position is None:
            if load.is_use:
                errors.append((source, load.position, 23, "file is not a module file"))
            return
        module = loaded.module
        exports = loaded.keys()
        wanted = [Export(*key, load.position) for key in exports] if load.names is None else load.names
        for name, arity, position in wanted:
            if (name, arity) not in exports:
                errors.append((source, position, 24, "predicate is not exported"))
            elif module != source.module and loaded is first[module]:
                self.take(source, module, (name, arity), position, clashes, errors)

    def take(self, source, module, key, position, clashes, errors):
        """The import of `key` from `module` into the module of `source`."""
        if (source.module, *key) in self.predicates:
            return
        taken = self.imports.setdefault((source.module, *key), module)
        if taken != module and (source.module, *key) not in clashes:
            clashes.add((source.module, *key))
            errors.append((source, position, 26, "predicate is imported from two modules"))

    def meant(self, module, name, arity):
        """The predicate that a name means in a module, or None."""
        key = (module, name, arity)
        if key in self.predicates:
            return key
        return (self.imports[key], name, arity) if key in self.imports else None

    def resolve_goals(self):
        errors = []
        for source in self.in_order():
            for key, arguments in source.declarations:
                goals = {place: meaning for place, meaning in enumerate(arguments) if meaning is not None}
                self.declarations.setdefault(key, goals)
        for source in self.in_order():
            for clause in source.clauses:
                if clause.body:
                    for name, arity, meant in self.calls(source, clause.body, clause.is_grammar, errors):
                        if meant:
                            self.predicates[clause.key].add(meant)
                        elif (name, arity) in EFFECT_OF:
                            self.effects.setdefault(clause.key, set()).add(EFFECT_OF[name, arity])
            for goal in source.goals:
                self.started.update(meant for _, _, meant in self.calls(source, goal, False, errors) if meant)
        if errors:
            errors.sort(key=lambda error: (error[0].name, error[1]))
            raise Refusal(3, [source.line(position, "goal is not callable") for source, position in errors])

    def calls(self, source, body, is_grammar, errors):
        """The calls of a body: name, number of arguments, and the predicate that is meant or None."""
        stack = [(body, source.module, 0, False, is_grammar)]
        while stack:
            goal, module, added, negated, is_grammar = stack.pop()
            if goal.is_form(":", 2):
                qualifier = goal.arguments[0]
                if qualifier.is_atom():
                    stack.append((goal.arguments[1], qualifier.name, added, negated, is_grammar))
                elif qualifier.kind != "variable":
                    errors.append((source, qualifier.position))
            elif is_grammar:
                self.grammar_body(source, goal, module, negated, stack, errors)
            elif goal.kind in NOT_CALLABLE:
                errors.append((source, goal.position))
            elif goal.is_callable():
                if added == 0 and (goal.name, len(goal.arguments)) in GOAL_CONTROL:
                    stack.extend((argument, module, 0, negated or goal.name == "\\+", False) for argument in goal.arguments)
                else:
                    yield self.call(goal, module, added, negated, stack)

    @staticmethod
    def grammar_body(source, goal, module, negated, stack, errors):
        if goal.kind in ("integer", "negative", "float"):
            errors.append((source, goal.position))
        elif goal.kind == "curly":
            stack.append((goal.arguments[0], module, 0, negated, False))
        elif goal.is_callable() and not (goal.is_atom() and goal.name in ("[]", "{}", "!")):
            if (goal.name, len(goal.arguments)) in GOAL_CONTROL:
                stack.extend((argument, module, 0, negated or goal.name == "\\+", True) for argument in goal.arguments)
            else:
                stack.append((goal, module, 2, negated, False))

    def call(self, goal, module, added, negated, stack):
        """The call of an atom or a compound term; puts the goals among its written arguments on the stack."""
        arity = len(goal.arguments) + added
        meant = self.meant(module, goal.name, arity)
        goals = self.declarations.get(meant) if meant else None
        if goals is None:
            goals = known_goals(goal.name, arity)
        for place, meaning in goals.items():
            if place < len(goal.arguments):
                argument = goal.arguments[place]
                while meaning == "^" and argument.is_form("^", 2):
                    argument = argument.arguments[1]
                more = meaning if isinstance(meaning, int) else 0
                stack.append((argument, module, more, negated, meaning == "//"))
        return goal.name, arity, meant

    def roots(self):
        """The entry points, if no list gives others."""
        roots = set(self.started)
        for name in self.named:
            source = self.sources[name]
            if source.module_position is not None:
                roots.update((source.module, export.name, export.arity) for export in source.exports)
            else:
                roots.update(clause.key for clause in source.clauses)
                roots.update(source.bare())
        return roots

    def import_loops(self):
        """The classes of modules that load each other, each in order."""
        graph = {}
        for source in self.sources.values():
            edges = graph.setdefault(source.module, set())
            edges.update(self.sources[load.file].module for load in source.loads if load.file)
        loops = [sorted(group) for group in components(graph, graph)]
        return sorted(group for group in loops if len(group) > 1 or group[0] != "user" and group[0] in graph[group[0]])


# Reports.

EFFECTS = {"output": "write/1 write/2 writeq/1 writeq/2 print/1 write_canonical/1 write_canonical/2 write_term/2 write_term/3 nl/0 nl/1 put_char/1"
                     " put_char/2 format/1 format/2 format/3",
           "input": "read/1 read/2 read_term/2 read_term/3 get_char/1 get_char/2 peek_char/1 peek_char/2",
           "database": "assert/1 asserta/1 assertz/1 retract/1 retractall/1 abolish/1",
           "streams": "open/3 open/4 close/1 close/2 set_input/1 set_output/1",
           "throw": "throw/1", "halt": "halt/0 halt/1", "flags": "set_prolog_flag/2 op/3"}
EFFECT_WORDS = list(EFFECTS)
EFFECT_OF = {(name, int(arity)): number for number, names in enumerate(EFFECTS.values()) for name, arity in (word.split("/") for word in names.split())}


def components(graph, roots):
    """The strongly connected components that the roots reach, callees first (Tarjan's algorithm)."""
    number, low, path, work = {}, {}, [], []
    on_path = set()
    for root in roots:
        if root not in number:
            work.append((root, None))
        while work:
            node, successors = work.pop()
            if successors is None:
                number[node] = low[node] = len(number)
                path.append(node)
                on_path.add(node)
                successors = iter(graph[node])
            for successor in successors:
                if successor not in number:
                    work += [(node, successors), (successor, None)]
                    break
                if successor in on_path:
                    low[node] = min(low[node], low[successor])
            else:
                if low[node] == number[node]:
                    group = [path.pop()]
                    while group[-1] != node:
                        group.append(path.pop())
                    on_path.difference_update(group)
                    yield group
                if work:
                    parent = work[-1][0]
                    low[parent] = min(low[parent], low[node])


def name_text(name):
    """A name as the report prints it."""
    if name in ("!", ";", "[]", "{}") or name and is_start(name[0]) and word_end(name, 0) == len(name):
        return name
    match = GRAPHIC.fullmatch(name)
    if match and name != "." and not name.startswith("/*"):
        return name
    return "'" + "".join(quoted_character(character) for character in name) + "'"


def quoted_character(character):
    if character in "'\\":
        return "\\" + character
    if character == "\n":
        return "\\n"
    return f"\\x{ord(character):02x}\\" if character < " " or character == "\x7f" else character


def predicate_text(key):
    module, name, arity = key
    return f"{name_text(module)}:{name_text(name)}/{arity}"


def names_text(keys):
    return " ".join(map(predicate_text, keys))


@dataclass
class Group:
    members: list
    height: int
    is_recursive: bool
    carriers: dict


def groups_of(program, roots):
    """The groups that the roots reach, by height and least member."""
    group_of = {}
    found = []
    for members in components(program.predicates, sorted(roots)):
        group = Group(sorted(members), 0, len(members) > 1, {})
        for member in members:
            group_of[member] = group
        for member in members:
            carry(group, {effect: member for effect in program.effects.get(member, ())})
            for called in program.predicates[member]:
                other = group_of[called]
                if other is not group:
                    group.height = max(group.height, other.height + 1)
                    carry(group, other.carriers)
                group.is_recursive |= called == member
        found.append(group)
    return sorted(found, key=lambda group: (group.height, group.members[0]))


def carry(group, carriers):
    for effect, carrier in carriers.items():
        group.carriers[effect] = min(carrier, group.carriers.get(effect, carrier))


def shortest_path(graph, first, last):
    """The shortest path of two predicates or more, by order the least of these; or None. One that reaches `last` by a call."""
    callers = {}
    seen = {first}
    queue = deque([first])
    while queue:
        node = queue.popleft()
        for called in graph[node]:
            callers.setdefault(called, []).append(node)
            if called not in seen:
                seen.add(called)
                queue.append(called)
    distance = {}
    queue = deque([(last, 0)])
    while queue:
        node, steps = queue.popleft()
        for caller in callers.get(node, ()):
            if caller not in distance:
                distance[caller] = steps + 1
                queue.append((caller, steps + 1))
    if first not in distance:
        return None
    path = [first]
    for steps in range(distance[first] - 1, 0, -1):
        path.append(min(called for called in graph[path[-1]] if distance.get(called) == steps))
    return path + [last]


def report(program, options):
    """The lines of the report."""
    lists = [options.roots or [], options.path or []]
    for key in lists[0] + lists[1]:
        if key not in program.predicates:
            raise Refusal(2, [f"groups: no predicate {predicate_text(key)}"])
    groups = groups_of(program, program.roots() if options.roots is None else options.roots)
    count = sum(len(group.members) for group in groups)
    recursive = [group for group in groups if group.is_recursive]
    levels = groups[-1].height + 1 if groups else 0
    lines = [f"predicates {count} groups {len(groups)} recursive {len(recursive)} levels {levels}"]
    lines += [f"{group.height} {'recursive' if group.is_recursive else 'plain'} {names_text(group.members)}" for group in groups]
    lines += ["import-loop " + " ".join(map(name_text, loop)) for loop in program.import_loops()]
    if options.unreached:
        reached = {member for group in groups for member in group.members}
        lines += [f"unreached {predicate_text(key)}" for key in sorted(program.predicates) if key not in reached]
    if options.effects:
        lines += [f"effect {predicate_text(group.members[0])} {EFFECT_WORDS[effect]} {predicate_text(group.carriers[effect])}"
                  for group in groups for effect in sorted(group.carriers)]
    if options.loops:
        lines += ["loop " + names_text(shortest_path(program.predicates, group.members[0], group.members[0])[:-1]) for group in recursive]
    if options.path:
        first, last = options.path
        path = [first] if first == last else shortest_path(program.predicates, first, last)
        lines.append(f"path {names_text(path)}" if path else f"no-path {names_text(options.path)}")
    return lines


# Arguments.

@dataclass
class Options:
    files: list = field(default_factory=list)
    roots: object = None
    path: object = None
    unreached: bool = False
    effects: bool = False
    loops: bool = False


def wrong_arguments():
    return Refusal(2, [USAGE.rstrip("\n")])


def predicate_list(text):
    """The predicates of a LIST."""
    if len(text.encode("utf-8", "surrogateescape")) > MAXIMUM_LIST_BYTES:
        raise wrong_arguments()
    try:
        reader = Reader(tokens_of(text + " ."), len(text), Operators(BEGIN))
        term = reader.clause()
        if term is None or reader.clause() is not None:
            raise wrong_arguments()
    except SourceError:
        raise wrong_arguments() from None
    return [listed_predicate(part) for part in left_to_right(term, ",")]


def listed_predicate(term):
    if not term.is_form("/", 2):
        raise wrong_arguments()
    module, (name, arity) = "user", term.arguments
    if name.is_form(":", 2) and name.arguments[0].is_atom():
        module, name = name.arguments[0].name, name.arguments[1]
    count = arity_of(arity, 0)
    if not name.is_atom() or count is None:
        raise wrong_arguments()
    return (module, name.name, count)


def number_option(text, least, greatest):
    if not re.fullmatch("[0-9]{1,20}", text) or not least <= int(text) <= greatest:
        raise wrong_arguments()
    return int(text)


VALUES = {"--roots": predicate_list, "--path": predicate_list, "--jobs": lambda text: number_option(text, 1, 64),
          "--searches": lambda text: number_option(text, 1, 64), "--seed": lambda text: number_option(text, 0, 2 ** 64 - 1)}
FLAGS = {"--unreached", "--effects", "--loops"}


def options_of(arguments):
    given, files = {}, []
    rest = deque(arguments)
    while rest:
        argument = rest.popleft()
        if argument == "--":
            files += rest
            break
        if not argument.startswith("-"):
            files.append(argument)
            continue
        name, equals, value = argument.partition("=")
        if name in given or name not in VALUES and argument not in FLAGS:
            raise wrong_arguments()
        if name in VALUES:
            value = value if equals else rest.popleft() if rest else ""
            if not value or value.startswith("-"):
                raise wrong_arguments()
            given[name] = VALUES[name](value)
        else:
            given[name] = True
    return checked_options(given, [resolve(file, "") if file else None for file in files])


def checked_options(given, files):
    searches = "--searches" in given
    path = given.get("--path")
    if not files or None in files or searches != ("--seed" in given) or searches and "--jobs" in given or path and len(path) != 2:
        raise wrong_arguments()
    return Options(files, given.get("--roots"), path, *(name in given for name in ("--unreached", "--effects", "--loops")))


def read_file(name):
    """The bytes of a file, or None if there is none."""
    try:
        with open(name, "rb") as file:
            return file.read(MAXIMUM_FILE_BYTES + 1)
    except FileNotFoundError:
        return None
    except (OSError, ValueError):
        raise Refusal(4, [f"groups: cannot read {name}"]) from None


def answer(arguments, program_of):
    """Status, standard output and standard error of a run. `program_of` gives the program of a list of files, or raises a refusal."""
    try:
        options = options_of(arguments)
        lines = report(program_of(options.files), options)
        return 0, "".join(line + "\n" for line in lines), ""
    except Refusal as refusal:
        return refusal.status, "", "".join(line + "\n" for line in refusal.lines)


def main():
    status, output, errors = answer(sys.argv[1:], lambda files: Program(files, read_file))
    for text, stream in ((output, sys.stdout), (errors, sys.stderr)):
        stream.buffer.write(text.encode("utf-8", "surrogateescape"))
        stream.flush()
    return status


if __name__ == "__main__":
    sys.exit(main())
