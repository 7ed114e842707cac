#!/usr/bin/env python3
"""Compares `groups` with `checks/evaluator.py` on random programs.

    python3 checks/random_programs.py [--count N] [--first F] [--seed S] [--jobs J] [--seconds T] [--stop D] [--program FILE]

Each program has one to four files, or is a bundle of short texts of which nearly each has an error of its own. Both programs get the same arguments in a
temporary folder, and have to give the same bytes and status. Each difference is printed with its files, shrunk; D differences end the run, and so do T seconds.
The status is 1 if there is a difference. A program depends only on S and its number.
"""

import argparse
import multiprocessing
import os
import random
import re
import shutil
import signal
import subprocess
import sys
import tempfile
import time
from collections import Counter

sys.path.insert(0, os.path.dirname(os.path.abspath(__file__)))
import evaluator  # noqa: E402
import program  # noqa: E402

ROOT = os.path.dirname(os.path.dirname(os.path.abspath(__file__)))
TEXTS_OF_A_BUNDLE = 24

NAMES = ["p", "q", "r", "s", "t"]
ODD_NAMES = ["'a b'", "'don''t'", "'it\\'s'", "''", "'\\n'", "'A'", "'_x'", "'[]'", "'{}'", "'/*'", "'.'", "'\\\\'", "'\\x7f\\'", "'\\x1\\'", "'\\033\\'",
             "'a\\\nb'", "'p'", "'\\x70\\'", "'\\160\\'", "'!'", "';'", "','", "'|'", "+", "-", "*", "=", "<", "==>", "?", "@", "$", "&", "\\", "...", "a1_B",
             "é", "λx", "'É'", "'日本'", "日本", "'\t'", "'a\u2028b'", "\\+", "->", ":-", "-->", ":", "^", "//", "is", "mod", "dynamic", "table", "'-'", "'\\+'",
             "'dynamic'", "[]", "{}", "!", ";", "'é'", "'p\\\n'", "'\"'", "'`'", "'\\`'", "'\\\"'", "'\\x000070\\'", "'\\a\\b\\f\\r\\t\\v'", "'\u00a0'",
             "'\\x85\\'", "ǆ", "'ǅ'", "a\u0301", "'\u0301'"]
KNOWN_NAMES = ["write", "nl", "halt", "call", "maplist", "findall", "phrase", "mode", "table", "once", "forall", "foldl", "op", "format", "catch", "bagof"]
BUILT_IN = ["write/1", "nl/0", "print/1", "format/2", "read/1", "get_char/1", "assertz/1", "retract/1", "open/3", "close/1", "throw/1", "halt/0", "halt/1",
            "op/3", "set_prolog_flag/2", "true/0", "fail/0", "is/2", "=/2", "!/0", "write/2", "nl/1", "put_char/1", "assert/1", "abolish/1", "set_input/1",
            "format/4", "halt/2", "writeq/2", "write_canonical/2", "write_term/3", "read_term/2", "peek_char/2", "retractall/1", "asserta/1", "open/4",
            "close/2", "set_output/1"]
VARIABLES = ["X", "Y", "_", "_G1", "Éa", "ǅ", "X"]
NUMBERS = ["0", "1", "2", "3", "7", "9", "10", "01", "0x1F", "0x1f", "0o17", "0b101", "0'a", "0'\\n", "0'\\x41\\", "0'''", "0' ", "1.5", "2.0e10", "3.1E-2",
           "4294967295", "4294967296", "0x1", "0'\\'", "0'\"", "0'\\\\", "00", "0'\\3\\", "1.0e", "99999999999999999999999", "0'\u00e9", "0'\\0\\", "0x0",
           "0b0", "1200", "1201"]
STRINGS = ['"abc"', '""', '"a""b"', '"\\n"', "`abc`", "``", "`a``b`", '"\\x41\\"', '"\'"', '"a\nb"']
PREFIX = [("-", 200, 200), ("+", 200, 200), ("\\", 200, 200), ("\\+", 900, 900), (":-", 1200, 1199), ("?-", 1200, 1199), ("dynamic", 1150, 1149),
          ("table", 1150, 1149), ("mode", 1150, 1149), ("initialization", 1150, 1149), ("public", 1150, 1149)]
INFIX = [(",", 1000, 999, 1000), (";", 1100, 1099, 1100), ("|", 1100, 1099, 1100), ("->", 1050, 1049, 1050), ("=", 700, 699, 699), ("is", 700, 699, 699),
         ("==", 700, 699, 699), ("+", 500, 500, 499), ("-", 500, 500, 499), ("*", 400, 400, 399), ("/", 400, 400, 399), ("//", 400, 400, 399),
         ("mod", 400, 400, 399), ("**", 200, 199, 199), ("^", 200, 199, 200), (":", 200, 199, 200), (":-", 1200, 1199, 1199), ("-->", 1200, 1199, 1199),
         ("=..", 700, 699, 699), ("<", 700, 699, 699), (">>", 400, 400, 399)]
OWN = ["op", "post", "pre", "===>", "&", "and"] * 3 + ["+", "-", "=", "p", "\\+"]
NO_HEADS = {"[]", "{}", "'[]'", "'{}'", "!", "'!'", ",", "','", "'|'", ";", "';'", "->", "\\+", "'\\+'", ":-", "-->", ":"}
TYPES = ["xfx", "xfy", "yfx", "fy", "fx", "xf", "yf"]
SPANS = ["(", ")", "[", "]", "{", "}", ",", "|", ".", ". ", ".\n", "'", '"', "`", "\\", "/*", "*/", "%", "\n", " ", "0'", "0''", "0'\\", "0x", "1.", "1e5",
         "1.e", "a", "X", "_", "1", "-", "- ", "-1", "+", "=", ":", ":-", "-->", "\\+", "!", ";", "é", "É", "٣", "€", "\x00", "\x07", "\ufeff", "\u00a0",
         "\u2028", "\x85", "\x1c", "\u200b", "$", "#!", "#", "'a'", "f(", "-(", "- (", "=(", "= (", "[]", "{}", "[ ]", "{ }", "[a|b]", "(a)", "dynamic", "post",
         "op", "pre", "\\\n", "'\\z'", "'\\x\\'", "'\\xd800\\'", "'\\x110000\\'", "'\\8\\'", "'\\12'", "`", "''", "''''", "/*x*/", "/*/", "/**/", "%x\n", "²",
         "ª", "ﬀ", "·", "𝒜", "𝒶", "ʰ", "Ⅷ", "ⅷ", "ا", "़", "\u200d", "・", "\u1680", "\u3000", "\x0b", "\x0c", "0'\\\n", "0o78", "0b12", "0x1fg",
         "0xG"]
BAD_BYTES = [b"\xff", b"\xc3", b"\xc3(", b"\xed\xa0\x80", b"\xf4\x90\x80\x80", b"\xc0\xaf", b"\xe2\x82", b"\x80", b"\xf0\x9f\x98", b"\xf8\x88\x80\x80\x80"]


class Maker:
    """Makes one random program: `files` by name, and `arguments`."""

    def __init__(self, seed):
        self.random = random.Random(seed)
        self.files = {}
        self.arguments = []
        self.own_infix = []
        self.own_prefix = []
        self.own_postfix = []
        self.declared = []
        self.defined = {}
        self.modules = {}
        self.file = ""
        self.module = "user"
        self.risk = 0.0
        self.pool = []  # What a dense network calls.
        self.probe = False  # Most goals are numbers, so that the errors show which arguments are goals.

    # Choices.

    def chance(self, share):
        return self.random.random() < share

    def risky(self, factor=1.0):
        return self.risk and self.random.random() < self.risk * factor

    def pick(self, items):
        return items[int(self.random.random() * len(items))]

    def weighted(self, **weights):
        return self.random.choices(list(weights), weights.values())[0]

    def several(self, make, least, most):
        return [make() for _ in range(self.random.randint(least, most))]

    # Terms.

    def gap(self):
        if self.chance(0.93):
            return " "
        return self.pick(["\n", "\t", "  ", " /* x */ ", " % x\n", "\u00a0", "\n\n   ", " /**/ ", "\u2028", "\r\n", " /* '\n */ ", "\u1680", "\u3000", "\x0b",
                          "\x0c"])

    def name(self):
        if self.chance(0.85):
            return self.pick(NAMES)
        return self.pick(KNOWN_NAMES if self.chance(0.2) else ODD_NAMES)

    def head_name(self):
        name = self.name()
        while name in NO_HEADS and not self.risky():
            name = self.name()
        return name

    def atom_argument(self):
        """A name that is no trouble as an argument."""
        name = self.name()
        return f"({name})" if self.chance(0.1) else name

    def wrap(self, text, priority, maximum):
        return f"({text})" if priority > maximum and not self.risky(0.5) else text

    def term(self, maximum=999, depth=3):
        kind = self.weighted(atom=4, variable=4, number=2, string=0.5, negative=0.5, compound=3 * (depth > 0), list=1.5 * (depth > 0), curly=0.3 * (depth > 0),
                             round=0.5 * (depth > 0), infix=2 * (depth > 0), prefix=1 * (depth > 0), postfix=0.5 * (depth > 0), name=0.2)
        below = depth - 1
        if kind == "atom":
            return self.atom_argument()
        if kind == "name":
            return self.pick(["dynamic", "-", "+", "\\+", "=", "is", "*", ":-", "op", "post", "pre", "mod"])
        if kind == "variable":
            return self.pick(VARIABLES)
        if kind == "number":
            return self.pick(NUMBERS)
        if kind == "string":
            return self.pick(STRINGS)
        if kind == "negative":
            return self.pick(["-1", "- 1", "-0", "-1.5", "'-'1", "- 0'a", "-X", "-a", "-(1)", "- (1)"])
        if kind == "compound":
            return self.compound(self.name(), self.several(lambda: self.term(999, below), 1, 3))
        if kind == "list":
            items = f"{',' + self.gap()}".join(self.several(lambda: self.term(999, below), 1, 3))
            return f"[{items}|{self.term(999, below)}]" if self.chance(0.25) else f"[{items}]"
        if kind == "curly":
            return f"{{{self.term(1200, below)}}}"
        if kind == "round":
            return f"({self.term(1200, below)})"
        return self.operation(kind, maximum, below)

    def compound(self, name, arguments):
        return f"{name}({(',' + (self.gap() if self.chance(0.5) else '')).join(arguments)})" if arguments else name

    def operation(self, kind, maximum, depth):
        if kind == "infix":
            name, priority, left, right = self.pick(INFIX + self.own_infix * 4)
            gaps = self.gap(), self.gap()
            if name in (",", "|", ";", "+", "*", "/", "=") and self.chance(0.3):
                gaps = "", ""
            spelled = f"'{name}'" if name.isidentifier() and self.chance(0.2) else name
            return self.wrap(f"{self.term(left, depth)}{gaps[0]}{spelled}{gaps[1]}{self.term(right, depth)}", priority, maximum)
        if kind == "prefix":
            name, priority, right = self.pick(PREFIX + self.own_prefix * 4)
            return self.wrap(f"{name}{self.gap()}{self.term(right, depth)}", priority, maximum)
        if not self.own_postfix:
            return self.pick(NAMES)
        name, priority, left = self.pick(self.own_postfix)
        return self.wrap(f"{self.term(left, depth)} {name}", priority, maximum)

    # Goals.

    def goal(self, depth=3):
        if self.probe and self.chance(0.35):
            return self.pick(["1", "2", "3", "4", "1.5", '"a"', "`a`", "-1", "m:3", "3:p", "X:3", "{3}", "[3]"])
        kind = self.weighted(call=8, built_in=3, control=4 * (depth > 0), module=1.5, meta=5 * (depth > 0), declared=4 * bool(self.declared), nothing=0.7,
                             term=0.5, wrong=0.6 * bool(self.risk), added=0.5 * (depth > 0))
        below = depth - 1
        if kind == "call":
            return self.compound(self.name(), self.several(lambda: self.term(999, 1), 0, 2))
        if kind == "built_in":
            name, arity = self.pick(BUILT_IN).rsplit("/", 1)
            return self.compound(name, [self.term(999, 1) for _ in range(int(arity))])
        if kind == "control":
            return self.control(lambda: self.goal(below))
        if kind == "module":
            return f"{self.pick(['m', 'n', 'k', 'user', 'X', 'm:n', 'X:m', 'm', 'n', '[]'])}:{self.tight(self.goal(below) if depth > 0 else self.pick(NAMES))}"
        if kind == "meta":
            return self.meta_goal(below)
        if kind == "declared":
            name, arguments = self.pick(self.declared)
            return self.compound(name, [self.argument(argument, below) for argument in arguments[:max(1, len(arguments) - self.chance(0.1))]])
        if kind == "nothing":
            return self.pick(["X", "_", "[]", "[p]", "{p}", "{}", "[X]", "call(X)", "[p|q]", "'{}'(3)", "','", "(',')", "call(',', p, q)", "call((p,q), 3)",
                              "call(p:q, r)"])
        if kind == "term":
            return self.term(999, 2)
        if kind == "added":
            return f"call(call({self.tight(self.goal(below))}, X), Y)"
        return self.pick(["3", '"a"', "-1", "1.5", "`a`", "3:p", "f(x):p", "[m]:p", '"m":p', "m:3", "X:3", "{m}:p", "(p:-q)", "call(3)", "call(3, X)", "3:4",
                          "m:(3:p)", "(m:3):p"])

    def tight(self, text):
        return f"({text})" if re.search(r"[\s,;|>=:-]", text) and not self.chance(0.03) else text

    def control(self, part):
        kind = self.weighted(comma=5, semicolon=3, bar=1, arrow=2, naf=2, canonical=1, round=1)
        if kind == "comma":
            return f"{self.tight(part()) if self.chance(0.5) else part()},{self.gap()}{part()}"
        if kind == "semicolon":
            return f"( {part()} ; {part()} )"
        if kind == "bar":
            return f"( {part()} | {part()} )"
        if kind == "arrow":
            return f"( {part()} -> {part()} ; {part()} )" if self.chance(0.6) else f"({part()}->{part()})"
        if kind == "naf":
            return f"\\+ {self.tight(part())}" if self.chance(0.7) else f"\\+({self.tight(part())})"
        if kind == "canonical":
            return f"{self.pick([',', ';', '->', '|'])!r}({self.tight(part())}, {self.tight(part())})"
        return f"({part()})"

    def meta_goal(self, depth):
        inner = self.tight(self.goal(depth))
        name, arguments = self.pick([("call", [inner]), ("call", [inner, "X"]), ("call", [inner, "X", "Y"]), ("maplist", [inner, "L"]),
                                     ("maplist", [inner, "L", "M"]), ("once", [inner]), ("ignore", [inner]), ("not", [inner]), ("findall", ["X", inner, "L"]),
                                     ("findall", ["X", inner, "L", "T"]), ("bagof", ["X", inner, "L"]), ("setof", ["X", f"Y^{inner}", "L"]),
                                     ("bagof", ["X", f"Y^Z^{inner}", "L"]), ("bagof", ["X", f"m:Y^{inner}", "L"]), ("setof", ["X", f"Y^m:{inner}", "L"]),
                                     ("forall", [inner, self.tight(self.goal(depth))]), ("catch", [inner, "E", self.tight(self.goal(depth))]),
                                     ("phrase", [self.tight(self.body(depth)), "L"]), ("phrase", [self.tight(self.body(depth)), "L", "R"]),
                                     ("initialization", [inner]), ("initialization", [inner, "main"]), ("maplist", [inner]), ("findall", [inner, "L"]),
                                     ("catch", [inner]), ("call", [f"call({inner})", "X"]), ("call", ["findall", "X", inner, "L"]),
                                     ("call", [f"findall(X, {inner})", "L"]), ("call", [f"maplist({inner})", "L"]), ("call", [f"forall({inner})", inner]),
                                     ("call", ["phrase", inner, "L"])])
        return self.compound(name, arguments)

    def argument(self, meaning, depth):
        """An argument for a declared one."""
        if meaning == "//":
            return self.tight(self.body(depth))
        if meaning == "^" and self.chance(0.5):
            return f"V^{self.tight(self.goal(depth))}"
        return self.tight(self.goal(depth)) if meaning.isdigit() or meaning == "^" else self.term(999, 1)

    def body(self, depth=3):
        """A grammar body."""
        if self.probe and self.chance(0.3):
            return self.pick(["1", "2", "{3}", "m:4", "5:p", "1.5", "-1", '"a"', "`a`", "[3]", "m:{3}", "X:3"])
        kind = self.weighted(call=6, built_in=1, terminals=3, curly=2, control=4 * (depth > 0), module=1, meta=1.5 * (depth > 0), nothing=1,
                             wrong=0.3 * bool(self.risk), term=0.3)
        below = depth - 1
        if kind == "call":
            return self.compound(self.name(), self.several(lambda: self.term(999, 1), 0, 2))
        if kind == "built_in":
            return self.pick(["write", "nl", "format", "print", "halt", "open(X)", "read", "assertz", "call", "maplist", "findall(X)", "op(X)", "writeq",
                              "close", "throw(X)", "halt(X)"])
        if kind == "terminals":
            return self.pick(["[]", "[a]", "[a,b]", '"abc"', "[X|Y]", "`abc`", '""'])
        if kind == "curly":
            return f"{{{self.goal(max(0, below))}}}"
        if kind == "control":
            return self.control(lambda: self.body(below))
        if kind == "module":
            return f"{self.pick(['m', 'n', 'user', 'X'])}:{self.tight(self.body(below) if depth > 0 else 'p')}"
        if kind == "meta":
            return f"{self.pick(['call', 'once', 'maplist', 'findall', 'phrase', 'forall', 'catch', 'not', 'ignore'])}({self.tight(self.goal(below))})"
        if kind == "nothing":
            return self.pick(["X", "!", "{}", "[]", "{ X }", "{!}", "'{}'(p)", "'[]'", "'!'", "'{}'"])
        return self.term(999, 1) if kind == "term" else self.pick(["3", "-1", "1.5", "3:p", "f(x):p", '"m":p', "m:3", "{3}", '{"a"}', "m:[a]", "m:!", "m:{p}",
                                                                   "m:{3}"])

    # Clauses and directives.

    def head(self):
        if self.risky(0.4):
            return self.pick(["X", "3", '"a"', "[a]", "{a}", "[]", "{}", "X:p", "m:3", "m:X", "3:p", "(p,q)", "(p;q)", "(p->q)", "\\+p", "!", "m:(p:-q)",
                              "m:n:X", "(m:n):p", "(p:-q)", "(p-->q)", "(:-p)", "(?-p)", "','(a)", "'|'(a,b)", "'[]'", "'{}'", "'{}'(a)", "(p|q)", "m:(p,q)",
                              "[]:p", "m:[]", "-1", "- 1", "m:(X:p)", "{}:p", "';'", "','", "m:!", "'!'(a)", "(:-)", "':-'(a,b,c)", "m:{p}", "'[]'(a)", "`a`",
                              "1.5", "'m' :q"])
        if self.chance(0.01):
            return self.pick(["'!'(a,b)", "{}(a,b)", "'[]'(a)", "mode(a)", "set_prolog_flag(a,b)", "table(b)"])
        name, arguments = self.head_name(), self.several(lambda: self.term(999, 1), 0, 2)
        head = self.compound(name, arguments)
        if self.chance(0.12):
            return f"{self.pick(['m', 'n', 'user', 'k', 'm:n', 'user:m'])}:{self.tight(head)}"
        self.define(f"{name if name in NAMES else f'({name})'}/{len(arguments)}")
        return f"({head})" if self.chance(0.05) else head

    def define(self, indicator):
        self.defined.setdefault(self.file, []).append(f"{self.module}:{indicator}")

    def clause(self):
        kind = self.weighted(fact=3, rule=8, grammar=2.5, canonical=0.4)
        if kind == "fact":
            return self.head()
        if kind == "rule":
            return f"{self.head()}{self.gap()}:-{self.gap()}{self.goal()}"
        if kind == "canonical":
            return self.pick([f"':-'({self.tight(self.head())}, {self.tight(self.goal())})", f"'-->'({self.tight(self.head())}, {self.tight(self.body())})",
                              f"({self.head()} :- {self.goal()})", f":-({self.tight(self.head())}, {self.tight(self.goal())})"])
        head = self.head()
        if self.chance(0.2):
            pushbacks = ["X", "p", "{}", "3", "([a],[b])"] if self.risky() else ["[x]", "[]", '"s"', "[x|y]", "`s`"]
            head = f"{head}, {self.pick(pushbacks)}"
        return f"{head} --> {self.body()}"

    def indicator(self, odd=True):
        if odd and self.risky(0.5):
            return self.pick(["p", "p/X", "X/1", "p/a", "p/ -1", "p/-1", "3/1", "p//4294967294", "p//4294967293", "p/4294967296", "p/4294967295", '"p"/1',
                              "f(x)/1", "p/1.0", "[p]/1", "p/q/1", "m:p/1", "X:p/1", "p/(1)", "(p)/1", "(p/1)", "[]/0", "{}/0", "p/0'a", "op(700,xfx,p)",
                              "[p/1]", "(p/1,q/1)", "'/'(p,1)", "except([])"])
        return f"{self.head_name()}{self.pick(['/', '/', '/', '//', ' / '])}{self.pick(['0', '1', '2', '0', '1', '3', '10'])}"

    def exported(self):
        return f"{self.pick(NAMES)}/{self.pick('012')}"

    def indicators(self):
        kind = self.weighted(one=4, commas=3, list=2, nil=0.3, module=1.5, moduled=1, odd=3 * self.risk)
        if kind == "one":
            return self.indicator()
        if kind == "commas":
            return ", ".join(self.several(self.indicator, 2, 3))
        if kind == "list":
            return f"[{', '.join(self.several(self.indicator, 1, 3))}]"
        if kind == "nil":
            return "[]"
        if kind == "module":
            return f"{self.pick(['m', 'n', 'user'])}:{self.indicator()}"
        if kind == "moduled":
            module, first, second, third, fourth, alone = self.pick(["m", "n", "user", "m:n"]), *(self.indicator() for _ in range(5))
            return f"{module}:{self.pick([f'[{first}, {second}]', f'({third}, {fourth})', f'({alone})', '[]'])}"
        return self.pick(["X", "[p/1|T]", "X:[p/0]", "a:b:c/1", "3", "p", "[[p/0]]", "[(p/0,q/0)]", "(p/0,[q/0])", "m:[n:p/0,q/1]", "m:p", "m:X", "3:p/0",
                          "(X:p/0)", "m:(n:p)/0", "(m:n):p/0", "[p/0],[q/0]", "m:[p/0|T]", "{p/0}", "[]/0", "[X]", "m:(p/0,X)", "'[]'", "(m:p)/0", "((m:p)/0)",
                          "m:'/'(p,0)", "[m:[p/0]]", "[]:p/0", "[]:[p/0]", "m:[[]]", "[[]]"])

    def meaning(self):
        return self.pick(["0", "0", "1", "2", "?", "^", "//", "+", "-", ":", "*", "9", "10", "-1", '"0"', "0'\\1\\", "X", "(0)", "0x1", "'^'", "'//'", "3",
                          "00", "1.0"])

    def declaration(self):
        kind = self.weighted(plain=8, odd=1)
        if kind == "odd":
            return self.pick(["p", "X:p(0)", "[p(0)|T]", "X", "3", "[]", "{p(0)}", "[[p(0)], q(0)]", "(p(0), [q(1)])", "m:(p(0), q(0))", "m:[p(0)]", "m:n:p(0)",
                              "(m:p)(0)" if self.risky() else "p", "0+0", "\\+0", "3:p(0)", "[]:p(0)", "(p(0),X,q(0))"])
        name = self.name() if self.chance(0.8) else self.pick(["call", "findall", "maplist", "once", "write", "foldl", "phrase"])
        arguments = self.several(self.meaning, 1, 3)
        if name not in ("-", "+") and "'" not in name:
            self.declared.append((name, arguments))
        text = self.compound(name, arguments)
        return f"{self.pick(['m', 'n', 'user', 'k'])}:{text}" if self.chance(0.15) else text

    def declarations(self):
        texts = self.several(self.declaration, 1, 3)
        return f"[{', '.join(texts)}]" if self.chance(0.2) else ", ".join(texts)

    def operator(self):
        if self.risky(0.5):
            return self.pick(["op(1201, xfx, a)", "op(-1, xfx, a)", "op(X, xfx, a)", "op(700, xyx, a)", "op(700, X, a)", "op(700, xfx, X)",
                              "op(700, xfx, [a|T])", "op(700, xfx, [a, 1])", "op(700, xfx, ',')", "op(700, xfx, '|')", "op(700, xfx, [])", "op(700, xfx, {})",
                              "op(700, xfx, [a, []])", "op(700, xf, =)", "op(700, xfx, 3)", "op(0, xfx, ',')", "op(700, xfx, '[]')", "op(700, fy, '{}')",
                              "op(700, fy, '|')", "op(99999999999, xfx, a)", "op(1.0, xfx, a)", "op(700, 'xfx', \"a\")", "op(a, b, C)", "op(700, xfx, [[a]])",
                              "op(700, xfx, m:a)", "op(0, xf, =)", "op(200, xf, +)", "op(700, xfx, (a,b))", "op(700, xfx, [a,',',X])"])
        kind, name = self.pick(TYPES), self.pick(OWN)
        priority = self.pick([0, 1, 100, 200, 400, 500, 700, 999, 1000, 1100, 1150, 1200, 700, 700])
        if priority:
            left, right = (priority - 1 if letter == "x" else priority for letter in (kind[0], kind[-1]))
            if len(kind) == 3:
                self.own_infix.append((name, priority, left, right))
            elif kind[0] == "f":
                self.own_prefix.append((name, priority, right))
            else:
                self.own_postfix.append((name, priority, left))
        names = f"[{name}, {self.pick(OWN)}]" if self.chance(0.1) else self.pick([name, f"({name})", f"'{name}'"])
        return f"op({priority}, {kind}, {names})"

    def specification(self):
        if self.risky(0.4):
            return self.pick(["X", "3", '"b"', "library(lists)/x", "- a", "-(a)", "f(a, b)", "''", "..", "'..'", "'.'", "'/'", "'x/..'", "[b]", "[]", "{b}",
                              "missing", "'missing.pl'", "d", "'d.pl'", "d/missing", "a/b/c", "(d/a)", "'/nowhere/a'", "m:b", "'b.'", "'.pl'", "'B'", "a//b",
                              "library(X)", "{}(b)" if self.risky() else "b", "'a\\x0\\'", "(b, c)", "[b|T]", "X/b", "d/X", "d/3", "'a.pl'/b", "'/'(d, a)",
                              "'/'/a", "''/a", "d/ '..' /b"])
        if self.chance(0.15):
            return self.pick(["library(lists)", "library(x/y)", "library(X)", "foo(bar)"])
        target = self.pick(list(self.modules) or [self.file])
        up = "../" if "/" in self.file else ""
        path = target[2:] if up and target.startswith("d/") and self.chance(0.7) else up + target
        short = path[:-3]
        return self.pick([f"'{path}'", f"'./{path}'", f"'x/../{path}'", f"'{short}/'", f"'x//.././{short}'", self.split(short), self.split(short),
                          self.split(path)])

    def split(self, path):
        """A path as names between slashes."""
        return "/".join(part if part.isalpha() else f" '{part}' " for part in path.split("/")).strip()

    def module_file(self):
        """A specification of a file that has a module, if there is one."""
        kept = self.modules
        self.modules = {name: module for name, module in kept.items() if module} or kept
        specification = self.specification()
        self.modules = kept
        return specification

    def import_list(self):
        if self.risky(0.3):
            return self.pick(["[p/0|T]", "X", "p/0", "[X]", "[m:p/0]", "except([p/0])", "[p]", "all", "(p/0,q/0)", "[op(700,xfx,p)]", "[p/0 as q]", "{}"])
        return self.pick(["[]", f"[{', '.join(self.several(self.exported, 1, 2))}]"])

    def directive_term(self):
        kind = self.weighted(dynamic=4, load=4, use=2, meta=3, op=3, goal=4, nothing=1, outside=0.8 * self.risk, odd=3 * self.risk, commas=1)
        if kind == "dynamic":
            return self.pick([f"{self.pick(['dynamic', 'multifile'])} {self.indicators()}", f"{self.pick(['dynamic', 'multifile'])}(({self.indicators()}))"])
        if kind == "load":
            specification, used = self.specification(), self.module_file()
            listed = f"[{', '.join(self.several(self.specification, 1, 2))}]"
            uses = f"use_module([{', '.join(self.several(self.module_file, 1, 2))}])"
            return self.pick([f"use_module({used})"] * 3 + [f"ensure_loaded({specification})"] * 2 + [f"consult({specification})", listed, uses])
        if kind == "use":
            return f"use_module({self.module_file()}, {self.import_list()})"
        if kind == "meta":
            return self.pick([f"meta_predicate {self.declarations()}", f"meta_predicate(({self.declarations()}))"])
        if kind == "op":
            return self.operator()
        if kind == "goal":
            return self.pick([self.goal, lambda: f"initialization({self.tight(self.goal())})", lambda: f"initialization {self.tight(self.goal())}"])()
        if kind == "nothing":
            return self.pick(["discontiguous p/1", "mode p(+)", "public p/0", "table p/1", "set_prolog_flag(a, b)", "discontiguous(X)", "[]", "table(3)",
                              "mode", "public(a, b)"])
        if kind == "outside":
            return self.pick(["if(a)", "elif(a)", "else", "endif", "include(b)", "use_module(a, b, c)", "reexport(b)", "reexport(b, [])", "else(a)",
                              "include(a, b)", "if", "endif(x)"])
        if kind == "commas":
            return f"{self.directive_term()}, {self.directive_term()}"
        return self.pick(["X", "3", '"a"', "[a|b]", "[X]", "{a}", "[]", "module(k, [])", "m:dynamic(p/0)", "m:use_module(b)", "dynamic(p/0, q/0)",
                          "use_module([])", "use_module([b|T])", "ensure_loaded([b])", "consult([b])", "ensure_loaded([])", "use_module([b], [])", "module(k)",
                          "(op(700, xfx, op), module(k, [op(0, xfx, =)]))", "m:op(700, xfx, op)", "use_module([[b]])", "[[b]]", "use_module([library(a), b])",
                          "consult(library(a))", "[library(a)]", "(a :- b)", "(:- a)", "dynamic", "use_module", "['b.pl'|[c]]"])

    def directive(self):
        term = self.directive_term()
        return self.pick([f":- {term}"] * 8 + [f"?- {term}", f":-({self.tight(term)})", f":- ({term})", f":-\n{term}"])

    def module_directive(self, name, exports):
        items = list(exports)
        if self.chance(0.2):
            items.append(self.operator())
        if self.risky(0.3):
            return self.pick([":- module(user, [])", ":- module(X, [])", ":- module(3, [])", f":- module({name}, X)", f":- module({name}, [p/0|T])",
                              f":- module({name}, p/0)", f":- module({name}, [X])", f":- module({name}, []), p", f":- p, module({name}, [])",
                              f":- (module({name}, []))", f"?- module({name}, [])", ":- module([], [])", f":- module({name}, [op(700, xfx, op)|T])",
                              f":- module({name}, [{self.indicator()}, m:p/0])", f":- module({name}, {{}})", ":- module({}, [])",
                              f":- module({name}, [op(X, xfx, a)])", f":- module({name}, [p/0, op(700, xfx, [=>, ','])])", f":- module(m:n, [])",
                              f":- module('{name}', '[]')"])
        self.random.shuffle(items)
        return f":- module({name}, [{', '.join(items)}])"

    # Files.

    def text(self, name, module):
        """One file of a program."""
        clauses = []
        self.module, self.file = module or "user", name
        if module:
            exports = self.several(self.exported, 0, 3)
            clauses.append(self.module_directive(module, exports))
            for export in exports:
                self.define(export)
                if not self.risky(0.4):
                    title, arity = export.split("/")
                    clauses.append(self.compound(title, ["X"] * int(arity)) + self.pick(["", f" :- {self.goal()}"]))
        rest = [self.directive() if self.chance(0.3) else self.clause() for _ in range(self.random.randint(0, 7))]
        self.random.shuffle(rest)
        if self.chance(0.3):
            rest.insert(0, self.followed())
        clauses += rest if not module or not self.risky(0.05) else rest[::-1]
        text = "".join(map(self.ended, clauses))
        if self.chance(0.03):
            text = self.pick(["\ufeff", "#! /usr/bin/x\n", "\ufeff#!x\n", "% x\n", "/* x */", " #!x\n", "\ufeff\ufeff"]) + text
        if self.chance(0.02):
            text = text.rstrip()
        if self.chance(0.01):
            text += self.pick(["% end", "/* end", "/* end */", "p", "p :- q", "\n#!", "'", "p."])
        return text

    def ended(self, clause):
        """The clause with its End."""
        gap = " " if clause[-1:] in "#$&*+-./:<=>?@^~\\" else self.pick([" ", "", "", ""])
        return clause + gap + "." + self.pick(["\n", "\n", "\n", " % x\n", "\n\n", " ", "%\n"])

    def followed(self):
        """Operators as predicates whose arguments are goals, so that the report shows how terms are read."""
        names = self.random.sample(["+", "-", "*", "=", "is", "<", "mod", "op", "post", "pre", "\\", "^", "and"], 5)
        return ".\n".join([":- dynamic " + ", ".join(f"({name})/{arity}" for name in names for arity in (1, 2, 3)),
                           ":- meta_predicate " + ", ".join(f"{name}({self.pick('012')})" for name in names),
                           ":- meta_predicate " + ", ".join(f"{name}({self.pick('012')}, {self.pick('012')})" for name in names)])

    def noise(self, text):
        for _ in range(self.random.choice([1, 1, 1, 2, 3])):
            at = self.random.randint(0, len(text))
            kind = self.weighted(insert=5, delete=3, double=1, swap=1)
            end = min(len(text), at + self.random.randint(1, 3))
            if kind == "insert":
                text = text[:at] + self.pick(SPANS) + text[at:]
            elif kind == "delete":
                text = text[:at] + text[end:]
            elif kind == "double":
                text = text[:end] + text[at:]
            else:
                text = text[:at] + text[at:end][::-1] + text[end:]
        return text

    def spoiled(self, text):
        data = text.encode()
        if self.chance(0.05):
            at = self.random.randint(0, len(data))
            data = data[:at] + self.pick(BAD_BYTES) + data[at:]
        return data

    def list_of(self, count, known):
        if self.risky(0.3):
            return self.pick(["p", "p/0,", "p/0.", "p/0 .", "m:p", "p/X", "p//0", "m:n:p/0", "(m:p)/0", "m:(p/0)", "(p/0,q/0)", "p/0,q/0,r/0", "", "-p/0",
                              "p/-1", "[p/0]", "'p'/0, 'q'/0", "p/0% x", "p/4294967295", "p/4294967296", "X:p/0", "p/0'a", "(p)/0", "p/(0)", "p /* c */ / 0",
                              "[]/0", "{}/0", "p/0;q/0", "p/0|q/0", "'a b':p/0", "'/'(p,0)", "','(p/0,q/0)", "((p/0)),(q/0)", "p/00", "+/2", "(+)/2", "m: p/0",
                              "p/0 q/0", "'p/0", "é/0", "\u00a0p/0", "#!", "\ufeffp/0", "p/0,q/0%"])
        return ",".join(self.pick(known) if known and self.chance(0.95) else self.exported() for _ in range(count))

    def options(self, known):
        options = []
        for option in ("--unreached", "--effects", "--loops"):
            if self.chance(0.7):
                options.append(option)
        if self.chance(0.3):
            options += ["--roots", self.list_of(self.random.randint(1, 3), known)] if self.chance(0.8) else [f"--roots={self.list_of(1, known)}"]
        if self.chance(0.3):
            options += ["--path", self.list_of(2, known)]
        if self.chance(0.02):
            options += self.pick([["--jobs", "2"], ["--jobs=0"], ["--searches", "2", "--seed", "3"], ["--searches", "2"], ["--unreached"], ["--effects=1"],
                                  ["--none"], ["-"], ["--"], ["--roots"], ["--jobs", "65"], ["--jobs", "01"], ["--jobs", "x"],
                                  ["--jobs", "1", "--searches", "1", "--seed", "1"], ["--", "-x"], ["--seed=18446744073709551616", "--searches=1"],
                                  ["--unreac"], [""], ["--jobs", "000000000000000000001"], ["--path="], ["--roots", "-p/0"], ["--stream"],
                                  ["--seed=18446744073709551615", "--searches=64"]])
        return options

    def named_files(self, names):
        spelled = [self.pick([name, name, name[:-3], "./" + name, "x/../" + name, name + "/"]) for name in names]
        if self.risky(0.1) or self.chance(0.015):
            spelled.append(self.pick(["missing", "..", "", "d", "e", "/nowhere/x", "../../missing/../m", ".", "/", "a.pl/b", "d/a", "-", "missing.pl", "/..",
                                      "/../a/./b//c", "d/.."]))
        return spelled

    def program(self):
        self.risk = self.random.choice([0, 0, 0, 0.01, 0.05, 0.15])
        self.probe = not self.risk and self.chance(0.6)
        names = self.random.choice([["a.pl"], ["a.pl"], ["a.pl", "b.pl"], ["a.pl", "b.pl", "c.pl"], ["a.pl", "b.pl", "d/a.pl"],
                                    ["a.pl", "b.pl", "c.pl", "d/a.pl"]])
        modules = ["m", "n", "k", "'a b'"]
        self.random.shuffle(modules)
        self.modules = {name: modules.pop() if self.chance(0.7) else None for name in names}
        for name in names:
            text = self.text(name, "m" if self.risky(0.2) else self.modules[name])
            if self.risk and self.chance(self.risk):
                text = self.noise(text)
            self.files[name] = self.spoiled(text) if self.risk > 0.1 else text.encode()
            self.own_infix, self.own_prefix, self.own_postfix = [], [], []
        if self.risky(0.1):
            self.files["e.pl/x.pl"] = b"p.\n"
        chosen = self.random.sample(names, self.random.randint(1, len(names)))
        options = self.options([indicator for name in chosen for indicator in self.defined.get(name, ())])
        named = self.named_files(chosen)
        self.arguments = options + named if self.chance(0.8) else named + options
        return self

    # Networks: many files of few words, whose modules import and define for each other.

    def network(self):
        self.risk = self.random.choice([0, 0, 0.02, 0.1])
        names = self.random.sample([f"{folder}{letter}.pl" for letter in ("a", "b", "c", "d", "e", "é", "B c", "𝒶") for folder in ("", "d/")],
                                   self.pick([1, 2, 3, 4, 5, 6, 8]))
        common = ["p", "q", "r", "s", "t", "u", "v", "'a b'", "write", "nl", "maplist", "call", "once", "halt"]
        pool = {f"{self.pick([*common, f'b{number}'])}/{self.pick('00112')}" for number in range(self.random.randint(4, 16))}
        if self.chance(0.1):
            pool |= {"p/10", "p/9"}
        pool = sorted(pool)
        self.pool = [*pool * 2, "write/1", "halt/0", "nl/0", "throw/1"] if self.chance(0.5) else []
        self.probe = not self.risk and self.chance(0.4)
        modules = self.random.sample(["m", "n", "k", "'a b'", "é", "'M'", "[]", "m1", "m10", "'user '", "𝒶", "ﬀ", "'\\n'"], 8)
        shared = self.chance(0.08)
        self.modules = {name: self.pick(modules[:len(names)]) if shared else modules[place] if self.chance(0.75) else None for place,
                        name in enumerate(sorted(names))}
        exports = {name: self.random.sample(pool, min(len(pool), self.pick([0, 1, 1, 2, 3]))) if self.modules[name] else [] for name in names}
        if self.chance(0.5):
            taken = set()
            for name in names:
                exports[name] = [item for item in exports[name] if item not in taken]
                taken.update(exports[name])
        for name in names:
            self.files[name] = self.part(name, pool, exports).encode()
        chosen = self.random.sample(names, self.pick([1, 1, len(names)]))
        options = self.options([indicator for name in chosen for indicator in self.defined.get(name, ())])
        self.arguments = options + chosen
        return self

    def part(self, name, pool, exports):
        """One file of a network."""
        self.file, self.module = name, self.modules[name] or "user"
        texts = []
        for item in exports[name]:
            if not self.risky(1):
                texts.append(self.defining(item, 0))
        texts += self.several(lambda: self.defining(self.pick(pool)), 0, 9 if self.pool else 5)
        texts += self.several(lambda: f":- {self.import_of(exports)}", 0, 3)
        while self.chance(0.4):
            title, arity = self.pick(pool).split("/")
            qualifier = self.pick(["", f"{self.some_module()}:"])
            meanings = [self.pick(["0", "1", "?", "^", "//", "2", "9", "10"]) for _ in range(int(arity))]
            texts.append(f":- meta_predicate {qualifier}{self.compound(title, meanings)}")
        if self.chance(0.3):
            texts.append(f":- {self.pick(['dynamic', 'multifile'])} {self.pick(['', '', self.some_module() + ':'])}{self.pick(pool)}")
        if self.chance(0.2):
            texts.append(f":- {self.pooled_goal(pool, 1)}")
        self.random.shuffle(texts)
        if self.modules[name]:
            texts.insert(0, f":- module({self.modules[name]}, [{', '.join(exports[name])}])")
        return "".join(text + ".\n" for text in texts)

    def some_module(self):
        return self.pick([module for module in self.modules.values() if module] + ["user", "other"])

    def import_of(self, exports):
        specification = self.module_file() if self.chance(0.8) else self.specification()
        target = self.pick([name for name in exports if self.modules[name]] or list(exports))
        if self.chance(0.4):
            some = [item for item in exports[target] if self.chance(0.6)] + ([self.exported()] if self.risky() else [])
            return f"use_module('{'../' if '/' in self.file else ''}{target}', [{', '.join(some)}])"
        return self.pick([f"use_module({specification})", f"use_module([{specification}, {self.module_file()}])", f"ensure_loaded({specification})",
                          f"consult({specification})", f"[{specification}]"])

    def defining(self, item, elsewhere=0.12):
        title, arity = item.split("/")
        goals = ", ".join(self.several(lambda: self.pooled_goal([item, *self.pool_of(item)], 2), 0, 3))
        qualifier = f"{self.some_module()}:" if self.chance(elsewhere) else ""
        if not qualifier:
            self.define(item)
        head = f"{qualifier}{self.compound(title, ['X'] * int(arity))}"
        return f"{head} :- {goals}" if goals else head

    def pool_of(self, item):
        return self.pool or [item, "p/0", "q/0", "r/0", "s/0", "p/1", "q/1", "r/1", "write/1", "nl/0", "call/1", "t/0", "u/0", "v/0", "s/1", "t/1", "maplist/2",
                             "once/1",
                "'a b'/0", "'a b'/1", "halt/0", "b1/0", "b2/1", "b3/0", "b4/1", "b5/2", "p/2", "q/2", "r/2", "call/2"]

    def pooled_goal(self, pool, depth):
        if self.probe and self.chance(0.15):
            return self.pick(["1", "X^2", "'-'1", "m:3", "4:p", '"a"'])
        title, arity = self.pick(pool).split("/")
        kind = self.weighted(call=6, module=1.5, added=1, meta=1.5 * (depth > 0), argument=1.5 * (depth > 0))
        if kind == "call":
            return self.compound(title, ["X"] * int(arity))
        if kind == "module":
            return f"{self.some_module()}:{self.compound(title, ['X'] * int(arity))}"
        if kind == "added":
            qualifier = self.pick(["", "", f"{self.some_module()}:"])
            return f"call({qualifier}{title}{', X' * int(arity)})"
        inner = self.pooled_goal(pool, depth - 1)
        if kind == "meta":
            return self.pick([f"findall(X, {inner}, L)", f"\\+ {inner}", f"({inner} -> true ; {inner})", f"{self.some_module()}:once({inner})",
                              f"setof(X, Y^{inner}, L)", f"maplist({inner}, L)"])
        return self.compound(title, [inner] * max(1, int(arity)))

    # Bundles.

    def deep(self):
        """A term whose depth is near the greatest one."""
        count = 1000 - self.random.randint(-3, 6)
        parts = [("(", ")"), ("f(", ")"), ("[", "]"), ("{", "}"), ("- ", ""), ("\\+ ", ""), ("[a|", "]"), ("f(a,", ")"), ("a^", ""), ("a+(", ")"), ("-(", ")"),
                 ("(a,", ")"), ("a:", ""), ("[a,", "]")]
        pairs = [self.pick(parts)] if self.chance(0.6) else self.random.sample(parts, 2)
        chosen = [self.pick(pairs) for _ in range(count)]
        middle = self.pick(["a", "X", "-1", "[]", "{}", "[ ]", "1", "f(a)", "[a]", "a+b", "- 1", "- a", "(a)", "{a}", "-", "- = a", "- =", "", "- =(a)", '"s"',
                            "-(1)", "a,b", "+", "-1.5"])
        text = "".join(opening for opening, _ in chosen) + middle + "".join(closing for _, closing in reversed(chosen))
        if self.chance(0.25):
            text = self.pick([",", ";", "+", "^", "=", "-"]).join(["a"] * count) + self.pick(["", ", b", "+ b", "^b", " = b", "-1", " - 1"])
        return self.pick(["p :- ", "", "p(", "p :- q, "]) + text + self.pick(["", "", ")", ", b"])

    def soup(self):
        """Tokens in no order."""
        tokens = SPANS[:] + ["p", "q", "+", "=", "-", "X", "1", "(", ")", "f(", ",", "[", "]", "op", "pre", "post", ":-"] * 4
        return "".join(self.pick(tokens) + self.pick(["", " ", " "]) for _ in range(self.random.randint(1, 12)))

    def plain_soup(self):
        """Tokens that are right each by itself."""
        tokens = ["a", "X", "1", "-", "+", "=", "\\+", "(", ")", "f(", ",", "[", "]", "|", "{", "}", "op", "pre", "post", "dynamic", ":-", "-1", "=(", "-(",
                  "'='", "'-'", "*", ":", "a", "X", "[]", "!"]
        return " ".join(self.pick(tokens) for _ in range(self.random.randint(2, 10)))

    def short_text(self):
        self.own_infix, self.own_prefix, self.own_postfix = [], [], []
        clauses = self.several(lambda: f":- {self.operator()}", 0, 2) if self.chance(0.5) else []
        kind = self.weighted(soup=2, plain=4, term=3, noise=4, clause=2, deep=0.3, module=1)
        if kind == "soup":
            clauses.append(self.soup())
        elif kind == "plain":
            clauses.append(self.plain_soup())
        elif kind == "deep":
            clauses.append(self.deep())
        elif kind == "term":
            clauses.append(f"p :- {self.term(1100, 3)}")
        elif kind == "module":
            clauses.insert(0, self.module_directive("m", ["p/0"]))
            clauses += self.several(self.directive, 0, 2)
        else:
            clauses += self.several(self.clause, 0, 1) + self.several(self.directive, 0, 2)
        text = "".join(clause + self.pick([" .\n", ".\n"]) for clause in clauses)
        if kind == "noise":
            text = self.noise(text)
        return self.spoiled(text) if self.chance(0.1) else text.encode()

    def bundle(self):
        self.risk = self.random.choice([0.05, 0.3, 0.6])
        for number in range(TEXTS_OF_A_BUNDLE):
            self.files[f"t{number:02}.pl"] = self.short_text()
        self.files["z.pl"] = b"3."
        self.arguments = sorted(self.files)
        return self


def made(seed, number):
    maker = Maker(f"{seed}/{number}")
    return (maker.bundle, maker.network, maker.program, maker.program)[number % 4]()


# Runs.

class Bench:
    """Runs both programs in a folder of its own."""

    def __init__(self, binary, folder):
        self.binary = binary
        self.folder = folder
        self.present = {}
        os.makedirs(folder, exist_ok=True)
        os.makedirs(os.path.join(folder, "x"), exist_ok=True)
        os.chdir(folder)

    def put(self, files):
        for name in [name for name in self.present if name not in files]:
            os.remove(name)
            folder = os.path.dirname(name)
            if folder and not os.listdir(folder):
                os.rmdir(folder)
            del self.present[name]
        for name, data in files.items():
            if self.present.get(name) != data:
                if "/" in name:
                    os.makedirs(os.path.dirname(name), exist_ok=True)
                with open(name, "wb") as file:
                    file.write(data)
                self.present[name] = data

    def answers(self, files, arguments):
        """(status, output, errors) of the binary, and of the evaluator."""
        self.put(files)
        run = subprocess.run([self.binary, *arguments], stdin=subprocess.DEVNULL, capture_output=True, check=False)
        try:
            status, output, errors = evaluator.answer(arguments, lambda names: evaluator.Program(names, evaluator.read_file))
        except Exception as error:  # noqa: BLE001  A failure of the evaluator is a difference too.
            status, output, errors = -1, "", f"evaluator: {type(error).__name__} {error}"
        return (run.returncode, run.stdout, run.stderr), (status, output.encode(), errors.encode())

    def differs(self, files, arguments):
        first, second = self.answers(files, arguments)
        return first != second


def without(items, wrong):
    """The shortest list that is still `wrong`, by dropping runs of items."""
    size = max(1, len(items) // 2)
    while size:
        at = 0
        while at < len(items):
            fewer = items[:at] + items[at + size:]
            if wrong(fewer):
                items = fewer
            else:
                at += size
        size //= 2
    return items


def shrunk(bench, files, arguments):
    """A smaller program with a difference."""
    arguments = without(arguments, lambda some: bench.differs(files, some))
    names = without(sorted(files), lambda some: bench.differs({name: files[name] for name in some}, arguments))
    files = {name: files[name] for name in names}
    for name in names:
        for pattern in (rb"[^\n]*\n|[^\n]+", rb"\w+|\s+|.", rb"(?s)."):
            pieces = re.findall(pattern, files[name])
            if len(pieces) < 3000:
                files[name] = b"".join(without(pieces, lambda some, name=name: bench.differs({**files, name: b"".join(some)}, arguments)))
    return files, arguments


def shown(bench, number, files, arguments):
    first, second = bench.answers(files, arguments)
    lines = [f"== program {number}: {' '.join(map(repr, arguments))}"]
    for name in sorted(files):
        lines.append(f"-- {name}\n{files[name].decode('utf-8', 'backslashreplace')}")
    for title, (status, output, errors) in (("groups", first), ("evaluator", second)):
        lines.append(f"-- {title}: status {status}\n{(output + errors).decode('utf-8', 'backslashreplace')}")
    return "\n".join(lines)


def run_one(bench, maker, number, counts):
    """Runs one program, and prints the difference if there is one."""
    first, second = bench.answers(maker.files, maker.arguments)
    counts["run"] += 1
    counts["texts in bundles" if number % 4 == 0 else "files of programs"] += len(maker.files)
    counts[f"status {first[0]}"] += 1
    if first[0] == 3:
        counts.update(line.rsplit(": ", 1)[-1] for line in first[2].decode("utf-8", "replace").splitlines())
    counts.update({line.split()[1] if line[:1].isdigit() else line.split()[0] for line in first[1].decode().splitlines()})
    if first != second:
        counts["differences"] += 1
        print(shown(bench, number, *shrunk(bench, maker.files, maker.arguments)), flush=True)


def work(job):
    """Runs the programs of some numbers, and counts what they reached. SIGINT and SIGTERM end the run."""
    for number in (signal.SIGINT, signal.SIGTERM):
        signal.signal(number, signal.default_int_handler)
    binary, folder, seed, numbers, stop, seconds = job
    end = time.monotonic() + seconds
    bench = Bench(binary, folder)
    counts = Counter()
    try:
        for number in numbers:
            run_one(bench, made(seed, number), number, counts)
            if counts["differences"] >= stop or time.monotonic() > end:
                break
    except KeyboardInterrupt:
        pass
    return counts


def main():
    parser = argparse.ArgumentParser()
    parser.add_argument("--count", type=int, default=10_000)
    parser.add_argument("--first", type=int, default=0)
    parser.add_argument("--seed", type=int, default=1)
    parser.add_argument("--jobs", type=int, default=1)
    parser.add_argument("--stop", type=int, default=10)
    parser.add_argument("--seconds", type=float, default=1e9)
    program.add_option(parser)
    given = parser.parse_args()
    folder = tempfile.mkdtemp()
    numbers = range(given.first, given.first + given.count)
    jobs = [(str(program.of(given)), os.path.join(folder, str(job)), given.seed, numbers[job::given.jobs], given.stop, given.seconds)
            for job in range(given.jobs)]
    try:
        if given.jobs == 1:
            results = [work(jobs[0])]
        else:
            with multiprocessing.Pool(given.jobs) as pool:
                results = pool.map(work, jobs)
    finally:
        os.chdir(ROOT)
        shutil.rmtree(folder)
    counts = sum(results, Counter())
    for text, count in sorted(counts.items()):
        print(f"{count:9} {text}")
    print(f"{counts['run']} runs, {counts['differences']} differences")
    return 1 if counts["differences"] else 0


if __name__ == "__main__":
    sys.exit(main())
