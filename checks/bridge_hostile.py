"""Programs for checks/bridge.py that are wrong, huge or without an end, and what the bridge must do with them."""

import os
import pathlib


def told(files, lines=()):
    """The lines of faults, and the count at their end."""
    lacking = len({line.split(":")[0] for line in lines})
    return "".join(f"{line}\n" for line in [*lines, f"groups-swi: {files}, {lacking} with something left out"] if lines)


def report(*names, levels=1):
    """A report of predicates without recursion, whose levels are given by `NAME` or `LEVEL NAME`."""
    lines = [name if " " in name else f"0 {name}" for name in names]
    first = f"predicates {len(lines)} groups {len(lines)} recursive 0 levels {levels}\n"
    return first + "".join(f"{line.split(' ', 1)[0]} plain {line.split(' ', 1)[1]}\n" for line in lines)


def pipes(room):
    os.mkfifo(pathlib.Path(room, "pipe.pl"))


def diamonds(deep):
    files = {}
    for layer in range(deep):
        for side in "xy":
            again = "".join(f":- reexport(d{layer + 1}{other}).\n" for other in "xy") if layer < deep - 1 else ""
            files[f"d{layer}{side}.pl"] = f":- module(d{layer}{side}, [p{layer}{side}/0]).\n{again}p{layer}{side}.\n"
    return files


def all_load_all(count):
    loads = "".join(f":- use_module(m{other}).\n" for other in range(count))
    return {f"m{it}.pl": f":- module(m{it}, [q{it}/0]).\n{loads}q{it} :- q{(it + 1) % count}.\n" for it in range(count)}


ONE = "1 file"
EXPORTS = ", ".join(f"p{it}/0" for it in range(4000))
CLAUSES = "".join(f"p{it}.\n" for it in range(4000))
WRONG = """:- module(X, []).
:- dynamic p/q, f(x), 3.
:- use_module(X).
:- op(a, b, c).
:- encoding(nonsense).
:- initialization(X).
:- X.
X.
3.
(a, b) :- c.
X :- p.
p :- [a], X, f("s").
"""

# What is tried, the files, the words, the status, the report or its first line, the lines of faults or None; what is done to the folder before.
HOSTILE = [
    ("an encoding that the text names", {"f.pl": ":- encoding(iso_latin_1).\n'caf\xe9' :- 'caf\xe8'.\n'caf\xe8'.\n".encode("latin-1")}, ["f.pl"], 0,
     report("user:cafè/0", "1 user:café/0", levels=2), ""),
    ("an encoding that changes within the text", {"f.pl": "'é' :- a.\n:- encoding(iso_latin_1).\na :- '".encode() + b"\xe9'.\n:- encoding(utf8).\nb :- '\xc3\xa9'.\n"},
     ["f.pl"], 0, "predicates 3 groups 2 recursive 1 levels 2\n", ""),
    ("bytes that are no UTF-8", {"f.pl": b"p.\n'caf\xe9' :- p.\n"}, ["f.pl"], 8, "predicates 2 groups 2 recursive 0 levels 2\n",
     told(ONE, ["f.pl:2:5: bytes here don't fit the encoding utf8"])),
    ("UTF-16 with a byte order mark", {"f.pl": "p :- q.\nq :- 3.\n".encode("utf-16")}, ["f.pl"], 8, report("user:q/0", "1 user:p/0", levels=2),
     told(ONE, ["f.pl:2:6: goal 3 isn't callable"])),
    ("UTF-16, most significant byte first", {"f.pl": "\ufeffp :- q.\nq.\n".encode("utf-16-be")}, ["f.pl"], 0, report("user:q/0", "1 user:p/0", levels=2), ""),
    ("UTF-8 with a byte order mark", {"f.pl": "\ufeffp :- q.\nq.\n".encode()}, ["f.pl"], 0, report("user:q/0", "1 user:p/0", levels=2), ""),
    ("a file that exports itself again", {"f.pl": ":- module(f, [p/0]).\n:- reexport(f).\np.\n"}, ["f.pl"], 0, report("f:p/0"), ""),
    ("two files that export each other again",
     {"f.pl": ":- module(f, [p/0]).\n:- reexport(g).\np :- q.\n", "g.pl": ":- module(g, [q/0]).\n:- reexport(f).\nq :- p.\n"}, ["f.pl"], 0,
     "predicates 2 groups 1 recursive 1 levels 1\n", ""),
    ("24 layers of reexports, each to both of the next", diamonds(24), ["d0x.pl"], 0, "predicates 47 groups 47 recursive 0 levels 1\n", ""),
    ("texts that include each other", {"f.pl": "a.\n:- include(g).\n", "g.pl": "b.\n:- include(f).\n"}, ["f.pl"], 8, report("user:a/0", "user:b/0"),
     told(ONE, ["g.pl:2:1: file f includes itself"])),
    ("texts that include the next one twice, 16 deep",
     {**{f"i{it}.pl": f":- include(i{it + 1}).\n:- include(i{it + 1}).\n" for it in range(16)}, "i16.pl": "p.\n"}, ["i0.pl"], 8, report("user:p/0"), None),
    ("devices, pipes and files without a size",
     {"f.pl": ":- include('/dev/zero').\n:- include(pipe).\n:- include('/proc/kmsg').\n:- use_module('/dev/zero').\np.\n"}, ["f.pl"], 8, report("user:p/0"), None, pipes),
    ("conditions that take for ever or make huge terms",
     {"f.pl": ":- if(0 < 3**(3**20)).\np.\n:- endif.\n:- if((N = 3, X is N**(N**20))).\nq.\n:- endif.\n:- if(functor(T, f, 1000000000)).\nr.\n:- endif.\n"
      ":- if((repeat, fail)).\ns.\n:- endif.\n:- if((member(_, _), fail)).\nt.\n:- endif.\n:- if(X is 1 << 1000000000).\nu.\n:- endif.\n"},
     ["f.pl"], 8, report("user:p/0", "user:q/0", "user:s/0", "user:t/0", "user:u/0"), None),
    ("a root that isn't there, in a text without a clause", {"f.pl": ""}, ["--roots", "zzz/0", "f.pl"], 2, "", "groups: no predicate user:zzz/0\n"),
    ("a body of 5,000 goals", {"f.pl": "p :- " + ", ".join(["q"] * 5000) + ".\nq.\n"}, ["f.pl"], 0, report("user:q/0", "1 user:p/0", levels=2), ""),
    ("goals deep in brackets, operators and terms",
     {"f.pl": "p :- " + "(" * 3000 + "q" + ")" * 3000 + ", " + "\\+ " * 3000 + "r, f(" * 1 + "g(" * 3000 + "x" + ")" * 3000 + ").\nq. r. f(_).\n"}, ["f.pl"], 0,
     report("user:f/1", "user:q/0", "user:r/0", "1 user:p/0", levels=2), ""),
    ("brackets deeper than SWI-Prolog reads", {"f.pl": "p :- " + "f(" * 300000 + "x" + ")" * 300000 + ".\nq.\n"}, ["f.pl"], 8, report("user:q/0"), None),
    ("goals that can't be called, at their own places", {"f.pl": "p :- 3:q.\n\tr :-\ts, 3.\ns.\n:- (if(true), s).\n"}, ["f.pl"], 8, "predicates 3 groups 3 recursive 0 levels 2\n",
     told(ONE, ["f.pl:1:6: goal 3 isn't callable", "f.pl:2:10: goal 3 isn't callable", "f.pl:4:1: condition isn't the whole of its directive"])),
    ("a name with a tab", {"a\tb.pl": "p :- 3.\n"}, ["a\tb.pl"], 8, report("user:p/0"), told(ONE, ["a?b.pl:1:6: goal 3 isn't callable"])),
    ("a file that is too large", {"f.pl": ":- include(g).\np.\n", "g.pl": "% " + "x" * 9000000 + "\nq.\n"}, ["f.pl"], 8, report("user:p/0"),
     told(ONE, ["g.pl:1:1: file is larger than 8388608 bytes"])),
    ("4,000 exports, taken one by one and all", {"f.pl": f":- use_module(g, [{EXPORTS}]).\n:- use_module(g).\nq :- p7.\n", "g.pl": f":- module(g, [{EXPORTS}]).\n{CLAUSES}"},
     ["f.pl"], 0, report("g:p7/0", "1 user:q/0", levels=2), ""),
    ("80 modules that all load each other", all_load_all(80), ["m0.pl"], 0, "predicates 80 groups 1 recursive 1 levels 1\n", ""),
    ("facts of goal_expansion/2 that expand each other for ever",
     {"f.pl": "goal_expansion(a, (a, a, b)).\ngoal_expansion(b, (a, b, b)).\ngoal_expansion(f(X), f(g(X))).\np :- a, f(1).\na. b. f(_).\n"}, ["f.pl"], 0,
     report("user:a/0", "user:b/0", "user:f/1", "user:goal_expansion/2", "1 user:p/0", levels=2), ""),
    ("texts that say nothing", {"f.pl": WRONG}, ["f.pl"], 8, "predicates 1 groups 1 recursive 0 levels 1\n", None),
    ("conditions that aren't opened or closed", {"f.pl": ":- else.\np.\n:- if(fail).\nq :- (.\n"}, ["f.pl"], 8, report("user:p/0"),
     told(ONE, ["f.pl:1:1: no if stands before it", "f.pl:3:1: no endif closes this if"])),
    ("300 modules, each of which loads the next", {**{f"l{it}.pl": f":- module(l{it}, []).\n:- use_module(l{it + 1}).\n" for it in range(300)}, "l300.pl": ":- module(l300, []).\n"},
     ["l0.pl"], 0, "predicates 0 groups 0 recursive 0 levels 0\n", ""),
    ("a module with the name of a library that is loaded where it is called", {"f.pl": ":- module(ordsets, [p/0]).\np :- list_to_ord_set([], _).\n"},
     ["--libraries", "f.pl"], 0, report("ordsets:p/0"), "groups-swi: 1 file, 0 with something left out; of the libraries 1\n"),
    ("conditions that square a number again and again", {"f.pl": ":- if((X0 = 3, " + "".join(f"X{it + 1} is X{it} * X{it}, " for it in range(40)) + "X40 > 0)).\np.\n:- endif.\n"
     ":- if(((9 ** 64) ** 64) ** 64 ** 64 > 0).\nq.\n:- endif.\n"}, ["--no-run", "f.pl"], 8, report("user:p/0", "user:q/0"), None),
    ("a name that files which export each other again don't have",
     {"f.pl": ":- use_module(g, [no/0]).\n:- if(current_predicate(other/0)).\n:- endif.\n:- use_module(g).\n:- if(current_predicate(other/0)).\n:- endif.\np.\n",
      "g.pl": ":- module(g, []).\n:- reexport(h).\n", "h.pl": ":- module(h, []).\n:- reexport(g).\n"},
     ["f.pl"], 8, report("user:p/0") + "import-loop g h\n", "f.pl:1:1: no/0 isn't exported there\ngroups-swi: 3 files, 1 with something left out\n"),
    ("a name that 20 layers of reexports don't have", {**diamonds(20), "f.pl": ":- use_module(d0x, [no/0]).\np.\n"}, ["f.pl"], 8, report("user:p/0"), None),
]
