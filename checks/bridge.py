#!/usr/bin/env python3
"""Tries bridges/swi/groups-swi and calls-swi: on small programs with known answers, on programs whose calls SWI-Prolog itself traces, on hostile ones,
and then on the `.pl` files of the Prolog packages that are installed, each in its own folder.

Of these it prints how many get a report by `groups` alone and by the bridge, and what is told most if something is left out. All that `calls` alone
tells of a file `calls-swi` must tell at the same place. Then the groups of a hundred of them are compared with those of the calls that SWI-Prolog's
prolog_xref tells; files that differ are listed with their first difference (docs/bridge.md has the reasons). Ends with status 1 if a program is answered
wrongly, if fewer than nine of ten files get a report, or if a run dies or takes longer than a minute. Without swipl or the packages it says so.

--every N takes each Nth file alone. --libraries reads the whole installed library of SWI-Prolog in one run instead, and prints what that took.
"""

import argparse
import collections
import concurrent.futures
import json
import os
import pathlib
import re
import resource
import shutil
import signal
import subprocess
import sys
import tempfile
import time

import bridge_cases
import bridge_hostile
import real_programs

ROOT = pathlib.Path(__file__).resolve().parent.parent
GROUPS = pathlib.Path(os.environ.get("GROUPS_PROGRAM", ROOT / "groups"))
CALLS = pathlib.Path(os.environ.get("CALLS_PROGRAM", ROOT / "calls"))
BRIDGE = ROOT / "bridges" / "swi" / "groups-swi"
CALLS_BRIDGE = ROOT / "bridges" / "swi" / "calls-swi"
GOALS = ROOT / "bridges" / "swi" / "library-goals"
TRACED = ROOT / "checks" / "bridge_programs"
PEERS = ROOT / "checks" / "bridge_peers"
MOST_SECONDS = 60
HOSTILE_SECONDS = 20
COMPARED = 100
AT_ONCE = 2
NAME = re.compile(r"(?:'(?:[^'\\]|\\.|'')*'|[^ '])+")


def write_files(room, files):
    for name, text in files.items():
        path = pathlib.Path(room, name)
        path.parent.mkdir(parents=True, exist_ok=True)
        path.write_bytes(text if isinstance(text, bytes) else text.encode())


def answer(files, words, before=None, command=BRIDGE, most=MOST_SECONDS):
    """Status, output and faults of a run in a folder that may only be read; what stays behind in the folder for temporary files is a fault."""
    with tempfile.TemporaryDirectory(prefix="bridge-") as room, tempfile.TemporaryDirectory(prefix="bridge-") as own:
        write_files(room, files)
        if before:
            before(room)
        folders = [folder for folder, _, _ in os.walk(room)]
        for folder in folders:
            os.chmod(folder, 0o555)
        try:
            done = subprocess.run([command, *words], cwd=room, env={**os.environ, "TMPDIR": own}, stdin=subprocess.DEVNULL, capture_output=True, timeout=most)
            result = done.returncode, done.stdout.decode(errors="replace"), done.stderr.decode(errors="replace")
        except subprocess.TimeoutExpired:
            result = None, "", f"takes longer than {most} s"
        left = os.listdir(own)
        for folder in folders:
            os.chmod(folder, 0o755)
    return (result[0], result[1], f"{left} stay behind") if left else result


def try_case(case, most=MOST_SECONDS):
    """What is wrong with the answer to one case, or nothing. A report that ends with its first line stands for all that begin so."""
    what, files, words, status, report, faults, *before = case
    told = answer(files, words, *before, most=most)
    same = told[1].startswith(report) if report.startswith("predicates") and report.count("\n") == 1 else told[1] == report
    right = told[0] == status and same and faults in (None, told[2])
    return "" if right else f"{what}: {told}"


def try_hostile(case):
    return try_case(case, HOSTILE_SECONDS)


def told_calls(output):
    """The pairs of a caller and a callee that calls-swi tells, and the predicates that are in a group."""
    names, pairs, reached = {}, set(), set()
    for said in map(json.loads, output.splitlines()):
        if said["is"] == "predicate":
            names[said["id"]] = f"{said['module']}:{said['name']}/{said['arity']}"
            if said["group"] is not None:
                reached.add(names[said["id"]])
        elif said["is"] == "call" and None not in (said["caller"], said["callee"]):
            pairs.add((names[said["caller"]], names[said["callee"]]))
    return pairs, reached


def try_pairs(case):
    """What is wrong with the pairs that are told of a small program; a name without a module is one of user."""
    what, files, words, wanted, absent = case
    status, out, faults = answer(files, ["--unreached", *words], command=CALLS_BRIDGE)
    pairs = {f"{caller.removeprefix('user:')}>{callee.removeprefix('user:')}" for caller, callee in told_calls(out)[0]}
    missing = [pair for pair in wanted.split() if pair.replace("user:", "") not in pairs]
    wrong = [pair for pair in absent.split() if pair in pairs]
    return f"{what}: status {status}, missing {missing}, wrong {wrong}: {faults}" if missing or wrong or status not in (0, 8) else ""


def plain(name):
    """A name without its quotes: what it is spelled with decides nothing."""
    spelled = {"n": "\n", "t": "\t"}

    def unquoted(found):
        text = re.sub(r"\\x([0-9a-fA-F]+)\\", lambda it: chr(int(it[1], 16)), found[1].replace("''", "'"))
        return re.sub(r"\\(.)", lambda it: spelled.get(it[1], it[1]), text)

    return re.sub(r"'((?:[^'\\]|\\.|'')*)'", unquoted, name)


def names_in(line):
    return tuple(plain(name) for name in NAME.findall(line))


def traced(folder):
    """The pairs that SWI-Prolog makes when it runs the program, and what it calls from outside; as corrected by the program's own notes."""
    words = ["swipl", "-f", "none", str(ROOT / "checks" / "bridge_trace.pl"), "--", str(folder), "main.pl"]
    done = subprocess.run(words, stdin=subprocess.DEVNULL, capture_output=True, text=True, timeout=MOST_SECONDS)
    if done.returncode != 0:
        return None
    lines = [names_in(line) for line in done.stdout.splitlines()]
    outside = {callee for caller, callee in lines if caller == "ran"}
    pairs = {pair for pair in lines if pair[0] != "ran"}
    ran, text = outside | {callee for _, callee in pairs}, (folder / "main.pl").read_text(encoding="latin-1")
    for sign, rest in re.findall(r"^%([-+]) (.*)$", text, re.M):
        if sign == "+":
            pairs.add(names_in(rest))
        else:
            pairs.discard(names_in(rest))
            ran.discard(names_in(rest)[1])
    return pairs, outside, ran


def try_traced(folder):
    """What is wrong with the calls told of a program that SWI-Prolog runs: all of them and no other, and all that ran is reached.

    A note `%- CALLER CALLEE` in main.pl is of a call that the text doesn't say, `%+ CALLER CALLEE` of one that the debugger doesn't see.
    What is called from outside, as a hook or in another thread, may have any caller.
    """
    found = traced(folder)
    if found is None:
        return f"{folder.name}: SWI-Prolog doesn't run it"
    done = subprocess.run([CALLS_BRIDGE, "--unreached", "main.pl"], cwd=folder, stdin=subprocess.DEVNULL, capture_output=True, text=True, timeout=MOST_SECONDS)
    pairs, reached = told_calls(done.stdout)
    wanted, outside, ran = found
    missing, more = wanted - pairs, {pair for pair in pairs - wanted if pair[1] not in outside}
    if not missing and not more and ran <= reached and done.returncode in (0, 8):
        return ""
    return f"{folder.name}: missing {sorted(missing)}, more {sorted(more)}, unreached {sorted(ran - reached)}: {done.stderr}"


def try_peer(folder):
    """Whether a program on which the bridge once went wrong gets its answer: the report, the status and the faults, as SWI-Prolog itself runs it."""
    words = (folder / "words").read_text().split()
    done = subprocess.run([BRIDGE, *words], cwd=folder, stdin=subprocess.DEVNULL, capture_output=True, text=True, timeout=MOST_SECONDS)
    told = f"{done.stdout}status {done.returncode}\n{done.stderr}"
    return "" if told == (folder / "answer").read_text() else f"{folder.name}: {told}"


FACT = re.compile(r"^([a-z]\w*)(\([^()]*\))?\.\n", re.M)


def without_a_fact(text):
    """The text without one fact that alone defines its predicate, or nothing if there is none."""
    for found in FACT.finditer(text):
        name = found[1]
        if len(re.findall(rf"^{name}\b", text, re.M)) == 1 and not re.search(rf"[a-z_]+ {name}/|[\[,] *{name}/", text):
            return text[: found.start()] + text[found.end() :]
    return None


def try_undefined(folder):
    """Whether calls-swi --undefined and SWI-Prolog's list_undefined tell the same of a program that lacks a predicate; True if none can be taken away."""
    text = without_a_fact((folder / "main.pl").read_text(encoding="latin-1"))
    if text is None:
        return True
    with tempfile.TemporaryDirectory(prefix="bridge-") as room:
        shutil.copytree(folder, room, dirs_exist_ok=True)
        pathlib.Path(room, "main.pl").write_text(text, encoding="latin-1")
        words = ["swipl", "-f", "none", str(ROOT / "checks" / "bridge_undefined.pl"), "--", room, "main.pl"]
        done = subprocess.run(words, stdin=subprocess.DEVNULL, capture_output=True, text=True, timeout=MOST_SECONDS)
        words = [CALLS_BRIDGE, "--undefined", "--unreached", "main.pl"]
        told = subprocess.run(words, cwd=room, stdin=subprocess.DEVNULL, capture_output=True, text=True, timeout=MOST_SECONDS).stdout
    theirs = {plain(line) for line in done.stdout.splitlines()}
    calls = [said for said in map(json.loads, told.splitlines()) if said["is"] == "call" and said["caller"] is not None]
    ours = {f"{said['module']}:{said['name']}/{said['arity']}" for said in calls if said["callee"] is None}
    return "" if ours == theirs else f"{folder.name}: undefined by list_undefined {sorted(theirs)}, by calls-swi {sorted(ours)}"


def try_library_goals():
    """Whether `groups` follows goals of library predicates with the declarations that library-goals writes."""
    files = {"f.pl": ":- module(f, [p/1]).\np(L) :- foldl([X, A, B]>>q(X, A, B), L, 0, _), aggregate_all(count, r, _).\nq(_, A, A) :- p([]).\nr :- p([]).\n"}
    with tempfile.TemporaryDirectory(prefix="bridge-") as room:
        write_files(room, files)
        done = subprocess.run([GOALS, "f.pl"], cwd=room, stdin=subprocess.DEVNULL, capture_output=True, text=True, timeout=MOST_SECONDS)
        pathlib.Path(room, "goals.pl").write_text(done.stdout)
        report = subprocess.run([GROUPS, "f.pl", "goals.pl"], cwd=room, stdin=subprocess.DEVNULL, capture_output=True, text=True).stdout
    right = done.returncode == 0 and "recursive f:p/1 f:q/3 f:r/0" in report
    return "" if right else f"library-goals: {done.returncode}, {done.stdout}, {done.stderr}, {report}"


def try_signal():
    """Whether SIGTERM ends the bridge and SWI-Prolog at once, and takes the temporary folder away."""
    with tempfile.TemporaryDirectory(prefix="bridge-") as room:
        write_files(room, {"f.pl": "p.\n" * 400000})
        running = subprocess.Popen([BRIDGE, "f.pl"], cwd=room, env={**os.environ, "TMPDIR": room}, stdout=subprocess.DEVNULL, stderr=subprocess.DEVNULL)
        time.sleep(0.6)
        running.send_signal(signal.SIGTERM)
        try:
            status = running.wait(3)
        except subprocess.TimeoutExpired:
            running.kill()
            return "SIGTERM doesn't end it"
        left = [name for name in os.listdir(room) if name != "f.pl"]
    return "" if status == 130 and not left else f"SIGTERM: status {status}, {left} stay behind"


def try_help():
    """Whether each command prints a page of at most 30 lines of 60 columns about itself."""
    for command in (BRIDGE, CALLS_BRIDGE, GOALS):
        done = subprocess.run([command, "--help"], stdin=subprocess.DEVNULL, capture_output=True, text=True, timeout=MOST_SECONDS)
        lines = done.stdout.splitlines()
        if done.returncode or done.stderr or not lines or "usage" not in lines[0] or command.name not in lines[0] or len(lines) > 30 or max(map(len, lines)) > 60:
            return f"{command.name} --help: {done.returncode}, {done.stdout}{done.stderr}"
    return ""


def try_settings():
    """Whether the user's own settings of SWI-Prolog stay unread."""
    with tempfile.TemporaryDirectory(prefix="bridge-") as room:
        write_files(room, {"swi-prolog/init.pl": f":- open('{room}/ran', write, S), close(S).\n", "f.pl": "p.\n"})
        subprocess.run([BRIDGE, "f.pl"], cwd=room, env={**os.environ, "XDG_CONFIG_HOME": room}, stdin=subprocess.DEVNULL, capture_output=True, timeout=MOST_SECONDS)
        return "the user's settings are run" if pathlib.Path(room, "ran").exists() else ""


# Texts that would write the file `ran` if anything of them was run.
TRAP = "open(ran, write, S), close(S)"
TRAPS = {
    "f.pl": f""":- dynamic user:file_search_path/2.
user:file_search_path(library, '.').
:- use_module(library(record)).
:- use_module(library(lists)).
:- {TRAP}.
:- initialization(({TRAP})).
:- initialization(({TRAP}), now).
term_expansion(_, []) :- {TRAP}.
user:goal_expansion(_, true) :- {TRAP}.
:- if(({TRAP})).
:- endif.
:- if(catch(true, _, ({TRAP}))).
:- endif.
:- if((X = ({TRAP}), X)).
:- endif.
:- if(forall(true, ({TRAP}))).
:- endif.
:- if(absolute_file_name('`touch ran`', _, [expand(true)])).
:- endif.
:- if(current_prolog_flag(home, _) -> ({TRAP}) ; true).
:- endif.
:- record point(x:integer=0).
:- set_prolog_flag(double_quotes, atom).
p :- point_x(_, X), q(X).
q(_) :- {{|trap||x|}}.
""",
    "record.pl": f":- module(record, []).\n:- {TRAP}.\n",
    "lists.pl": f":- module(lists, []).\n:- {TRAP}.\n",
    "error.pl": f":- module(error, []).\n:- {TRAP}.\n",
    "trap.pl": f":- module(trap, [trap/4]).\ntrap(_, _, _, _) :- {TRAP}.\n",
}


def swi_home():
    """The folder in which SWI-Prolog is installed."""
    told = subprocess.run(["swipl", "--dump-runtime-variables"], stdin=subprocess.DEVNULL, capture_output=True, text=True).stdout
    return pathlib.Path(told.partition('PLBASE="')[2].partition('"')[0])


def try_named_library():
    """Whether a library that an argument names is a file of the program for what loads it by library(..)."""
    words = [str(swi_home() / "library" / "http" / name) for name in ("html_head.pl", "html_write.pl")]
    done = subprocess.run([CALLS_BRIDGE, *words], stdin=subprocess.DEVNULL, capture_output=True, text=True, timeout=MOST_SECONDS)
    return "" if ("html_head:html_include/4", "html_write:html/3") in told_calls(done.stdout)[0] else f"a named library: {done.returncode} {done.stderr}"


def try_installed():
    """Whether the bridge runs from PREFIX/share/groups/swi, with the programs and links to its commands in PREFIX/bin."""
    with tempfile.TemporaryDirectory(prefix="bridge-") as room:
        prefix = pathlib.Path(room, "a prefix")
        shutil.copytree(BRIDGE.parent, prefix / "share" / "groups" / "swi")
        (prefix / "bin").mkdir()
        for name, program in (("groups", GROUPS), ("calls", CALLS)):
            (prefix / "bin" / name).symlink_to(program.resolve())
            (prefix / "bin" / f"{name}-swi").symlink_to(f"../share/groups/swi/{name}-swi")
        write_files(room, {"f.pl": "p.\n"})
        env = {name: value for name, value in os.environ.items() if name not in ("GROUPS_PROGRAM", "CALLS_PROGRAM")}
        how = {"cwd": room, "env": env, "stdin": subprocess.DEVNULL, "capture_output": True, "text": True, "timeout": MOST_SECONDS}
        told = [subprocess.run([prefix / "bin" / name, "f.pl"], **how) for name in ("groups-swi", "calls-swi")]
    return "" if [it.returncode for it in told] == [0, 0] and "user:p/0" in told[0].stdout else f"installed: {[(it.stdout, it.stderr) for it in told]}"


def try_bounds():
    """Whether a program that needs more memory or processor time than is allowed gets a line and a status."""
    with tempfile.TemporaryDirectory(prefix="bridge-") as room:
        write_files(room, {"f.pl": "".join(f"p{it} :- p{it + 1}.\n" for it in range(60000))})
        for name, most, status in (("BRIDGE_KILOBYTES", "50000", 7), ("BRIDGE_SECONDS", "1", 6)):
            how = {"cwd": room, "env": {**os.environ, name: most, "TMPDIR": room}, "stdin": subprocess.DEVNULL, "capture_output": True, "text": True}
            done = subprocess.run([BRIDGE, "f.pl"], timeout=MOST_SECONDS, **how)
            if done.returncode != status or done.stderr.count("\n") != 1 or name not in done.stderr or os.listdir(room) != ["f.pl"]:
                return f"{name}: status {done.returncode}, {done.stderr}, {os.listdir(room)}"
    return ""


def try_traps():
    """Whether nothing of a program is run when it is read."""
    with tempfile.TemporaryDirectory(prefix="bridge-") as room:
        write_files(room, TRAPS)
        for words in (["f.pl"], ["--libraries", "f.pl"], ["--no-run", "f.pl"]):
            done = subprocess.run([BRIDGE, *words], cwd=room, stdin=subprocess.DEVNULL, capture_output=True, text=True, timeout=MOST_SECONDS)
            if done.returncode != 8 or pathlib.Path(room, "ran").exists():
                return f"traps: status {done.returncode}, {done.stdout}{done.stderr}"
    return ""


def try_modules():
    """Whether the tests of the bridge's own modules pass."""
    words = ["swipl", "-f", "none", "-g", "run_tests", "-t", "halt", "tests.pl"]
    done = subprocess.run(words, cwd=BRIDGE.parent, stdin=subprocess.DEVNULL, capture_output=True, text=True, timeout=MOST_SECONDS)
    return "" if done.returncode == 0 and "Warning" not in done.stderr else f"tests.pl: {done.stderr}"


def try_small():
    """What is wrong with the answers to all small programs."""
    folders, peers = (sorted(path for path in top.iterdir() if path.is_dir()) for top in (TRACED, PEERS))
    kinds = [
        ("small programs", try_case, bridge_cases.CASES),
        ("small programs' calls", try_pairs, bridge_cases.PAIRS),
        ("hostile programs", try_hostile, bridge_hostile.HOSTILE),
        ("programs that SWI-Prolog traces", try_traced, folders),
        ("programs with known answers", try_peer, peers),
        ("programs beside list_undefined", try_undefined, folders),
        ("other things", lambda attempt: attempt(), [try_library_goals, try_help, try_signal, try_settings, try_named_library, try_installed, try_bounds, try_traps, try_modules]),
    ]
    wrong = []
    with concurrent.futures.ThreadPoolExecutor(AT_ONCE) as pool:
        for what, attempt, cases in kinds:
            answers = [said for said in pool.map(attempt, cases) if said is not True]
            found = [said for said in answers if said]
            print(f"{len(answers) - len(found)} of {len(answers)} {what} are right", flush=True)
            wrong += found
    return wrong


def run(words, path):
    try:
        done = subprocess.run([*words, path.name], cwd=path.parent, stdin=subprocess.DEVNULL, capture_output=True, timeout=MOST_SECONDS)
        return done.returncode, done.stdout.decode(errors="replace"), done.stderr.decode(errors="replace")
    except subprocess.TimeoutExpired:
        return None, "", ""


def lines_of(words, path):
    """The clauses and their calls that `calls` tells of a file, as tuples without its numbers, or nothing if it gives no answer. Calls of directives aren't among
    them: a directive that says something to SWI-Prolog alone, as `autoload/2`, isn't handed over by the bridge."""
    status, out, _ = run([*words, "--unreached"], path)
    if status not in (0, 8):
        return None
    names, lines = {}, set()
    for said in map(json.loads, out.splitlines()):
        if said["is"] == "predicate":
            names[said["id"]] = f"{said['module']}:{said['name']}/{said['arity']}"
        elif said["is"] in ("clause", "call") and said.get("caller", 0) is not None and os.path.basename(said["file"]) == path.name:
            more = ("module", "name", "arity", "added", "negated") if said["is"] == "call" else ("end_line", "end_column")
            goal = tuple(said[it] for it in more)
            lines.add((names[said.get("caller", said.get("predicate"))], goal, said["line"], said["column"]))
    return lines


def places_differ(path):
    """The clauses and calls that `calls` tells of the file by itself and the bridge doesn't tell at the same place; None if it isn't read."""
    alone = lines_of([CALLS], path)
    return None if alone is None else sorted(alone - (lines_of([CALLS_BRIDGE], path) or set()))


def reported(report, module):
    """The groups of a report, of one module's predicates alone: those that are recursive, and all that were reached."""
    recursive, reached = set(), set()
    for line in report.splitlines()[1:]:
        words = NAME.findall(line)
        if len(words) > 2 and words[0].isdigit():
            own = frozenset(plain(name).partition(":")[2] for name in words[2:] if plain(name).partition(":")[0] == module)
            reached |= own
            if words[1] == "recursive" and own:
                recursive.add(own)
    return recursive, reached


def classes(successors):
    """The classes of mutual reach, by Tarjan's search without recursion."""
    number, low, done, path, found = {}, {}, set(), [], []
    for root in successors:
        if root in number:
            continue
        number[root] = low[root] = len(number)
        path.append(root)
        work = [(root, iter(successors[root]))]
        while work:
            node, rest = work[-1]
            for other in rest:
                if other not in number:
                    number[other] = low[other] = len(number)
                    path.append(other)
                    work.append((other, iter(successors[other])))
                    break
                if other not in done:
                    low[node] = min(low[node], number[other])
            else:
                work.pop()
                if work:
                    low[work[-1][0]] = min(low[work[-1][0]], low[node])
                if low[node] == number[node]:
                    at = path.index(node)
                    found.append(frozenset(path[at:]))
                    done.update(path[at:])
                    del path[at:]
    return found


# What SWI-Prolog calls in any module, and the tests of library(plunit).
HOOKS = {
    "attr_unify_hook/2", "attr_portray_hook/2", "attribute_goals/3", "project_attributes/2", "goal_expansion/2", "goal_expansion/4",
    "term_expansion/2", "term_expansion/4", "test/1", "test/2",
}


def told_by_xref(path):
    """The module, its recursive groups and what its roots reach, by the calls that prolog_xref tells."""
    words = ["swipl", str(ROOT / "checks" / "xref_calls.pl"), "--"]
    status, out, _ = run(words, path)
    if status != 0:
        return None
    module, defined, exported, directive, edges = "user", set(), set(), set(), collections.defaultdict(set)
    for line in out.splitlines():
        word, *names = names_in(line)
        if word == "module":
            module = names[0]
        elif word == "defines":
            defined.add(names[0])
        elif word == "exports":
            exported.add(names[0])
        elif word == "directive":
            directive.add(names[0])
        elif word == "calls":
            edges[names[0]].add(names[1])
    successors = {name: sorted(edges[name] & defined) for name in sorted(defined)}
    roots = defined if module == "user" else (exported | directive | HOOKS) & defined
    reached, todo = set(), list(roots)
    while todo:
        name = todo.pop()
        if name not in reached:
            reached.add(name)
            todo += successors[name]
    recursive = {group for group in classes(successors) if len(group) > 1 or next(iter(group)) in successors[next(iter(group))]}
    return module, {group for group in recursive if group <= reached}, reached


def difference(path, report):
    """The first thing in which the two differ, or nothing."""
    told = told_by_xref(path)
    if told is None:
        return "prolog_xref doesn't read it"
    module, recursive, reached = told
    ours = reported(report, module)
    for what, mine, theirs in (("group", ours[0], recursive), ("reached", ours[1], reached)):
        for name, one, other in (("here alone", mine, theirs), ("by prolog_xref alone", theirs, mine)):
            if one - other:
                first = min(one - other, key=str)
                return f"{what} {name}: {' '.join(sorted(first)) if isinstance(first, frozenset) else first}"
    return ""


def try_reports(paths, pool):
    """What is wrong with the reports of real files, the share that has one, and the reports."""
    alone, bridged, causes, reports, wrong = 0, collections.Counter(), collections.Counter(), [], []
    runs = zip(paths, pool.map(lambda path: run([GROUPS], path), paths), pool.map(lambda path: run([BRIDGE], path), paths))
    for path, (status, _, _), (bridge_status, out, err) in runs:
        alone += status == 0
        bridged[bridge_status] += 1
        if bridge_status not in (0, 3, 8):
            wrong.append(f"{path}: status {bridge_status}: {err[-200:]}")
        elif bridge_status != 3:
            reports.append((path, out))
        causes.update(re.sub(r"`.*|[^ ]+/[0-9]+ |'[^' ]*'", "", line.split(": ", 1)[-1])[:70] for line in err.splitlines() if not line.startswith("groups-swi: "))
    print(f"{len(paths)} files: {alone} get a report alone, {bridged[0]} by the bridge, {bridged[8]} more with something left out")
    for cause, count in causes.most_common(12):
        print(f"{count:7}  {cause}")
    return wrong, (bridged[0] + bridged[8]) / max(1, len(paths)), reports


def try_real(every):
    """What is wrong with the answers to real files, and the share of them that gets a report."""
    paths = sorted({path for package in real_programs.packages() for path in real_programs.sources(package)})[::every]
    with concurrent.futures.ThreadPoolExecutor(AT_ONCE) as pool:
        wrong, share, reports = try_reports(paths, pool)
        differ = list(zip(paths, pool.map(places_differ, paths)))
        chosen = reports[:: max(1, len(reports) // COMPARED)][:COMPARED]
        found = list(pool.map(lambda one: difference(*one), chosen))
    wrong += [f"{path}: not told at its place: {lines[0]}" for path, lines in differ if lines]
    print(f"{sum(lines is not None for _, lines in differ)} files are read without the bridge: it tells the same places of {sum(lines == [] for _, lines in differ)}")
    print(f"{len(chosen)} files beside prolog_xref: {found.count('')} with the same groups")
    for (path, _), said in zip(chosen, found):
        if said:
            print(f"  {path.name}: {said}")
    return wrong, share


def try_libraries():
    """What is wrong with one run over the whole installed library, in which no more than 25 s of processor time may go."""
    paths = sorted(path for path in (swi_home() / "library").rglob("*.pl") if path.name not in ("INDEX.pl", "MKINDEX.pl"))
    before = resource.getrusage(resource.RUSAGE_CHILDREN)
    done = subprocess.run([BRIDGE, "--libraries", "--unreached", *map(str, paths)], stdin=subprocess.DEVNULL, capture_output=True, text=True)
    after = resource.getrusage(resource.RUSAGE_CHILDREN)
    seconds = after.ru_utime + after.ru_stime - before.ru_utime - before.ru_stime
    print(f"{len(paths)} files: status {done.returncode}, {done.stdout.partition(chr(10))[0]}, {seconds:.1f} s of processor time, {after.ru_maxrss / 1024:.0f} MB")
    print("\n".join(done.stderr.splitlines()[-1:]))
    return [] if done.returncode == 8 and seconds <= 25 else [f"the whole library: {done.stderr[-300:]}"]


def main():
    parser = argparse.ArgumentParser()
    parser.add_argument("--every", type=int, default=1)
    parser.add_argument("--libraries", action="store_true")
    words = parser.parse_args()
    if shutil.which("swipl") is None:
        print("SWI-Prolog isn't installed: nothing to try")
        return 0
    if words.libraries:
        return report_end(try_libraries(), 1.0)
    wrong = try_small()
    if shutil.which("dpkg-query") is None or not real_programs.packages():
        print("no Prolog package is installed: no real file is tried")
        return report_end(wrong, 1.0)
    more, share = try_real(words.every)
    return report_end(wrong + more, share)


def report_end(wrong, share):
    for line in wrong:
        print(line)
    right = not wrong and share >= 0.9
    print("bridge:", "right" if right else "wrong")
    return 0 if right else 1


if __name__ == "__main__":
    sys.exit(main())
