#!/usr/bin/env python3
"""Doubles texts of many kinds, and looks at how processor time and memory of the built programs grow.

Each kind is a worst case of one part of the programs: names that share a hash, loads that say the same, operators that are taken away, clauses of one
predicate, deep brackets, long names, dense and long graphs with each option. A size is doubled until a run takes 0.2 s; that size and its double are then
measured, the least of some runs each. More than 2.5 times the time or memory for twice the text is an error. Texts whose largest take less than a tenth of
a second aren't judged by their time. Kinds whose growth is a documented limit (docs/report.md, "Limits") are no part of this.

`--quick` measures the kinds that once grew with the square; names of kinds measure those. Ends with status 1 if a kind grows too fast."""

import argparse
import math
import os
import pathlib
import resource
import subprocess
import sys
import tempfile

import program

MOST_TIMES = 2.5
LEAST_SECONDS = 0.2
# A text may have 8 MiB, so the double of a size has to stay below that.
MOST_BYTES = 4_000_000
MOST_SECONDS = 60
MOST_MEMORY = 3 << 30
# What a program takes for an empty text, in KiB. Below it memory says nothing of the text.
LEAST_MEMORY = 16_384
# In bytes; threads that can just be made take most of it.
LEAST_SPACE = 150_000 << 10
# Sizes whose double the programs still take, by how the names of kinds begin or end: a body has at most 1,000 goals, a program 1,024 files.
MOST_SIZES = {"dense": 480_000, "of_modules": 512, "loaded_by_each_other": 1_000_000}


def hash_of(text):
    """The hash of a name, as the table of names computes it."""
    state = 0
    for byte in text.encode():
        state = (state * 16_777_619 + byte) % 2**32
    return state


def equal_blocks(count):
    """Words of nine letters that share a hash: for the hash of five letters the other four are looked up by what is missing."""
    letters = "abcdefghijklmnopqrstuvwxyz"
    tails = {hash_of(a + b + c + d): a + b + c + d for a in letters for b in letters for c in letters for d in letters}
    power, found, number = 16_777_619**4 % 2**32, [], 0
    while len(found) < count:
        number, head, rest = number + 1, "", number
        for _ in range(5):
            head, rest = head + letters[rest % 26], rest // 26
        tail = tails.get((0x12345678 - hash_of(head) * power) % 2**32)
        if tail:
            found.append(head + tail)
    return found


blocks = []


def equal_names(count):
    """Names of one hash: three words of one length and one hash, in each order."""
    if not blocks:
        blocks.extend(equal_blocks(60))
    size = len(blocks)
    return [blocks[at // size // size] + blocks[at // size % size] + blocks[at % size] for at in range(min(count, size**3))]


def file(text):
    return {"f.pl": text}


def lines(form, count):
    return "".join(form.format(at, at + 1) for at in range(count))


def listed(form, count, between=","):
    return between.join(form.format(at) for at in range(count))


def exporting(name, exports, rest):
    return f":- module({name},[{','.join(it + '/0' for it in exports)}]).\n{rest}"


def imported_names(count):
    names = equal_names(count)
    return {
        "a.pl": exporting("a", names, "".join(f"{it}.\n" for it in names)),
        "f.pl": ":- use_module(a).\n" + "".join(f"p{at} :- {it}.\n" for at, it in enumerate(names)),
    }


def equal_loads(count):
    """Loads of one file, whose exports are as many as an eighth of them."""
    names = [f"q{at}" for at in range(count // 8)]
    return {"b.pl": exporting("b", names, "".join(f"{it}.\n" for it in names)), "f.pl": ":- use_module(b).\n" * count + "p :- q1.\n"}


def star_of_modules(count):
    files = {f"f{at}.pl": exporting(f"m{at}", [f"p{at}"], f"p{at}.\n") for at in range(1, count)}
    return files | {"f.pl": ":- module(m,[]).\n" + listed(":- use_module(f{0}).\n", count, "").partition("\n")[2] + "p.\n"}


def chain_of_modules(count):
    def text(at):
        uses = f":- use_module(f{at + 1}).\n" if at + 1 < count else ""
        return exporting(f"m{at}", [f"p{at}"], uses + (f"p{at} :- p{at + 1}.\n" if uses else f"p{at}.\n"))
    return {"f.pl" if at == 0 else f"f{at}.pl": text(at) for at in range(count)}


def loaded_by_each_other(loads):
    """Modules that load each other, each with as many exports as there are modules, with so many loads."""
    count = math.isqrt(loads)
    uses = [f":- use_module(m{at}).\n" for at in range(count)]

    def text(at):
        names = [f"p{at}_{it}" for it in range(count)]
        calls = "".join(f"{name} :- p{(at + it) % count}_{it}.\n" for it, name in enumerate(names))
        return exporting(f"m{at}", names, "".join(uses[:at] + uses[at + 1 :]) + calls)
    return {"f.pl": "".join(uses) + "p.\n"} | {f"m{at}.pl": text(at) for at in range(count)}


def exported_twice(loads):
    """Modules of which each two neighbours export the same 20 names, and that load every second other one, with so many loads."""
    count = math.isqrt(loads) // 2 * 2

    def text(at):
        names = [f"p{at // 2}_{it}" for it in range(20)]
        uses = "".join(f":- use_module(m{it}).\n" for it in range(at % 2, count, 2) if it != at)
        return exporting(f"m{at}", names, uses + "".join(f"{name}.\n" for name in names))
    return {"f.pl": "".join(f":- use_module(m{at},[]).\n" for at in range(count)) + "p.\n"} | {f"m{at}.pl": text(at) for at in range(count)}


def complete(calls):
    """Predicates of which each calls all, with so many calls."""
    count = math.isqrt(calls)
    return file("".join(f"p{at}:-{listed('p{0}', count)}.\n" for at in range(count)))


def ring(count):
    return file(lines("p{0}:-p{1}.\n", count - 1) + f"p{count - 1}:-p0.\n")


def chain(count):
    return file(lines("p{0}:-p{1}.\n", count) + f"p{count}.\n")


def ladder(count):
    return file("".join(f"p{at}:-p{min(at + 1, count - 1)},p{max(at - 1, 0)}.\n" for at in range(count)))


def band(count):
    return file("".join(f"p{at}:-{','.join(f'p{it}' for it in range(max(0, at - 30), min(count, at + 30)))}.\n" for at in range(count)))


def star_of_cycles(count):
    pairs = lines("p{0}:-q{0}.\nq{0}:-big,p{0}.\n", count)
    return file(pairs + f"big:-{listed('b{0}', count)}.\n" + lines("b{0}:-big.\n", count))


def effects(count):
    return file(lines("p{0}:-p{1},write(x),read(x),assertz(x),close(x),throw(x),halt,op(1,fx,x).\n", count) + f"p{count}.\n")


def metas(count):
    heads = lines("m{0}(A,B,C):-p.\n", count)
    return file(f":- meta_predicate {listed('m{0}(0,1,2)', count)}.\n{heads}p:-{listed('m{0}(p,m0,m0)', count)}.\n")


def grown(names):
    """Operators that are set and then taken away, the first ones first."""
    return file("".join(f":-op(700,xfx,{it}).\n" for it in names) + "".join(f":-op(0,xfx,{it}).\n" for it in names))


# Kinds that grew with the square once: what makes the files of a size, the first size, the options.
MENDED = {
    "names_of_one_hash": (lambda n: file("".join(f"{it}.\n" for it in equal_names(n))), 10_000, []),
    "atoms_of_one_hash": (lambda n: file(f"p([{','.join(equal_names(n))}]).\n"), 10_000, []),
    "calls_of_one_hash": (lambda n: file(f"p:-{','.join(equal_names(n))}.\n"), 10_000, []),
    "imports_of_one_hash": (imported_names, 2_500, []),
    "equal_loads": (equal_loads, 4_000, []),
    "loaded_by_each_other": (loaded_by_each_other, 10_000, []),
    "exported_twice_loaded_by_each_other": (exported_twice, 10_000, []),
    "operators_taken_away": (lambda n: grown([f"o{at}" for at in range(n)]), 10_000, []),
}
NESTED = {
    "brackets": "p:-{0}q{1}.\n", "terms": "p:-{2}q{1}.\n", "negations": "p:-{3}q.\n", "signs": "p:-X= {4}q.\n", "calls": "p:-{5}q{1}.\n",
    "curly": "p-->{6}q{7}.\n", "lists": "p({8}q{9}).\n", "carets": "p:-setof(X,{10}q,L).\nq.\n", "modules": "p:-{11}q.\nq.\n",
}


def nested(form):
    """Many clauses of brackets of one depth: the depth is bounded, so their number grows."""
    deep = 900
    parts = ["(", ")", "f(", "\\+ ", "- ", "call(", "{", "}", "[", "]", "V^", "m:"]
    return lambda n: file(form.format(*(it * deep for it in parts)) * n)


KINDS = MENDED | {f"deep_{name}": (nested(form), 50, []) for name, form in NESTED.items()} | {
    "clauses_of_one": (lambda n: file("p.\n" * n), 100_000, []),
    "recursive_clauses": (lambda n: file("p(X):-p(X).\n" * n), 50_000, []),
    "conjunction": (lambda n: file(f"p:-{','.join(['q'] * n)}.\nq.\n"), 125_000, []),
    "disjunction": (lambda n: file(f"p:-{';'.join(['q'] * n)}.\nq.\n"), 125_000, []),
    "sum": (lambda n: file(f"p({'+'.join(['a'] * n)}).\n"), 60_000, []),
    "pairs_in_brackets": (lambda n: file(f"p:-{'(q,q),' * n}q.\nq.\n"), 60_000, []),
    "distinct_goals": (lambda n: file(f"p:-{listed('q{0}', n)}.\n"), 100_000, []),
    "operators": (lambda n: file(lines(":-op(700,xfx,o{0}).\n", n)), 25_000, []),
    "one_operator": (lambda n: file(":-op(700,xfx,o).\n" * n), 50_000, []),
    "operator_set_and_taken": (lambda n: file(":-op(700,xfx,o).\n:-op(0,xfx,o).\n" * n), 20_000, []),
    "operators_in_a_list": (lambda n: file(f":-op(700,xfx,[{listed('o{0}', n)}]).\np.\n"), 25_000, []),
    "operators_used": (lambda n: file(lines(":-op(700,xfx,o{0}).\np{0}:-a o{0} b.\n", n)), 10_000, []),
    "dynamic": (lambda n: file(f":- dynamic {listed('a{0}/1', n)}.\n"), 25_000, []),
    "dynamic_once_more": (lambda n: file(f":- dynamic {','.join(['a/1'] * n)}.\n"), 25_000, []),
    "exports": (lambda n: file(exporting("m", [f"a{at}" for at in range(n)], lines("a{0}.\n", n))), 25_000, []),
    "undefined_exports": (lambda n: file(exporting("m", [f"a{at}" for at in range(n)], "")), 25_000, []),
    "equal_exports": (lambda n: file(exporting("m", ["a"] * n, "a.\n")), 25_000, []),
    "modules_of_heads": (lambda n: file(lines("m{0}:p:-q.\n", n)), 10_000, []),
    "modules_of_goals": (lambda n: file(f"p:-{listed('m{0}:q', n)}.\n"), 10_000, []),
    "long_atom": (lambda n: file(f"p({'a' * n}).\n"), 500_000, []),
    "long_predicate": (lambda n: file("a" * n + ".\n"), 500_000, []),
    "quotes": (lambda n: file("'" + "''" * n + "'.\n"), 250_000, []),
    "escapes": (lambda n: file("'" + "\\x41\\" * n + "'.\n"), 60_000, []),
    "long_names": (lambda n: file("".join("x" * 4_000 + f"{at}.\n" for at in range(n))), 250, []),
    "wide_head": (lambda n: file(f"p({','.join(['a'] * n)}).\n"), 250_000, []),
    "arities": (lambda n: file(lines("p({2}).\n".replace("{2}", ",".join(["a"] * 500)), n)), 500, []),
    "long_list": (lambda n: file(f"p([{','.join(['a'] * n)}]).\n"), 250_000, []),
    "long_tailed_list": (lambda n: file(f"p([{','.join(['a'] * n)}|T]).\n"), 250_000, []),
    "variables": (lambda n: file(f"p({listed('X{0}', n)}).\n"), 62_500, []),
    "wrong_goals": (lambda n: file("p:-3.\n" * n), 62_500, []),
    "wrong_goals_of_a_line": (lambda n: file(f"p:-{','.join(['3'] * n)}.\n"), 62_500, []),
    "star_of_modules": (star_of_modules, 128, []),
    "chain_of_modules": (chain_of_modules, 128, []),
    "meta_predicates": (metas, 10_000, []),
    "meta_predicate_once_more": (lambda n: file(":- meta_predicate m(0,1,2).\n" * n + "m(A,B,C):-p.\np.\n"), 20_000, []),
    "comments": (lambda n: file("/* * */ % x\n" * n), 80_000, []),
    "open_comment": (lambda n: file("/* " * n), 250_000, []),
    "no_end": (lambda n: file("p:-" + "q," * n + "q"), 250_000, []),
    "stuck_at_the_end": (lambda n: file("p:-" + "q," * n + "q q.\n"), 250_000, []),
    "ends_within": (lambda n: file("p :- q.a" * n), 125_000, []),
    "operators_as_atoms": (lambda n: file(f"p({'-,' * n}-).\n"), 125_000, []),
    "infix_as_atoms": (lambda n: file(f"p({'= = =,' * n}a).\n"), 62_500, []),
    "prefix_or_infix": (lambda n: file(f":-op(400,yfx,e),op(300,fy,e).\np:-X={'e e a ' * n}.\n".replace(":-op(400,yfx,e),op", ":-op(400,yfx,e).\n:-op")), 62_500, []),
    "grammar": (lambda n: file(f"p-->{','.join(['[a],q,{r}'] * n)}.\nr.\nq-->[].\n"), 30_000, []),
    "dense": (complete, 60_000, []),
    "dense_loops": (complete, 60_000, ["--loops"]),
    "dense_path": (complete, 60_000, ["--path", "p0/0,p7/0"]),
    "dense_stream": (complete, 60_000, ["--order", "--stream", "--jobs", "4"]),
    "dense_effects": (complete, 60_000, ["--effects"]),
    "dense_searches": (complete, 60_000, ["--searches", "64", "--seed", "5"]),
    "dense_calls": (complete, 30_000, ["calls"]),
    "dense_dot": (complete, 60_000, ["calls", "--dot"]),
    "ring": (ring, 40_000, []),
    "ring_loops": (ring, 40_000, ["--loops"]),
    "ring_path": (ring, 40_000, ["--path", "p1/0,p0/0"]),
    "ring_stream": (ring, 40_000, ["--order", "--stream", "--jobs", "4"]),
    "ring_effects": (ring, 40_000, ["--effects"]),
    "ring_searches": (ring, 40_000, ["--searches", "64", "--seed", "5"]),
    "ring_dot": (ring, 40_000, ["calls", "--dot"]),
    "chain_condensed": (chain, 40_000, ["calls", "--dot", "--condensed"]),
    "chain_effects": (chain, 40_000, ["--effects"]),
    "chain_searches": (chain, 40_000, ["--searches", "64", "--seed", "5"]),
    "chain_stream": (chain, 40_000, ["--order", "--stream", "--jobs", "4"]),
    "ladder_loops": (ladder, 40_000, ["--loops"]),
    "star_of_cycles": (star_of_cycles, 10_000, ["--loops"]),
    "all_effects": (effects, 10_000, ["--effects"]),
    "band_loops": (band, 1_500, ["--loops"]),
    "band_path": (band, 1_500, ["--path", "p0/0,p1499/0"]),
    "listed_calls": (lambda n: file(f"p:-{','.join(['q'] * n)}.\nq.\n"), 60_000, ["calls"]),
    "listed_calls_of_a_wide_line": (lambda n: file(f"p('{'é' * n}'):-{','.join(['q'] * n)}.\n"), 30_000, ["calls"]),
    "listed_nested_calls": (lambda n: file(f"p:-{','.join(['call(call(call(q)))'] * n)}.\nq.\n"), 15_000, ["calls"]),
    "listed_wrong_goals": (lambda n: file(f"p:-{','.join(['3'] * n)}.\n"), 62_500, ["calls"]),
}


def measured(tools, folder, options, runs):
    """The least processor time in seconds and the least memory in KiB of some runs."""
    tool = "calls" if options[:1] == ["calls"] else "groups"
    words = [tools[tool], *options[tool == "calls":], "f.pl"]

    def limit():
        resource.setrlimit(resource.RLIMIT_CPU, (MOST_SECONDS, MOST_SECONDS + 5))
        resource.setrlimit(resource.RLIMIT_AS, (MOST_MEMORY, MOST_MEMORY))

    found = []
    for _ in range(runs):
        with open(folder / "out", "wb") as out:
            process = subprocess.Popen(words, cwd=folder, stdout=out, stderr=out, preexec_fn=limit)
            _, status, used = os.wait4(process.pid, 0)
            process.returncode = os.waitstatus_to_exitcode(status)
        if process.returncode not in (0, 3):
            said = (folder / "out").read_bytes()[-80:]
            raise ValueError(f"status {process.returncode}: {said!r}")
        found.append((used.ru_utime + used.ru_stime, used.ru_maxrss))
    return min(it[0] for it in found), min(it[1] for it in found)


def at_size(tools, kind, size, runs):
    make, _, options = KINDS[kind]
    with tempfile.TemporaryDirectory(prefix="growth-") as room:
        folder, files = pathlib.Path(room), make(size)
        for name, text in files.items():
            (folder / name).write_text(text)
        return max(len(text.encode()) for text in files.values()), *measured(tools, folder, options, runs)


def grows_too_fast(tools, kind, runs):
    """Prints the figures of a kind, and returns whether it grows too fast."""
    size = KINDS[kind][1]
    most = min((it for word, it in MOST_SIZES.items() if kind.startswith(word) or kind.endswith(word)), default=math.inf)
    bytes_, seconds, _ = at_size(tools, kind, size, 1)
    while seconds < LEAST_SECONDS and 2 * bytes_ <= MOST_BYTES and 2 * size <= most:
        size *= 2
        bytes_, seconds, _ = at_size(tools, kind, size, 1)
    _, seconds, memory = at_size(tools, kind, size, runs)
    _, more_seconds, more_memory = at_size(tools, kind, 2 * size, runs)
    times, grown_by = more_seconds / max(seconds, LEAST_SECONDS / 2), more_memory / max(memory, LEAST_MEMORY)
    fast = times > MOST_TIMES or grown_by > MOST_TIMES
    print(f"{kind:28} {size:8} twice: {seconds:6.2f} {more_seconds:6.2f} s, {times:4.2f} times; {memory >> 10:4} {more_memory >> 10:4} MB, {grown_by:4.2f} times"
          f"{'  TOO FAST' if fast else ''}", flush=True)
    return fast


def fails_by_chance(tools):
    """Whether a program runs out of memory in one of five runs of 40,000 predicates, with address space for an answer by one thread."""
    with tempfile.TemporaryDirectory(prefix="growth-") as room:
        folder = pathlib.Path(room)
        (folder / "f.pl").write_text(lines("p{0} :- p{1}.\n", 39_999) + "p39999.\n")
        failed = []
        for name, tool in sorted(tools.items()):
            limit = lambda: resource.setrlimit(resource.RLIMIT_AS, (LEAST_SPACE, LEAST_SPACE))
            ended = [subprocess.run([tool, "f.pl"], cwd=folder, stdout=subprocess.DEVNULL, stderr=subprocess.DEVNULL, preexec_fn=limit).returncode for _ in range(5)]
            print(f"{name} with {LEAST_SPACE >> 10} KiB of address space, five runs: {5 - ended.count(0)} without an answer")
            failed += [it for it in ended if it]
        return bool(failed)


def main():
    parser = argparse.ArgumentParser(description=__doc__.partition("\n")[0])
    program.add_option(parser)
    parser.add_argument("--quick", action="store_true", help="the kinds alone that once grew with the square")
    parser.add_argument("--runs", type=int, default=5, help="of how many runs the least figures count")
    parser.add_argument("kinds", nargs="*", metavar="KIND", help="the kinds to measure; else all")
    options = parser.parse_args()
    tools = {"groups": program.of(options), "calls": program.calls()}
    if tools["calls"] is None:
        print("there is no program calls: ./prove builds one", file=sys.stderr)
        return 1
    wrong = []
    for kind in options.kinds or (MENDED if options.quick else KINDS):
        try:
            # (other work may disturb a measurement, so three of them have to agree)
            if all(grows_too_fast(tools, kind, options.runs) for _ in range(3)):
                wrong.append(kind)
        except ValueError as error:
            print(f"{kind:28} {error}")
            wrong.append(kind)
    if not options.kinds and fails_by_chance(tools):
        wrong.append("address space")
    print(f"{len(options.kinds or (MENDED if options.quick else KINDS))} kinds of text, {len(wrong)} grow too fast{': ' if wrong else ''}{', '.join(wrong)}")
    return 1 if wrong else 0


if __name__ == "__main__":
    sys.exit(main())
