#!/usr/bin/env python3
"""Tries view/groups-page in a headless Chromium, and examples/modules.sh, around.sh and check.sh.

In the browser it searches, follows links, presses keys and looks at what is drawn: of the examples, of programs of 1,500 and 20,000 predicates, of names that try to
be read as HTML or can't be seen, of library(http) by the bridge. Callers, callees and shortest cycles are held against the lines of `calls`. Then what goes wrong:
faults, a full disk, a dot that is missing, fails or hangs, sources that changed.

--large adds a group of 100,000 members. --keep DIR keeps the pages. Needs Debian's chromium, chromium-driver and python3-selenium, of the system's Python. Where there
is no Chromium it says so and passes; where there is one that doesn't start, it fails. Ends with status 1 if something isn't so. Takes about a minute."""

import argparse
import collections
import concurrent.futures
import contextlib
import json
import os
import pathlib
import random
import re
import resource
import shutil
import signal
import subprocess
import sys
import tempfile
import time

ROOT = pathlib.Path(__file__).resolve().parent.parent
EXAMPLES = ROOT / "examples"
MAKER = ROOT / "view" / "groups-page"
CALLS = pathlib.Path(os.environ.get("CALLS") or ROOT / "calls")
LIBRARY = pathlib.Path("/usr/lib/swi-prolog/library/http")
SYSTEM_PYTHON = "/usr/bin/python3"
MOST_SECONDS = 60
MAKING = {1500: 4, 20000: 8, 100000: 20}
OPENING = 3
# A machine that has other work to do is slower: a page may take so many times as long to open. How long making it takes is counted in processor time.
BUSY = 3
OWNED = "document.title='owned'"
HOSTILE = [f"</script><script>{OWNED}</script>", f"<img src=x onerror={OWNED}>", "it's", 'say "hi"', "back\\slash", "a\u2028b\u2029c", "\u202eevil\u202c"]
HOSTILE += ["\u05e9\u05dc\u05d5\u05dd", "\u0633\u0644\u0627\u0645", "nul\x00", "tab\there", "new\nline", "<!--", "]]>", "&amp;", "%s%2F", "#p=x", "\U0001f600", "\u65e5\u672c"]
HOSTILE += ["long" * 300, "", " ", "\u200b", "\ufeff", "constructor", "__proto__", "${1}", "\\N", "{x|y}", "{{DATA}}", "\x1b[31m", "\x85", "a" + "\u0300" * 40, "a\u3164b", "\u2800"]
UNSEEN = "\u202e\u202c\u2028\u2029\u200b\ufeff\x00\x1b\x85\u3164\u2800"
READY = "return document.documentElement.dataset.ready"

wrong = []


def check(what, is_so, said=""):
    if not is_so:
        print(f"NOT SO: {what} {said}", flush=True)
        wrong.append(what)


# Programs.


def quoted(name):
    escaped = ("\\" + it if it in "\\'" else f"\\x{ord(it):x}\\" if ord(it) < 32 or 127 <= ord(it) < 160 else it for it in name)
    return "'" + "".join(escaped) + "'"


def hostile_program():
    lines = [f":- module('m</script>', [{quoted(HOSTILE[0])}/1])."]
    for name, after in zip(HOSTILE, [*HOSTILE[1:], HOSTILE[0]]):
        comment = f"% </script><script>{OWNED}</script> \u202e"
        lines.append(f"{comment}\n{quoted(name)}(X) :- {quoted(after)}(X), X = 'a\u202eb</script>', 'undefined <b>'(X).")
    return "\n".join(lines) + "\n"


def wide_program(count):
    lines = ["main :- p0(1)."]
    for at in range(count - 1):
        calls = [min(count - 2, at + 1 + (at * 7 + it * 13) % 40) for it in range(3)] + ([at - at % 5] if at % 17 == 0 else [])
        lines.append(f"p{at}(0).\np{at}(X) :- X > 0, Y is X - 1, " + ", ".join(f"p{it}(Y)" for it in calls) + ".")
    return "\n".join(lines) + "\n"


def ring_program(count):
    return "main :- p0(1).\n" + "".join(f"p{at}(X) :- p{(at + 1) % count}(X).\n" for at in range(count))


def module_files(room, count):
    """Modules in a row, each with ten predicates; returns the first."""
    for at in range(count):
        after = min(at + 1, count - 1)
        load = f":- use_module(m{after}, []).\n" if after > at else ""
        rows = "".join(f"r{it}(X) :- r{it + 1}(X).\n" for it in range(1, 8))
        (room / f"m{at}.pl").write_text(f":- module(m{at}, [p/1]).\n{load}p(X) :- q(X), m{after}:p(X).\nq(X) :- r1(X).\n{rows}r8(_).\n")
    return room / "m0.pl"


# Runs.


def make(page, *words, path=None, given=None, cwd=EXAMPLES):
    """Writes a page; its status, what it says, and the seconds of processors that it takes."""
    environment = {**os.environ, "CALLS": str(CALLS), **({"PATH": path} if path else {})}
    begun = processor_time()
    run = subprocess.run([sys.executable, MAKER, *map(str, words)], input=given or b"", capture_output=True, cwd=cwd, env=environment, timeout=MOST_SECONDS, check=False)
    page.write_bytes(run.stdout)
    return run.returncode, run.stderr.decode(), processor_time() - begun


def processor_time():
    used = resource.getrusage(resource.RUSAGE_CHILDREN)
    return used.ru_utime + used.ru_stime


def lines_of(*files, cwd=EXAMPLES):
    out = subprocess.run([CALLS, "--unreached", *map(str, files)], stdout=subprocess.PIPE, cwd=cwd, check=True).stdout.decode()
    return [json.loads(it) for it in out.split("\n") if it]


class Browser:
    """A headless Chromium without a network, which is ended with all that it started."""

    def __init__(self, room, driver):
        from selenium import webdriver
        from selenium.webdriver.chrome.service import Service

        options = webdriver.ChromeOptions()
        options.binary_location = chromium()
        words = ["--headless=new", "--disable-gpu", "--disable-dev-shm-usage", "--window-size=1280,900", f"--user-data-dir={room}/profile"]
        for word in words + ["--no-sandbox"] * (os.geteuid() == 0):
            options.add_argument(word)
        options.set_capability("goog:loggingPrefs", {"browser": "ALL"})
        self.room = room
        self.driver = webdriver.Chrome(service=Service(driver), options=options)
        self.driver.set_script_timeout(MOST_SECONDS)

    def run(self, script, *words):
        return self.driver.execute_script(script, *words)

    def all(self, selector):
        return self.driver.find_elements("css selector", selector)

    def text(self, selector="#main"):
        return self.driver.find_element("css selector", selector).text

    def send(self, *keys):
        for key in keys:
            self.driver.switch_to.active_element.send_keys(key)

    def look(self, scheme="light", width=1280, height=900):
        command = self.driver.execute_cdp_cmd
        command("Emulation.setEmulatedMedia", {"features": [{"name": "prefers-color-scheme", "value": scheme}]})
        command("Emulation.setDeviceMetricsOverride", {"width": width, "height": height, "deviceScaleFactor": 1, "mobile": False})

    def open(self, page):
        """How long it takes until the page is there."""
        self.driver.get("about:blank")
        begun = time.monotonic()
        self.driver.get(page.as_uri())
        check(f"{page.name}: its script ends", self.run(READY) is not None)
        return time.monotonic() - begun

    def go(self, kind="", name=""):
        """Follows a link of the page; what is shown is there when this returns."""
        return self.run(
            "location.hash = arguments[0] && '#' + arguments[0] + '=' + encodeURIComponent(arguments[1]);"
            "return new Promise(done => setTimeout(done, 20))",
            kind,
            name,
        )

    def is_at(self, wanted):
        for _ in range(60):
            if self.run("return location.hash") == wanted:
                return self.run("return new Promise(done => setTimeout(() => done(true), 20))")
            time.sleep(0.05)
        return False

    def is_quiet(self, page):
        log = [it["message"] for it in self.driver.get_log("browser")]
        check(f"{page}: the browser's log is empty", not log, log[:2])
        check(f"{page}: nothing is asked for", self.run("return performance.getEntriesByType('resource').length") == 0)

    def names(self, selector):
        return self.run("return [...document.querySelectorAll(arguments[0])].map(it => decodeURIComponent(it.hash.slice(3)))", selector)


def chromium():
    return next(filter(None, map(shutil.which, ("chromium", "chromium-browser", "google-chrome"))), None)


# What a page says.


def drawn():
    """Edges that a picture leaves out are made by longer paths, and none that it keeps are; components are those of mutual reach."""
    sys.dont_write_bytecode = True
    sys.path.insert(0, str(MAKER.parent))
    from groups_view import graphs

    def reach(graph, at, without=None):
        seen, line = set(), [at]
        while line:
            here = line.pop()
            line += [it for it in graph.get(here, ()) if (here, it) != without and not (it in seen or seen.add(it))]
        return seen

    dice, amiss = random.Random(1), 0
    for _ in range(200):
        nodes = list(range(dice.randrange(1, 14)))
        graph = {at: sorted(it for it in range(at) if dice.random() < 0.4) for at in nodes}
        kept = graphs.reduced(graph, nodes)
        amiss += any(reach(graph, at) != reach(kept, at) or any(it in reach(graph, at, (at, it)) for it in kept[at]) for at in nodes)
        loose = {at: sorted(it for it in nodes if dice.random() < 0.15) for at in nodes}
        parts = [set(it) for it in graphs.components(loose, nodes)]
        ways = {at: reach(loose, at) for at in nodes}
        amiss += sum(map(len, parts)) != len(nodes) or any({b for b in nodes if b in ways[a] and a in ways[b]} | {a} not in parts for a in nodes)
    check("edges left out, and components, of 200 graphs", not amiss, amiss)


class Calls:
    """What the lines of `calls` say."""

    def __init__(self, lines):
        self.predicates = {it["id"]: it for it in lines if it["is"] == "predicate"}
        self.names = {at: f"{it['module']}:{it['name']}/{it['arity']}" for at, it in self.predicates.items()}
        self.ids = {name: at for at, name in self.names.items()}
        self.to, self.by = collections.defaultdict(set), collections.defaultdict(set)
        self.calls = [it for it in lines if it["is"] == "call" and it["caller"] is not None]
        for it in self.calls:
            if it["callee"] is not None:
                self.to[it["caller"]].add(it["callee"])
                self.by[it["callee"]].add(it["caller"])
        self.recursive = collections.defaultdict(list)
        for at, it in self.predicates.items():
            if it["recursive"]:
                self.recursive[it["group"]].append(at)

    def shortest(self, start, least):
        """The length of a shortest cycle through a predicate, of at least so many."""
        group, seen, line, steps = self.predicates[start]["group"], {start}, [start], 0
        while line:
            steps += 1
            if any(start in self.to[it] for it in line if it != start or least == 1):
                return steps
            line = [to for it in line for to in self.to[it] if self.predicates[to]["group"] == group and not (to in seen or seen.add(to))]
        return None

    def is_shortest(self, way, members):
        """Whether it is a shortest cycle of these members, of two or more where there are as many; its first one comes again at the end."""
        least = min(2, len(members))
        wanted = min(filter(None, (self.shortest(it, least) for it in members)))
        ids = [self.ids[it] for it in way]
        return len(ids) == wanted + 1 and ids[0] == ids[-1] and len(set(ids)) == wanted and all(b in self.to[a] for a, b in zip(ids, ids[1:]))


def says_what_calls_says(browser, calls, page, most=60):
    amiss = []
    for members in list(calls.recursive.values())[:most]:
        browser.go("g", calls.names[members[0]])
        way = browser.names("ol.cycle a")
        amiss += [calls.names[members[0]]] * (not calls.is_shortest(way, members))
    check(f"{page}: the shortest cycles of groups", not amiss and calls.recursive, amiss[:3])
    amiss = []
    for at in list(calls.names)[:: max(1, len(calls.names) // most)]:
        browser.go("p", calls.names[at])
        left, right = browser.run("return [...document.querySelectorAll('.side')].map(it => [...it.querySelectorAll('li > a')].map(a => decodeURIComponent(a.hash.slice(3))))")
        is_so = sorted(left) == sorted(map(calls.names.get, calls.by[at])) and sorted(right) == sorted(map(calls.names.get, calls.to[at]))
        amiss += [calls.names[at]] * (not is_so)
    check(f"{page}: callers and callees", not amiss, amiss[:3])


def facts(browser):
    return dict(zip(*[[it.text for it in browser.all(f".facts {tag}")] for tag in ("span", "b")]))


def example(browser):
    """The example, as a reader goes through it."""
    page = browser.room / "calculator.html"
    status, said, _ = make(page, "calculator.pl")
    check("calculator.pl: status 0, nothing is said", status == 0 and not said, said)
    again = browser.room / "again.html"
    make(again, "calculator.pl")
    check("the same page again", page.read_bytes() == again.read_bytes())
    browser.look()
    browser.open(page)
    calls = Calls(lines_of("calculator.pl"))
    shown, groups = facts(browser), {it["group"] for it in calls.predicates.values()}
    wanted = {"predicates": len(calls.predicates), "calls": len(calls.calls), "groups": len(groups), "recursive groups": len(calls.recursive)}
    check("the numbers are those of calls", all(shown[it] == str(n) for it, n in wanted.items()), shown)
    of = {at: it["group"] for at, it in calls.predicates.items()}
    edges = len({(of[a], of[b]) for a, row in calls.to.items() for b in row if of[a] != of[b]})
    boxes = browser.all("figure svg g.node.recursive a")
    check(f"a box for each recursive group, {edges} arrows", len(boxes) == len(calls.recursive) and len(browser.all("figure svg g.edge")) == edges, len(boxes))
    boxes[0].click()
    check("a box opens its group", browser.is_at("#g=calculator%3Afactor%2F3") and "Members (5)" in browser.text())
    cycle = [f"calculator:{it}/3" for it in ("factor", "sum", "product", "factor")]
    check("the shortest cycle", browser.names("ol.cycle a") == cycle, browser.names("ol.cycle a"))
    check("its calls are in colour", len(browser.all("figure svg g.edge.hot")) == 3)
    says_what_calls_says(browser, calls, page.name)
    browser.go()


def keys_and_links(browser):
    from selenium.webdriver.common.keys import Keys

    browser.send("/")
    check("/ goes to the search", browser.run("return document.activeElement.id") == "search")
    browser.send("SUM calc")
    check("two words are searched, in any case", browser.text("#count") == "2 predicates", browser.text("#count"))
    browser.send(Keys.ARROW_DOWN, Keys.ARROW_DOWN, Keys.ARROW_UP, Keys.ARROW_DOWN, Keys.ENTER)
    check("arrows and Enter open the second", browser.is_at("#p=calculator%3Asum%2F4"))
    text = browser.text()
    check("the clause and its line", "sum(Before, Value) --> [plus], !, product(Next)" in text and "calculator.pl:11:1" in text, text)
    check("called names are links", [it.text for it in browser.all(".clause a")] == ["product", "is", "sum"])
    browser.all(".clause a")[0].click()
    check("a name in a clause opens it", browser.is_at("#p=calculator%3Aproduct%2F3"))
    browser.driver.back()
    check("back goes back", browser.is_at("#p=calculator%3Asum%2F4") and browser.text("h1") == "calculator:sum/4")
    browser.send(Keys.ESCAPE)
    browser.send(Keys.ESCAPE)
    check("Esc goes to the first view", browser.is_at("") and browser.all(".facts"))
    browser.run("location.hash = '#p=%E0%A4%A'")
    time.sleep(0.2)
    check("a link that is broken is said to be", "isn't in this page" in browser.text())
    browser.is_quiet("calculator")
    browser.all("#search")[0].click()
    browser.send(*[Keys.TAB] * 4)
    check("Tab passes the list in one step", browser.run("return document.activeElement.closest('main') !== null"))
    browser.go()
    wide = browser.run("return document.querySelector('figure svg').getAttribute('width')")
    browser.run("document.querySelector('.canvas').focus()")
    browser.send("+")
    check("+ enlarges the picture", float(browser.run("return document.querySelector('figure svg').getAttribute('width')")) > float(wide))


def looks(browser):
    """Colours of both schemes, and windows of a telephone and a tablet."""
    sums = []
    script = "const it = getComputedStyle(document.body); return [it.backgroundColor, it.color].map(it => it.match(/[0-9]+/g).slice(0, 3).reduce((a, b) => a + Number(b), 0))"
    for scheme in ("light", "dark"):
        browser.look(scheme)
        sums.append(browser.run(script))
    check("dark on light, and light on dark", sums[0][0] > sums[0][1] + 400 and sums[1][1] > sums[1][0] + 400, sums)
    for width in (360, 700):
        browser.look("light", width, 800)
        for place in ((), ("p", "calculator:sum/4"), ("g", "calculator:factor/3")):
            browser.go(*place)
            check(f"nothing is wider than a window of {width} at {place}", browser.run("return document.documentElement.scrollWidth <= innerWidth"))
    browser.look()
    browser.driver.execute_cdp_cmd("Emulation.setEmulatedMedia", {"media": "print"})
    check("the list isn't printed", browser.run("return getComputedStyle(document.querySelector('nav')).display") == "none")
    browser.driver.execute_cdp_cmd("Emulation.setEmulatedMedia", {"media": ""})


def hostile(browser):
    """Names that try to be read as HTML, can't be seen, or turn round what comes after them."""
    source, page = browser.room / "hostile.pl", browser.room / "hostile.html"
    source.write_text(hostile_program(), "utf-8")
    status, said, _ = make(page, "--title", f"</title><script>{OWNED}</script>\u202e", source)
    check("hostile: status 0", status == 0 and not said, said)
    text = page.read_bytes()
    check("hostile: two scripts, both of the page", text.count(b"<script") == 2 and text.count(b"</script") == 2)
    browser.open(page)
    title = browser.driver.title
    check("hostile: the title is text", "<script>" in title and "owned'" in title and "\u202e" not in title and "U+202E" in title, title)
    count = browser.run("return JSON.parse(document.getElementById('data').textContent).predicates.length")
    check("hostile: each name is a predicate", count == len(HOSTILE), count)
    for at in range(count):
        name = browser.run("const D = JSON.parse(document.getElementById('data').textContent), p = D.predicates[arguments[0]]; return D.modules[p[0]] + ':' + p[1]", at)
        browser.go("p", name)
        shown = browser.run("return document.querySelector('h1').textContent + document.getElementById('main').textContent")
        check(f"hostile: {name!a} opens", name in shown)
        raw = [f"U+{ord(it):04X}" for it in UNSEEN if it in shown]
        check(f"hostile: {name!a} has no raw character that can't be seen", not raw, raw)
        turned = browser.run("return [...document.querySelectorAll('h1 bdi, .clause bdi')].every(it => it.getBoundingClientRect().width > 0)")
        check(f"hostile: {name!a} is drawn", turned)
    browser.go("p", "'m</script>':a")
    is_clean = browser.run("return document.scripts.length === 2 && !document.querySelector('img') && !window.owned")
    check("hostile: nothing ran", "<script>" in browser.driver.title and is_clean, browser.driver.title)
    browser.is_quiet("hostile")
    for what, script in (("a script", "it.textContent = 'window.owned = 1'"), ("a file", "it.src = 'data:text/javascript,window.owned=1'")):
        owned = f"const it = document.createElement('script'); {script}; document.body.append(it); it.remove(); return new Promise(done => setTimeout(() => done(window.owned), 50))"
        check(f"hostile: the policy refuses {what} that isn't the page's", browser.run(owned) is None)
    browser.driver.get_log("browser")


def sizes(browser, counts):
    for count in counts:
        source, page = browser.room / f"wide{count}.pl", browser.room / f"wide{count}.html"
        source.write_text(wide_program(count))
        status, said, made = make(page, source)
        opened = browser.open(page)
        print(f"{count:,} predicates: made in {made:.1f} s of processors, {page.stat().st_size:,} bytes, opened in {opened:.2f} s")
        check(f"{count}: status 0, in time", status == 0 and made < MAKING[count] and opened < BUSY * OPENING, (said, made, opened))
        script = "const it = document.getElementById('search'), start = performance.now(); it.value = arguments[0]; it.dispatchEvent(new Event('input'));"
        text, took = browser.run(script + "document.body.offsetHeight; return [document.getElementById('count').textContent, performance.now() - start]", "p12")
        wanted = sum(str(at).startswith("12") for at in range(count - 1))
        check(f"{count}: a search finds what begins so", text == f"{wanted:,} predicates" and took < 300 * BUSY, (text, took))
        browser.run(script, "")
        check(f"{count}: the list is drawn a piece at a time", len(browser.all("#list a")) == 150)
        browser.is_quiet(page.name)
        if count == 1500:
            says_what_calls_says(browser, Calls(lines_of(source)), page.name)


def large(browser):
    """A group of 100,000 members."""
    count = 100000
    source, page = browser.room / "ring.pl", browser.room / "ring.html"
    source.write_text(ring_program(count))
    status, said, made = make(page, source)
    opened = browser.open(page)
    begun = time.monotonic()
    browser.go("g", "user:p0/1")
    shown, second = browser.run("return document.getElementById('main').innerText"), time.monotonic() - begun
    print(f"a group of {count:,}: made in {made:.1f} s of processors, {page.stat().st_size:,} bytes, opened in {opened:.2f} s, the group in {second:.2f} s")
    is_in_time = made < MAKING[count] and opened < BUSY * OPENING and second < BUSY * OPENING
    check("a group of 100,000", status == 0 and f"Members ({count:,})" in shown and is_in_time, (said, made, opened, second))


def pictures(browser):
    """Over 300 groups the modules are drawn; of one module the recursive groups alone."""
    page = browser.room / "modules.html"
    status, said, _ = make(page, module_files(browser.room, 60))
    browser.open(page)
    check("600 groups of 60 modules: the modules are drawn", status == 0 and len(browser.all("figure svg g.node")) == 60, said)
    browser.all("figure svg g.node a")[0].click()
    check("a module of the picture opens", browser.text("h1").startswith("Module m"), browser.text("h1"))
    source = browser.room / "rows.pl"
    source.write_text("main :- p0.\n" + "".join(f"p{at} :- p{at + 1}{f', p{at}' if at % 100 == 0 else ''}.\n" for at in range(400)) + "p400.\n")
    status, said, _ = make(page, source)
    browser.open(page)
    check("one module of 400 groups: the recursive ones are drawn", status == 0 and len(browser.all("figure svg g.node")) == 4, said)
    source.write_text("main.\n" + "".join(f"a{at} :- b{at}.\nb{at} :- a{at}.\n" for at in range(1100)))
    status, said, _ = make(page, source)
    check("a picture for each of the 1,000 largest recursive groups", page.read_text().count('<template id="group') == 1000 and not said, said)
    browser.is_quiet("pictures")


# A module of which something is exported, dynamic, multifile, and called by directives, and whose clauses end in several ways.
MARKED = """:- module(m, [p/1]).
:- dynamic(fact/1).
:- multifile(hook/1).
:- q, nowhere(1).
p(X) :- fact(X),
    hook("a. b") .
q :- p('it''s. ').
hook(0'.) .
"""


def marks(browser):
    """What is declared of predicates, why they are entry points, what directives call, and where clauses end."""
    source, page = browser.room / "marked.pl", browser.room / "marked.html"
    source.write_text(MARKED)
    status, said, _ = make(page, source)
    browser.open(page)
    check("marks: status 0", status == 0 and not said, said)
    wanted = {"m:p/1": ["exported", "entry point: export"], "m:fact/1": ["dynamic"], "m:hook/1": ["multifile"], "m:q/0": ["entry point: directive"]}
    every = ("exported", "dynamic", "multifile", "entry point")
    for name, words in wanted.items():
        browser.go("p", name)
        tags = [it for it in browser.run("return [...document.querySelectorAll('.tag')].map(it => it.textContent)") if it.startswith(every)]
        check(f"marks: what is said of {name}", tags == words, tags)
    browser.go("p", "m:q/0")
    check("marks: the directive that calls q", "Called by directives (1)" in browser.text() and "marked.pl:4:4" in browser.text(), browser.text())
    texts = browser.run("return JSON.parse(document.getElementById('data').textContent).clauses.flat().map(it => it[3])")
    ends = ["p(X) :- fact(X),\n    hook(\"a. b\")", "q :- p('it''s. ').", "hook(0'.)"]
    check("marks: each clause ends where calls says", texts and sorted(it.strip() for it in texts) == sorted(ends), texts)


def bridge_lines(swi, words, files):
    out = subprocess.run([swi, "--unreached", *words, *files], stdout=subprocess.PIPE, stderr=subprocess.DEVNULL, check=False).stdout.decode()
    return [json.loads(it) for it in out.split("\n") if it]


def bridge(browser):
    """library(http) by the bridge: what is left out, what is undefined."""
    files = sorted(LIBRARY.glob("*.pl"))
    if not shutil.which("swipl") or not files:
        print("swipl or its library(http) isn't installed, so --swi isn't tried")
        return
    page = browser.room / "http.html"
    status, said, made = make(page, "--swi", "--title", "library(http)", *files)
    opened = browser.open(page)
    print(f"library(http): made in {made:.1f} s of processors, {page.stat().st_size:,} bytes, opened in {opened:.2f} s")
    notes = said.splitlines()
    text = browser.run("return document.getElementById('main').textContent")
    check("library(http): status 8, and its lines are on the page", status == 8 and notes and all(it in text for it in notes[:20]), said)
    swi = ROOT / "bridges" / "swi" / "calls-swi"
    whole, asked = ([it for it in bridge_lines(swi, words, files) if it["is"] == "call" and it["callee"] is None] for words in ((), ("--undefined",)))
    missing = {(it["name"], it["arity"]) for it in whole} & {(it["name"], it["arity"]) for it in asked}
    shown = facts(browser)
    check("library(http): the names that SWI-Prolog doesn't define are apart", 0 < len(missing) < 20 and shown["undefined names"] == str(len(missing)), (missing, shown))
    check("library(http): opens in time", opened < BUSY * OPENING, opened)
    ends = browser.run(
        "const D = JSON.parse(document.getElementById('data').textContent);"
        "const all = D.clauses.flat().filter(it => it[3] !== undefined); return [all.length, all.filter(it => !/\\.$|\\.\\.\\.$/.test(it[3])).map(it => it.slice(0, 3).join(':'))]"
    )
    check("library(http): each clause ends with its full stop", ends[0] > 1000 and not ends[1], ends[1][:3])
    browser.is_quiet("http")


# What goes wrong.


def folder_with(room, name, **scripts):
    """A folder for the PATH with the shell's commands that a launcher needs, and these scripts."""
    folder = room / name
    folder.mkdir()
    for tool in ("sh", "env", "readlink", "find", "sed", "uname"):
        os.symlink(shutil.which(tool), folder / tool)
    for script, text in scripts.items():
        (folder / script).write_text(f"#!/bin/sh\n{text}\n")
        (folder / script).chmod(0o755)
    return str(folder)


# Why there is no picture: the script in place of dot, and the most seconds that a run takes.
BROKEN_DOT = {
    "isn't found": ({}, 5),
    "fails": ({"dot": "exit 1"}, 5),
    "takes more than 20 s": ({"dot": f"{shutil.which('sleep')} 100; exit 0"}, 25),
}


def make_without_dot(room, number, scripts):
    page, begun = room / f"plain{number}.html", time.monotonic()
    status, said, _ = make(page, "calculator.pl", path=folder_with(room, f"path{number}", **scripts))
    return page, status, said, time.monotonic() - begun


def long_names(room):
    """Names of 30,000 characters, with escapes that end in ways which look alike."""
    for number, part in enumerate(("\\x41\\n", "\\1\\\\", "''", "\\x41\\", "a")):
        source, page = room / f"long{number}.pl", room / f"long{number}.html"
        source.write_text(f":- module(m, [p/1]).\np(X) :- q('{part * 6000}', X).\nq(_, _).\n")
        status, said, took = make(page, source)
        check(f"a name with {part} 6,000 times", status == 0 and not said and took < 3, (said, took))


def without_pictures(browser, runs):
    """What came of the runs with a broken dot, which go on while the browser does something else."""
    for (why, (_, most)), run in zip(BROKEN_DOT.items(), runs):
        page, status, said, took = run.result()
        browser.open(page)
        text = browser.text("figure")
        is_so = status == 0 and why in said and why in text and "There is no picture" in text and took < most * BUSY
        check(f"a dot that {why}: a page without pictures, and a line", is_so, (status, said, text, took))
    dot, page = shutil.which("dot"), browser.room / "once.html"
    once = f"[ ! -e {browser.room}/once ] || exit 1; : >{browser.room}/once; exec {dot} \"$@\""
    status, said, _ = make(page, "calculator.pl", path=folder_with(browser.room, "once-only", dot=once))
    browser.open(page)
    is_so = status == 0 and "dot fails: 1 group without a picture of their own" in said and browser.all("figure svg")
    check("a dot that fails for groups: the page has the picture of the program", is_so, said)
    browser.go("g", "calculator:factor/3")
    check("and a group has none", "Members (5)" in browser.text() and not browser.all("figure"))


def sources_that_changed(browser):
    room, page = browser.room, browser.room / "changed.html"
    (room / "one.pl").write_text("p :- q.\nq.\n")
    (room / "two.pl").write_text("r :- s.\ns.\n")
    lines = subprocess.run([CALLS, "--unreached", "one.pl", "two.pl"], stdout=subprocess.PIPE, cwd=room, check=True).stdout
    (room / "lines").write_bytes(lines)
    (room / "one.pl").unlink()
    time.sleep(0.05)
    (room / "two.pl").write_text("changed.\n")
    with open(room / "lines", "rb") as given:
        run = subprocess.run([sys.executable, MAKER, "-"], stdin=given, capture_output=True, cwd=room, check=False)
    page.write_bytes(run.stdout)
    browser.open(page)
    browser.go("p", "user:p/0")
    text, said = browser.text(), run.stderr.decode()
    is_said = "one.pl can't be read any more" in said and "two.pl changed after it was read" in said
    check("sources that are gone or changed: places without text, and lines", run.returncode == 0 and is_said and "one.pl:1:1" in text and not browser.all("pre"), said)
    browser.go()
    check("and these lines are on the page", "two.pl changed" in browser.text())


def refusals(room):
    (room / "folder.pl").mkdir()
    (room / "fault.pl").write_text("p :- q(.\n")
    none = room / "none.html"
    status, said, _ = make(none, "-", given=b"[1]\nno lines")
    check("other lines on standard input: status 2", status == 2 and "no lines of calls" in said and not none.stat().st_size, said)
    cases = [(3, [room / "fault.pl"]), (3, [room / "nowhere.pl"]), (4, [room / "folder.pl"]), (2, ["--wrong", "calculator.pl"]), (2, [])]
    for wanted, words in [*cases, (2, ["--dot", "calculator.pl"]), (2, ["--undefined", "calculator.pl"]), (2, ["-", "calculator.pl"])]:
        status, said, _ = make(none, *words)
        check(f"{words}: status {wanted}, a line and no page", status == wanted and said and not none.stat().st_size, (status, said))
    status, said, _ = make(none, "--help")
    check("--help prints a page", status == 0 and none.read_text().startswith("usage: groups-page") and not said)
    with open("/dev/full", "wb") as full:
        run = subprocess.run([sys.executable, MAKER, "calculator.pl"], stdout=full, stderr=subprocess.PIPE, cwd=EXAMPLES, check=False)
    check("a full disk: status 5", run.returncode == 5 and not run.stderr, run.stderr)


# The scripts.


def script(name, *words, cwd=EXAMPLES, **environment):
    run = subprocess.run([EXAMPLES / name, *map(str, words)], capture_output=True, cwd=cwd, env={**os.environ, **environment}, timeout=MOST_SECONDS, check=False)
    return run.returncode, run.stdout.decode(), run.stderr.decode()


def labels(svg):
    return sorted(re.findall(r"<text[^>]*>([^<]*)</text>", svg))


def graphs_of_scripts(room):
    status, svg, said = script("modules.sh", "calculator.pl")
    check("modules.sh: modules, predicates, calls", status == 0 and labels(svg) == ["1", "calculator (6)", "scanner (4)"], (said, labels(svg)))
    status, svg, said = script("around.sh", "scanner:token/3", "1", "calculator.pl")
    check("around.sh: one step each way", status == 0 and labels(svg) == [f"scanner:{it}/3" for it in ("digits", "token", "tokens")], (said, labels(svg)))
    check("around.sh: no such predicate", script("around.sh", "a:b/0", "1", "calculator.pl")[::2] == (2, "around.sh: no predicate a:b/0\n"))
    check("around.sh: wrong arguments", [script("around.sh", "a:b/0", it, "calculator.pl")[0] for it in ("x", "", "100")] == [2, 2, 2])
    for name, words in (("modules.sh", ()), ("around.sh", ("a:b/0", "1"))):
        check(f"{name}: the status of calls", script(name, *words, "none.pl")[0] == 3)
    files = sorted(LIBRARY.glob("*.pl"))
    if shutil.which("swipl") and files:
        status, svg, said = script("modules.sh", "--swi", *files)
        check("modules.sh --swi: library(http), status 8", status == 8 and "http_dispatch (" in svg, said)
        status, svg, said = script("around.sh", "--swi", "json:json_write_term/4", "1", *files)
        check("around.sh --swi: library(http)", status == 8 and "json:json_write_object/4" in svg, said)


def check_of_ci(room):
    (room / "a.pl").write_text(":- module(a, [p/0]).\n:- use_module(b).\np :- foldl(x, [], 0, _), q(1), 'it''s'.\nx(_, _, _) :- nosuch.\n")
    (room / "b.pl").write_text(":- module(b, [q/1]).\n:- use_module(a).\nq(_) :- p, writeln(a), zork.\n")
    wanted = ["a.pl:3:32: undefined a:it's/0", "a.pl:4:15: undefined a:nosuch/0", "b.pl:3:24: undefined b:zork/0", "a.pl:2:1: import cycle a b"]
    has_swi = shutil.which("swipl") is not None
    if not has_swi:
        wanted[1:1] = ["a.pl:3:6: undefined a:foldl/4"]
        wanted.insert(4, "b.pl:3:12: undefined b:writeln/1")
    status, out, said = script("check.sh", "a.pl", cwd=room)
    check("check.sh: undefined predicates and import cycles", status == 1 and sorted(out.splitlines()) == sorted(wanted), (out, said))
    matcher = json.loads((EXAMPLES / "github-matcher.json").read_text())["problemMatcher"][0]["pattern"][0]
    found = [re.fullmatch(matcher["regexp"], it) for it in out.splitlines()]
    check("the matcher reads these lines", all(found) and found[0][matcher["line"]] == "3", out)
    (room / "known").write_text("zork/0\na:nosuch/0\nimport cycle a b\nit's/0\nfoldl/4\nwriteln/1\n")
    check("check.sh --known: status 0", script("check.sh", "--known", "known", "a.pl", cwd=room) == (0, "", ""))
    check("check.sh: known files that aren't there, wrong arguments", [script("check.sh", *it)[0] for it in (["--known", "none", "a.pl"], [], ["--x"])] == [2, 2, 2])
    check("check.sh: faults", script("check.sh", "none.pl")[0] == 3)
    if not has_swi:
        print("swipl isn't installed, so check.sh isn't tried with it")
        return
    for name in ("calculator.pl", "lists.pl", "parser.pl"):
        check(f"check.sh {name}: nothing", script("check.sh", name) == (0, "", ""), script("check.sh", name))
    status, out, said = script("check.sh", "--swi", "a.pl", cwd=room)
    check("check.sh --swi: the same lines", status == 1 and sorted(out.splitlines()) == sorted(wanted), (out, said))
    files = sorted(LIBRARY.glob("*.pl"))
    if files:
        status, out, said = script("check.sh", "--swi", *files)
        check("check.sh --swi: library(http)", status == 1 and "undefined $messages:translate_message/3" in out and ": import cycle html_write " in out and len(out.splitlines()) < 20, said)


def scripts(room):
    missing = [it for it in ("jq", "dot") if not shutil.which(it)]
    if missing:
        print(f"{', '.join(missing)} isn't installed, so the scripts aren't tried")
        return
    graphs_of_scripts(room)
    check_of_ci(room)


@contextlib.contextmanager
def browser_in(room, driver):
    """A browser, which is ended in any case: also the processes that a driver leaves when it fails."""
    browser = None
    try:
        browser = Browser(room, driver)
        yield browser
    finally:
        if browser:
            service = browser.driver.service.process
            browser.driver.quit()
            with contextlib.suppress(OSError):
                os.kill(service.pid, signal.SIGKILL)


def in_browser(room, options):
    driver = shutil.which("chromedriver")
    if not driver:
        check("chromedriver is installed (Debian: chromium-driver)", False)
        return
    try:
        from selenium.common.exceptions import WebDriverException
    except ImportError:
        check("selenium is installed (Debian: python3-selenium)", False)
        return
    try:
        with concurrent.futures.ThreadPoolExecutor() as pool, browser_in(room, driver) as browser:
            runs = [pool.submit(make_without_dot, room, at, it) for at, (it, _) in enumerate(BROKEN_DOT.values())]
            example(browser)
            keys_and_links(browser)
            looks(browser)
            hostile(browser)
            sizes(browser, (1500, 20000))
            pictures(browser)
            marks(browser)
            bridge(browser)
            without_pictures(browser, runs)
            sources_that_changed(browser)
            if options.large:
                large(browser)
    except WebDriverException as error:
        check("Chromium starts and does what it is told", False, str(error).partition("\n")[0])


def main():
    parser = argparse.ArgumentParser(description=__doc__.splitlines()[0])
    parser.add_argument("--large", action="store_true", help="a group of 100,000 members too")
    parser.add_argument("--keep", type=pathlib.Path, metavar="DIR", help="keep the pages there")
    options, begun = parser.parse_args(), time.monotonic()
    # selenium is a package of the system's Python.
    if chromium() and os.path.exists(SYSTEM_PYTHON) and os.path.realpath(sys.executable) != os.path.realpath(SYSTEM_PYTHON):
        os.execv(SYSTEM_PYTHON, [SYSTEM_PYTHON, __file__, *sys.argv[1:]])
    room = pathlib.Path(tempfile.mkdtemp(prefix="page-"))
    try:
        drawn()
        refusals(room)
        long_names(room)
        scripts(room)
        missing = [it for it, is_there in (("chromium", chromium()), ("dot", shutil.which("dot"))) if not is_there]
        if missing:
            print(f"{', '.join(missing)} isn't installed, so no page is opened")
        else:
            in_browser(room, options)
        if options.keep:
            options.keep.mkdir(parents=True, exist_ok=True)
            for page in room.glob("*.html"):
                shutil.copy(page, options.keep)
    finally:
        shutil.rmtree(room, ignore_errors=True)
    print(f"page: {f'{len(wrong)} things are not so' if wrong else 'as it should be'} ({time.monotonic() - begun:.0f} s)")
    sys.exit(bool(wrong))


if __name__ == "__main__":
    main()
