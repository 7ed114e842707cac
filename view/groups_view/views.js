// What the main part shows: the program, a group, a predicate, a module, or a name outside.
const main = byId("main");
const NONE = "no predicate of these files", NO_OTHER = "no other predicate of these files";
const title = (text, ...inside) => make("h2", {}, text, ...inside);
const tag = text => make("span", { class: "tag" }, text);
const note = text => make("p", { class: "dim" }, text);

function showPredicate(p) {
  const [module, , group] = predicates[p], [height, recursive, members] = groups[group];
  const clauses = data.clauses[p], more = data.more[p];
  const inGroup = members.length > 1 ? `recursive, with ${many(members.length - 1, "other")}` : "recursive";
  const groupLink = make("a", { href: hash("g", labels[members[0]]), class: "tag recursive" }, inGroup);
  const moduleLink = make("a", { class: "tag", href: hash("m", modules[module]) }, `module ${cut(modules[module])}`);
  main.append(
    make("h1", {}, make("bdi", {}, labels[p])),
    make("p", {}, recursive ? groupLink : null, tag(heightText(height)), moduleLink,
      tag(many(clauses.length + more, "clause")), ...marksOf(p).map(tag),
      isEntry(p) ? tag(`entry point: ${rootsOf(p).join(", ")}`) : null),
    twoSides(
      `Called by (${number(callers[p].length / 2)})`, namesWithCounts(callers[p], toPredicate, NONE),
      `Calls (${number(callees[p].length / 2)})`, namesWithCounts(callees[p], toPredicate, NONE)));
  if (outside[p].length) {
    const item = ([o, n]) => make("li", {}, toOther(o), times(n));
    const names = longList("ul", { class: "flow" }, [...pairsOf(outside[p])], item, 60);
    main.append(title("Calls, not in these files"), names);
  }
  showDirectives(data.directives[p]);
  if (recursive) showCycleThrough(p, members);
  main.append(title("Clauses"));
  if (!clauses.length) main.append(note("It has none in these files: it is declared, or written in another language."));
  main.append(longList("div", {}, clauses, clauseBox, 20));
  if (more) main.append(note(`${many(more, "more clause")}, whose text isn't in this page.`));
}
// Where goals of directives call it, if some do.
function showDirectives(row) {
  if (!row) return;
  const [places, more] = row, item = ([file, line, column]) => make("li", {}, `${data.files[file]}:${line}:${column}`);
  main.append(title(`Called by directives (${number(places.length + more)})`),
    make("ul", { class: "names" }, ...places.map(item)));
  if (more) main.append(note(`${many(more, "more call")}, whose positions aren't in this page.`));
}
function showCycleThrough(p, members) {
  const way = cycleThrough(p, Math.min(2, members.length), null);
  if (!way) return;
  if (way.length === 1) {
    main.append(title("It calls itself"), cycleList(way));
    return;
  }
  const callsItself = [...pairsOf(callees[p])].some(([it]) => it === p);
  const which = callsItself ? "of two or more through it" : "through it";
  main.append(title(`A shortest cycle ${which}: ${number(way.length)} calls`), cycleList(way));
  if (callsItself) main.append(note("It calls itself too."));
}

// Who calls a group from outside, whom it calls there, and how many pairs of caller and callee are inside.
function aroundGroup(group) {
  const from = new Map(), to = new Map();
  const add = (counts, row) => {
    let inside = 0;
    for (let i = 0; i < row.length; i += 2) {
      const it = row[i];
      if (predicates[it][2] === group) inside++;
      else counts.set(it, (counts.get(it) || 0) + row[i + 1]);
    }
    return inside;
  };
  let pairs = 0;
  for (const p of groups[group][2]) {
    add(from, callers[p]);
    pairs += add(to, callees[p]);
  }
  const flat = counts => [...counts].sort((a, b) => a[0] - b[0]).flat();
  return [flat(from), flat(to), pairs];
}
function showGroup(group) {
  const [height, recursive, members] = groups[group];
  const [from, to, pairs] = aroundGroup(group);
  const kind = make("span", { class: recursive ? "tag recursive" : "tag" }, recursive ? "recursive" : "not recursive");
  main.append(
    make("h1", {}, "Group of ", make("bdi", {}, cut(labels[members[0]])),
      members.length > 1 ? ` and ${many(members.length - 1, "other")}` : ""),
    make("p", {}, kind, tag(heightText(height)), tag(`${many(pairs, "pair")} of caller and callee inside`)));
  const small = byId(`group${group}`);
  if (small) {
    const canvas = { class: "canvas", tabindex: "0", role: "group", "aria-label": "Picture of the group" };
    const caption = "The calls inside the group. Those of the cycle below are in colour.";
    const figure = make("figure", {}, make("div", canvas, small.content.cloneNode(true)),
      make("figcaption", {}, make("span", {}, caption)));
    main.append(figure);
    withZoom(figure, .7);
  }
  if (recursive) showShortestCycle(group);
  main.append(
    title(`Members (${number(members.length)})`),
    longList("ul", { class: "names" }, members, p => memberItem(p, group), 200),
    twoSides(
      `Called from outside by (${number(from.length / 2)})`, namesWithCounts(from, toPredicate, NO_OTHER),
      `Calls outside (${number(to.length / 2)})`, namesWithCounts(to, toPredicate, NO_OTHER)));
}
function showShortestCycle(group) {
  const [way, isShortest] = shortestCycle(group);
  if (!way) {
    main.append(note("No cycle was found in the time that a page may take."));
    return;
  }
  way.forEach((p, at) => {
    const edge = byId(`e${p}_${way[(at + 1) % way.length]}`);
    if (edge) edge.classList.add("hot");
  });
  const which = isShortest ? "A shortest cycle" : "A short cycle (not all were tried)";
  const text = way.length === 1 ? "It calls itself" : `${which} of two or more: ${number(way.length)} calls`;
  main.append(title(text), cycleList(way));
}
function memberItem(p, group) {
  const MOST = 6, item = make("li", {}, toPredicate(p));
  if (groups[group][2].length === 1) return item;
  const called = [...pairsOf(callees[p])].map(([it]) => it).filter(it => predicates[it][2] === group);
  item.append(dim(" \u2192 "));
  called.slice(0, MOST).forEach((it, at) => item.append(at ? ", " : "", toPredicate(it)));
  if (called.length > MOST) item.append(dim(` and ${number(called.length - MOST)} more`));
  return item;
}

function showOther(o) {
  let why = "This name means no predicate of these files: it is built in, of a library, or missing.";
  if (undefinedNames) {
    why = undefinedNames.has(o)
      ? "Undefined: neither these files nor SWI-Prolog with the libraries that they load define it."
      : "It is built into SWI-Prolog, or of a library that isn't read here.";
  }
  main.append(
    make("h1", {}, make("bdi", {}, others[o])), note(why),
    title(`Called by (${number(otherCallers[o].length / 2)})`),
    namesWithCounts(otherCallers[o], toPredicate, "nothing"));
  showDirectives(data.directives[-1 - o]);
}

function showModule(m) {
  const mine = [], from = new Map(), to = new Map();
  const add = (counts, row) => {
    for (const [it, n] of pairsOf(row)) {
      const other = predicates[it][0];
      if (other !== m) counts.set(other, (counts.get(other) || 0) + n);
    }
  };
  for (let p = 0; p < predicates.length; p++) {
    if (predicates[p][0] !== m) continue;
    mine.push(p);
    add(from, callers[p]);
    add(to, callees[p]);
  }
  const flat = counts => [...counts].sort((a, b) => b[1] - a[1]).flat();
  const item = p => {
    const kind = groups[predicates[p][2]][1] ? dim(" recursive") : null;
    return make("li", {}, toPredicate(p, predicates[p][1]), kind);
  };
  main.append(
    make("h1", {}, "Module ", make("bdi", {}, modules[m])),
    twoSides(
      `Called by modules (${from.size})`, namesWithCounts(flat(from), toModule, "no other module"),
      `Calls modules (${to.size})`, namesWithCounts(flat(to), toModule, "no other module")),
    title(`Predicates (${number(mine.length)})`), longList("ul", { class: "names" }, mine, item, 200));
}

function showProgram() {
  const bySize = (a, b) => groups[b][2].length - groups[a][2].length || groups[b][0] - groups[a][0] || a - b;
  const recursive = groups.map((_, g) => g).filter(g => groups[g][1]).sort(bySize);
  const reached = groups.filter(([height]) => height >= 0);
  const top = reached.reduce((n, [height]) => Math.max(n, height), 0);
  main.append(make("h1", {}, make("bdi", {}, data.title)), facts(recursive, reached.length, top));
  const figure = byId("picture").content.firstElementChild.cloneNode(true);
  main.append(figure);
  withZoom(figure, .55);
  if (recursive.length) {
    main.append(title(`Recursive groups (${number(recursive.length)})`), longList("div", {}, recursive, card, 10));
  }
  if (reached.length) {
    const text = "A group of height 0 calls no other. Any other is one above the highest that it calls.";
    main.append(title("Groups by height"), note(text), bars(reached, top));
  }
  showNames();
  if (data.notes.length) {
    const item = it => make("li", {}, it);
    main.append(title(`Left out (${number(data.notes.length + data.notesLeft)})`),
      longList("ul", { class: "names" }, data.notes, item, 20));
  }
  const key = text => make("kbd", {}, text);
  main.append(make("p", { class: "keys" }, key("/"), " search, ", key("\u2193"), key("\u2191"), " through the list, ",
    key("Enter"), " opens, ", key("Esc"), " back to this page; in the picture ", key("+"), key("\u2212"), key("0")));
}
function facts(recursive, reached, top) {
  const unreached = groups.reduce((n, [height, , members]) => height < 0 ? n + members.length : n, 0);
  const largest = groups.reduce((n, [, , members]) => Math.max(n, members.length), 0);
  const unknown = undefinedNames ? undefinedNames.size : others.length;
  const fact = (n, what, go) => {
    const inside = [make("b", {}, number(n)), make("span", {}, what)];
    return go ? button(go, {}, ...inside) : make("div", {}, ...inside);
  };
  const one = (n, what) => fact(n, n === 1 ? what : `${what}s`);
  const listed = (which, order) => () => {
    only(which, order);
    const first = list.querySelector("a");
    if (first) first.focus();
  };
  const toLargest = recursive.length && (() => { location.hash = groupHash(recursive[0]); });
  const toUnknown = unknown && (() => byId("unknown").scrollIntoView());
  return make("div", { class: "facts" },
    one(predicates.length, "predicate"), fact(reached, "groups", listed("all", "size")),
    fact(recursive.length, "recursive groups", listed("recursive", "size")), fact(largest, "in the largest", toLargest),
    fact(top, "greatest height", listed("all", "high")), one(modules.length, "module"), one(data.files.length, "file"),
    one(callCount, "call"), fact(unreached, "unreached", unreached && listed("unreached")),
    fact(unknown, undefinedNames ? "undefined names" : "unknown names", toUnknown));
}
function card(g) {
  const [height, , members] = groups[g];
  return make("a", { class: "card", href: groupHash(g) }, make("span", { class: "n" }, someNames(members, 6)),
    make("small", {}, `${many(members.length, "predicate")}, ${heightText(height)}`));
}
// A bar for each height, or for each few heights if there are many.
function bars(reached, top) {
  const MOST = 40, step = Math.ceil((top + 1) / MOST);
  const bins = Array.from({ length: Math.ceil((top + 1) / step) }, () => [0, 0]);
  for (const [height, recursive] of reached) bins[Math.floor(height / step)][recursive ? 1 : 0]++;
  const most = Math.max(...bins.map(([plain, recursive]) => plain + recursive));
  const bar = (n, kind) => {
    const it = make("i", { class: kind });
    it.style.width = `${n / most * 100}%`;
    return n ? it : null;
  };
  const rows = bins.map(([plain, recursive], at) => {
    const low = at * step, high = Math.min(top, low + step - 1);
    const about = many(plain + recursive, "group") + (recursive ? `, ${number(recursive)} recursive` : "");
    const both = make("span", { class: "bars" }, bar(recursive, "recursive"), bar(plain, "plain"));
    const list = button(() => only("all", null, [low, high]), {}, make("span", { class: "groups" }, about), both);
    return [dim(low === high ? `${low}` : `${low}\u2013${high}`), list];
  });
  return make("div", { class: "levels" }, ...rows.reverse().flat());
}
// Names that mean no predicate. If SWI-Prolog was asked, those that it doesn't define come first and apart.
function showNames() {
  const byCalls = others.map((_, o) => o).sort((a, b) => otherCalled[b] - otherCalled[a] || a - b);
  const item = o => make("li", {}, toOther(o), times(otherCalled[o]));
  const names = (items, attributes, text) => {
    if (!items.length) return;
    const list = longList("ul", { class: "flow" }, items, item, 40);
    main.append(make("h2", attributes, `${text} (${number(items.length)})`), list);
  };
  if (!undefinedNames) {
    names(byCalls, { id: "unknown" }, "Names that mean no predicate of these files");
    return;
  }
  names(byCalls.filter(o => undefinedNames.has(o)), { id: "unknown" }, "Undefined names");
  names(byCalls.filter(o => !undefinedNames.has(o)), {}, "Called from SWI-Prolog and its libraries");
}
