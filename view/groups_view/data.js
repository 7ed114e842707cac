// The data of the page, and what follows from it. Predicates, groups, modules and other names are indices.
const data = JSON.parse(document.getElementById("data").textContent);
const { predicates, groups, modules, callees, outside, others } = data;
const isOneModule = modules.length === 1;

const label = p => `${modules[predicates[p][0]]}:${predicates[p][1]}`;
const shortLabel = p => isOneModule ? predicates[p][1] : label(p);
// What is declared of a predicate, and why it is an entry point: a bit each.
const MARKS = ["exported", "dynamic", "multifile"], ROOTS = ["export", "directive", "file", "--roots"];
const marksOf = p => MARKS.filter((_, at) => predicates[p][3] >> at & 1);
const rootsOf = p => ROOTS.filter((_, at) => predicates[p][3] >> MARKS.length + at & 1);
const isEntry = p => predicates[p][3] >> MARKS.length > 0;
const indexOf = names => new Map(names.map((name, at) => [name, at]));
const labels = predicates.map((_, p) => label(p));
const byLabel = indexOf(labels), byOther = indexOf(others), byModule = indexOf(modules);
const searched = labels.map(it => it.toLowerCase());

// Rows hold pairs: an index, and how many calls there are.
function* pairsOf(row) {
  for (let i = 0; i < row.length; i += 2) yield [row[i], row[i + 1]];
}

const callers = predicates.map(() => []), called = new Float64Array(predicates.length);
const otherCallers = others.map(() => []), otherCalled = new Float64Array(others.length);
function invert(rows, sources, counts) {
  let sum = 0;
  rows.forEach((row, p) => {
    for (let i = 0; i < row.length; i += 2) {
      sources[row[i]].push(p, row[i + 1]);
      counts[row[i]] += row[i + 1];
      sum += row[i + 1];
    }
  });
  return sum;
}
const callCount = invert(callees, callers, called) + invert(outside, otherCallers, otherCalled);
// Of calls of directives by the index of a predicate, or -1 less that of another name: places, and how many more.
for (const [target, [places, more]] of Object.entries(data.directives)) {
  if (target < 0) otherCalled[-1 - target] += places.length + more;
}

// Of the names that mean no predicate those that SWI-Prolog doesn't define either, if it was asked.
const undefinedNames = data.undefined && new Set(data.undefined);

// A shortest cycle of calls through a predicate, of at least so many; it never leaves the group. Before
// and after a search `before` has no predicate: a search takes as long as what it visits.
const UNSEEN = -2, START = -1;
const before = new Int32Array(predicates.length).fill(UNSEEN);
function cycleThrough(start, least, budget) {
  const group = predicates[start][2], waiting = [start];
  before[start] = START;
  const last = lastOfCycle(start, least, budget, group, waiting);
  const way = [];
  for (let p = last; p !== null && p !== START; p = before[p]) way.push(p);
  for (const p of waiting) before[p] = UNSEEN;
  return last === null ? null : way.reverse();
}
function lastOfCycle(start, least, budget, group, waiting) {
  for (let at = 0; at < waiting.length; at++) {
    const from = waiting[at], row = callees[from];
    for (let i = 0; i < row.length; i += 2) {
      if (budget && budget.left-- < 0) return null;
      const to = row[i];
      if (to === start && (least === 1 || from !== start)) return from;
      if (predicates[to][2] === group && before[to] === UNSEEN) {
        before[to] = from;
        waiting.push(to);
      }
    }
  }
  return null;
}

// A shortest cycle of a group, of two or more predicates if it has as many; and whether all were tried.
const MOST_STEPS = 1e6;
function shortestCycle(group) {
  const members = groups[group][2], least = Math.min(2, members.length), budget = { left: MOST_STEPS };
  let best = null;
  for (const p of members) {
    const way = cycleThrough(p, least, budget);
    if (way && (!best || way.length < best.length)) best = way;
    if (best && best.length === least) return [best, true];
    if (budget.left < 0) return [best, false];
  }
  return [best, true];
}
