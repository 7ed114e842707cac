// Elements, links and lists. Data becomes text of elements, and is never read as HTML.
const byId = id => document.getElementById(id);
const number = n => n.toLocaleString("en");
const many = (n, what) => `${number(n)} ${what}${n === 1 ? "" : "s"}`;

// What can't be seen: controls, what draws nothing, blanks of any kind but the common one, and
// combining marks after the second of one letter.
const HIDDEN = /(?![\t\n\r ])[\p{Cc}\p{Cf}\p{Co}\p{Cs}\p{Z}\p{DI}\u2800\ufff0-\uffff]|(?<=\p{M}\p{M})\p{M}/gu;
const RIGHT = /((?:[\u0590-\u08ff\ufb1d-\ufdff\ufe70-\ufefc]|[\u{10800}-\u{10fff}\u{1e800}-\u{1efff}])+)/u;

function make(tag, attributes, ...inside) {
  const it = document.createElement(tag);
  for (const name in attributes) it.setAttribute(name, attributes[name]);
  for (const part of inside) {
    if (typeof part === "string") putText(it, part);
    else if (part !== null) it.append(part);
  }
  return it;
}
function button(click, attributes, ...inside) {
  const it = make("button", attributes, ...inside);
  it.addEventListener("click", click);
  return it;
}

// Text that is written from right to left stays in its place, and what follows it too.
function putText(where, text) {
  text.split(RIGHT).forEach((part, at) => {
    if (at % 2) {
      const it = document.createElement("bdi");
      putVisible(it, part);
      where.append(it);
    } else {
      putVisible(where, part);
    }
  });
}
function putVisible(where, text) {
  let last = 0;
  for (const found of text.matchAll(HIDDEN)) {
    const code = found[0].codePointAt(0).toString(16).toUpperCase().padStart(4, "0");
    where.append(text.slice(last, found.index), make("span", { class: "odd" }, `U+${code}`));
    last = found.index + found[0].length;
  }
  where.append(text.slice(last));
}

const MOST_NAME = 160;
function cut(text) {
  if (text.length <= MOST_NAME) return text;
  return text.slice(0, MOST_NAME).replace(/[\ud800-\udbff]$/, "") + "\u2026";
}
const hash = (kind, text) => `#${kind}=${encodeURIComponent(text)}`;
const linkTo = (kind, name, text = name) => make("a", { href: hash(kind, name), class: "n" }, cut(text));
const toPredicate = (p, text = shortLabel(p)) => linkTo("p", labels[p], text);
const toOther = o => linkTo("x", others[o]);
const toModule = m => linkTo("m", modules[m]);
function groupHash(g) {
  const members = groups[g][2];
  return hash(members.length > 1 ? "g" : "p", labels[members[0]]);
}
const dim = text => make("span", { class: "dim" }, text);
const times = n => n > 1 ? dim(` \u00d7${number(n)}`) : null;
const heightText = height => height < 0 ? "unreached" : `height ${number(height)}`;

// The first members of a group, with their module where it changes.
function someNames(members, most) {
  const names = members.slice(0, most).map((p, at) => {
    const isSame = at > 0 && predicates[members[at - 1]][0] === predicates[p][0];
    return cut(isSame ? predicates[p][1] : shortLabel(p));
  });
  return names.join(", ") + (members.length > most ? ", \u2026" : "");
}

// Shows the next items of a long list each time that it is called; returns how many are left.
function inPieces(where, items, show, size) {
  let at = 0;
  return () => {
    const part = document.createDocumentFragment();
    for (const end = Math.min(items.length, at + size); at < end; at++) part.append(show(items[at]));
    where.append(part);
    return items.length - at;
  };
}
// The list with a button for what isn't shown yet.
function longList(tag, attributes, items, show, size) {
  const where = make(tag, attributes), more = inPieces(where, items, show, size);
  const left = more();
  if (!left) return where;
  const text = n => `show more (${number(n)} left)`;
  const it = button(() => {
    const rest = more();
    if (rest) it.textContent = text(rest);
    else it.remove();
  }, { class: "more" }, text(left));
  return make("div", {}, where, it);
}
function namesWithCounts(row, link, empty) {
  if (!row.length) return make("p", { class: "dim" }, empty);
  return longList("ul", { class: "names" }, [...pairsOf(row)], ([it, n]) => make("li", {}, link(it), times(n)), 60);
}
function twoSides(leftTitle, left, rightTitle, right) {
  const side = (title, part) => make("section", { class: "side" }, make("h2", {}, title), part);
  return make("div", { class: "sides" }, side(leftTitle, left), side(rightTitle, right));
}

// A cycle as links, in the middle cut if it is long.
function cycleList(way) {
  const all = [...way, way[0]], left = all.length > 60 ? all.length - 41 : 0;
  const item = p => make("li", {}, toPredicate(p));
  const items = all.slice(0, left ? 40 : all.length).map(item);
  if (left) items.push(make("li", {}, dim(`${number(left)} more`)), item(way[0]));
  return make("ol", { class: "cycle" }, ...items);
}

// A clause with line numbers; each called name in it is a link.
function clauseBox([file, line, column, text, links]) {
  const box = make("div", { class: "clause" }, make("header", {}, `${data.files[file]}:${line}:${column}`));
  if (text === undefined) return box;
  const pre = make("pre", { tabindex: "0" });
  let row = null, at = line;
  const newRow = () => pre.append(row = make("div", { "data-line": String(at++) }));
  newRow();
  row.append(" ".repeat(Math.min(column - 1, 40)));
  const add = (part, target) => part.split("\n").forEach((piece, i) => {
    if (i) newRow();
    piece = piece.replace(/\r$/, "");
    if (!piece) return;
    if (target === undefined) putText(row, piece);
    else row.append(calledName(target, piece));
  });
  let last = 0;
  for (let i = 0; i < links.length; i += 3) {
    const end = links[i] + links[i + 1];
    add(text.slice(last, links[i]));
    add(text.slice(links[i], end), links[i + 2]);
    last = end;
  }
  add(text.slice(last));
  box.append(pre);
  return box;
}
function calledName(target, text) {
  if (target >= 0) return make("a", { href: hash("p", labels[target]), title: labels[target] }, text);
  const name = others[-1 - target];
  return make("a", { href: hash("x", name), title: `${name}: not in these files`, class: "out" }, text);
}

// A picture with buttons and keys for its size.
function withZoom(figure, least) {
  const canvas = figure.querySelector(".canvas"), svg = canvas.querySelector("svg");
  if (!svg) {
    canvas.remove();
    return;
  }
  const POINT = 4 / 3, wide = svg.viewBox.baseVal.width * POINT, high = svg.viewBox.baseVal.height * POINT;
  let scale = 1;
  const set = to => {
    scale = Math.max(.05, Math.min(4, to));
    svg.setAttribute("width", wide * scale);
    svg.setAttribute("height", high * scale);
  };
  const fit = least => set(Math.max(least, Math.min(1, (canvas.clientWidth - 30) / wide)));
  const smaller = () => set(scale / 1.4), larger = () => set(scale * 1.4), whole = () => fit(.05);
  figure.querySelector("figcaption").append(make("div", { class: "zoom" },
    button(smaller, { "aria-label": "smaller", title: "smaller (-)" }, "\u2212"),
    button(larger, { "aria-label": "larger", title: "larger (+)" }, "+"),
    button(whole, { title: "whole width (0)" }, "fit")));
  const keys = { "+": larger, "=": larger, "-": smaller, "0": whole };
  canvas.addEventListener("keydown", event => {
    if (event.ctrlKey || event.metaKey || event.altKey || !Object.hasOwn(keys, event.key)) return;
    keys[event.key]();
    event.preventDefault();
  });
  fit(least);
  canvas.scrollLeft = (canvas.scrollWidth - canvas.clientWidth) / 2;
}
