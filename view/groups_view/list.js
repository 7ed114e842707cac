// The list at the side: groups in an order, or the predicates that a search finds.
const list = byId("list"), search = byId("search"), filter = byId("filter"), sort = byId("sort"), count = byId("count");
const PIECE = 150;
let grow = () => 0;
let heights = null; // the lowest and the highest that are listed, or all

function entry(link, recursive, name, about) {
  const attributes = { href: link, tabindex: "-1", class: recursive ? "recursive" : "plain" };
  return make("a", attributes, make("span", { class: "n" }, name), make("small", {}, about.filter(Boolean).join(", ")));
}
function predicateEntry(p) {
  const [height, recursive, members] = groups[predicates[p][2]];
  const about = [heightText(height), recursive && "recursive", recursive && many(members.length, "predicate")];
  return entry(hash("p", labels[p]), recursive, cut(shortLabel(p)), about);
}
function groupEntry(g) {
  const [height, recursive, members] = groups[g];
  const size = members.length > 1 && many(members.length, "predicate");
  return entry(groupHash(g), recursive, someNames(members, 3), [heightText(height), recursive && "recursive", size]);
}

function isListed(g) {
  const [height, recursive] = groups[g];
  if (heights && (height < heights[0] || height > heights[1])) return false;
  if (filter.value === "entry") return groups[g][2].some(isEntry);
  return filter.value === "all" || (filter.value === "recursive" ? recursive : height < 0);
}
function foundPredicates(words) {
  const found = [];
  for (let p = 0; p < predicates.length; p++) {
    if (words.every(word => searched[p].includes(word)) && isListed(predicates[p][2])) found.push(p);
  }
  // Names that begin with the first word come first.
  const rank = p => predicates[p][1].toLowerCase().startsWith(words[0]) ? 0 : 1;
  return found.sort((a, b) => rank(a) - rank(b) || a - b);
}
function sortedGroups() {
  const size = g => groups[g][2].length, height = g => groups[g][0], first = g => groups[g][2][0];
  const calls = ([, , members]) => members.reduce((n, p) => n + called[p], 0);
  const sums = sort.value === "called" && groups.map(calls);
  const orders = {
    size: (a, b) => size(b) - size(a) || groups[b][1] - groups[a][1] || height(b) - height(a),
    height: (a, b) => height(a) - height(b),
    high: (a, b) => height(b) - height(a),
    called: (a, b) => sums[b] - sums[a],
    name: () => 0,
  };
  const order = orders[sort.value];
  return groups.map((_, g) => g).filter(isListed).sort((a, b) => order(a, b) || first(a) - first(b));
}
function groupCount(rows) {
  const unreached = rows.filter(g => groups[g][0] < 0).length, reached = rows.length - unreached;
  const known = (reached || !unreached) && many(reached, "group");
  return [known, unreached && many(unreached, "unreached predicate")].filter(Boolean).join(", ");
}

function fill() {
  const words = search.value.trim().toLowerCase().split(/\s+/).filter(Boolean);
  const rows = words.length ? foundPredicates(words) : sortedGroups();
  count.textContent = words.length ? many(rows.length, "predicate") : groupCount(rows);
  if (heights) {
    const [low, high] = heights;
    count.append(` of height ${low}${high > low ? ` to ${high}` : ""} `, button(() => only("all"), {}, "all"));
  }
  list.replaceChildren();
  list.scrollTop = 0;
  grow = inPieces(list, rows, words.length ? predicateEntry : groupEntry, PIECE);
  grow();
  if (list.firstChild) list.firstChild.tabIndex = 0;
  markOpen();
}
// Lists these groups alone.
function only(which, order, between = null) {
  search.value = "";
  filter.value = which;
  if (order) sort.value = order;
  heights = between;
  fill();
}
function markOpen() {
  for (const it of list.children) it.classList.toggle("here", it.getAttribute("href") === location.hash);
}

// Tab goes to one entry of the list alone, and arrows go through it.
list.addEventListener("focusin", event => {
  const old = list.querySelector('[tabindex="0"]');
  if (old) old.tabIndex = -1;
  event.target.tabIndex = 0;
});
list.addEventListener("scroll", () => {
  if (list.scrollTop + list.clientHeight > list.scrollHeight - 400) grow();
});
search.addEventListener("input", fill);
filter.addEventListener("change", fill);
sort.addEventListener("change", fill);
