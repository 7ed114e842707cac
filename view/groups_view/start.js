// Links are hashes, as #p=module:name/2, so they hold for later pages of the same program too.
function show() {
  main.replaceChildren();
  const [kind, name] = asked(location.hash);
  if (kind === "p" && byLabel.has(name)) showPredicate(byLabel.get(name));
  else if (kind === "g" && byLabel.has(name)) showGroup(predicates[byLabel.get(name)][2]);
  else if (kind === "x" && byOther.has(name)) showOther(byOther.get(name));
  else if (kind === "m" && byModule.has(name)) showModule(byModule.get(name));
  else {
    if (kind) main.append(make("p", { class: "tag" }, "That name isn't in this page."));
    showProgram();
  }
  main.scrollTop = 0;
  if (kind && matchMedia("(max-width: 48rem)").matches) main.scrollIntoView();
  markOpen();
}
function asked(text) {
  const found = /^#([pgxm])=(.*)$/s.exec(text);
  if (!found) return [null, null];
  try {
    return [found[1], decodeURIComponent(found[2])];
  } catch {
    return ["broken", null];
  }
}

function onEscape() {
  if (!search.value) {
    location.hash = "";
    return;
  }
  search.value = "";
  fill();
  search.focus();
}
function onSlash() {
  search.focus();
  search.select();
}
function onDown(target) {
  if (list.contains(target) && !target.nextElementSibling) grow();
  const next = list.contains(target) ? target.nextElementSibling : list.querySelector("a");
  if (next) next.focus();
}
function onUp(target) {
  (target.previousElementSibling || search).focus();
}
function onKey(event) {
  if (event.ctrlKey || event.metaKey || event.altKey || event.isComposing) return;
  const { key, target } = event, inList = list.contains(target) && target !== list;
  if (key === "Escape") onEscape();
  if (key === "Enter" && target === search) {
    const first = list.querySelector("a");
    if (first) location.hash = first.getAttribute("href");
  }
  const typing = /^(INPUT|SELECT|TEXTAREA)$/.test(target.tagName);
  let taken = true;
  if (key === "/" && !typing) onSlash();
  else if (key === "ArrowDown" && (target === search || inList)) onDown(target);
  else if (key === "ArrowUp" && inList) onUp(target);
  else taken = false;
  if (taken) event.preventDefault();
}

addEventListener("hashchange", () => {
  show();
  if (!list.contains(document.activeElement) && document.activeElement !== search) main.focus({ preventScroll: true });
});
addEventListener("keydown", onKey);
fill();
show();
document.documentElement.setAttribute("data-ready", String(Math.round(performance.now())));
