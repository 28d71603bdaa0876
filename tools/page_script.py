"""What the planner's page does, by tap or by key: it shows what each loss cuts off, which stands in the page as data;
the ring that holds two links, and what doubtful links make weak, which it works out (page_rings)."""

SCRIPT = """
"use strict";
const site = JSON.parse(document.getElementById("site").textContent);
const said = document.getElementById("said");
const first = said.textContent;
const every = (what) => Array.from(document.querySelectorAll(what));

const shown = () => every(".sheet").find((e) => !e.hidden);

function numbers(element, name) {
  const written = element.getAttribute(name);
  return written ? written.split(" ").map(Number) : [];
}

function choose(key) {
  const unit = key[0] === "u" ? Number(key.slice(1)) : -1;
  const link = key[0] === "l" ? Number(key.slice(1)) : -1;
  const part = new Map();
  (site.cut[key] || []).forEach((units, k) => units.forEach((v) => part.set(v, k + 1)));
  const off = (j) => part.has(site.links[j][0]) || part.has(site.links[j][1]);
  for (const e of every("svg [data-unit]")) {
    const v = Number(e.getAttribute("data-unit"));
    e.classList.toggle("lost", v === unit);
    e.classList.toggle("cut", part.has(v));
    if (part.has(v)) e.setAttribute("data-part", part.get(v)); else e.removeAttribute("data-part");
  }
  for (const e of every("svg [data-link]")) {
    const j = Number(e.getAttribute("data-link"));
    e.classList.toggle("lost", j === link);
    e.classList.toggle("cut", j !== link && off(j));
    e.classList.toggle("gone", site.links[j].includes(unit) && !off(j));
  }
  for (const e of every("svg [data-of]")) e.classList.toggle("cut", off(Number(e.getAttribute("data-of"))));
  for (const e of every("svg .box")) {
    const units = numbers(e, "data-units").filter((v) => v !== unit);
    const gone = units.filter((v) => part.has(v)).length;
    e.classList.toggle("cut", gone > 0 && gone === units.length);
    e.classList.toggle("some", gone > 0 && gone < units.length);
    e.classList.toggle("lost", numbers(e, "data-links").includes(link) && !e.classList.contains("set"));
  }
  for (const e of every("li[data-key]")) {
    const here = e.getAttribute("data-key") === key;
    e.classList.toggle("chosen", here);
    if (here && e.closest("details")) e.closest("details").open = true;
  }
  document.body.setAttribute("data-chosen", key);
  said.textContent = key ? site.said[key] || nothing(unit, link) : first;
}

// ---- rings and doubtful links: the address holds the links that were tapped

const hints = {
  loss: first,
  ring: "Tap two links: the ring that holds both turns bold, or there is none. One link twice: a ring through it.",
  doubtful: "Tap the links in whose way something may stand: what becomes weak where they fail is marked.",
};
const mode = () => document.body.getAttribute("data-mode") || "loss";
const chosen = () => numbers(document.body, "data-links");

function turnTo(name) {
  document.body.setAttribute("data-mode", name);
  const pressed = (e) => String(e.getAttribute("data-mode-of") === name);
  for (const e of every("[data-mode-of]")) e.setAttribute("aria-pressed", pressed(e));
}

// marks links and units of the drawing with a class
function mark(name, units, links) {
  const of = (attribute, some) => every("svg [" + attribute + "]").forEach(
    (e) => e.classList.toggle(name, some.includes(Number(e.getAttribute(attribute)))));
  of("data-unit", units);
  of("data-link", links);
}

function linkName(j) {
  const [a, b] = site.links[j];
  const named = site.names[a] || site.names[b] ? ": " + [a, b].map((v) => site.names[v] || "unit " + v).join(", ") : "";
  return "link " + j + " (" + a + "-" + b + named + ")";
}

function listed(what, some, name) {
  return some.length ? [what + (some.length === 1 ? " " : "s ") + some.map(name).join(", ")] : [];
}

const short = (v) => v + (site.names[v] ? " (" + site.names[v] + ")" : "");

function places(weak) {
  const links = (j) => site.links[j].join("-");
  return listed("unit", weak.units, short).concat(listed("link", weak.links, links)).join("; ");
}

function showRing(links) {
  const ring = links.length === 2 ? ringOf(site.units, site.links, links[0], links[1]) : [];
  const pairs = ring.map((v, k) => [v, ring[(k + 1) % ring.length]]);
  const on = site.links.map((_, j) => j).filter(
    (j) => pairs.some(([a, b]) => site.links[j].includes(a) && site.links[j].includes(b)));
  mark("onring", ring, on);
  mark("picked", [], links);
  const names = [...new Set(links)].map(linkName).join(" and ");
  document.body.setAttribute("data-ring", ring.join(" "));
  if (!links.length) said.textContent = hints.ring;
  else if (links.length < 2) said.textContent = "A ring through " + names + " and which other link?";
  else if (ring.length) said.textContent = "A ring of " + ring.length + " units holds " + names + ": walk " +
    ring.map(short).join(", ") + ", and back to the first.";
  else said.textContent = "No ring holds " + names + ".";
}

function showDoubts(links) {
  const weak = doubtsOf(site.units, site.links, new Set(links));
  const now = weak.perhaps.units.filter((v) => site.cut["u" + v]);
  const more = {units: weak.perhaps.units.filter((v) => !site.cut["u" + v]), links: weak.perhaps.links};
  mark("doubted", [], links);
  mark("perhaps", more.units, more.links);
  document.body.setAttribute("data-perhaps", JSON.stringify(more));
  if (!links.length) said.textContent = hints.doubtful;
  else said.textContent = "Doubtful: " + links.map(linkName).join(", ") + ". Weak whatever is gone: " +
    (places(weak.always) || "nothing") + ". " +
    (now.length ? "Weak now, though not where some are gone: " + places({units: now, links: []}) + ". " : "") +
    "Weak where some are gone: " + (places(more) || "nothing more") + ".";
}

function clearMarks() {
  for (const name of ["onring", "picked", "doubted", "perhaps"]) mark(name, [], []);
  for (const name of ["data-ring", "data-perhaps", "data-links"]) document.body.removeAttribute(name);
}

// a link was tapped where rings or doubtful links are asked for
function tapped(j) {
  const links = chosen();
  const after = mode() === "ring" ? (links.length === 1 ? [links[0], j] : [j])
    : links.includes(j) ? links.filter((k) => k !== j) : links.concat([j]);
  location.hash = "#" + mode() + "=" + after.join(",");
}

function asked() {
  const found = /^#(ring|doubtful)=([\\d,]*)$/.exec(location.hash);
  if (!found) return false;
  const links = found[2].split(",").filter((word) => word).map(Number).filter((j) => j < site.links.length);
  choose("");
  clearMarks();
  turnTo(found[1]);
  document.body.setAttribute("data-links", links.join(" "));
  if (found[1] === "ring") showRing(links.slice(0, 2)); else showDoubts(links);
  return true;
}

function called(v) {
  return "unit " + v + (site.names[v] ? " (" + site.names[v] + ")" : "");
}

function nothing(unit, link) {
  if (unit >= 0) return "Loss of " + called(unit) + " cuts nothing else off.";
  const [a, b] = site.links[link];
  return "Loss of link " + link + " (" + a + "-" + b + ") cuts nothing off: it is backed up.";
}

function told() {
  if (asked()) return;
  clearMarks();
  turnTo("loss");
  const found = /^#(unit|link)=(\\d+)$/.exec(location.hash);
  const number = found ? Number(found[2]) : -1;
  const there = found && number < (found[1] === "unit" ? site.units : site.links.length);
  choose(there ? found[1][0] + number : "");
}

function go(key) {
  const wanted = key ? "#" + (key[0] === "u" ? "unit=" : "link=") + key.slice(1) : "#";
  if (location.hash === wanted) told(); else location.hash = wanted;
}

document.addEventListener("click", (event) => {
  const e = event.target.closest("[data-unit], [data-link], [data-key], [data-show], [data-zoom], [data-mode-of]");
  if (!e) return;
  if (e.hasAttribute("data-mode-of")) return ask(e.getAttribute("data-mode-of"));
  if (mode() !== "loss" && e.hasAttribute("data-link")) return tapped(Number(e.getAttribute("data-link")));
  if (mode() !== "loss" && (e.hasAttribute("data-unit") || e.getAttribute("data-key") === "")) return ask(mode());
  if (e.hasAttribute("data-show")) return show(e.getAttribute("data-show"));
  if (e.hasAttribute("data-zoom")) return zoom(Number(e.getAttribute("data-zoom")));
  if (e.hasAttribute("data-key")) return go(e.getAttribute("data-key"));
  go(e.hasAttribute("data-unit") ? "u" + e.getAttribute("data-unit") : "l" + e.getAttribute("data-link"));
});

function ask(name) {
  if (name !== "loss") show("whole");
  location.hash = name === "loss" ? "#" : "#" + name + "=";
}

function show(name) {
  for (const e of every(".sheet")) e.hidden = e.id !== name;
  for (const e of every("[data-show]")) e.setAttribute("aria-pressed", String(e.getAttribute("data-show") === name));
}

function zoom(by) {
  const sheet = shown();
  const svg = sheet.querySelector("svg");
  const now = svg.getBoundingClientRect().width;
  svg.style.minWidth = "0";
  svg.style.width = by ? Math.min(16000, Math.max(100, now * by)) + "px" : "100%";
  svg.style.height = by ? "auto" : Math.min(sheet.clientHeight, window.innerHeight) + "px";
}

// one unit or link of a drawing can be reached by Tab, the others from there by the arrows: units first, then links
function ordered(sheet) {
  const of = (name) => Array.from(sheet.querySelectorAll("[" + name + "]"))
    .sort((a, b) => Number(a.getAttribute(name)) - Number(b.getAttribute(name)));
  return of("data-unit").concat(of("data-link").filter((e) => e.childElementCount));
}

for (const sheet of every(".sheet")) ordered(sheet).forEach((e, k) => {
  e.setAttribute("tabindex", k ? "-1" : "0");
  e.setAttribute("role", "button");
  const title = e.querySelector("title");
  if (title) e.setAttribute("aria-label", title.textContent);
});

document.addEventListener("keydown", (event) => {
  const e = event.target.closest(".sheet [tabindex]");
  if (!e) return;
  const all = ordered(e.closest(".sheet"));
  const step = {ArrowRight: 1, ArrowDown: 1, ArrowLeft: -1, ArrowUp: -1}[event.key];
  if (step) {
    const to = all[(all.indexOf(e) + step + all.length) % all.length];
    e.setAttribute("tabindex", "-1");
    to.setAttribute("tabindex", "0");
    to.focus();
  } else if (event.key === "Enter" || event.key === " ") {
    e.dispatchEvent(new MouseEvent("click", {bubbles: true}));
  } else return;
  event.preventDefault();
});

window.addEventListener("hashchange", told);
told();
"""
