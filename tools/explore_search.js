// Search by sentence, name and number, and which view the page's address asks for.
const view = document.getElementById("view");
const search = document.getElementById("search");
const most = 60;
const index = [];

for (const [kind, all] of [["d", data.modules], ["f", data.code]]) {
  for (const [key, file] of Object.entries(all)) {
    const add = (name, owner, sort) => index.push({ name: name.toLowerCase(), way: `${kind}/${key}.${owner}`, sort,
      open: file.d[owner][5] });
    for (const name of Object.keys(file.d)) add(name, name, kinds[file.d[name][0]]);
    for (const name of Object.keys(file.m)) add(name, file.m[name], "part of");
  }
}

const letters = { "&lt;": "<", "&gt;": ">", "&amp;": "&", "&quot;": '"', "&#x27;": "'" };
const plain = (html) => html.replace(/<[^>]*>/g, "").replace(/&\w+;|&#x27;/g, (mark) => letters[mark] || mark);
const even = (text) => text.trim().replace(/\s+/g, " ").toLowerCase();
const texts = data.sentences.map(({ cells, part }) => even(plain([...cells, ...part].join(" "))));

// names that fit, the exact ones first, then the public ones, then the shorter
function namesFor(asked) {
  const whole = /[/:]/.test(asked);
  const last = asked.replace(/^.*[/.:]/, "");
  const fits = (entry) => (whole ? titled(entry.way).toLowerCase().includes(asked) : entry.name.includes(last));
  const rank = (entry) => [entry.name !== last, !entry.open, entry.name.length];
  return index.filter(fits).sort((a, b) => {
    const [one, two] = [rank(a), rank(b)];
    const at = one.findIndex((x, i) => x !== two[i]);
    return at < 0 ? 0 : one[at] - two[at];
  });
}

views.q = (query) => {
  const asked = even(query);
  if (!asked) return views[""]();
  const number = asked.replace(/^refusal /, "");
  const found = namesFor(asked);
  const told = each(texts, (text) => text.includes(asked));
  const loose = told.length ? told : each(texts, (text) => asked.split(" ").every((word) => text.includes(word)));
  const calls = each(data.calls, (call) => `${call.title} ${call.cname}`.toLowerCase().includes(asked));
  const crates = Object.keys(data.crates).filter((crate) => crate.includes(asked));
  const part = (title, rows) => (rows.length ? section(`<h3>${title}</h3>${list(rows)}`) : "");
  const shown = (own(data.causes, number) ? views.n(number) : "")
    + part("calls", calls.map(([call, i]) => callRow(call, i)))
    + part("crates", crates.map((crate) => coded("k/" + crate, crate)))
    + part(`names: ${found.length}${found.length > most ? `, the first ${most}` : ""}`, found.slice(0, most).map(
      ({ way, sort }) => `<span class="kind">${sort}</span> ${coded(way, titled(way))}`))
    + (loose.length ? `<h3>sentences: ${loose.length}</h3>` : "")
    + loose.slice(0, most).map(([, i]) => sentence(i, false)).join("");
  return shown || none(`Nothing found for ${safe(query)}.`);
};

function show() {
  const hash = decodeURIComponent(location.hash.slice(1));
  const cut = hash.indexOf("/");
  const name = cut < 0 ? hash : hash.slice(0, cut);
  const rest = cut < 0 ? "" : hash.slice(cut + 1);
  view.innerHTML = own(views, name) ? views[name](rest) : missing(hash);
  if (document.activeElement !== search) search.value = name === "q" ? rest : "";
  window.scrollTo(0, 0);
}

let waiting = 0;
search.addEventListener("input", () => {
  clearTimeout(waiting);
  waiting = setTimeout(() => {
    history.replaceState(null, "", search.value ? "#q/" + encodeURIComponent(search.value) : "#");
    show();
  }, 120);
});
window.addEventListener("hashchange", () => {
  search.blur();
  show();
});
window.addEventListener("beforeprint", () => view.querySelectorAll("details").forEach((part) => { part.open = true; }));
show();
