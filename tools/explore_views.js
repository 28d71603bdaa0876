// Views: what the page shows at each of its addresses.
const section = (inner, name) => `<section${name ? ` class="${name}"` : ""}>${inner}</section>`;
const list = (items) => (items.length ? `<ul>${items.map((item) => `<li>${item}</li>`).join("")}</ul>` : "");
const plural = (count, word) => `${count} ${word}${count === 1 ? "" : "s"}`;
const none = (text) => section(`<p class="none">${text}</p>`);
const missing = (what) => none(`Nothing here is called ${safe(what)}.`);
const numbers = (some) => some.map((n) => `<a class="number" href="#n/${n}">${n}</a>`).join("");
const folded = (title, inner, open) => `<details${open ? " open" : ""}><summary>${title}</summary>${inner}</details>`;
const each = (all, keep) => all.map((entry, i) => [entry, i]).filter(([entry]) => keep(entry));
const titled = (way) => (way[0] === "d" ? way.slice(2) : `${way.slice(2).split("/")[0]}::${divided(way.slice(2))[1]}`);

function source(kind, key, line) {
  const path = coded(`${kind === "d" ? "m" : "o"}/${key}`, fileOf(kind, key).p);
  return line === undefined ? path : `${path}, line ${line + 1}`;
}

// ---- a name, an edit, a sentence

// a name as it stands: a long proof, or the body of a function, is folded
function block(way, level) {
  const kind = way[0];
  const [key, name] = divided(way.slice(2));
  const file = fileOf(kind, key);
  if (!file || !own(file.d, name)) return none(`${safe(way)} is not in the tree.`);
  const [sort, start, line, body, end] = file.d[name];
  const fold = (sort === "law" && end - body > 10) || (sort === "fn" && end - body > 1);
  let text = `<h${level}>${coded(way, titled(way))}</h${level}>`;
  text += `<p class="part">${kinds[sort]}, ${source(kind, key, line)}</p>`;
  text += `<pre>${linked(kind, key, start, fold ? body : end)}</pre>`;
  if (fold) {
    const what = `its ${sort === "law" ? "proof" : "body"}, ${plural(end - body, "line")}`;
    text += folded(what, `<pre>${linked(kind, key, body, end)}</pre>`);
  }
  return section(text, sort);
}

function edit(key, level) {
  const [said, file, line, old, changed, at] = data.edits[key];
  const way = (file.endsWith(".antt") ? "d/" : "f/") + at;
  const inside = at ? `, in ${coded(way, titled(way))}` : "";
  return section(`<h${level}>${coded("e/" + key, key)}</h${level}><p>${safe(said)}</p>
<p class="part">${safe(file)}, line ${line}${inside}</p>
<pre class="old">${safe(old)}</pre><pre class="new">${safe(changed)}</pre>`);
}

function edits(keys, title) {
  const rows = keys.map((key) => `${coded("e/" + key, key)}: ${safe(data.edits[key][0])}`);
  return section(keys.length ? folded(`<b>${title}: ${keys.length}</b>`, list(rows), keys.length < 9)
    : `<p class="none">${title}: none</p>`);
}

const editsIn = (names) => Object.keys(data.edits).filter((key) => names.has(data.edits[key][5]));

function sentence(i, whole) {
  const { part, head, cells } = data.sentences[i];
  const label = (k) => (cells.length > 1 && head[k] ? `<span class="kind">${head[k]}</span> ` : "");
  const rows = cells.map((cell, k) => `<p>${label(k)}${cell}</p>`).join("");
  const where = part.length ? `<p class="part">${part.join(" › ")}</p>` : "";
  return section(where + rows + (whole ? "" : `<p>${anchor("s/" + i, "with its sources")}</p>`));
}

function citing(way) {
  const found = each(data.sentences, (entry) => entry.n.includes(way));
  return found.length ? "<h3>sentences that name it</h3>" + found.map(([, i]) => sentence(i, false)).join("") : "";
}

// a name, the edits in its lines, who uses it, and the sentences that name it
function named(way) {
  const [key, name] = divided(way.slice(2));
  let used = "";
  if (way[0] === "d" && fileOf("d", key)) {
    const promised = contracts(key, name);
    const modules = users(key, name)(data.modules).map((other) => source("d", other));
    const functions = list(promised.map((other) => coded(other, titled(other))));
    if (promised.length) used += section("<h3>contracts that have it</h3>" + functions);
    if (modules.length) used += section(folded(`used in ${plural(modules.length, "module")}`, list(modules)));
  }
  const inside = editsIn(new Set([way.slice(2)]));
  return block(way, 2) + inside.map((one) => edit(one, 3)).join("") + citing(way) + used;
}

function whole(kind, key) {
  const file = fileOf(kind, key);
  if (!file) return missing(key);
  const crate = key.split("/")[0];
  return section(`<h2><code>${safe(file.p)}</code></h2><p class="part">crate ${anchor("k/" + crate, safe(crate))}</p>
<pre>${linked(kind, key, 0, undefined)}</pre>`);
}

// ---- the addresses

const views = {
  "": () => section(`<h2>The proof of the link survey, for audits</h2>
<p>${plural(data.sentences.length, "sentence")} of docs/PROOFS.md, each with what keeps it as it stands in the source;
${plural(data.calls.length, "public call")}, ${plural(Object.keys(data.edits).length, "edit")} that must fail,
${plural(Object.keys(data.crates).length, "crate")}. Search above, or begin with
${anchor("idea", "the proof in words")}, ${anchor("sentences", "the sentences")}, ${anchor("calls", "the calls")},
${anchor("numbers", "the numbers of refusals")} or ${anchor("rooms", "the rooms")}.</p>`)
    + firsts(),

  idea: () => (data.idea.length ? `<h2>docs/IDEA.md</h2>${data.idea.map((part) => section(part)).join("")}`
    : none("docs/IDEA.md is not in the tree.")),

  sentences: () => {
    let last = "";
    return "<h2>The sentences of docs/PROOFS.md</h2>" + data.sentences.map((entry, i) => {
      const title = entry.part.join(" › ");
      const head = title === last ? "" : `<h3>${title}</h3>`;
      last = title;
      const cells = entry.cells.map((cell) => `<p>${cell}</p>`).join("");
      return head + section(`${cells}<p>${anchor("s/" + i, "with its sources")}</p>`);
    }).join("");
  },

  s: (i) => {
    const entry = data.sentences[i];
    if (!entry) return missing(i);
    const ways = entry.n.filter((way) => way[0] === "d" || way[0] === "f");
    const inside = editsIn(new Set(ways.map((way) => way.slice(2))));
    const keys = [...new Set([...entry.n.filter((way) => way[0] === "e").map((way) => way.slice(2)), ...inside])];
    const behind = [...new Set(ways.flatMap((way) => data.behind[way] || []))].filter((key) => !keys.includes(key));
    return "<h2>A sentence of docs/PROOFS.md</h2>" + sentence(i, true)
      + ways.map((way) => block(way, 3)).join("") + keys.map((key) => edit(key, 3)).join("")
      + (behind.length ? edits(behind, "edits in the code behind these functions") : "")
      + (keys.length || behind.length ? "" : none("No must-fail edit stands in these lines."));
  },

  d: (rest) => named("d/" + rest),
  f: (rest) => named("f/" + rest),
  m: (key) => whole("d", key),
  o: (key) => whole("f", key),
  e: (key) => (own(data.edits, key) ? edit(key, 2) + citing("e/" + key) : missing(key)),
  k: (crate) => (own(data.crates, crate) ? crateView(crate) : missing(crate)),
  c: (i) => (data.calls[i] ? callView(data.calls[i]) : missing(i)),

  calls: () => section("<h2>The public calls</h2>" + list(data.calls.map(callRow)))
    + section("<h3>what every call costs</h3>" + data.costs.join("")
    + folded("what whole surveys cost (docs/EVIDENCE.md)",
      data.speeds.map(([title, table]) => `<h3>${title}</h3>${table}`).join(""))),

  numbers: () => section("<h2>Refusals</h2>"
    + list(Object.keys(data.causes).map((n) => `${numbers([n])} ${data.causes[n]}`))),

  n: (number) => {
    const giving = each(data.calls, (call) => call.numbers.includes(Number(number)));
    if (!own(data.causes, number) && !giving.length) return missing(number);
    return section(`<h2>Refusal ${safe(number)}</h2><p>${data.causes[number] || ""}</p>`)
      + section(`<h3>given by ${plural(giving.length, "call")}</h3><div id="giving">`
      + list(giving.map(([call, i]) => callRow(call, i))) + "</div>");
  },

  rooms: () => section(`<h2>The rooms</h2><p>A crate's room is the first word of its name. Each room stands above
those that it uses; a line that follows from others is left out. A room that would stand both below and above another
is drawn in two.</p><div class="wide">${data.drawing}</div>`),

  room: (name) => {
    if (!own(data.rooms, name)) return missing(name);
    const rows = data.rooms[name].map((crate) => `${coded("k/" + crate, crate)} ${data.crates[crate].holds}`);
    return section(`<h2>room ${safe(name)}</h2>${list(rows)}`);
  },

  edits: () => {
    const crates = [...new Set(Object.keys(data.edits).map((key) => key.split("/")[0]))];
    const of = (crate) => Object.keys(data.edits).filter((key) => key.split("/")[0] === crate);
    return "<h2>Edits that must fail</h2>" + crates.map((crate) => edits(of(crate), safe(crate))).join("");
  },
};

// what is assumed, and what is not proved
function firsts() {
  const shown = data.sentences.filter((entry) => /assumed|not proved/.test(entry.part[0] || ""));
  if (!shown.length) return "";
  const cells = shown.map((entry) => entry.cells.map((cell) => `<p>${cell}</p>`).join(""));
  return `<h3>${shown[0].part[0]}</h3>` + section(cells.join(""));
}

function crateView(crate) {
  const { needs, holds, proofs } = data.crates[crate];
  const above = Object.keys(data.crates).filter((other) => data.crates[other].needs.includes(crate));
  const mine = (all) => Object.keys(all).filter((key) => key.split("/")[0] === crate);
  const links = (some) => some.map((other) => anchor("k/" + other, safe(other))).join(", ") || "nothing";
  const files = (kind, all) => list(mine(all).map((key) => {
    const names = Object.keys(all[key].d).filter((name) => all[key].d[name][5]);
    const shown = names.map((name) => coded(`${kind}/${key}.${name}`, name)).join(", ");
    return `${source(kind, key)}: ${shown || "nothing public"}`;
  })) || '<p class="none">none</p>';
  return section(`<h2>crate <code>${safe(crate)}</code></h2><p>${holds}</p><p>stands on: ${links(needs)}</p>
<p>used by: ${links(above)}</p>
<p>proofs of its functions: ${plural(proofs[0], "file")}, ${plural(proofs[1], "line")}</p>`)
    + section(`<h3>definitions and laws</h3>${files("d", data.modules)}`)
    + section(`<h3>code</h3>${files("f", data.code)}`) + edits(mine(data.edits), "edits that must fail");
}

function callRow(call, i) {
  const fromC = call.cname ? `, from C <code>${safe(call.cname)}</code>` : "";
  return `${anchor("c/" + i, safe(call.title))}${fromC}: ${call.said}`;
}

// rows of the evidence, those of one table together
function measured(some, without) {
  if (!some.length) return `<p class="none">${without}</p>`;
  const tables = new Map();
  for (const [part, head, row] of some) {
    const key = part + head.join();
    if (!tables.has(key)) tables.set(key, [part, head, []]);
    tables.get(key)[2].push(row);
  }
  const cells = (tag, row) => `<tr>${row.map((cell) => `<${tag}>${cell}</${tag}>`).join("")}</tr>`;
  return Array.from(tables.values()).map(([part, head, rows]) => `<p class="part">docs/EVIDENCE.md, ${part}</p>
<div class="wide"><table>${cells("th", head)}${rows.map((row) => cells("td", row)).join("")}</table></div>`).join("");
}

function callView(call) {
  const line = (kind, text) => (text ? `<p><span class="kind">${kind}</span> ${text}</p>` : "");
  const nothing = "no figure for this call alone";
  return section(`<h2>${safe(call.title)}</h2>${line("from C", `<code>${safe(call.cname || "none")}</code>`)}
${line("replies", call.reply)}${line("C: writes", call.writes)}
<h3>numbers, in this order</h3><p>${call.said}</p>
${list(call.numbers.map((n) => `${numbers([n])} ${data.causes[n] || "docs/MANUAL.md gives no cause"}`))}
${line("header", call.header ? `returns ${call.header}` : "gives no numbers")}`)
    + "<h3>contract by value</h3>" + (call.value.map((way) => block(way, 3)).join("") || none("not found by value"))
    + "<h3>contract from C</h3>" + (call.c.map((way) => block(way, 3)).join("") || none("no function for C"))
    + section(`<h3>stack</h3>${measured(call.stack, `docs/EVIDENCE.md gives ${nothing}`)}
<p class="part">by value: no figure for one call; ${anchor("calls", "what every call costs")}</p>
<h3>cost</h3>${call.words.map((text) => `<p>docs/MANUAL.md: ${text}</p>`).join("")}
${measured(call.costs, `docs/EVIDENCE.md gives ${nothing}; ${anchor("calls", "what every call costs")}`)}
${call.tried.length ? `<h3>tried</h3>${measured(call.tried, "")}` : ""}`)
    + edits(call.code, `edits in its code (${plural(call.functions, "function")})`)
    + edits(call.defs, `edits in the definitions of its contract (${plural(call.definitions, "definition")})`);
}
