"use strict";
// Names: where each is defined, and the lines of a file with every name linked to its definition.
const data = JSON.parse(document.getElementById("data").textContent);
const kinds = { def: "definition", law: "theorem", rec: "record", dat: "data type", fn: "function", typ: "type" };
const marks = { "&": "&amp;", "<": "&lt;", ">": "&gt;", '"': "&quot;" };

const safe = (text) => String(text).replace(/[&<>"]/g, (mark) => marks[mark]);
const anchor = (way, shown) => `<a href="#${safe(encodeURI(way))}">${shown}</a>`;
const coded = (way, text) => anchor(way, `<code>${safe(text)}</code>`);
const own = (object, key) => Object.prototype.hasOwnProperty.call(object, key);

// a file by its address: d for a module of the logic, f for code
function fileOf(kind, key) {
  const all = kind === "d" ? data.modules : data.code;
  return own(all, key) ? all[key] : null;
}

// "crate/Module.name" in two: the key of the file, and the name
function divided(address) {
  const at = address.indexOf(".");
  return [address.slice(0, at), address.slice(at + 1)];
}

// what a file uses of other modules, from its own lines
function usesOf(file) {
  if (file.uses) return file.uses;
  file.uses = { names: new Map(), modules: new Map(), code: new Map() };
  const line = /^(?:ghost )?use Rattle\.(\w+?)\.specs\.([\w.]+?)(?:\.\{(.*)\})?(?: as ([\w-]+))?;?$/gm;
  for (const [, crate, path, names, alias] of file.t.matchAll(line)) {
    const module = `${crate}/${path.replace(/\./g, "/")}`;
    if (names === undefined) {
      file.uses.modules.set(alias || module.split("/").pop(), module);
      continue;
    }
    for (const part of names.split(",")) {
      const [one, other] = part.trim().split(" as ");
      file.uses.names.set(other || one, [module, one]);
    }
  }
  for (const [, path, name] of file.t.matchAll(/^(?:pub(?:\(crate\))? )?use ([\w:]+)::(\w+);$/gm)) {
    file.uses.code.set(name, `${path}::${name}`);
  }
  return file.uses;
}

// the address of a type of code that definitions use
function declared(crate, name) {
  const key = Object.keys(data.code).find((k) => k.startsWith(crate + "/") && own(data.code[k].d, name));
  return key ? `f/${key}.${name}` : null;
}

// the address of a name of a module; a field's is its record's
function addressOf(module, name) {
  if (module.includes("/declared")) return declared(module.split("/")[0], name);
  const file = fileOf("d", module);
  if (!file) return null;
  if (own(file.d, name)) return `d/${module}.${name}`;
  return own(file.m, name) ? `d/${module}.${file.m[name]}` : null;
}

// a function or type by its path, as code in a crate names it
function called(path, crate) {
  const parts = path.split("::").filter((part) => part !== "super" && part !== "crate");
  if (!own(data.crates, parts[0])) parts.unshift(crate);
  if (parts.length < 2) return null;
  const inner = parts.slice(1, -1).join("/") || "lib";
  const keys = Object.keys(data.code).filter((k) => k.startsWith(parts[0] + "/"));
  for (const key of [`${parts[0]}/${inner}`, ...keys]) {
    for (const name of [parts.slice(1).join("::"), parts[parts.length - 1]]) {
      if (own(data.code, key) && own(data.code[key].d, name)) return `f/${key}.${name}`;
    }
  }
  return null;
}

// where a word in a file leads to; in code a word right before a bracket is a call, and no name of the logic
function wayTo(word, kind, key, file, call) {
  const uses = usesOf(file);
  if (call && !word.includes("::")) {
    if (uses.code.has(word)) return called(uses.code.get(word), key.split("/")[0]);
    return own(file.d, word) ? `f/${key}.${word}` : null;
  }
  const dot = word.indexOf(".");
  const front = word.slice(0, dot);
  if (dot > 0 && uses.modules.has(front)) return addressOf(uses.modules.get(front), word.slice(dot + 1));
  if (word.includes("::")) return called(word, key.split("/")[0]);
  if (uses.names.has(word)) return addressOf(...uses.names.get(word));
  if (kind === "f" && uses.code.has(word)) return called(uses.code.get(word), key.split("/")[0]);
  return own(file.d, word) ? `${kind}/${key}.${word}` : null;
}

// a line of code with its words linked; a word after a point is a field, and stays
function linkedLine(code, kind, key, file) {
  const word = /[\p{L}_][\p{L}\p{N}_'?]*(?:(?:-|::|\.(?=\p{L}))[\p{L}\p{N}_'?]+)*/gu;
  let shown = "";
  let last = 0;
  for (const found of code.matchAll(word)) {
    if (code[found.index - 1] === ".") continue;
    for (let name = found[0]; name; name = name.slice(0, Math.max(name.lastIndexOf("."), 0))) {
      const call = kind === "f" && code[found.index + name.length] === "(";
      const way = wayTo(name, kind, key, file, call);
      if (way) {
        shown += safe(code.slice(last, found.index)) + anchor(way, safe(name));
        last = found.index + name.length;
        break;
      }
    }
  }
  return shown + safe(code.slice(last));
}

// lines of a file, each comment set apart
function linked(kind, key, from, to) {
  const file = fileOf(kind, key);
  const comment = kind === "d" ? /(^|\s)--(\s|$)/ : /(^|\s)\/\//;
  return file.t.split("\n").slice(from, to).map((line) => {
    const at = line.search(comment);
    if (at < 0) return linkedLine(line, kind, key, file);
    return linkedLine(line.slice(0, at), kind, key, file) + `<span class="c">${safe(line.slice(at))}</span>`;
  }).join("\n");
}

// the files that use a name of the logic
function users(module, name) {
  const same = ([used, one]) => used === module && one === name;
  const uses = (file) => Array.from(usesOf(file).names.values()).some(same);
  const through = (file) => Array.from(usesOf(file).modules.entries()).some(
    ([alias, used]) => used === module && file.t.includes(`${alias}.${name}`));
  return (all) => Object.keys(all).filter((key) => uses(all[key]) || through(all[key]));
}

// the functions whose contract has a name
function contracts(module, name) {
  const word = new RegExp(`(^|[^\\w-])${name.replace(/[^\w-]/g, "\\$&")}($|[^\\w-])`);
  return users(module, name)(data.code).flatMap((key) => {
    const lines = data.code[key].t.split("\n");
    return Object.entries(data.code[key].d)
      .filter(([, [sort, , line, body]]) => sort === "fn" && word.test(lines.slice(line, body).join("\n")))
      .map(([inner]) => `f/${key}.${inner}`);
  });
}
