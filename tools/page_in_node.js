// The elements and events of a page without a browser, as far as its script needs them: node page_in_node.js FILE
//
// FILE has the elements (tag, attributes, parent, text), the page's script, an address behind # and what is to be done
// then; it prints what `say` is given. For tools/test_page.py, where there is no Chromium.
"use strict";
const fs = require("fs");
const vm = require("vm");

const given = JSON.parse(fs.readFileSync(process.argv[2], "utf8"));
const listeners = {};

class Element {
  constructor({tag, attributes, text}) {
    Object.assign(this, {tag, attributes, textContent: text, children: [], style: {}, parent: null});
    const names = () => (attributes.class || "").split(" ").filter((name) => name);
    this.classList = {
      contains: (name) => names().includes(name),
      toggle: (name, on) => {
        attributes.class = names().filter((other) => other !== name).concat(on ? [name] : []).join(" ");
      },
    };
  }

  getAttribute(name) { return name in this.attributes ? this.attributes[name] : null; }
  setAttribute(name, value) { this.attributes[name] = String(value); }
  removeAttribute(name) { delete this.attributes[name]; }
  hasAttribute(name) { return name in this.attributes; }
  get id() { return this.attributes.id || ""; }
  get hidden() { return "hidden" in this.attributes; }
  set hidden(on) { if (on) this.attributes.hidden = ""; else delete this.attributes.hidden; }
  get childElementCount() { return this.children.length; }

  matches(selector) { return selector.split(",").some((one) => fits(this, one.trim().split(/\s+/))); }

  closest(selector) {
    let e = this;
    while (e && !e.matches(selector)) e = e.parent;
    return e;
  }

  querySelectorAll(selector) {
    return this.children.flatMap((e) => (e.matches(selector) ? [e] : []).concat(e.querySelectorAll(selector)));
  }

  querySelector(selector) { return this.querySelectorAll(selector)[0] || null; }

  dispatchEvent(event) {
    event.target = this;
    for (const heard of listeners[event.type] || []) heard(event);
  }
}

// a tag, classes, an id and attributes, which an element must all have; before it, those of elements around it
function fits(e, selectors) {
  const words = selectors[selectors.length - 1].match(/^[a-z]+|\.[\w-]+|#[\w-]+|\[[^\]]+\]/g);
  const has = (word) => {
    if (word[0] === ".") return e.classList.contains(word.slice(1));
    if (word[0] === "#") return e.id === word.slice(1);
    if (word[0] !== "[") return e.tag === word;
    const [name, value] = word.slice(1, -1).split("=");
    return value === undefined ? e.hasAttribute(name) : e.getAttribute(name) === value.replace(/['"]/g, "");
  };
  if (!words.every(has)) return false;
  if (selectors.length === 1) return true;
  for (let outer = e.parent; outer; outer = outer.parent) if (fits(outer, selectors.slice(0, -1))) return true;
  return false;
}

const root = new Element({tag: "page", attributes: {}, text: ""});
const elements = given.elements.map((each) => new Element(each));
elements.forEach((e, k) => {
  const parent = given.elements[k].parent;
  e.parent = parent < 0 ? root : elements[parent];
  e.parent.children.push(e);
});

const document = {
  body: root.querySelector("body"),
  getElementById: (id) => root.querySelector("#" + id),
  querySelector: (selector) => root.querySelector(selector),
  querySelectorAll: (selector) => root.querySelectorAll(selector),
  addEventListener: (type, heard) => { listeners[type] = (listeners[type] || []).concat([heard]); },
};

let waiting = [];
const window = {
  addEventListener: (type, heard, how) => { if (type === "hashchange") waiting.push({heard, once: how && how.once}); },
};

let hash = given.hash;
const location = {
  get hash() { return hash; },
  set hash(wanted) {
    const after = wanted === "#" ? "" : wanted;
    if (after === hash) return;
    hash = after;
    setImmediate(() => {
      const now = waiting;
      waiting = waiting.filter(({once}) => !once);
      for (const {heard} of now) heard();
    });
  },
};

class MouseEvent {
  constructor(type) { this.type = type; }
}

const say = (what) => console.log(JSON.stringify(what));
const page = vm.createContext({document, window, location, MouseEvent, say});
vm.runInContext(given.script, page);
vm.runInContext("(async () => {" + given.then + "})();", page);
