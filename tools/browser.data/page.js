
"use strict";
(() => {
// The page of tools/browser: panes, links and lists over the data that stand in it.

const byId = (id) => document.getElementById(id);
const data = JSON.parse(byId("data").textContent);
const SIDES = ["instance", "class"];
// How many entries of a list, and links in a line, stand there at first.
const MANY = 300;
const FEW = 60;
// As in tools/browser: what is shown by its number. A surrogate by itself is a byte that is no UTF-8.
const UNSEEN = /[\x00-\x08\x0b\x0c\x0e-\x1f\x7f-\x9f\u200b-\u200f\u2028-\u202e\u2060-\u2069\ufeff\u{dc80}-\u{dcff}]/gu;

// ---- elements

function make(tag, has, ...inner) {
  const made = document.createElement(tag);
  for (const [name, value] of Object.entries(has || {})) {
    if (value !== undefined && value !== false) made.setAttribute(name, value === true ? "" : value);
  }
  made.append(...inner);
  return made;
}

function numberOf(character) {
  const code = character.codePointAt(0);
  const digits = (least) => code.toString(16).toUpperCase().padStart(least, "0");
  if (code >= 0xdc80 && code <= 0xdcff) return (code - 0xdc00).toString(16).toUpperCase();
  return code < 0x80 ? digits(2) : "U+" + digits(4);
}

// A text to be read: each line end a line feed, and what isn't seen by its number.
function shown(text) {
  const found = document.createDocumentFragment();
  const plain = text.replace(/\r\n?/g, "\n");
  let behind = 0;
  for (const match of plain.matchAll(UNSEEN)) {
    found.append(plain.slice(behind, match.index), make("span", { class: "byte", title: "not a character that is seen" }, `\u2039${numberOf(match[0])}\u203a`));
    behind = match.index + match[0].length;
  }
  found.append(plain.slice(behind));
  return found;
}

const inWords = (text) => text.replace(/\r\n?/g, " ").replace(UNSEEN, (found) => `\u2039${numberOf(found)}\u203a`);

// ---- the classes and methods

const quoted = (text) => `'${text.replace(/'/g, "''")}'`;
const spec = (name, side) => (side === "class" ? name + " class" : name);
const placeOf = (name, side, selector) => `${spec(name, side)} ${selector}`;

class Method {
  constructor(name, side, protocol, [selector, source, links, puts]) {
    Object.assign(this, { name, side, protocol, selector, source, links, puts });
  }
  sent() {
    return new Set(this.links.filter((_, at) => at % 3 === 2).map((number) => data.selectors[number]));
  }
}

const classes = new Map();
const categories = new Map();
const below = new Map();
const implementors = new Map();
const senders = new Map();
const versions = new Map();

function put(map, key, value) {
  const found = map.get(key);
  if (found) found.push(value);
  else map.set(key, [value]);
}

for (const row of data.classes) {
  classes.set(row.name, row);
  put(categories, row.category, row.name);
  put(below, row.superclass, row.name);
  row.methods = { instance: new Map(), class: new Map() };
  for (const side of SIDES) {
    for (const [protocol, methods] of row[side]) {
      for (const parts of methods) {
        const method = new Method(row.name, side, protocol, parts);
        row.methods[side].set(method.selector, method);
        put(implementors, method.selector, method);
        for (const selector of method.sent()) put(senders, selector, method);
      }
    }
  }
}
for (const [name, side, selector, rows] of data.versions) versions.set(placeOf(name, side, selector), rows);

const methodAt = (name, side, selector) => classes.get(name)?.methods[side].get(selector);
const methodsOf = (map, selector) => map.get(selector) || [];

// The versions of a method, the newest first: number, category and source.
function versionsOf(name, side, selector) {
  const method = methodAt(name, side, selector);
  return versions.get(placeOf(name, side, selector)) || (method && method.puts ? [[1, method.protocol, method.source]] : []);
}

function definitionOf(row, side) {
  if (side === "class") return `${row.name} class instanceVariableNames: ${quoted(row.variables)}`;
  const words = ["instanceVariableNames", "classVariableNames", "poolDictionaries", "category"];
  const strings = [...row.lists, row.category];
  return [`${row.superclass} ${row.message} #${row.name}`, ...words.map((word, at) => `${word}: ${quoted(strings[at])}`)].join("\n\t");
}

// Each class behind its superclass, with how many stand above it.
function hierarchy() {
  const found = [];
  const left = [...(below.get("nil") || [])].reverse().map((name) => [name, 0]);
  while (left.length) {
    const [name, depth] = left.pop();
    found.push([name, depth]);
    for (const lower of [...(below.get(name) || [])].reverse()) left.push([lower, depth + 1]);
  }
  return found;
}

// ---- where the page stands

const state = { category: null, name: null, side: "instance", protocol: null, selector: null, view: "source", of: null, tree: false };

const coded = (word) => encodeURIComponent(word).replace(/%3A/g, ":");
const decoded = (word) => {
  try {
    return decodeURIComponent(word);
  } catch {
    return word;
  }
};

// The address of a class, a method or a view. A selector behind `?of=` is the one whose implementors and senders are listed.
function addressOf({ name, side, selector, view, of }) {
  let path = "";
  if (view === "changes") path = "changes";
  else if (name) {
    path = name;
    if (selector !== null && selector !== undefined) path += `/${side}/${coded(selector)}${view === "versions" ? "/versions" : ""}`;
    else if (side === "class") path += "/class";
  }
  return `#${path}${of ? `?of=${coded(of)}` : ""}`;
}

function follow(address) {
  const [path, of] = address.replace(/^#/, "").split("?of=");
  state.of = of ? decoded(of) : null;
  if (path === "" && of) return;
  if (path === "changes") {
    state.view = "changes";
    return;
  }
  const [name, side, ...rest] = path.split("/");
  let selector = rest.join("/");
  state.view = "source";
  if (selector.endsWith("/versions") && selector !== "/versions") {
    state.view = "versions";
    selector = selector.slice(0, -"/versions".length);
  }
  const row = classes.get(decoded(name));
  state.name = row ? row.name : null;
  state.side = row && side === "class" ? "class" : "instance";
  state.selector = row && selector !== "" ? decoded(selector) : null;
  if (!row) return;
  if (state.category !== null) state.category = row.category;
  const method = methodAt(row.name, state.side, state.selector);
  if (state.protocol !== null) state.protocol = method ? method.protocol : null;
}

// Shows the state that was chosen in the panes. The address follows a moment later, without an entry of its own.
let waiting = 0;

function settle() {
  if (state.view === "changes") state.view = "source";
  clearTimeout(waiting);
  waiting = setTimeout(setAddress, 150);
  show();
}

function setAddress() {
  try {
    history.replaceState(null, "", addressOf(state));
  } catch {
    // A page that may not change its address shows the same.
  }
}

function go(address) {
  if (location.hash !== address) location.hash = address;
  follow(address);
  show();
}

// ---- the panes

const panes = [];

class Pane {
  constructor(id, choose) {
    this.list = byId(id);
    this.choose = choose;
    this.entries = [];
    this.at = -1;
    this.made = null;
    this.typed = "";
    this.typedAt = 0;
    this.list.addEventListener("keydown", (event) => this.key(event));
    this.list.addEventListener("mousedown", (event) => {
      const option = event.target.closest(".option");
      if (option) this.take([...this.list.children].indexOf(option));
    });
    panes.push(this);
  }

  // The entries, each with its key, its label and how deep it stands. They are made anew only where what they are of has changed.
  fill(made, entries, isTree) {
    if (this.made === made) return;
    this.made = made;
    this.entries = entries();
    this.at = -1;
    this.list.setAttribute("role", isTree ? "tree" : "listbox");
    this.list.removeAttribute("aria-activedescendant");
    this.list.replaceChildren(...this.entries.map(({ key, label, depth }, at) => {
      const has = { class: key === null ? "option every" : "option", id: `${this.list.id}-${at}`, role: isTree ? "treeitem" : "option", "aria-selected": "false" };
      const option = make("div", { ...has, "aria-level": isTree ? depth + 1 : undefined }, shown(label));
      if (depth) option.style.paddingLeft = `${10 + 14 * depth}px`;
      return option;
    }));
    this.list.scrollTop = 0;
  }

  mark(key) {
    const at = this.entries.findIndex((entry) => entry.key === key);
    if (at === this.at) return;
    this.list.children[this.at]?.setAttribute("aria-selected", "false");
    this.at = at;
    const option = this.list.children[at];
    if (!option) {
      this.list.removeAttribute("aria-activedescendant");
      return;
    }
    option.setAttribute("aria-selected", "true");
    this.list.setAttribute("aria-activedescendant", option.id);
    const top = option.offsetTop - this.list.offsetTop;
    const high = option.offsetHeight, behind = top + high - this.list.scrollTop - this.list.clientHeight, ahead = this.list.scrollTop - top;
    if (Math.max(ahead, behind) > 2 * high) this.list.scrollTop = top - this.list.clientHeight / 2;
    else if (ahead > 0) this.list.scrollTop = top - 4;
    else if (behind > 0) this.list.scrollTop += behind + 4;
  }

  take(at) {
    const entry = this.entries[Math.max(0, Math.min(at, this.entries.length - 1))];
    if (entry) this.choose(entry.key);
  }

  // To the pane beside it. There the first entry is chosen where none is.
  leave(step) {
    const other = panes[panes.indexOf(this) + step];
    if (!other) return;
    other.list.focus();
    if (other.at < 0) other.take(0);
  }

  key(event) {
    if (event.ctrlKey || event.metaKey || event.altKey) return;
    const page = Math.max(1, Math.floor(this.list.clientHeight / (this.list.firstElementChild?.offsetHeight || 20)) - 1);
    const steps = { ArrowDown: 1, ArrowUp: -1, PageDown: page, PageUp: -page };
    if (event.key in steps) this.take(this.at < 0 ? 0 : this.at + steps[event.key]);
    else if (event.key === "Home") this.take(0);
    else if (event.key === "End") this.take(this.entries.length - 1);
    else if (event.key === "ArrowLeft") this.leave(-1);
    else if (event.key === "ArrowRight") this.leave(1);
    else if (event.key === "Enter") byId("text").focus();
    else if (event.key.length === 1 && event.key !== "/" && (event.key !== " " || this.typed)) this.type(event.key);
    else return;
    event.preventDefault();
  }

  // To the entry that begins with what was typed. The same letter again goes to the next one that begins with it.
  type(letter) {
    const now = Date.now();
    this.typed = now - this.typedAt > 900 ? letter : this.typed + letter;
    this.typedAt = now;
    const word = this.typed.toLowerCase();
    const isAgain = word.length > 1 && [...word].every((other) => other === word[0]);
    const begins = (start) => (entry) => entry.key !== null && entry.label.toLowerCase().startsWith(start);
    let at = this.entries.findIndex(begins(word));
    if (word.length === 1 || (at < 0 && isAgain)) {
      const behind = this.entries.findIndex((entry, place) => place > this.at && begins(word[0])(entry));
      at = behind >= 0 ? behind : this.entries.findIndex(begins(word[0]));
    }
    if (at >= 0) this.take(at);
  }
}

const every = { key: null, label: "-- all --", depth: 0 };
const entry = (label) => ({ key: label, label, depth: 0 });

const categoryPane = new Pane("pane-category", (category) => {
  state.category = category;
  if (state.tree) state.tree = false;
  if (category !== null && state.name && classes.get(state.name).category !== category) leaveClass();
  settle();
});
const classPane = new Pane("pane-class", (name) => {
  if (state.name !== name) leaveClass();
  state.name = name;
  if (state.category !== null) state.category = classes.get(name).category;
  leaveMethod();
  settle();
});
const protocolPane = new Pane("pane-protocol", (protocol) => {
  state.protocol = protocol;
  const method = methodAt(state.name, state.side, state.selector);
  if (!method || (protocol !== null && method.protocol !== protocol)) leaveMethod();
  settle();
});
const selectorPane = new Pane("pane-selector", (selector) => {
  state.selector = selector;
  state.of = null;
  settle();
});

function leaveMethod() {
  Object.assign(state, { selector: null, view: "source", of: null });
}

function leaveClass() {
  leaveMethod();
  Object.assign(state, { name: null, protocol: null });
}

function showPanes() {
  const { name, side, protocol } = state;
  const row = classes.get(name);
  categoryPane.fill("categories", () => [every, ...data.categories.map(entry)]);
  categoryPane.mark(state.category);
  if (state.tree) classPane.fill("tree", () => hierarchy().map(([key, depth]) => ({ key, label: key, depth })), true);
  else classPane.fill(`in ${state.category}`, () => (state.category === null ? [...classes.keys()] : categories.get(state.category)).map(entry));
  classPane.mark(name);
  protocolPane.fill(`${name} ${side}`, () => (row ? [every, ...row[side].map(([category]) => entry(category))] : []));
  protocolPane.mark(row ? protocol : undefined);
  selectorPane.fill(`${name} ${side} ${protocol === null ? "" : "in " + protocol}`, () => {
    const methods = row ? [...row.methods[side].values()] : [];
    return methods.filter((method) => protocol === null || method.protocol === protocol).map((method) => method.selector).sort().map(entry);
  });
  selectorPane.mark(row ? state.selector : undefined);
  byId("tree").setAttribute("aria-pressed", String(state.tree));
  for (const radio of document.querySelectorAll("input[name=side]")) radio.checked = radio.value === side;
}

// ---- sources

const PARTS = /"[^"]*"|'[^']*'|\$[^]|#?[A-Za-z][A-Za-z0-9]*/g;

// A part of a source that holds no link: comments and strings are told apart, and the names of classes lead to them.
function between(text) {
  const found = document.createDocumentFragment();
  let behind = 0;
  for (const match of text.matchAll(PARTS)) {
    const word = match[0];
    const kind = { '"': "comment", "'": "string" }[word[0]];
    if (!kind && !classes.has(word)) continue;
    found.append(shown(text.slice(behind, match.index)));
    found.append(kind ? make("span", { class: kind }, shown(word)) : make("a", { class: "name", href: addressOf({ name: word }) }, word));
    behind = match.index + word.length;
  }
  found.append(shown(text.slice(behind)));
  return found;
}

function sourceOf(method) {
  const pre = make("pre");
  let at = 0;
  for (let place = 0; place < method.links.length; place += 3) {
    const [gap, length, number] = method.links.slice(place, place + 3);
    const selector = data.selectors[number];
    const count = methodsOf(implementors, selector).length;
    pre.append(between(method.source.slice(at, at + gap)));
    at += gap;
    const title = `${selector}: ${count} implementor${count === 1 ? "" : "s"}`;
    const link = make("a", { class: count ? "sent" : "sent missing", href: addressOf({ ...state, view: "source", of: selector }), title }, method.source.slice(at, at + length));
    link.dataset.of = selector;
    pre.append(link);
    at += length;
  }
  pre.append(between(method.source.slice(at)));
  return pre;
}

// ---- what is below

const link = (address, text, more) => make("a", { href: address, ...more }, shown(text));
const methodAddress = (method) => addressOf({ name: method.name, side: method.side, selector: method.selector });

// A list that begins with its first entries, and has the others when they are asked for.
function listOf(entries, item, has) {
  const list = make("ul", has, ...entries.slice(0, MANY).map(item));
  if (entries.length <= MANY) return [list];
  const more = make("button", { type: "button" }, `all ${entries.length}`);
  more.addEventListener("click", () => {
    list.append(...entries.slice(MANY).map(item));
    more.remove();
  });
  return [list, more];
}

function classLinks(label, names) {
  if (!names.length) return [];
  const links = names.slice(0, FEW).flatMap((name, at) => [at ? ", " : "", link(addressOf({ name }), name)]);
  return [make("p", {}, make("span", { class: "faint" }, label + " "), ...links, names.length > FEW ? `, and ${names.length - FEW} more` : "")];
}

function above(row) {
  const found = [];
  for (let name = row.superclass; classes.has(name); name = classes.get(name).superclass) found.push(name);
  return found;
}

function classView(row) {
  const comment = row.comment ? make("p", { class: "words comment" }, shown(row.comment)) : make("p", { class: "faint" }, "No comment.");
  return [make("pre", {}, between(definitionOf(row, state.side))), comment, ...classLinks("Superclasses", above(row)), ...classLinks("Subclasses", below.get(row.name) || [])];
}

function methodView(name, side, selector) {
  const method = methodAt(name, side, selector);
  if (!method) {
    const isGone = versionsOf(name, side, selector).length > 0;
    return [make("p", {}, isGone ? "The method was removed. Its versions are kept." : `${spec(name, side)} has no method ${selector}.`)];
  }
  const notes = [method.puts || !classes.get(name).kernel ? "" : "A method of the kernel.", /\r/.test(method.source) ? "Its lines end with CR." : ""].join(" ").trim();
  return [sourceOf(method), ...(notes ? [make("p", { class: "faint" }, notes)] : [])];
}

// What parts two lists of lines: each line with "-", "+" or " ".
function difference(older, newer) {
  let start = 0;
  while (start < older.length && start < newer.length && older[start] === newer[start]) start++;
  let end = 0;
  while (end < older.length - start && end < newer.length - start && older[older.length - 1 - end] === newer[newer.length - 1 - end]) end++;
  const left = older.slice(start, older.length - end), right = newer.slice(start, newer.length - end);
  const same = (lines) => lines.map((line) => [" ", line]);
  return [...same(newer.slice(0, start)), ...middle(left, right), ...same(newer.slice(newer.length - end))];
}

function middle(left, right) {
  const taken = left.map((line) => ["-", line]), added = right.map((line) => ["+", line]);
  if (!left.length || !right.length || left.length * right.length > 4e6) return [...taken, ...added];
  const width = right.length + 1;
  const longest = new Uint16Array((left.length + 1) * width);
  for (let row = left.length - 1; row >= 0; row--) {
    for (let column = right.length - 1; column >= 0; column--) {
      const at = row * width + column;
      longest[at] = left[row] === right[column] ? longest[at + width + 1] + 1 : Math.max(longest[at + width], longest[at + 1]);
    }
  }
  const found = [];
  let row = 0, column = 0;
  while (row < left.length && column < right.length) {
    const at = row * width + column;
    if (left[row] === right[column]) found.push([" ", left[row++]]), column++;
    else if (longest[at + width] >= longest[at + 1]) found.push(taken[row++]);
    else found.push(added[column++]);
  }
  return [...found, ...taken.slice(row), ...added.slice(column)];
}

const linesOf = (text) => text.split(/\r\n?|\n/);

function differenceOf(older, newer) {
  const pre = make("pre", { class: "difference" });
  for (const [sign, line] of difference(linesOf(older), linesOf(newer))) {
    const tag = { "+": "ins", "-": "del", " ": "span" }[sign];
    pre.append(make(tag, { class: sign === " " ? "same" : undefined }, make("span", { class: "sign" }, `${sign === "-" ? "\u2212" : sign} `), shown(line), "\n"));
  }
  return pre;
}

function versionsView(name, side, selector) {
  const rows = versionsOf(name, side, selector);
  if (!rows.length) return [make("p", {}, "No version was ever filed in: the method is the kernel's.")];
  const label = (number) => (number ? `version ${number}` : "the kernel's");
  return rows.map(([number, category, source], at) => {
    const older = rows[at + 1];
    const note = at === 0 && methodAt(name, side, selector) ? ", the source now" : "";
    const block = make("section", { class: "version" }, make("h3", {}, label(number), " ", make("span", { class: "faint" }, shown(quoted(category)), note)));
    if (!older) {
      block.append(make("pre", {}, between(source)));
      return block;
    }
    const isSame = older[2] === source;
    const moved = older[1] === category ? "" : `, from ${inWords(quoted(older[1]))} to ${inWords(quoted(category))}`;
    block.append(make("p", { class: "faint" }, isSame ? `The same source as ${label(older[0])}${moved}.` : `What changed since ${label(older[0])}${moved}:`));
    block.append(isSame ? make("pre", {}, between(source)) : differenceOf(older[2], source));
    return block;
  });
}

const CHANGES = {
  define: "definition", "class-variables": "class-side variables", comment: "comment", method: "method", remove: "removal of a method",
  classify: "move to a category", "remove-class": "removal of a class",
};

function changesView() {
  if (!data.changes.length) return [make("p", {}, "The change set is empty.")];
  const item = ([word, name, side, selector]) => {
    const text = selector ? placeOf(name, side, selector) : name;
    const isThere = selector ? methodAt(name, side, selector) || versionsOf(name, side, selector).length : classes.has(name);
    const address = addressOf({ name, side, selector: selector || null, view: selector && !methodAt(name, side, selector) ? "versions" : "source" });
    return make("li", {}, make("span", { class: "faint kind" }, `${CHANGES[word] || word} `), isThere ? link(address, text, { class: "code" }) : make("span", { class: "code" }, text));
  };
  return [make("p", { class: "faint" }, "The changes since the change set was begun anew, the oldest first, without those that later ones made superfluous."), ...listOf(data.changes, item, { class: "links changes" })];
}

function overview() {
  const own = data.classes.filter((row) => !row.kernel).map((row) => row.name);
  const keys = [
    [["\u2191", "\u2193"], "move in a pane (also Home, End, Page Up, Page Down)"],
    [["\u2190", "\u2192", "Tab"], "go to the next pane"],
    [["letters"], "go to the entry that begins so"],
    [["Enter"], "go to the source"],
    [["/"], "search the names of classes and selectors"],
  ];
  const table = make("table", { class: "keys" }, ...keys.map(([names, text]) => make("tr", {}, make("td", {}, ...names.flatMap((name) => [make("kbd", {}, name), " "])), make("td", {}, text))));
  const says = own.length ? classLinks("Classes beside the kernel's", own) : [make("p", {}, "There are no classes beside the kernel's.")];
  return [make("p", {}, "A click on a selector in a source lists its implementors and senders."), table, ...says];
}

// What is shown, and the category in which it stands.
function headingOf() {
  if (state.view === "changes") return ["Change set"];
  if (!state.name) return ["Overview"];
  if (state.selector === null) return [spec(state.name, state.side), classes.get(state.name).category];
  return [placeOf(state.name, state.side, state.selector), methodAt(state.name, state.side, state.selector)?.protocol];
}

let shownText = null;

function showText() {
  const { name, side, selector, view } = state;
  const key = view === "changes" ? view : [view, name, side, selector].join(" ");
  for (const made of byId("text").querySelectorAll("a.sent")) made.classList.toggle("asked", made.dataset.of === state.of);
  if (key === shownText) return;
  shownText = key;
  const [heading, category] = headingOf();
  byId("heading").replaceChildren(heading, ...(category === undefined ? [] : [" ", make("span", { class: "faint" }, shown(category))]));
  document.title = heading === "Overview" ? inWords(data.folder) : `${heading} - ${inWords(data.folder)}`;
  const row = classes.get(name);
  let parts;
  if (view === "changes") parts = changesView();
  else if (!row) parts = overview();
  else if (selector === null) parts = classView(row);
  else parts = view === "versions" ? versionsView(name, side, selector) : methodView(name, side, selector);
  byId("text").replaceChildren(...parts);
  byId("text").scrollTop = 0;
  for (const made of byId("text").querySelectorAll("a.sent")) made.classList.toggle("asked", made.dataset.of === state.of);
  const views = row && selector !== null && view !== "changes" ? [["source", "Source"], ["versions", `Versions ${versionsOf(name, side, selector).filter(([number]) => number).length}`]] : [];
  byId("views").replaceChildren(...views.map(([word, label]) => link(addressOf({ name, side, selector, view: word }), label, { "aria-current": word === view ? "page" : undefined })));
  byId("views").hidden = !views.length;
  byId("changes-link").toggleAttribute("aria-current", view === "changes");
}

let shownLists = null;

function showLists() {
  const selector = state.of || state.selector;
  const current = methodAt(state.name, state.side, state.selector);
  const item = (nameIn) => (method) => {
    const isCurrent = method === current;
    return make("li", {}, link(methodAddress(method), nameIn(method), { class: "code", "aria-current": isCurrent ? "true" : undefined }), make("span", { class: "faint" }, " ", shown(method.protocol)));
  };
  const key = `${selector} ${state.name} ${state.side} ${state.selector}`;
  if (key === shownLists) return;
  shownLists = key;
  const inFull = (method) => placeOf(method.name, method.side, method.selector);
  const lists = [
    ["implementors", "Implementors", implementors, (method) => spec(method.name, method.side)],
    ["senders", "Senders", senders, inFull],
  ];
  for (const [id, title, map, nameIn] of lists) {
    const methods = selector ? methodsOf(map, selector) : [];
    byId(`label-${id}`).textContent = selector ? `${title} of ${selector} (${methods.length})` : title;
    const none = make("p", { class: "faint" }, selector ? (id === "senders" ? "No method sends it." : "No class has it.") : "Of the method that is shown, or of a selector in its source.");
    byId(id).replaceChildren(...(methods.length ? listOf(methods, item(nameIn), { class: "links" }) : [none]));
  }
}

function show() {
  showPanes();
  showText();
  showLists();
}

// ---- the search

const search = byId("search");
const results = byId("found");
let hits = [];
let hit = -1;
const names = [...classes.keys()];
const selectors = [...new Set([...implementors.keys(), ...senders.keys()])].sort();

function rank(name, word) {
  const lower = name.toLowerCase();
  return lower === word ? 0 : lower.startsWith(word) ? 1 : lower.includes(word) ? 2 : 3;
}

function find(word) {
  const all = [...names.map((name) => ({ name })), ...selectors.map((selector) => ({ selector }))];
  const ranked = all.map((found) => ({ ...found, rank: rank(found.name || found.selector, word) })).filter((found) => found.rank < 3);
  return ranked.sort((one, other) => one.rank - other.rank);
}

function count(number, word) {
  return `${number} ${word}${number === 1 ? "" : "s"}`;
}

function showFound() {
  const word = search.value.trim().toLowerCase();
  hits = word ? find(word) : [];
  hit = hits.length ? 0 : -1;
  const rows = hits.slice(0, 100).map((found, at) => {
    const note = found.name ? "class" : `${count(methodsOf(implementors, found.selector).length, "implementor")}, ${count(methodsOf(senders, found.selector).length, "sender")}`;
    const row = make("div", { class: "option", role: "option", id: `found-${at}`, "aria-selected": at === hit ? "true" : "false" }, make("span", { class: "code" }, found.name || found.selector), make("span", { class: "faint" }, note));
    row.addEventListener("mousedown", (event) => {
      event.preventDefault();
      take(found);
    });
    return row;
  });
  if (word && !hits.length) rows.push(make("p", { class: "faint" }, "Nothing is called so."));
  if (hits.length > 100) rows.push(make("p", { class: "faint" }, `and ${hits.length - 100} more`));
  hits = hits.slice(0, 100);
  results.replaceChildren(...rows);
  results.hidden = !word;
  results.scrollTop = 0;
  search.setAttribute("aria-expanded", String(!results.hidden));
  markHit(hit);
}

function markHit(at) {
  results.children[hit]?.setAttribute("aria-selected", "false");
  hit = at;
  const row = hits.length ? results.children[hit] : null;
  row?.setAttribute("aria-selected", "true");
  row?.scrollIntoView({ block: "nearest" });
  if (row) search.setAttribute("aria-activedescendant", row.id);
  else search.removeAttribute("aria-activedescendant");
}

function closeSearch() {
  results.hidden = true;
  search.setAttribute("aria-expanded", "false");
  search.removeAttribute("aria-activedescendant");
}

// To a class, or to the method of a selector that has one. Of several the lists are shown.
function take(found) {
  closeSearch();
  if (found.name) {
    go(addressOf({ name: found.name }));
    classPane.list.focus();
    return;
  }
  const methods = methodsOf(implementors, found.selector);
  if (methods.length === 1) {
    go(methodAddress(methods[0]));
    selectorPane.list.focus();
  } else {
    go(addressOf({ ...state, of: found.selector }));
    (byId("implementors").querySelector("a") || byId("senders").querySelector("a"))?.focus();
  }
}

search.addEventListener("input", showFound);
search.addEventListener("focus", () => search.value && showFound());
search.addEventListener("blur", closeSearch);
search.addEventListener("keydown", (event) => {
  if (event.key === "ArrowDown" && hits.length) markHit((hit + 1) % hits.length);
  else if (event.key === "ArrowUp" && hits.length) markHit((hit + hits.length - 1) % hits.length);
  else if (event.key === "Enter" && hits[hit]) take(hits[hit]);
  else if (event.key === "Escape") {
    search.value = "";
    showFound();
    (panes.find((pane) => pane.at >= 0 && pane.entries[pane.at].key !== null) || panes[0]).list.focus();
  } else return;
  event.preventDefault();
});

document.addEventListener("keydown", (event) => {
  if (event.key !== "/" || event.ctrlKey || event.metaKey || event.altKey || event.target === search) return;
  event.preventDefault();
  search.focus();
  search.select();
});

// ---- switches, printing, and the beginning

byId("tree").addEventListener("click", () => {
  state.tree = !state.tree;
  show();
});
for (const radio of document.querySelectorAll("input[name=side]")) {
  radio.addEventListener("change", () => {
    state.side = radio.value;
    const method = methodAt(state.name, state.side, state.selector);
    state.protocol = method && state.protocol !== null ? method.protocol : null;
    if (!method) leaveMethod();
    settle();
  });
}

// A class alone is printed with all its methods.
addEventListener("beforeprint", () => {
  const row = classes.get(state.name);
  if (!row || state.selector !== null || state.view === "changes") return;
  const parts = SIDES.flatMap((side) => row[side].flatMap(([protocol]) => [
    make("h3", {}, spec(row.name, side), " ", shown(quoted(protocol))),
    ...[...row.methods[side].values()].filter((method) => method.protocol === protocol).map((method) => make("pre", {}, between(method.source))),
  ]));
  byId("text").append(make("div", { id: "listing" }, ...parts));
});
addEventListener("afterprint", () => byId("listing")?.remove());

addEventListener("hashchange", () => {
  follow(location.hash);
  show();
});

byId("folder").append(shown(data.folder));
byId("counts").textContent = `${data.recovered}, as of ${data.moment.replace("T", " ").replace("Z", " UTC")}`;
byId("changes-link").textContent = `Change set (${data.changes.length})`;
byId("page").hidden = false;
follow(location.hash);
show();
})();
