// Runs the script of a page where there is no browser, for tools/test_see: a page on standard input, addresses as
// arguments, or texts to find after `find:`, and for each of them what the page shows, as JSON on standard output.
// Nothing has a layout: all is there that the script makes, at the breadth that a window of 1280 pixels leaves for the
// picture.
"use strict";

const BREADTH = 1280 - 480;
const page = require("fs").readFileSync(0, "utf8");
const within = (tag) => new RegExp(`<script${tag}>(.*?)</script>`, "s").exec(page)?.[1];

class Element {
  constructor(tag) {
    Object.assign(this, { tag, attributes: {}, children: [], found: {}, dataset: {}, heard: {} });
    Object.assign(this, { value: "", scrollTop: 0 });
    Object.assign(this, { clientWidth: BREADTH, clientHeight: 420, style: { setProperty() {} } });
    this.classList = { add() {}, toggle() {} };
  }

  get textContent() {
    return this.children.map((it) => it.textContent ?? it).join("");
  }

  set textContent(text) {
    this.children = [text];
  }

  get parentElement() {
    return this.querySelector("parent");
  }

  setAttribute(name, value) {
    this.attributes[name] = value;
  }

  getAttribute(name) {
    return this.attributes[name] ?? null;
  }

  contains() {
    return false;
  }

  querySelectorAll() {
    return [];
  }

  append(...children) {
    this.children.push(...children);
  }

  replaceChildren(...children) {
    this.children = children;
  }

  // An element of the page's own HTML is the one that is asked for first.
  querySelector(selector) {
    return (this.found[selector] ??= new Element(selector));
  }

  replaceWith(other) {
    Object.assign(this, { children: other.children, attributes: other.attributes });
  }

  all(tag) {
    return this.children.filter((it) => it.children).flatMap((it) => [...(it.tag === tag ? [it] : []), ...it.all(tag)]);
  }

  addEventListener(event, heard) {
    this.heard[event] = heard;
  }

  scrollIntoView() {}
}

let frames = [];
const body = new Element("body");
const blocks = Object.fromEntries(["run", "beside"].map((id) => [id, within(` type="text/plain" id="${id}"`)]));

Map.groupBy ??= (items, keyOf) => {
  const groups = new Map();
  for (const it of items) groups.set(keyOf(it), [...(groups.get(keyOf(it)) ?? []), it]);
  return groups;
};

Object.assign(globalThis, {
  location: { hash: "" },
  history: { replaceState: (_, __, to) => (location.hash = to), pushState: (_, __, to) => (location.hash = to) },
  requestAnimationFrame: (draw) => frames.push(draw),
  addEventListener: (event, heard) => event === "hashchange" && (globalThis.moved = heard),
  ResizeObserver: class {
    observe() {}
  },
  document: {
    body,
    getElementById: (id) => blocks[id] && { textContent: blocks[id] },
    querySelector: (selector) => body.querySelector(selector),
    createElement: (tag) => new Element(tag),
    createElementNS: (_, tag) => new Element(tag),
    addEventListener() {},
  },
});

function settle() {
  while (frames.length) frames.shift()();
}

// A drawing of the picture: the texts on it, with where they are and their classes.
function drawn(part) {
  const drawing = body.querySelector(".timeline").querySelector(`.${part}`).querySelector(".drawing");
  return drawing.all("text").map((it) => ({
    text: it.children.filter((child) => child.tag !== "title").map((child) => child.textContent ?? child).join(""),
    x: it.attributes.x,
    sort: it.attributes.class,
  }));
}

// Goes to an address, or finds what stands after `find:`.
function goTo(address) {
  const input = body.querySelector("input");
  input.value = address.startsWith("find:") ? address.slice(5) : "";
  input.heard.input?.();
  if (!input.value) location.hash = `#${address}`;
  if (!input.value) globalThis.moved();
  settle();
}

function shown(address) {
  goTo(address);
  const parts = ["axis", "agenda", "sources", "activations", "units"];
  const timeline = body.querySelector(".timeline");
  const below = timeline.querySelector(".activations").querySelector(".drawing").all("rect");
  return {
    details: body.querySelector(".details").textContent,
    lines: body.querySelector(".trace").querySelector(".rows").children.map((it) => it.textContent),
    found: body.querySelector(".found").textContent,
    notices: body.querySelector(".notices").textContent,
    below: below.filter((it) => it.attributes.class === "below").map((it) => [it.attributes.x, it.attributes.width]),
    ...Object.fromEntries(parts.map((it) => [it, drawn(it)])),
  };
}

// The page is shown once its run is unpacked.
async function tried() {
  (0, eval)(within(""));
  while (!body.dataset.state) await new Promise(setImmediate);
  settle();
  console.log(JSON.stringify(process.argv.slice(2).map(shown)));
}

tried();
