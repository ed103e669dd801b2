// Nodes of the page. All text goes in as text, so nothing that a trace says is read as HTML.

const SVG = "http://www.w3.org/2000/svg";

function node(made, attributes, children) {
  for (const [name, value] of Object.entries(attributes)) {
    if (value === true) made.setAttribute(name, "");
    else if (value !== null && value !== undefined && value !== false) made.setAttribute(name, value);
  }
  made.append(...children.flat(Infinity).filter((it) => it !== null && it !== undefined && it !== false));
  return made;
}

const html = (tag, attributes = {}, ...children) => node(document.createElement(tag), attributes, children);
const svg = (tag, attributes = {}, ...children) => node(document.createElementNS(SVG, tag), attributes, children);

// Each mark has a shape of its own, so that colour is not needed to tell it.
const SHAPES = {
  trigger: "M-4 0a4 4 0 1 0 8 0a4 4 0 1 0 -8 0z",
  cycle: "M-4.5 -4.5h9v9h-9z",
  decline: "M-4.5 0h9",
  obviate: "M-4.5 0a4.5 4.5 0 1 0 9 0a4.5 4.5 0 1 0 -9 0zM-3.2 3.2L3.2 -3.2",
  raised: "M0 -4.5L4.8 4H-4.8z",
  lowered: "M0 4.5L4.8 -4H-4.8z",
  invalid: "M-4 -4L4 4M4 -4L-4 4",
  waits: "M-3 -4.5L4 0L-3 4.5z",
  create: "M0 -6v12",
  delete: "M0 -6v12M-3 -3L3 3M3 -3L-3 3",
  set: "M-4 0a4 4 0 1 0 8 0a4 4 0 1 0 -8 0z",
  link: "M0 -5.2L5.2 0L0 5.2L-5.2 0z",
  unlink: "M0 -4.5L4.5 0L0 4.5L-4.5 0z",
  enter: "M-5 4.2L0 -5L5 4.2z",
  leave: "M-4.2 3.6L0 -4.2L4.2 3.6z",
};

const MARK_NAMES = {
  trigger: "triggered",
  cycle: "acted",
  decline: "declined",
  obviate: "obviated",
  raised: "rated anew, higher",
  lowered: "rated anew, lower",
  invalid: "invalid",
  waits: "still waits",
};

function mark(shape, x, y, title) {
  const path = svg("path", { class: `mark ${shape}`, d: SHAPES[shape], transform: `translate(${x} ${y})` });
  if (title) path.append(svg("title", {}, title));
  return path;
}

// A mark by itself, for a line of text.
function icon(shape) {
  const box = { class: "icon", width: 12, height: 14, viewBox: "-6 -7 12 14", "aria-hidden": "true" };
  return svg("svg", box, mark(shape, 0, 0));
}

const key = (shapes, name) => html("span", { class: "key" }, shapes.map(icon), name);

const legend = (shapes) => shapes.map((it) => key([it], MARK_NAMES[it] ?? it));

const plural = (count, one, many = `${one}s`) => `${count.toLocaleString("en")} ${Number(count) === 1 ? one : many}`;

const clipped = (text, length) => (text.length > length ? `${text.slice(0, length - 1)}…` : text);
