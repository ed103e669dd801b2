// Pieces of the panels: links, lines of the trace as text, lists and tables.

const FEW = 40;
const MORE = 500;

// What the words of a line name, by their places.
const NAMED = {
  create: ["", "unit"],
  set: ["", "unit"],
  link: ["", "unit", "unit"],
  unlink: ["", "unit", "unit"],
  enter: ["", "unit"],
  leave: ["", "unit"],
  delete: ["", "unit"],
  trigger: ["", "act", "source", "", "unit"],
  decline: ["", "source", "", "unit"],
  obviate: ["", "act"],
  retrigger: ["", "act"],
  cycle: ["", "cycle", "", "act", "source", "", "unit"],
  invalid: ["", "act"],
};

// ---- words and links

const bold = (text) => html("b", {}, String(text));
const faint = (...children) => html("span", { class: "faint" }, ...children);
const remark = (...children) => html("p", { class: "remark" }, ...children);
const empty = (text) => html("p", { class: "empty" }, text);

const link = (id, ...children) => html("a", { href: `#${id}` }, ...children);
const stepLink = (step) => link(step.id, run.nameOf(step));
const lineLink = (number) => link(`line-${number}`, `line ${number}`);
const sourceLink = (name) => link(`source-${name}`, name);
const sourceHead = (name) => link(`source-${name}`, html("strong", {}, name));
const actLink = (number) => (run.actOf.has(number) ? link(`act-${number}`, String(number)) : String(number));

function unitLink(number, prefix = "") {
  const name = `${prefix}${number}`;
  return run.unitOf.has(number) ? link(`unit-${number}`, name) : name;
}

// The name of a unit, to stand beside its number.
function nameTold(number) {
  const name = run.unitOf.get(number)?.name;
  return name && [" ", html("span", { class: "called", title: name }, clipped(name, 40))];
}

function unitTold(number) {
  if (!number) return "no unit";
  const unit = run.unitOf.get(number);
  return ["unit ", unitLink(number), nameTold(number), unit && [" ", faint(unit.of)]];
}

// What an activation is of: its source and its unit, of which quiescence gives none.
const ofUnit = (act) => (act.unit ? [unitLink(act.unit, "#"), nameTold(act.unit)] : faint("no unit"));
const actAbout = (act) => [sourceLink(act.source.name), " ", ofUnit(act)];

// ---- lines of the trace

// A line whose units, activations, sources and cycles lead to what is known of them.
function told(text) {
  const [word] = text.split(" ", 1);
  const head = html("b", { class: `word ${word}` }, word);
  if (word === "say") return [head, saidValues(text.slice(3))];
  const others = text.split(" ").slice(1);
  return [head, others.map((it, place) => [" ", toldWord(NAMED[word]?.[place + 1], it)])];
}

const UNIT = /^#\d+$/;

// Values that are said: texts, units, and what stands between them.
const saidParts = (text) => text.match(/"(?:[^"\\]|\\.)*"?|#\d+|[^"#]+|./gs) ?? [];

function saidValues(text) {
  return saidParts(text).map((it) => {
    if (UNIT.test(it)) return unitLink(Number(it.slice(1)), "#");
    return it.startsWith('"') ? html("span", { class: "said" }, it) : it;
  });
}

function toldWord(sort, word) {
  if (sort === "act") return actLink(Number(word));
  if (sort === "source") return sourceLink(word);
  if (sort === "cycle") return run.named(`cycle-${word}`) ? link(`cycle-${word}`, word) : word;
  if (sort !== "unit") return word;
  const [number, slot] = word.split(".");
  return [unitLink(Number(number)), slot && `.${slot}`];
}

// The names of the units in a line, behind it, but for one that is named already.
function namesIn(text, except = 0) {
  const numbers = text.startsWith("say ")
    ? saidParts(text.slice(3)).filter((it) => UNIT.test(it)).map((it) => it.slice(1))
    : text.split(" ").filter((_, place) => NAMED[text.split(" ", 1)[0]]?.[place] === "unit");
  const others = new Set(numbers.map((it) => parseInt(it, 10)).filter((it) => it !== except));
  const names = [...others].map(nameTold).filter(Boolean);
  return names.length > 0 && html("span", { class: "names" }, names.map((it, at) => [at > 0 && ",", it]));
}

function lineItem({ number, text, except = 0 }) {
  const place = html("a", { class: "line-number", href: `#line-${number}` }, String(number));
  return html("li", {}, place, html("code", {}, told(text), setTold(number, text)), namesIn(text, except));
}

// What brought a reaction about, as far as the trace tells.
function causeTold(line) {
  const causes = run.causesOf(line);
  const change = (it) => html("a", { class: "code", href: `#line-${it}` }, run.textAt(it));
  if (!causes.length) return "by a change that is not shown";
  if (causes.length === 1) return ["by ", change(causes[0])];
  const shown = causes.slice(0, 5).map((it, index) => [index ? ", " : "", change(it)]);
  return ["by one of ", shown, causes.length > 5 && ` and ${causes.length - 5} more`];
}

// ---- what is not kept

// What is said where nothing is listed: one text where the page has the whole run, and one where it has a part of it.
const noneOf = (whole, kept) => (run.isPartial ? kept : whole);

// That a list is only of what the page keeps.
function partRemark() {
  if (!run.isPartial) return null;
  const missing = run.steps.reduce((sum, it) => sum + it.missing, 0);
  const { dropped } = run.totals;
  const left = [dropped && plural(dropped, "cycle"), missing && `${plural(missing, "line")} of others`];
  return remark(`This page does not keep ${left.filter(Boolean).join(" and ")}, so more may be there.`);
}

// ---- parts, lists and tables

const head = (title, ...aside) => html("div", { class: "head" }, html("h2", {}, title), faint(...aside));

function part(title, count, ...children) {
  const counted = count !== null && html("span", { class: "count" }, count.toLocaleString("en"));
  return html("section", {}, html("h3", {}, title, counted), children);
}

// A part with a list, or with what is said where there is nothing to list.
function listed(title, items, made, none, ...more) {
  return part(title, items.length, items.length ? few(items, made) : empty(none), more);
}

function tabled(title, items, heads, made, none, ...more) {
  return part(title, items.length, items.length ? [table(heads, items, made), more] : empty(none));
}

// A list of which the first few are shown, and more where they are asked for.
function few(items, made, tag = "ul", first = FEW) {
  const list = html(tag, { class: "list" });
  const button = html("button", { class: "more" });
  let shown = 0;
  const add = (count) => {
    list.append(...items.slice(shown, shown + count).map(made));
    shown += count;
    button.hidden = shown >= items.length;
    button.textContent = `Show ${Math.min(items.length - shown, MORE)} more`;
  };
  add(first);
  button.addEventListener("click", () => add(MORE));
  return items.length > first ? [list, button] : [list];
}

function table(heads, items, made) {
  const [body, button] = few(items, made, "tbody");
  const names = html("tr", {}, heads.map((it) => html("th", { scope: "col" }, it)));
  return html("div", { class: "table" }, html("table", {}, html("thead", {}, names), body), button);
}

const row = (...cells) => html("tr", {}, cells.map((it) => html("td", {}, it)));

function fact(name, value, sort = "") {
  return html("div", { class: `fact ${sort}` }, html("dt", {}, name), html("dd", {}, value));
}

// A mark with what it means, and below it where that comes from.
function marked(shape, text, below) {
  const texts = html("div", {}, html("p", {}, text), below && html("p", {}, faint(below)));
  return html("li", { class: "marked" }, icon(shape), texts);
}
