// What is shown, by the page's address: `#cycle-3`, `#act-5`, `#unit-7`, `#source-crop`, `#source-crop-do`, `#line-12`,
// `#said-all`, `#said-source-crop`.

// Whether a server gives the run, which goes on (follow.js).
const isLive = () => Boolean(document.getElementById("live"));

const at = (selector) => document.querySelector(selector);
const details = at(".details");
const input = at("input");

// ---- the head of the page

function finishMeaning() {
  return {
    "": "The trace is cut: it has no finish line.",
    quiescence: "Nothing could be chosen, and no answer to quiescence changed that.",
    limit: "It had made as many cycles as its limit, and could have made another.",
    full: "An activation would have been one too many, or a unit.",
  }[run.finish];
}

function showTotals() {
  const { lines, cycles, activations, units } = run.totals;
  const counts = { cycle: cycles, activation: activations, source: run.sources.length, unit: units, line: lines };
  const total = ([name, count]) => html("li", {}, bold(count.toLocaleString("en")), count === 1 ? name : `${name}s`);
  const said = saidLines().length > 0 && html("li", {}, link("said-all", "what was said"));
  at(".totals").replaceChildren(...[...Object.entries(counts).map(total), said].filter(Boolean));
  const state = at(".state");
  state.textContent = run.finish ? `finish ${run.finish}` : run.isOn ? "goes on" : lines ? "cut" : "empty";
  state.title = run.isOn ? "More may come." : finishMeaning();
  state.className = `state ${run.finish || (run.isOn ? "on" : "cut")}`;
}

function showNotices(fault = "") {
  const { lines, cycles, dropped } = run.totals;
  const isCut = !run.finish && lines > 0 && !run.isOn;
  const wrong = run.fault && (lines ? `What comes then is no more of this trace: ${run.fault}` : run.fault);
  const live = [fault, wrong].filter(Boolean).map((it) => html("p", {}, it));
  const cut = isCut && html("p", {},
    "This trace is cut: it has no ", html("code", {}, "finish"), " line, so memory ran out or the output failed. ",
    "What was written before is shown.", run.cut && " Its last line was not ended, and is left out of the picture.");
  const gap = run.others.get("gap")?.index;
  const kept = (steps) => steps.filter((it) => it.cycle).length.toLocaleString("en");
  const long = dropped > 0 && html("p", {},
    `The run is too long for one page: of its ${plural(cycles, "cycle")} the first ${kept(run.steps.slice(0, gap))} `,
    `and the last ${kept(run.steps.slice(gap))} are shown. The counts are those of the whole run.`);
  const floor = run.floor === null && html("p", {},
    "What was rated below 0 acted, so the run had a floor of its own, and this page tells of none. Give it too: ",
    html("code", {}, "tools/see --floor=N"));
  const why = run.board.isTold && whyNoValues();
  const beside = run.other && partingTold();
  at(".notices").replaceChildren(...[...live, beside, cut, long, floor, why && html("p", {}, why)].filter(Boolean));
  at(".whole span").textContent = dropped > 0 ? "All that is shown" : "Whole run";
  at(".whole span").style.width = `${timeline.labels - 14}px`;
}

function showKeys() {
  const waits = html("span", { class: "key band" }, "waits");
  const rated = key(["raised", "lowered"], "rated anew");
  const ofSources = [...legend(["cycle", "invalid", "trigger"]), rated, ...legend(["obviate", "decline"]), waits];
  at(".sources .keys").append(...ofSources);
  const below = html("span", { class: "key below" }, "below the floor");
  at(".activations .keys").append("bars from trigger to end, with each base; after the end the rating", below);
  at(".units .keys").append(...legend(["create", "set", "link", "unlink", "enter", "leave", "delete"]));
}

// ---- what is selected

// The sorts of things that an address names, by the word before its dash.
const NAMEABLE = {
  line: { of: (name) => run.stepAt(Number(name)), panel: stepPanel },
  act: { of: (name) => run.actOf.get(Number(name)), panel: actPanel },
  unit: { of: (name) => run.unitOf.get(Number(name)), panel: unitPanel },
  source: {
    of: (name) => run.sources.find((it) => it.name === name.split("-")[0]),
    panel: (source, name) => sourcePanel(source, name.split("-")[1]),
  },
  said: { of: saidOf, panel: saidPanel },
  beside: { of: besideOf, panel: besidePanel },
};

const firstStep = () => run.steps.find((it) => it.cycle) ?? run.steps[0];

// The step that goes with what has a lifetime: the one that was selected, if it falls into that.
function stepOfLife({ from, to }, now) {
  if (now.index >= from.index && now.index <= to.index) return now;
  return to === run.steps.at(-1) ? from : to;
}

function show() {
  if (!run.totals.lines) return;
  const id = decodeURIComponent(location.hash.slice(1));
  const step = run.named(id);
  const [, sort, name] = /^([a-z]+)-(.+)$/.exec(id) ?? [];
  const item = step ?? NAMEABLE[sort]?.of(name);
  if (!item) return go(run.parting ? "beside-parting" : firstStep().id, true);
  const line = !step && sort === "line" ? Number(name) : 0;
  const life = !step && (sort === "act" || sort === "unit") ? run.lifeOf(item) : null;
  const now = timeline.selected ?? firstStep();
  const selected = step ?? (line ? item : life ? stepOfLife(life, now) : (item.step ?? now));
  fill(step ? stepPanel(step) : NAMEABLE[sort].panel(item, name, selected));
  if (isLive()) selectedWhileLive(selected);
  timeline.show(selected, id);
  lines.show(selected, line, life?.lines ?? new Set());
}

function fill(panel) {
  details.replaceChildren(...panel.flat(Infinity).filter(Boolean));
  details.scrollTop = 0;
  details.querySelector(".here")?.scrollIntoView({ block: "center" });
}

function go(id, isReplaced = false) {
  if (isReplaced) history.replaceState(null, "", `#${id}`);
  else if (location.hash !== `#${id}`) history.pushState(null, "", `#${id}`);
  show();
}

function showNothing() {
  const before = "Memory ran out, or the output failed, before the first line.";
  const within = ["Memory ran out, or the output failed, within the first line: ", html("code", {}, run.cut)];
  const how = html("code", {}, "./bb < examples/desk.bb | tools/see --input examples/desk.bb > run.html");
  at("main").replaceWith(html("div", { class: "nothing" },
    html("h2", {}, "Nothing was written"), html("p", {}, run.cut ? within : before),
    html("p", {}, faint("To see a run, give its trace: ", how))));
  at("search").hidden = true;
}

function showTooOld() {
  at("main").replaceWith(html("div", { class: "nothing" }, html("h2", {}, "This browser is too old for this page"),
    html("p", {}, "It needs Chromium 123, Firefox 120, Safari 17.5, or a later one.")));
}

// ---- finding

let hits = new Hits();

function find() {
  const text = input.value.trim();
  const found = text ? run.find(text) : { sources: [], units: [], lines: [] };
  hits = new Hits(found.lines);
  timeline.hits = hits.stepsOf(run);
  lines.hits = hits;
  timeline.refresh();
  lines.draw();
  document.body.classList.toggle("finding", text !== "");
  tellHit();
  if (text) fill(foundPanel(text, found));
  else show();
}

function foundPanel(text, found) {
  const source = ({ name, counts }) => html("li", {}, sourceHead(name), ` acted ${plural(counts.cycle, "time")}`);
  const unit = ({ number }) => html("li", {}, unitTold(number));
  return [
    head("Found", `“${text}”`),
    listed("Sources", found.sources, source, "None has it in its name."),
    listed("Units", found.units, unit, noneOf("None has this number, or it in its name or class.",
      "None that this page keeps has this number, or it in its name or class.")),
    listed("Lines", found.lines, (it) => lineItem({ number: it, text: run.textAt(it) }),
      noneOf("None has it.", "None that this page keeps has it."), partRemark()),
  ];
}

const lineNow = () => Number(/^#line-(\d+)$/.exec(location.hash)?.[1] ?? 0);

function tellHit() {
  const place = hits.indexOf(lineNow()) + 1;
  const kept = run.isPartial ? " kept here" : "";
  const count = `${hits.length ? plural(hits.length, "line") : "no line"}${kept}`;
  at(".found").textContent = input.value.trim() ? `${place ? `${place} of ` : ""}${count}` : "";
}

function nextHit(by) {
  if (!hits.length) return;
  const place = hits.indexOf(lineNow());
  const next = place < 0 && by < 0 ? hits.length - 1 : (place + by + hits.length) % hits.length;
  go(`line-${hits.numbers[next]}`, true);
  tellHit();
}

function clearFind() {
  input.value = "";
  input.blur();
  find();
}

// ---- keys and buttons

function walk(by) {
  const next = (timeline.selected ?? firstStep()).index + by;
  go(run.steps[Math.max(0, Math.min(run.steps.length - 1, next))].id, true);
}

function switchTheme() {
  const root = document.documentElement;
  const preferred = matchMedia("(prefers-color-scheme: dark)").matches ? "dark" : "light";
  root.dataset.theme = (root.dataset.theme ?? preferred) === "dark" ? "light" : "dark";
}

const KEYS = {
  ArrowLeft: () => walk(-1),
  ArrowRight: () => walk(1),
  Home: () => walk(-run.steps.length),
  End: () => walk(run.steps.length),
  "+": () => timeline.zoom(1),
  "-": () => timeline.zoom(-1),
  "/": () => input.select(),
  b: () => run.other && turnTo(1 - runs.indexOf(run)),
};

// In the lines of the trace, which line is selected.
const UP_DOWN = { ArrowUp: -1, ArrowDown: 1 };

const BUTTONS = {
  first: KEYS.Home,
  back: KEYS.ArrowLeft,
  on: KEYS.ArrowRight,
  last: KEYS.End,
  closer: KEYS["-"],
  wider: KEYS["+"],
  before: () => nextHit(-1),
  after: () => nextHit(1),
};

function pressed(event) {
  if (event.ctrlKey || event.altKey || event.metaKey) return;
  if (event.target === input) {
    if (event.key === "Enter") nextHit(event.shiftKey ? -1 : 1);
    if (event.key === "Escape") clearFind();
  } else if (timeline.moveFocus(event)) {
    event.preventDefault();
  } else if (event.target === lines.box && UP_DOWN[event.key]) {
    event.preventDefault();
    lines.walk(UP_DOWN[event.key]);
  } else if (KEYS[event.key]) {
    event.preventDefault();
    KEYS[event.key]();
  }
}

// ---- the start

let timeline = null;
let lines = null;

// Shows a run, in place of the one that was shown.
function take(other) {
  run = other;
  if (timeline) timeline.take(run);
  else timeline = new Timeline(run, at(".timeline"), (step) => go(step.id));
  if (lines) lines.take();
  else lines = new Lines(at(".trace"));
  showTotals();
  showNotices();
}

function listen() {
  for (const [name, act] of Object.entries(BUTTONS)) at(`button.${name}`).addEventListener("click", act);
  document.addEventListener("keydown", pressed);
  input.addEventListener("input", find);
  addEventListener("hashchange", show);
  addEventListener("popstate", show);
}

async function start() {
  at(".theme").addEventListener("click", switchTheme);
  if (!globalThis.DecompressionStream || !Map.groupBy) return showTooOld();
  if (isLive()) return followed();
  take(await unpackedAt("run"));
  if (document.getElementById("beside")) besides(await unpackedAt("beside"));
  if (run.other) showNotices();
  showKeys();
  if (run.totals.lines) {
    listen();
    show();
  } else {
    showNothing();
  }
  document.body.dataset.state = "shown";
}

start();
