// What was said, as a list: of the whole run, or of one source, of units of one class, or of one unit.

// The lines that say something, with the activation that acted; a post has none.
function saidLines() {
  run.said ??= [...run.numbersAt(run.texts.having("say", (it) => /^say\b/.test(it)))].map((number) => {
    const step = run.stepAt(number);
    return { number, text: run.textAt(number), step, act: step.act ? run.actOf.get(step.act) : null };
  });
  return run.said;
}

// What an address after `#said-` keeps: `all`, `source-NAME`, `class-NAME`, `unit-NUMBER`.
const SAID_BY = {
  all: () => true,
  source: (act, name) => act?.source.name === name,
  class: (act, name) => run.unitOf.get(act?.unit)?.of === name,
  unit: (act, name) => act?.unit === Number(name),
};

function saidOf(name) {
  const [sort, of = ""] = name.split("-");
  return SAID_BY[sort] && { sort, of, lines: saidLines().filter(({ act }) => SAID_BY[sort](act, of)) };
}

// The sources, classes and units that said something: each leads to the list of what it said.
function saidFilters() {
  const acts = saidLines().map((it) => it.act).filter(Boolean);
  const links = (sort, all) => [...new Set(all)].map((it) => link(`said-${sort}-${it}`, String(it)));
  const of = (title, all) => all.length > 0 && fact(title, html("div", {}, few(all, (it) => html("li", {}, it))));
  const units = [...new Set(acts.map((it) => it.unit))].filter(Boolean).sort((one, other) => one - other);
  return [
    html("p", {}, link("said-all", "All that was said")),
    html("dl", { class: "counts" },
      of("by source", links("source", acts.map((it) => it.source.name).sort())),
      of("on a unit of class", links("class", units.map((it) => run.unitOf.get(it)?.of).filter(Boolean).sort())),
      of("on unit", links("unit", units))),
  ];
}

function saidPanel({ sort, of, lines }) {
  const unit = run.called(Number(of));
  const by = { all: "", source: `by ${of}`, class: `on units of class ${of}`, unit: `on unit ${unit}` }[sort];
  const made = ({ number, text, step, act }) => row(stepLink(step), act ? actAbout(act) : faint("the host"),
    html("span", {}, link(`line-${number}`, String(number)), " ", html("code", {}, told(text)), namesIn(text)));
  return [
    head("Said", by),
    saidFilters(),
    tabled("What was said", lines, ["In", "By, on", "Line"], made, noneOf("Nothing.", "Nothing that this page keeps."),
      partRemark()),
  ];
}

// A link to what one of these said, where it said anything.
function saidLink(sort, of) {
  const count = saidOf(`${sort}-${of}`).lines.length;
  return count > 0 && html("p", {}, link(`said-${sort}-${of}`, `What it said: ${plural(count, "line")}`));
}
