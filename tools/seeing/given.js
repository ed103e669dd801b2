// What only a page with the input has: the text of sources, and the foci that weigh them.

// ---- the text of sources

// Where a part of a source stands in the input, and where that part is shown.
function placeOf(source, part) {
  const piece = source.pieces?.find((it) => it.part === part);
  return piece && link(`source-${source.name}-${part}`, `line ${piece.line} of ${run.file}`);
}

// The lines of a text in pieces, with their numbers in the input; of the pieces one part may be marked.
function rowsOfText(pieces, marked) {
  const rows = [];
  for (const { part, line, lines } of pieces) {
    lines.forEach((text, at) => {
      if (rows.at(-1)?.number !== line + at) rows.push({ number: line + at, spans: [] });
      rows.at(-1).spans.push({ text, isMarked: part === marked });
    });
  }
  return rows;
}

// How many blanks stand before each of these lines.
function indentOf(rows) {
  const texts = rows.map(({ spans }) => spans.map(({ text }) => text).join("")).filter((it) => it.trim());
  return Math.min(...texts.map((it) => it.length - it.trimStart().length));
}

function listing(pieces, marked = null) {
  const rows = rowsOfText(pieces, marked);
  const indent = indentOf(rows);
  const cut = (text, at) => (at ? text : text.slice(indent));
  const code = ({ text, isMarked }, at) => html("span", { class: isMarked && "here" }, cut(text, at));
  const made = ({ number, spans }) => html("li", {}, html("span", { class: "line-number" }, String(number)),
    html("code", {}, spans.map(code)));
  return html("div", { class: "listing" }, few(rows, made, "ul", MORE));
}

// The text of a part that was executed, or that said no.
function partOfText(source, part) {
  const found = source.pieces?.filter((it) => it.part === part) ?? [];
  if (!found.length) return null;
  return html("section", {}, html("h3", {}, "The text of its ", html("code", {}, part), faint(placeOf(source, part))),
    listing(found));
}

function wholeText(source, part) {
  if (!source.pieces) return null;
  const { line } = source.pieces[0];
  return html("section", {}, html("h3", {}, "Its text", faint(`from line ${line} of ${run.file}`)),
    listing(source.pieces, part));
}

// ---- foci

const focusTold = ({ unit }) => ["focus ", unitLink(unit.number), nameTold(unit.number)];

// The cycles in which foci were set: a few by name.
function settersTold(foci) {
  const steps = [...new Set(foci.map((it) => run.stepAt(it.line)))];
  if (steps.length === 1) return stepLink(steps[0]);
  const named = steps.slice(0, steps.length > 5 ? 4 : 5);
  const more = steps.length - named.length;
  const names = named.map((it) => (it.cycle ? link(it.id, String(it.cycle)) : stepLink(it)));
  const ends = [...names, more > 0 && `${more} more`].filter(Boolean);
  return ["cycles ", ends.map((it, at) => [at > 0 && (at < ends.length - 1 ? ", " : " and "), it])];
}

// By how much foci weighed what a cycle chose, and which of them, as far as that is told.
function weighedTold(step) {
  const weight = run.weightOf(step);
  const parts = run.file === undefined ? [] : weighersTold(step);
  if (weight === 0n && parts.length < 2) return null;
  const by = ` Foci weighed its source ${weight < 0n ? "down" : "up"} by ${weight < 0n ? -weight : weight}`;
  const amount = (it) => parts.length > 1 && [bold(signed(it)), " by "];
  return [by, parts.map(({ add, names }, at) => [at ? ", " : ": ", amount(add), names]), "."];
}

function weighersTold(step) {
  const { source, told, others, rest } = run.weighersOf(step);
  const parts = told.map((it) => ({ add: it.adds.get(source.index), names: focusTold(it) }));
  const names = others.length > 1
    ? [`one or more of ${others.length} foci that were set in `, settersTold(others)]
    : others.map((it) => [focusTold(it), ", set in ", settersTold(others)]);
  return rest === 0n ? parts : [...parts, { add: rest, names }];
}

const any = (text) => (text === "" ? faint("any") : (text ?? faint("?")));
const known = (value) => (value === null ? faint("?") : String(value));

// What a focus adds to what was chosen; where it is the only one of which that is not told, it is what is left.
function addTold(focus, { source, told, others, rest }) {
  if (told.includes(focus)) return signed(focus.adds.get(source.index));
  if (others.includes(focus)) return others.length === 1 ? signed(rest) : faint("?");
  return faint("–");
}

function fociThere(step) {
  const foci = run.fociAt(step);
  if (!foci.length) return null;
  const weighers = step.act ? run.weighersOf(step) : null;
  const made = (it) => row([unitLink(it.unit.number, "#"), nameTold(it.unit.number), " ", faint(it.unit.of)],
    any(it.source), any(it.area), it.active === false ? faint("inactive") : known(it.weight),
    stepLink(run.stepAt(it.line)), ...(weighers ? [addTold(it, weighers)] : []));
  const heads = ["Focus", "Source", "Area", "Weight", "Since", ...(weighers ? ["Adds"] : [])];
  const isTold = foci.every((it) => ![it.source, it.area, it.weight, it.active].includes(null));
  return tabled("Which foci were there?", foci, heads, made, "",
    !isTold && remark("Of what a code sets a trace names the slot alone, so what the focus holds since is not told."));
}

// What a unit held as a focus, from step to step.
function heldPart(unit) {
  if (!unit.since) return null;
  const made = ([line, held]) => {
    const { source, area, weight, active } = run.held[held];
    return row(stepLink(run.stepAt(line)), any(source), any(area), known(weight), known(active));
  };
  const heads = ["Since", "Source", "Area", "Weight", "Active"];
  return tabled("What does it weigh, as a focus?", unit.since, heads, made, "");
}
