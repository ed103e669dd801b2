// What is known of a step, an activation, a unit or a source.

// ---- a step

function stepPanel(step) {
  if (step.kind === "gap") return gapPanel();
  const lines = run.linesOf(step);
  return [
    stepHead(step),
    step.act > 0 && choice(step),
    step.kind === "quiescence" && quiet(step),
    step.act > 0 && partOfText(run.actOf.get(step.act).source, run.isInvalid(step) ? "revalidate" : "do"),
    effects(step, lines),
    reactions(step, lines),
    ending(lines),
    otherPart(step),
    boardPart(step),
    step.missing > 0 && remark(`${plural(step.missing, "line")} more of this step are not kept in the page.`),
  ];
}

function stepHead(step) {
  const title = step.cycle ? `Cycle ${step.cycle}` : { start: "Start", post: "Post", quiescence: "Quiescence" }[step.kind];
  const last = step.first + step.kept + step.missing - 1;
  return head(title, last > step.first ? `lines ${step.first} to ${last}` : `line ${step.first}`);
}

function gapPanel() {
  const cycles = plural(run.totals.dropped, "cycle");
  return [head("Not shown"), html("p", {}, `${cycles} of this run are left out: it is too long for one page.`)];
}

function choice(step) {
  const act = run.actOf.get(step.act);
  const waited = run.waitingAt(step.first);
  const others = waited.filter((it) => it !== act);
  const below = others.filter((it) => run.isBelow(step, it));
  const over = others.filter((it) => !below.includes(it));
  return [
    chosen(step, act),
    part("Why did it act now?", null, html("div", { class: "prose" }, whyNow(step, act, waited))),
    passedOver(step, over, below.length ? "Nothing else could be chosen." : "Nothing else waited."),
    belowFloor(step, below),
    fociThere(step),
  ];
}

function chosen(step, act) {
  const weight = run.weightOf(step);
  const shape = run.isInvalid(step) ? "invalid" : "cycle";
  return html("div", { class: "chosen" },
    html("p", {}, icon(shape), sourceHead(act.source.name), " on ", unitTold(act.unit)),
    html("dl", {},
      fact("activation", actLink(act.number)),
      fact("rating", String(step.rating), "strong"),
      fact("base", String(run.baseAt(act, step.first))),
      fact("by foci", weight ? signed(weight) : "0", weight ? "weighed" : "")));
}

function whyNow(step, act, waited) {
  const rerated = run.basesBefore(act, step.first) - 1;
  const before = run.passedOver(act).filter((it) => it.index < step.index).length;
  const those = run.isAcrossGap(act) ? " of those that are shown" : "";
  const trigger = run.stepAt(run.triggerOf(act));
  const where = trigger.kind === "quiescence" ? "" : ["in ", stepLink(trigger), " "];
  return [
    html("p", {},
      waited.length > 1 ? `Of ${waited.length.toLocaleString("en")} that waited it was rated highest, ${step.rating}; `
        + "of equal ratings the lowest number goes first." : `It alone waited, rated ${step.rating}.`,
      weighedTold(step)),
    html("p", {},
      "It was triggered ", where, causeTold(run.triggerOf(act)), ".",
      rerated > 0 && ` It was rated anew ${rerated === 1 ? "once" : `${rerated} times`} since.`,
      ` ${before ? plural(before, "cycle") : "No cycle"}${those} passed it over before.`),
    run.isInvalid(step) && html("p", {}, "Its source looked once more (revalidate) and said no: it was not executed."),
  ];
}

// Those that were rated, or based, higher come first.
function inOrder(step, acts, valueOf) {
  const sign = (it) => (it > 0n ? 1 : it < 0n ? -1 : 0);
  return [...acts].sort((one, other) => sign(valueOf(step, other) - valueOf(step, one)) || one.number - other.number);
}

const baseIn = (step, act) => run.baseAt(act, step.first);

function passedOver(step, others, none) {
  const told = others.filter((act) => run.ratingAt(step, act) !== null);
  const isAll = told.length === others.length;
  const made = (act) => {
    const why = run.whyPassed(step, act);
    const rating = run.ratingAt(step, act) ?? faint("?");
    const rated = [String(baseIn(step, act)), ...(told.length ? [rating] : [])];
    return row(actLink(act.number), actAbout(act), ...rated, html("span", { class: why.sort }, why.text));
  };
  const heads = ["Act.", "Source, unit", "Base", ...(told.length ? ["Rating"] : []), "Passed over for"];
  const order = inOrder(step, others, isAll ? (...its) => run.ratingAt(...its) : baseIn);
  const where = run.file === undefined ? "." : " where a code set a focus that may match.";
  return tabled("What waited, and was passed over?", order, heads, made, none,
    !isAll && remark("Foci may weigh each source up or down. A trace tells the rating of what is chosen alone, and ",
      `foci weigh all activations of one source alike: of other sources only the base is known${where}`));
}

// What could not be chosen where a step begins.
function belowFloor(step, acts) {
  const isTold = acts.some((act) => run.ratingAt(step, act) !== null);
  const ratings = (act) => (isTold ? [run.ratingAt(step, act) ?? faint("?")] : []);
  const made = (act) => row(actLink(act.number), actAbout(act), String(baseIn(step, act)), ...ratings(act));
  const heads = ["Act.", "Source, unit", "Base", ...(isTold ? ["Rating"] : [])];
  return acts.length > 0 && tabled("What waits below the floor", inOrder(step, acts, baseIn), heads, made);
}

// The floor, as far as it is told: what waits at quiescence may show that it was another one.
function floorTold(step, waited) {
  if (run.floor === null) return "the floor, of which this page knows that it was below 0";
  const isAbove = waited.some((act) => (run.ratingAt(step, act) ?? run.floor - 1n) >= run.floor);
  return isAbove ? "the floor, which was above that of this page" : `the floor, ${run.floor}`;
}

function quiet(step) {
  const waited = run.waitingAt(step.first);
  const below = () => `Nothing could be chosen: all that waits is rated below ${floorTold(step, waited)}.`;
  return [
    html("p", {}, waited.length ? below() : "Nothing waited.", " The sources answer to quiescence as to any event."),
    belowFloor(step, waited),
    fociThere(step),
  ];
}

function effects(step, lines) {
  if (step.kind === "quiescence" || run.isInvalid(step)) return null;
  const did = lines.filter(({ word, text }) => CHANGE.test(text) || word === "say" || word === "refused");
  const end = lines.find(({ word }) => word === "end");
  const isCut = step.kind !== "start" && !run.finish && step === run.steps.at(-1);
  const told = end ? endTold(end.text) : isCut ? remark("It has no end: the trace is cut in it.") : null;
  if (step.kind === "start") return listed("First units", did, lineItem, "There are none.");
  if (step.kind === "post") return listed("What happened outside?", did, lineItem, "Nothing.", told);
  return listed("What did it change and say?", did, lineItem, "It changed nothing and said nothing.", told);
}

function endTold(text) {
  const [steps, found, budget] = text.match(/\d+/g);
  if (text.startsWith("end post")) return remark(`The host posted ${plural(BigInt(steps), "ask")}.`);
  if (!found) return remark(`A native of the host ended, after ${plural(BigInt(steps), "ask")}.`);
  const [made, longest] = [plural(BigInt(steps), "step"), plural(BigInt(found), "unit")];
  return remark(`Ended after ${made}, with a budget of ${budget}; its longest sequence had ${longest}.`);
}

function reactions(step, lines) {
  const all = lines.filter((it) => REACTION.test(it.text));
  if (!all.length && !lines.some((it) => it.word === "end")) return null;
  const actOf = (it) => run.actOf.get(Number(it.text.split(" ")[1]));
  const isSame = (it) => it.word === "retrigger" && !run.turnOf(actOf(it), it.number);
  const same = all.filter(isSame).map((it) => actOf(it).number);
  const names = same.slice(0, 8).map((it, at) => [at > 0 && ", ", actLink(it)]);
  const many = `${plural(same.length, "activation")} kept ${same.length === 1 ? "its" : "their"} base: `;
  return listed("What did that bring about?", all.filter((it) => !isSame(it)), reaction,
    same.length ? "Nothing is rated anew." : "No source answered to it.",
    same.length > 0 && remark(many, names, same.length > 8 && ", .."));
}

// The part that is asked before such a line.
const ASKED = { trigger: "require", decline: "require", obviate: "obviate", retrigger: "retrigger" };

function reaction({ number, word, text }) {
  const words = text.split(" ");
  const act = word === "decline" ? null : run.actOf.get(Number(words[1]));
  const source = act ? act.source.name : words[1];
  const verb = { trigger: "triggered", decline: "declined", obviate: "obviated", retrigger: "rated anew" }[word];
  const about = {
    trigger: () => [", activation ", actLink(act.number), " on ", unitTold(act.unit), ", base ", bold(words[6])],
    decline: () => [", for ", unitTold(Number(words[3]))],
    obviate: () => [", activation ", actLink(act.number), " on ", unitTold(act.unit)],
    retrigger: () => [", activation ", actLink(act.number), `, base ${run.baseAt(act, number)} → `, bold(words[2])],
  }[word]();
  const shape = word === "retrigger" ? run.turnOf(act, number) : word;
  const place = placeOf(run.sources.find((it) => it.name === source), ASKED[word]);
  const below = [lineLink(number), ", ", causeTold(number), place && ["; ", ASKED[word], " in ", place]];
  return marked(shape, [faint(verb), " ", sourceHead(source), about], below);
}


function ending(lines) {
  const ends = lines.filter(({ word }) => word === "finish" || word === "closed");
  return ends.length > 0 && part("How the run ended", null, few(ends, lineItem), remark(finishMeaning()));
}

// ---- an activation

function actPanel(act) {
  const over = run.passedOver(act).filter((step) => step.act !== act.number);
  const items = [...act.bases.map((_, at) => baseItem(act, at)), endItem(act)];
  const heads = ["Cycle", "Chosen instead", "Rating", "Its base", "Because"];
  return [
    head(`Activation ${act.number}`, act.fate === "waits" ? "still waits" : act.fate),
    html("p", {}, sourceHead(act.source.name), " on ", unitTold(act.unit)),
    part("From its trigger to its end", null, few(items, (it) => it)),
    tabled("Which cycles passed it over?", over, heads, (step) => overRow(step, act),
      run.isAcrossGap(act) ? "None that is shown." : "None: it waited for no other.",
      run.isAcrossGap(act) && remark("Of cycles that are not shown nothing is said here.")),
  ];
}

function baseItem(act, at) {
  const [line, base] = act.bases[at];
  const shape = at ? run.turnOf(act, line) : "trigger";
  const what = at ? ": rated anew, base " : ": triggered, base ";
  return marked(shape, [stepLink(run.stepAt(line)), what, bold(base)], causeTold(line));
}

function endItem(act) {
  if (!act.ended) {
    const where = run.finish ? "at the end of the run" : "where the trace is cut";
    const below = run.finish && run.isBelow(run.after, act) && ", below the floor";
    return marked("waits", [stepLink(run.steps.at(-1)), `: it still waits ${where}`, below]);
  }
  const step = run.stepAt(act.ended);
  if (act.fate === "obviated") return marked("obviate", [stepLink(step), ": obviated"], causeTold(act.ended));
  if (step.act !== act.number) return marked("cycle", [stepLink(step), ": its end is not shown"]);
  const weight = run.weightOf(step);
  const sum = ` (base ${run.baseAt(act, step.first)}, foci ${signed(weight)})`;
  const rated = ["rated ", bold(step.rating), weight !== 0n && sum];
  if (act.fate === "invalid") return marked("invalid", [stepLink(step), ": chosen, ", rated, ", and not executed"]);
  return marked("cycle", [stepLink(step), ": it acted, ", rated]);
}

function overRow(step, act) {
  const taken = run.actOf.get(step.act);
  const why = run.whyPassed(step, act);
  const instead = [actLink(taken.number), " ", sourceLink(taken.source.name)];
  const base = String(baseIn(step, act));
  const because = html("span", { class: why.sort }, why.text);
  return row(link(step.id, String(step.cycle)), instead, String(step.rating), base, because);
}

// ---- a unit, a source

function unitPanel(unit, name, step) {
  const at = (line) => {
    const step = run.stepAt(line);
    return [stepLink(step), step.act > 0 && [" by ", sourceLink(run.actOf.get(step.act).source.name)]];
  };
  const bySteps = [...Map.groupBy(unit.changes, (line) => run.stepAt(line)).values()];
  const item = (line) => lineItem({ number: line, text: run.textAt(line), except: unit.number });
  const group = (lines) => html("li", { class: "group" }, html("p", {}, at(lines[0])), few(lines, item));
  return [
    head(`Unit ${run.called(unit.number)}`, unit.of),
    html("p", {}, "Created in ", at(unit.created), unit.deleted > 0 && [", deleted in ", at(unit.deleted)], "."),
    heldPart(unit),
    slotsPart(unit, step),
    historyPart(unit),
    part("When did it change?", unit.changes.length, few(bySteps, group), partRemark()),
    tabled("Activations for it", unit.acts, actHeads("Source"), (act) => actRow(act, sourceLink(act.source.name)),
      noneOf("No source was triggered for it.", "None that this page keeps."), partRemark()),
  ];
}

const actHeads = (of) => ["Act.", of, "Triggered in", "Base", "End"];

function actRow(act, about) {
  const end = act.ended ? [act.fate, " in ", stepLink(run.stepAt(act.ended))] : "still waits";
  return row(actLink(act.number), about, stepLink(run.stepAt(run.triggerOf(act))), String(act.bases[0][1]), end);
}

function sourcePanel(source, part) {
  const { retrigger, ...others } = source.counts;
  const all = Object.entries(others).map(([word, count]) => [word, MARK_NAMES[word], count]);
  all.push(["raised", "rated anew", retrigger]);
  const marks = ([shape, name, count]) => fact([icon(shape), " ", name], count.toLocaleString("en"));
  const acts = run.acts.filter((it) => it.source === source);
  return [
    head(source.name, source.of ? `source on ${source.of}` : "source"),
    html("dl", { class: "counts" }, all.map(marks)),
    saidLink("source", source.name),
    wholeText(source, part),
    tabled("Its activations", acts, actHeads("Unit"), (act) => actRow(act, ofUnit(act)),
      noneOf("It got none.", "None that this page keeps."), partRemark()),
  ];
}
