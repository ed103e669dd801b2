// What is shown of the values of slots, and of the whole blackboard at the end of a step.

const unknown = () => faint("?");

// Why there are no values, and from where on.
function whyNoValues() {
  const { until, why } = run.board;
  if (!why) return null;
  if (until > 1) return ["What slots held is shown up to ", lineLink(until), ": ", why];
  return `What slots held is not shown: ${why}`;
}

const valueTold = (it) => (it ? html("span", { class: "value" }, it.text) : unknown());

function slotTold(unit, slot, step) {
  const it = run.board.valueAt(unit, slot, step);
  const isNew = it?.step === step && step.kind !== "start";
  return html("span", { class: isNew ? "slot changed" : "slot" }, `${slot} `, valueTold(it));
}

// Partners that are live at the end of a step.
function partnersTold(slot, partners, step) {
  const live = [...partners].map(Number).filter((it) => {
    const unit = run.unitOf.get(it);
    return !unit || run.board.isLive(unit, step);
  });
  const shown = live.slice(0, FEW).map((it, at) => [at > 0 && ", ", unitLink(it, "#")]);
  return live.length > 0
    && html("span", { class: "slot" }, `${slot} → `, shown, live.length > FEW && ` and ${live.length - FEW} more`);
}

// What a unit holds at the end of a step: slots, links, spaces.
function holdingsOf(unit, step) {
  const moves = run.board.movesAt(unit, step);
  const spaces = [...(moves.get("") ?? [])];
  moves.delete("");
  const all = [
    ...[...unit.values.keys()].map((slot) => slotTold(unit, slot, step)),
    ...[...moves].map(([slot, partners]) => partnersTold(slot, partners, step)),
    spaces.length > 0 && html("span", { class: "slot" }, `in ${spaces.join(", ")}`),
  ].filter(Boolean);
  const none = step.first < run.board.until && run.board.isTold ? "nothing" : "?";
  return html("div", { class: "holdings" }, all.length ? all.map((it, at) => [at > 0 && " · ", it]) : faint(none));
}

function boardPart(step) {
  if (step.kind === "gap") return null;
  const units = run.units.filter((it) => run.board.isLive(it, step));
  const made = (unit) => row([unitLink(unit.number, "#"), nameTold(unit.number), " ", faint(unit.of)],
    holdingsOf(unit, step));
  const why = step.first >= run.board.until && whyNoValues();
  const lacks = "Lines before this are not kept in the page, so links and spaces may lack some.";
  return tabled("The blackboard at its end", units, ["Unit", "Holds"], made, "No unit is there.",
    why && remark(why),
    run.board.lacksLines(step) && remark(lacks));
}

// What the slots of a unit held: at the end of a step, and since when.
function slotsPart(unit, step) {
  const slots = run.board.isLive(unit, step) && step.kind !== "gap" ? [...unit.values.keys()] : [];
  if (!slots.length) return null;
  const made = (slot) => {
    const it = run.board.valueAt(unit, slot, step);
    return row(slot, valueTold(it), it ? stepLink(it.step) : "");
  };
  return tabled(`What its slots held at the end of ${run.nameOf(step)}`, slots, ["Slot", "Value", "Since"], made, "");
}

// Each value that a slot of a unit got, step by step.
function historyPart(unit) {
  const why = whyNoValues();
  if (!run.board.isTold) return remark(why);
  const all = [...unit.values].flatMap(([slot, values]) =>
    values.map((it, at) => ({ ...it, slot, before: values[at - 1] })));
  const later = all.filter(({ before }) => before).sort((one, other) => one.step.index - other.step.index);
  const made = ({ step, slot, text, before }) => row(stepLink(step), slot, before.text, html("b", {}, text));
  return [
    tabled("Which values did its slots get?", later, ["In", "Slot", "Before", "At its end"], made,
      "None was set since it was created.",
      run.others.has("gap") && remark("Of cycles that are not shown only the last values are told.")),
    why && remark(why),
  ];
}

// The value that a line sets, to stand behind it: that at the end of the step, so behind the last such line alone.
function setTold(number, text) {
  const [, unit, slot] = /^set (\d+)\.(\w+)$/.exec(text) ?? [];
  if (!unit || !run.board.isTold) return null;
  const step = run.stepAt(number);
  const value = run.board.setIn(Number(unit), slot, step);
  const isLast = value !== null && !run.linesOf(step).some((it) => it.number > number && it.text === text);
  return isLast && html("span", { class: "set-to" }, " = ", value);
}
