// What units held at the end of each step: slots as far as a replay told, links and spaces as the lines tell.

const MOVE = /^(link|unlink|enter|leave) \d+(?:\.(\w+))? (\w+)$/;

class Board {
  constructor(run, { until, why, isLost, slots, texts, values, moves }) {
    Object.assign(this, { run, why, isLost, gap: run.others.get("gap"), until: until || Infinity });
    this.isTold = until !== 1;
    for (let at = 0; at < values.length; at += 4) {
      const held = run.unitOf.get(values[at + 1]).values;
      const slot = slots[values[at + 2]];
      if (!held.has(slot)) held.set(slot, []);
      held.get(slot).push({ step: run.steps[values[at]], text: texts[values[at + 3]] });
    }
    for (const [number, slot, to, isThere] of moves) run.unitOf.get(number)?.moves.push({ slot, to, isThere });
  }

  endOf(step) {
    const next = this.run.steps[step.index + 1];
    return next ? next.first : this.run.totals.lines + 1;
  }

  isLive(unit, step) {
    const end = this.endOf(step);
    return unit.created < end && (!unit.deleted || unit.deleted >= end);
  }

  // What a slot held at the end of a step, with the step from which on; null where that is not told.
  valueAt(unit, slot, step) {
    if (step.first >= this.until) return null;
    const all = unit.values.get(slot) ?? [];
    const found = all[firstWhere(all.length, (at) => all[at].step.index > step.index) - 1];
    const isStale = this.isLost && found?.step.index < this.gap.index && step.index >= this.gap.index;
    return found && !isStale ? found : null;
  }

  // What a slot was set to in a step, as far as that is told: its last value there.
  setIn(number, slot, step) {
    const found = this.run.unitOf.get(number)?.values.get(slot);
    const at = found ? firstWhere(found.length, (it) => found[it].step.index >= step.index) : 0;
    return found?.[at]?.step === step ? found[at].text : null;
  }

  // The lines that link a unit, or have it enter or leave a space.
  movesOf(unit) {
    unit.own ??= unit.changes.flatMap((line) => {
      const [, word, slot = "", to] = MOVE.exec(this.run.textAt(line)) ?? [];
      return word ? [{ line, slot, to, isThere: word === "link" || word === "enter" }] : [];
    });
    return unit.own;
  }

  // The partners by each link slot, in the order of linking, and below "" the spaces.
  movesAt(unit, step) {
    const found = new Map();
    const make = ({ slot, to, isThere }) => {
      if (!found.has(slot)) found.set(slot, new Set());
      found.get(slot).delete(to);
      if (isThere) found.get(slot).add(to);
    };
    const end = this.endOf(step);
    const isAfterGap = this.gap && step.index >= this.gap.index;
    const gap = this.gap?.first ?? Infinity;
    const own = this.movesOf(unit);
    own.filter((it) => it.line < Math.min(end, gap)).forEach(make);
    if (isAfterGap) unit.moves.forEach(make);
    own.filter((it) => it.line >= gap && it.line < end).forEach(make);
    return found;
  }

  // Whether lines up to the end of a step are not in the page, so that links and spaces may lack some.
  lacksLines(step) {
    if (this.isLost && step.index >= this.gap.index) return true;
    return this.run.steps.slice(0, step.index + 1).some((it) => it.missing > 0);
  }
}
