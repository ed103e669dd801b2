// A run as the page has it, and the questions that are asked of it. Nothing here draws.

const CHANGE = /^(create|set|link|unlink|enter|leave|delete) (\d+)/;
const REACTION = /^(trigger|decline|obviate|retrigger) /;

// The first place of a sorted list at which `is` holds, or its length.
function firstWhere(length, is) {
  let low = 0;
  let high = length;
  while (low < high) {
    const middle = (low + high) >> 1;
    if (is(middle)) high = middle;
    else low = middle + 1;
  }
  return low;
}

// The lines that a text was found in, by their rising numbers.
class Hits {
  constructor(numbers = []) {
    this.numbers = numbers;
  }

  get length() {
    return this.numbers.length;
  }

  indexOf(number) {
    const at = firstWhere(this.length, (it) => this.numbers[it] >= number);
    return this.numbers[at] === number ? at : -1;
  }

  has(number) {
    return this.indexOf(number) >= 0;
  }

  // The steps that they are in.
  stepsOf(run) {
    const found = [];
    let index = 0;
    for (const number of this.numbers) {
      while (run.steps[index + 1]?.first <= number) index += 1;
      if (found.at(-1) !== index) found.push(index);
    }
    return found;
  }
}

class Run {
  constructor(data, text) {
    Object.assign(this, { finish: data.finish, cut: data.cut, totals: data.totals, causes: data.causes });
    Object.assign(this, { name: data.name, parting: data.parting, other: null });
    Object.assign(this, { isOn: data.isOn ?? false, fault: data.fault ?? "" });
    this.texts = new Texts(text);
    this.sources = data.sources.map(([name, counts], index) => ({ name, index, counts }));
    this.steps = stepsOf(data.steps);
    this.acts = data.acts.number.map((_, index) => new Act(data.acts, index, this.sources));
    this.actOf = new Map(this.acts.map((act) => [act.number, act]));
    for (const [number, later] of data.bases) this.actOf.get(number).later = later;
    this.units = data.units.number.map((_, index) => new Unit(data.units, index, data.classes));
    this.unitOf = new Map(this.units.map((unit) => [unit.number, unit]));
    for (const act of this.acts) this.unitOf.get(act.unit)?.acts.push(act);
    this.floor = data.floor === null ? null : BigInt(data.floor);
    this.foci = [];
    if (data.given) this.takeInput(data.given);
    this.indexChanges();
    this.nameSteps();
    this.after = { kind: this.finish === "quiescence" ? "quiescence" : "end", act: 0, first: this.totals.lines + 1 };
  }

  // What the input tells: the text of sources, the names of units, and what foci held, each from a line on.
  takeInput({ file, sources, names, held, foci }) {
    this.file = file;
    sources.forEach(([of, pieces], index) => {
      const made = pieces.map(([part, line, lines]) => ({ part, line, lines }));
      Object.assign(this.sources[index], { of, pieces: made });
    });
    for (const [number, name] of names) this.unitOf.get(number).name = name;
    const whole = (it) => (it === null ? null : BigInt(it));
    this.held = held.map(([source, area, weight, active, adds]) => ({
      ...{ source, area, active, weight: whole(weight) },
      adds: new Map(adds.map(([index, add]) => [index, whole(add)])),
    }));
    this.foci = foci.map(([number, since]) => Object.assign(this.unitOf.get(number), { since }));
  }

  // The changes of each unit.
  indexChanges() {
    for (const step of this.steps) {
      for (let at = 0; at < step.kept; at++) {
        if (!this.texts.isChange(step.at + at)) continue;
        const [, , unit] = CHANGE.exec(this.texts.at(step.at + at));
        this.unitOf.get(Number(unit)).changes.push(step.first + at);
      }
    }
  }

  nameSteps() {
    const counts = { quiescence: 0, post: 0 };
    this.cycles = this.steps.filter((step) => step.cycle);
    const others = this.steps.filter((step) => !step.cycle);
    for (const step of others) if (step.kind in counts) step.ordinal = counts[step.kind] += 1;
    this.others = new Map(others.map((step) => [step.id, step]));
  }

  // The step of an address.
  named(id) {
    const cycle = Number(/^cycle-(\d+)$/.exec(id)?.[1]);
    if (!cycle) return this.others.get(id);
    const found = this.cycles[firstWhere(this.cycles.length, (at) => this.cycles[at].cycle >= cycle)];
    return found?.cycle === cycle ? found : undefined;
  }

  // ---- lines

  stepAt(line) {
    return this.steps[firstWhere(this.steps.length, (it) => this.steps[it].first > line) - 1];
  }

  textAt(line) {
    const step = this.stepAt(line);
    return step && line - step.first < step.kept ? this.texts.at(step.at + line - step.first) : null;
  }

  // The numbers of the lines that stand at these places, which rise.
  *numbersAt(places) {
    let index = 0;
    for (const place of places) {
      while (index + 1 < this.steps.length && this.steps[index + 1].at <= place) index += 1;
      yield this.steps[index].first + place - this.steps[index].at;
    }
  }

  linesOf(step) {
    step.lines ??= Array.from({ length: step.kept }, (_, at) => {
      const text = this.texts.at(step.at + at);
      return { number: step.first + at, text, word: text.split(" ", 1)[0] };
    });
    return step.lines;
  }

  // The changes that a reaction can be an answer to: those of its unit, where it names one.
  causesOf(line) {
    const [first, last] = this.boundsOf(line);
    const unit = / unit (\d+)/.exec(this.textAt(line))?.[1];
    const found = [];
    for (let at = first; at <= last; at++) {
      const text = this.textAt(at);
      const change = text && CHANGE.exec(text);
      if (text === "quiescence" || (change && (!unit || change[2] === unit))) found.push(at);
    }
    return found;
  }

  // The first and the last line that a reaction may answer; of another line none.
  boundsOf(line) {
    const step = this.stepAt(line);
    const own = this.linesOf(step).filter((it) => it.number <= line && REACTION.test(it.text));
    if (own.at(-1)?.number !== line) return [1, 0];
    const at = 2 * (step.answered + own.length - 1);
    return [step.first + this.causes[at], step.first + this.causes[at + 1]];
  }

  // ---- steps

  nameOf(step) {
    if (step.cycle) return `cycle ${step.cycle}`;
    return {
      start: "the start", quiescence: "quiescence", post: "a post of the host", gap: "cycles that are not shown",
    }[step.kind];
  }

  // Whether a cycle's choice was not executed.
  isInvalid(step) {
    return step.kept > 1 && this.texts.begins(step.at + 1, "invalid ");
  }

  // ---- activations

  triggerOf(act) {
    return act.trigger;
  }

  // How many of its bases came before a line.
  basesBefore(act, line) {
    return firstWhere(act.bases.length, (at) => act.bases[at][0] >= line);
  }

  baseAt(act, line) {
    return act.bases[Math.max(0, this.basesBefore(act, line) - 1)][1];
  }

  // Whether a line that rates an activation raised or lowered it, or neither.
  turnOf(act, line) {
    const [before, after] = [this.baseAt(act, line), this.baseAt(act, line + 1)];
    return after < before ? "lowered" : after > before ? "raised" : null;
  }

  // What waited when a line came, the activation that it chose too.
  waitingAt(line) {
    return this.acts.filter((act) => this.triggerOf(act) < line && (!act.ended || act.ended >= line));
  }

  // By how much foci shifted what a cycle chose.
  weightOf(step) {
    return step.rating - this.baseAt(this.actOf.get(step.act), step.first);
  }

  // What foci add to a source's ratings where a step begins, null where that is not told. They weigh all activations of
  // a source alike, so what is chosen tells it of its own source.
  weightAt(step, source) {
    if (step.act && this.actOf.get(step.act).source === source) return this.weightOf(step);
    if (this.file === undefined) return null;
    const adds = this.fociAt(step).filter((it) => it.adds.has(source.index)).map((it) => it.adds.get(source.index));
    return adds.includes(null) ? null : adds.reduce((sum, it) => sum + it, 0n);
  }

  // The rating of what waits where a step begins, null where that is not told.
  ratingAt(step, act) {
    const weight = this.weightAt(step, act.source);
    return weight === null ? null : this.baseAt(act, step.first) + weight;
  }

  // Whether what waits where a step begins is known to be rated below the floor.
  isBelow(step, act) {
    if (step.kind === "quiescence") return true;
    const rating = this.floor === null ? null : this.ratingAt(step, act);
    return rating !== null && rating < this.floor;
  }

  // Why a cycle passed over an activation that waited, as far as that is told.
  whyPassed(step, act) {
    const base = this.baseAt(act, step.first);
    const told = this.ratingAt(step, act);
    const isTold = told !== null;
    const rating = told ?? base;
    if (this.floor !== null && rating < this.floor) {
      return { sort: "below", text: isTold ? `below the floor, ${rating}` : "base below the floor" };
    }
    if (rating < step.rating) return { sort: "lower", text: isTold ? `rated lower, ${rating}` : "lower base" };
    if (rating === step.rating && act.number > step.act) {
      return { sort: "later", text: isTold ? `rated ${rating} too, later number` : "same base, later number" };
    }
    if (isTold) return { sort: "weighed", text: `rated ${rating}: the input is another` };
    const by = rating - step.rating + (act.number < step.act ? 1n : 0n);
    return { sort: "weighed", text: `foci took off ${by} or more` };
  }

  // ---- foci, which only the input tells from other units

  // The foci that there were where a step begins, with what they held then, and the line from which on they held it.
  fociAt(step) {
    const isThere = (it) => it.created < step.first && (!it.deleted || it.deleted >= step.first);
    step.foci ??= this.foci.filter(isThere).map((unit) => {
      const at = firstWhere(unit.since.length, (it) => unit.since[it][0] >= step.first) - 1;
      const [line, held] = unit.since[at];
      return { unit, line, ...this.held[held] };
    });
    return step.foci;
  }

  // What weighed the source that a cycle chose: the foci of which it is told by how much, the others, and what these
  // come to together.
  weighersOf(step) {
    const { source } = this.actOf.get(step.act);
    const all = this.fociAt(step).filter((it) => it.adds.has(source.index));
    const told = all.filter((it) => it.adds.get(source.index) !== null);
    const sum = told.reduce((it, focus) => it + focus.adds.get(source.index), 0n);
    return { source, told, others: all.filter((it) => !told.includes(it)), rest: this.weightOf(step) - sum };
  }

  // The cycles that passed over an activation while it waited.
  passedOver(act) {
    const first = this.stepAt(this.triggerOf(act)).index + 1;
    const last = act.ended ? this.stepAt(act.ended).index : this.steps.length;
    return this.steps.slice(first, last).filter((step) => step.cycle);
  }

  // Where an activation or a unit is to be seen, and the lines that are about it.
  lifeOf(it) {
    const [from, to] = it.changes ? [it.created, it.deleted] : [this.triggerOf(it), it.ended];
    const lines = it.changes ?? [...it.bases.map(([line]) => line), it.ended];
    return { from: this.stepAt(from), to: to ? this.stepAt(to) : this.steps.at(-1), lines: new Set(lines) };
  }

  // Whether it waited in cycles that are not shown.
  isAcrossGap(act) {
    const gap = this.others.get("gap");
    if (!gap || this.triggerOf(act) >= this.steps[gap.index + 1].first) return false;
    return !act.ended || act.ended >= gap.first;
  }

  // Whether cycles or lines of the run are not in the page, so that what is counted here is not all.
  get isPartial() {
    this.lacks ??= this.totals.dropped > 0 || this.steps.some((it) => it.missing > 0);
    return this.lacks;
  }

  // ---- units

  // A unit's number, and its name where that is told.
  called(number) {
    const name = this.unitOf.get(number)?.name;
    return name ? `${number} ${name}` : String(number);
  }

  // ---- finding

  find(text) {
    const wanted = text.trim().toLowerCase();
    const number = /^(?:#|unit )?(\d+)$/.exec(wanted)?.[1];
    const sources = this.sources.filter((it) => it.name.includes(wanted));
    const isCalled = (it) => it.of.includes(wanted) || it.name?.toLowerCase().includes(wanted);
    const units = this.units.filter((it) => String(it.number) === number || isCalled(it));
    const within = wanted.startsWith("#") && number ? new RegExp(`(?:^\\w+ |unit |#)${number}(?![0-9])`) : null;
    const places = within
      ? this.texts.lowered.having(number, (it) => within.test(it))
      : this.texts.lowered.having(wanted);
    const lines = [...this.numbersAt(places)];
    return { sources, units, lines };
  }
}

// The run that the page shows.
let run = null;
