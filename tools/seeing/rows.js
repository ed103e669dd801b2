// Steps, activations and units of a run, made of its columns. What is asked of few of them is made when it is asked.

const KINDS = ["start", "cycle", "post", "quiescence", "gap"];
const FATES = ["waits", "acted", "invalid", "obviated"];

class Step {
  constructor(columns, index, at, answered) {
    this.index = index;
    this.kind = KINDS[columns.kind[index]];
    this.cycle = columns.cycle[index];
    this.first = columns.first[index];
    this.kept = columns.kept[index];
    this.missing = columns.missing[index];
    this.act = columns.act[index];
    this.rated = columns.rating[index];
    this.waiting = columns.waiting[index];
    // Where its lines are in the text, and how many reactions there were before.
    this.at = at;
    this.answered = answered;
    this.ordinal = 0;
  }

  get id() {
    return this.cycle ? `cycle-${this.cycle}` : this.ordinal ? `${this.kind}-${this.ordinal}` : this.kind;
  }

  get rating() {
    return this.act ? BigInt(this.rated) : null;
  }
}

class Act {
  constructor(columns, index, sources) {
    this.number = columns.number[index];
    this.source = sources[columns.source[index]];
    this.unit = columns.unit[index];
    this.fate = FATES[columns.fate[index]];
    this.ended = columns.ended[index];
    this.trigger = columns.trigger[index];
    this.base = columns.base[index];
    this.later = [];
  }

  // Its bases, each with the line that tells it.
  get bases() {
    this.all ??= [[this.trigger, this.base], ...this.later].map(([line, base]) => [line, BigInt(base)]);
    return this.all;
  }
}

class Unit {
  constructor(columns, index, classes) {
    this.number = columns.number[index];
    this.of = classes[columns.of[index]];
    this.created = columns.created[index];
    this.deleted = columns.deleted[index];
    this.changes = [];
    this.acts = [];
    this.values = new Map();
    this.moves = [];
  }
}

function stepsOf(columns) {
  let [at, answered] = [0, 0];
  return columns.kind.map((_, index) => {
    const step = new Step(columns, index, at, answered);
    at += step.kept;
    answered += columns.answers[index];
    return step;
  });
}
