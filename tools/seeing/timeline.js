// The picture: columns are steps (the start, cycles, quiescence), and below each other stand the agenda, the sources,
// the activations and the units. Only the columns in the window are drawn. What is read out of it is the names of rows,
// which lead to what is known of them: their marks are in the details of each step.

const HIDDEN = { "aria-hidden": "true" };
const rowsTold = (name) => ({ role: "group", "aria-label": `Rows of ${name}: up and down move, Enter selects` });
const imageTold = (text) => ({ role: "img", "aria-label": text });
const WIDTHS = [12, 16, 22, 30, 42, 56, 72];
const MOST_ROWS = 60;

class Timeline {
  constructor(run, pane, select) {
    Object.assign(this, { run, pane, select, first: 0, width: 0, selected: null, item: "", hits: [] });
    this.content = pane.querySelector(".content");
    this.column = pane.querySelector(".chosen-column");
    this.hover = pane.querySelector(".hover-column");
    this.overview = pane.querySelector(".overview");
    this.parts = Object.fromEntries(
      ["axis", "agenda", "sources", "activations", "units"].map((it) => [it, pane.querySelector(`.${it}`)]),
    );
    this.content.addEventListener("click", (event) => this.clicked(event));
    this.content.addEventListener("mousemove", (event) => this.hovered(event));
    this.content.addEventListener("mouseleave", () => (this.hover.hidden = true));
    pane.addEventListener("wheel", (event) => this.wheeled(event), { passive: false });
    const pan = (event) => event.buttons && this.panTo(event.clientX - this.overview.getBoundingClientRect().left);
    this.overview.addEventListener("pointerdown", (event) => {
      this.overview.setPointerCapture(event.pointerId);
      pan(event);
    });
    this.overview.addEventListener("pointermove", pan);
    new ResizeObserver(() => this.resized()).observe(pane);
    this.resized();
  }

  // Shows another run, or the same one when it has gone on: in the same window, if that is a run's own part.
  take(run) {
    Object.assign(this, { run, selected: run.named(this.selected?.id) ?? null, hits: [], drawnFor: 0 });
    this.resized();
  }

  // ---- the window

  // How much room the names of rows have.
  get labels() {
    return this.run.file === undefined ? 172 : 232;
  }

  get count() {
    return Math.max(1, Math.floor((this.breadth - this.labels - 12) / this.width));
  }

  get fits() {
    return this.run.steps.length <= this.count;
  }

  get end() {
    return Math.min(this.run.steps.length, this.first + this.count);
  }

  resized() {
    this.breadth = this.pane.clientWidth;
    if (!this.isZoomed) {
      const fitting = Math.floor((this.breadth - this.labels - 12) / this.run.steps.length);
      this.width = fitting >= WIDTHS[0] ? Math.min(fitting, WIDTHS.at(-1)) : 22;
    }
    this.moveTo(this.first);
  }

  moveTo(first) {
    this.first = Math.max(0, Math.min(Math.round(first), this.run.steps.length - this.count));
    this.refresh();
  }

  panTo(x) {
    this.moveTo((x / this.overview.clientWidth) * this.run.steps.length - this.count / 2);
  }

  zoom(by) {
    const next = by > 0 ? WIDTHS.find((it) => it > this.width) : WIDTHS.findLast((it) => it < this.width);
    if (!next) return;
    const middle = this.isShown(this.selected) ? this.selected.index : this.first + this.count / 2;
    this.isZoomed = true;
    this.width = next;
    this.moveTo(middle - this.count / 2);
  }

  isShown(step) {
    return step && step.index >= this.first && step.index < this.end;
  }

  // Shows a step, in the middle where it was not in the window.
  show(step, item) {
    this.selected = step;
    this.item = item;
    if (this.isShown(step)) this.refresh();
    else this.moveTo(step.index - this.count / 2);
  }

  wheeled(event) {
    const by = event.shiftKey ? event.deltaX || event.deltaY : event.deltaX;
    if (!by || this.fits) return;
    event.preventDefault();
    this.moveTo(this.first + Math.sign(by) * Math.max(1, Math.round(Math.abs(by) / this.width)));
  }

  stepAtX(event) {
    const x = event.clientX - this.content.getBoundingClientRect().left - this.labels;
    const index = this.first + Math.floor(x / this.width);
    return x >= 0 && index < this.end ? this.run.steps[index] : null;
  }

  clicked(event) {
    const step = this.stepAtX(event);
    if (step && !event.target.closest("a")) this.select(step);
  }

  hovered(event) {
    const step = this.stepAtX(event);
    this.hover.hidden = !step;
    if (step) this.place(this.hover, step);
  }

  place(column, step) {
    column.style.left = `${this.left(step.index)}px`;
    column.style.width = `${this.width}px`;
  }

  left(index) {
    return this.labels + (index - this.first) * this.width;
  }

  middle(index) {
    return this.left(index) + this.width / 2;
  }

  // ---- drawing

  refresh() {
    this.due ||= requestAnimationFrame(() => {
      this.due = 0;
      this.draw();
    });
  }

  draw() {
    this.column.hidden = !this.isShown(this.selected);
    if (!this.column.hidden) this.place(this.column, this.selected);
    this.shown = this.run.steps.slice(this.first, this.end);
    if (!this.shown.length) return;
    const last = this.shown.at(-1);
    this.lines = [this.shown[0].first, last.first + last.kept + last.missing];
    this.here = this.run.acts.filter((it) => this.isHere(this.run.triggerOf(it), it.ended));
    this.drawAxis();
    this.drawAgenda();
    this.drawSources();
    this.drawActivations();
    this.drawUnits();
    this.drawOverview();
  }

  // Whether what began and ended in these lines is there in the window.
  isHere(from, to) {
    return from < this.lines[1] && (!to || to >= this.lines[0]);
  }

  // What is drawn of a part, with how it is read out. A row that has the keys keeps them.
  canvas(part, told, height, ...children) {
    const area = { class: "drawing", width: this.breadth, height, viewBox: `0 0 ${this.breadth} ${height}`, ...told };
    const before = this.parts[part].querySelector(".drawing");
    const focused = before.contains(document.activeElement) && document.activeElement.getAttribute("href");
    const drawn = svg("svg", area, svg("g", HIDDEN, this.grid(height)), ...children);
    before.replaceWith(drawn);
    const labels = [...drawn.querySelectorAll("a.label")];
    const entry = labels.find((it) => it.getAttribute("href") === (focused || `#${this.item}`)) ?? labels[0];
    entry?.setAttribute("tabindex", 0);
    if (focused) entry?.focus({ preventScroll: true });
  }

  // Of the rows of a part one has the keys: those for up and down give them to the next one.
  moveFocus(event) {
    const by = { ArrowUp: -1, ArrowDown: 1 }[event.key];
    const label = event.target.closest?.("a.label");
    if (!by || !label) return false;
    const labels = [...label.closest("svg").querySelectorAll("a.label")];
    const next = labels[labels.indexOf(label) + by];
    if (!next) return true;
    label.setAttribute("tabindex", -1);
    next.setAttribute("tabindex", 0);
    next.focus();
    return true;
  }

  note(part, text) {
    this.parts[part].querySelector(".note").textContent = text;
  }

  grid(height) {
    const every = this.width < 20 ? 5 : 1;
    const lines = this.shown.filter((step) => step.index % every === 0);
    const gap = this.shown.find((step) => step.kind === "gap");
    return [
      gap && svg("rect", { class: "gap", x: this.left(gap.index), y: 0, width: this.width, height }),
      this.partingPath(height),
      lines.map((step) => svg("path", { class: "grid", d: `M${this.left(step.index)} 0v${height}` })),
      svg("path", { class: "grid", d: `M${this.left(this.end)} 0v${height}` }),
    ];
  }

  // Before the step in which this run parts from the other one.
  partingPath(height) {
    const step = partingStep(this.run);
    return this.isShown(step) && svg("path", { class: "parting", d: `M${this.left(step.index)} 0v${height}` });
  }

  label(y, high, href, ...texts) {
    const isSelected = href === `#${this.item}`;
    const box = { width: this.breadth, height: high };
    return svg("a", { href, tabindex: -1, class: isSelected ? "label selected" : "label" },
      isSelected && svg("rect", { ...box, class: "chosen-row", x: this.labels, y: y - high / 2 }),
      svg("rect", { x: 6, y: y - 10, width: this.labels - 12, height: 20, rx: 4 }), ...texts);
  }

  sideValue(y, text) {
    return svg("text", { class: "side-value", x: this.labels - 10, y }, text);
  }

  drawAxis() {
    const columns = this.shown.map((step) => ({
      ...{ step, cycle: step.cycle, name: this.columnName(step), at: this.middle(step.index) },
    }));
    const chosen = columns.find((it) => it.step === this.selected);
    const every = namedEach(this.width, String(this.run.totals.cycles));
    const named = new Set(axisNames(columns, every, chosen));
    const title = (it) => svg("title", {}, this.run.nameOf(it.step));
    const name = (it, sort) => svg("text", { class: sort, x: it.at, y: 16 }, it.name, title(it));
    const dot = (it) => svg("circle", { class: "axis-dot", cx: it.at, cy: 12, r: 2 }, title(it));
    const pill = (it) => {
      const width = breadthOf(it.name) + PILL;
      return svg("rect", { class: "pill", x: it.at - width / 2, y: 3, width, height: 18, rx: 9 });
    };
    const shown = `From ${this.run.nameOf(this.shown[0])} to ${this.run.nameOf(this.shown.at(-1))}`;
    this.canvas("axis", imageTold(shown), 24, svg("text", { class: "heading", x: 14, y: 16 }, "Cycle"),
      columns.filter((it) => !it.cycle && !named.has(it)).map(dot),
      [...named].filter((it) => it !== chosen).map((it) => name(it, "axis-name")),
      chosen && [pill(chosen), name(chosen, "axis-name selected")]);
  }

  columnName(step) {
    if (step.kind === "gap") return "⋯";
    if (step.kind === "start") return this.width >= 30 ? "start" : "s";
    if (step.kind === "post") return this.width >= 30 ? "post" : "p";
    if (step.kind === "quiescence") return this.width >= 72 ? "quiescence" : this.width >= 48 ? "quiesc." : "q";
    return String(step.cycle);
  }

  drawAgenda() {
    const height = 62;
    const most = Math.max(1, ...this.shown.map((it) => it.waiting));
    const every = Math.ceil((breadthOf(String(most)) + 4) / this.width);
    const phase = (this.isShown(this.selected) ? this.selected.index : this.first) % every;
    const bars = this.shown.filter((step) => step.kind !== "gap").map((step) => {
      const tall = (step.waiting / most) * (height - 22);
      const text = String(step.waiting);
      const isText = step.index % every === phase;
      const x = this.left(step.index) + 1;
      const sort = step === this.selected ? "bar selected" : "bar";
      return svg("g", {},
        svg("title", {}, `${step.waiting} wait at the end of ${this.run.nameOf(step)}`),
        svg("rect", { class: "hit", x, y: 0, width: this.width - 2, height }),
        svg("rect", { class: sort, x, y: height - 4 - tall, width: this.width - 2, height: Math.max(tall, 1) }),
        isText && svg("text", { class: "value", x: x + this.width / 2 - 1, y: height - 8 - tall }, text));
    });
    const { selected } = this;
    const now = this.isShown(selected) ? `, ${selected.waiting} at the end of ${this.run.nameOf(selected)}` : "";
    this.canvas("agenda", imageTold(`Length of the agenda: at most ${this.run.totals.longest}${now}`), height, bars,
      svg("text", { class: "name", x: 14, y: height - 6 }, "length"),
      this.sideValue(height - 6, `at most ${this.run.totals.longest.toLocaleString("en")}`));
  }

  // What each source has in each column: marks with how many there are, and whether activations of it wait.
  marksOfSources() {
    const rows = this.waitsOfSources();
    const cell = (source, step) => {
      const row = rows[source.index];
      if (!row.has(step.index)) row.set(step.index, { marks: new Map(), waits: 0 });
      return row.get(step.index);
    };
    const add = (source, step, shape) => {
      const { marks } = cell(source, step);
      marks.set(shape, (marks.get(shape) ?? 0) + 1);
    };
    const byName = new Map(this.run.sources.map((it) => [it.name, it]));
    for (const step of this.shown) {
      if (step.act) add(this.run.actOf.get(step.act).source, step, this.run.isInvalid(step) ? "invalid" : "cycle");
      for (const line of this.run.linesOf(step)) {
        const words = line.text.split(" ");
        if (line.word === "trigger") add(byName.get(words[2]), step, "trigger");
        if (line.word === "decline") add(byName.get(words[1]), step, "decline");
        if (line.word === "obviate") add(this.run.actOf.get(Number(words[1])).source, step, "obviate");
        if (line.word === "retrigger") {
          const act = this.run.actOf.get(Number(words[1]));
          const turn = this.run.turnOf(act, line.number);
          if (turn) add(act.source, step, turn);
        }
      }
    }
    return rows;
  }

  // For each source the columns in which activations of it wait, with how many: those that begin and end are counted.
  waitsOfSources() {
    const changes = this.run.sources.map(() => new Int32Array(this.end - this.first + 1));
    for (const act of this.here) {
      const from = Math.max(this.first, this.run.stepAt(this.run.triggerOf(act)).index);
      const to = act.ended ? Math.min(this.end, this.run.stepAt(act.ended).index) : this.end;
      if (from >= to) continue;
      changes[act.source.index][from - this.first] += 1;
      changes[act.source.index][to - this.first] -= 1;
    }
    return changes.map((all) => {
      let waits = 0;
      const cells = Array.from(all, (it, at) => [this.first + at, { marks: new Map(), waits: (waits += it) }]);
      return new Map(cells.filter(([, it]) => it.waits > 0));
    });
  }

  drawSources() {
    const high = 32;
    const rows = this.marksOfSources().map((cells, index) => {
      const source = this.run.sources[index];
      const top = index * high;
      const drawn = [...cells].map(([at, cell]) => this.drawCell(source, at, cell, top));
      return [
        svg("path", { class: "row-line", d: `M0 ${top + high}H${this.breadth}` }),
        this.label(top + high / 2, high, `#source-${source.name}`,
          svg("text", { class: "name", x: 14, y: top + 20 }, clipped(source.name, 19)),
          this.sideValue(top + 20, source.counts.cycle.toLocaleString("en")),
          svg("title", {}, `${source.name}: acted ${source.counts.cycle} times`)),
        svg("g", HIDDEN, drawn),
      ];
    });
    this.canvas("sources", rowsTold("sources"), Math.max(1, rows.length * high), rows);
    this.note("sources", rows.length ? "" : "No source was triggered.");
  }

  // Above what a source did, below what events did to it.
  drawCell(source, at, { marks, waits }, top) {
    const left = this.left(at);
    const acted = ["cycle", "invalid"].filter((it) => marks.has(it));
    const others = ["trigger", "raised", "lowered", "obviate", "decline"].filter((it) => marks.has(it));
    const room = Math.max(1, Math.floor(this.width / 14));
    if (others.length > room && !acted.length) acted.push(others.pop());
    const breadth = others.length > room ? this.width - 8 : this.width;
    const step = breadth / Math.max(1, Math.min(room, others.length));
    const title = (it) => `${source.name}: ${MARK_NAMES[it]}${marks.get(it) > 1 ? ` ${marks.get(it)} times` : ""}`;
    const counted = (it, x, y) => [
      mark(it, x, y, title(it)),
      marks.get(it) > 1 && step >= 24 && svg("text", { class: "count", x: x + 8, y: y + 4 }, String(marks.get(it))),
    ];
    return svg("g", {},
      waits > 0 && svg("rect", { class: "waits-band", x: left, y: top + 1, width: this.width, height: 30 }),
      acted.map((it) => counted(it, this.middle(at), top + 10)),
      others.slice(0, room).map((it, index) => {
        const isCounted = marks.get(it) > 1 && step >= 24;
        return counted(it, left + step * (index + 0.5) - (isCounted ? 4 : 0), top + 23);
      }),
      others.length > room && svg("text", { class: "count", x: left + this.width - 8, y: top + 27 }, "+"));
  }

  // At most so many rows: first those that `isFirst`, then others, and all in their order.
  rowsOf(all, isFirst) {
    if (all.length <= MOST_ROWS) return all;
    const firsts = all.filter(isFirst).slice(0, MOST_ROWS);
    const others = all.filter((it) => !isFirst(it)).slice(0, MOST_ROWS - firsts.length);
    return [...firsts, ...others].sort((a, b) => a.number - b.number);
  }

  drawActivations() {
    const high = 22;
    const isInWindow = (line) => line >= this.lines[0] && line < this.lines[1];
    const isSelected = (it) => `act-${it.number}` === this.item;
    const isBound = (it) => isInWindow(this.run.triggerOf(it)) || isInWindow(it.ended);
    const acts = this.rowsOf(this.here, (it) => isSelected(it) || isBound(it));
    this.waiting = this.selected?.act ? new Set(this.run.waitingAt(this.selected.first)) : new Set();
    const rows = acts.map((act, row) => this.drawActivation(act, row * high, high));
    this.canvas("activations", rowsTold("activations"), Math.max(1, rows.length * high), rows);
    const hidden = this.here.length - acts.length;
    const none = this.run.totals.activations ? "None waits here." : "No activation was given.";
    const more = `${plural(hidden, "activation")} more not drawn here: click a cycle to see what waited.`;
    this.note("activations", hidden ? more : acts.length ? "" : none);
  }

  drawActivation(act, top, high) {
    const middle = top + high / 2;
    const trigger = this.run.stepAt(this.run.triggerOf(act)).index;
    const end = act.ended ? this.run.stepAt(act.ended).index : this.run.steps.length;
    const from = trigger < this.first ? this.labels : this.middle(trigger);
    const to = end >= this.end ? this.left(this.end) : this.middle(end);
    const unit = this.run.unitOf.get(act.unit);
    const state = this.waiting.has(act) ? (this.selected.act === act.number ? "taken" : "passed") : "";
    const on = `${act.source.name} on unit ${this.run.called(act.unit)}${unit ? `, a ${unit.of}` : ""}`;
    const bases = [...new Set([act.bases[0], act.bases.at(-1)].map(([, base]) => base))].join(" → ");
    const title = `activation ${act.number}: ${on}, base ${bases}`;
    return [
      svg("path", { class: "row-line", d: `M0 ${top + high}H${this.breadth}` }),
      this.label(middle, high, `#act-${act.number}`,
        svg("text", { class: "name", x: 14, y: middle + 4 },
          svg("tspan", { class: "faint" }, `${act.number} `), clipped(act.source.name, 15 - String(act.number).length)),
        this.sideValue(middle + 4, act.unit ? clipped(`#${this.run.called(act.unit)}`, 12) : "quiescence"),
        svg("title", {}, title)),
      svg("g", HIDDEN,
        svg("a", { href: `#act-${act.number}`, tabindex: -1, class: `life ${state}` }, svg("title", {}, title),
          svg("rect", { x: from, y: middle - 8, width: Math.max(to - from, 2), height: 16, rx: 3 }),
          this.stretchesBelow(act, trigger, end, from, to).map(([x, right]) =>
            svg("rect", { class: "below", x, y: middle - 7.5, width: right - x, height: 15, rx: 3 },
              svg("title", {}, `${title}, below the floor`)))),
        this.basesOf(act, from, to, middle),
        trigger >= this.first && mark("trigger", from, middle),
        act.ended > 0 && end < this.end && this.endOf(act, to, middle, end),
        !act.ended && mark("waits", to - 6, middle, `activation ${act.number} still waits`)),
    ];
  }

  // Where in the window it waits below the floor: what a column did counts from its middle to that of the next.
  stretchesBelow(act, trigger, end, from, to) {
    const stretches = [];
    for (let at = Math.max(trigger, this.first - 1); at < Math.min(end, this.end); at++) {
      if (!this.run.isBelow(this.run.steps[at + 1] ?? this.run.after, act)) continue;
      const [left, right] = [Math.max(from, this.middle(at)), Math.min(to, this.middle(at + 1))];
      if (stretches.at(-1)?.[1] === left) stretches.at(-1)[1] = right;
      else stretches.push([left, right]);
    }
    return stretches.filter(([left, right]) => left < right);
  }

  // The base at its trigger, and each new one where it came.
  basesOf(act, from, to, middle) {
    const first = Math.max(0, this.run.basesBefore(act, this.lines[0]) - 1);
    const inWindow = act.bases.slice(first, this.run.basesBefore(act, this.lines[1])).map(([line, base], at) => {
      const step = this.run.stepAt(line).index;
      return { at: first + at, line, base, step, x: step < this.first ? from : this.middle(step) };
    });
    const seen = inWindow.filter((it, at) => inWindow[at + 1]?.step !== it.step);
    return seen.map((it, at) => {
      const text = String(it.base);
      const isMark = it.at > 0 && it.step >= this.first;
      const start = it.x + (it.step < this.first ? 4 : 9);
      const room = (seen[at + 1]?.x ?? to) - start - 6;
      return [
        isMark && mark(this.run.turnOf(act, it.line), it.x, middle, `activation ${act.number}: base ${it.base} now`),
        room >= breadthOf(text) && svg("text", { class: "rating", x: start, y: middle + 4 }, text),
      ];
    });
  }

  endOf(act, x, middle, index) {
    const step = this.run.steps[index];
    const shape = { acted: "cycle", invalid: "invalid", obviated: "obviate" }[act.fate];
    if (step.act !== act.number) return mark(shape, x, middle, `activation ${act.number}: ${act.fate}`);
    const weight = this.run.weightOf(step);
    const told = `rated ${step.rating}${weight ? `, of which foci ${signed(weight)}` : ""}`;
    const sort = weight ? "rating weighed" : "rating";
    return [
      mark(shape, x, middle, `activation ${act.number}: ${told}`),
      this.width >= 30 && svg("text", { class: sort, x: x + 9, y: middle + 4 }, String(step.rating)),
    ];
  }

  drawUnits() {
    const high = 22;
    const here = this.run.units.filter((it) => this.isHere(it.created, it.deleted));
    const within = (it) => {
      const at = firstWhere(it.changes.length, (place) => it.changes[place] >= this.lines[0]);
      return it.changes[at] < this.lines[1] || `unit-${it.number}` === this.item;
    };
    const units = this.rowsOf(here, within);
    const rows = units.map((unit, row) => this.drawUnit(unit, row * high, high));
    this.canvas("units", rowsTold("units"), Math.max(1, rows.length * high), rows);
    const hidden = here.length - units.length;
    const more = `${plural(hidden, "unit")} more not drawn here: find them by number or class.`;
    this.note("units", hidden ? more : units.length ? "" : "No unit is there.");
  }

  drawUnit(unit, top, high) {
    const middle = top + high / 2;
    const created = this.run.stepAt(unit.created).index;
    const deleted = unit.deleted ? this.run.stepAt(unit.deleted).index : this.run.steps.length;
    const from = created < this.first ? this.labels : this.left(created) + 5;
    const to = deleted >= this.end ? this.left(this.end) : this.left(deleted + 1) - 5;
    const of = clipped(unit.of, 12);
    const room = 24 - String(unit.number).length;
    return [
      svg("path", { class: "row-line", d: `M0 ${top + high}H${this.breadth}` }),
      this.label(middle, high, `#unit-${unit.number}`,
        svg("text", { class: "name", x: 14, y: middle + 4 }, svg("tspan", { class: "faint" }, `#${unit.number} `),
          unit.name ? clipped(unit.name, room - of.length) : clipped(unit.of, room - 4)),
        unit.name && this.sideValue(middle + 4, of),
        svg("title", {}, `unit ${this.run.called(unit.number)}, a ${unit.of}`)),
      svg("g", HIDDEN,
        svg("rect", { class: "unit-life", x: from, y: middle - 1.5, width: Math.max(to - from, 2), height: 3, rx: 1.5 }),
        created >= this.first && mark("create", from, middle, `unit ${unit.number} created`),
        deleted < this.end && mark("delete", to, middle, `unit ${unit.number} deleted`),
        this.changesOf(unit).map(([step, shapes]) => this.drawChanges(unit, step, shapes, middle))),
    ];
  }

  // The changes of a unit in the window, counted, by column.
  changesOf(unit) {
    const columns = new Map();
    let at = firstWhere(unit.changes.length, (place) => unit.changes[place] >= this.lines[0]);
    for (; at < unit.changes.length && unit.changes[at] < this.lines[1]; at++) {
      const word = this.run.textAt(unit.changes[at]).split(" ", 1)[0];
      if (word === "create" || word === "delete") continue;
      const step = this.run.stepAt(unit.changes[at]);
      if (!columns.has(step)) columns.set(step, new Map());
      columns.get(step).set(word, (columns.get(step).get(word) ?? 0) + 1);
    }
    return [...columns];
  }

  drawChanges(unit, step, shapes, middle) {
    const all = [...shapes];
    const room = Math.max(1, Math.floor((this.width - 10) / 12));
    const shown = all.slice(0, room);
    const between = (this.width - 10) / shown.length;
    const isCounted = between >= 21;
    return shown.map(([shape, count], at) => {
      const x = this.left(step.index) + 5 + between * (at + 0.5) - (isCounted && count > 1 ? 4 : 0);
      return [
        mark(shape, x, middle, `unit ${unit.number}: ${shape}${count > 1 ? ` ${count} times` : ""}`),
        isCounted && count > 1 && svg("text", { class: "count", x: x + 8, y: middle + 4 }, String(count)),
      ];
    });
  }

  // ---- the whole run: the agenda's length, the window, and what was found

  drawOverview() {
    this.overview.parentElement.hidden = this.fits;
    if (this.fits) return;
    const { steps } = this.run;
    const [wide, high] = [this.overview.clientWidth, 44];
    const x = (index) => (index / steps.length) * wide;
    if (this.drawnFor !== wide) this.lengths = this.lengthsPath(wide, high);
    this.drawnFor = wide;
    const marked = new Set(this.hits.map((index) => Math.round(x(index + 0.5))));
    const span = Math.max(8, x(this.count));
    const left = Math.min(x(this.first), wide - span);
    this.overview.replaceChildren(
      svg("path", { class: "length", d: this.lengths }),
      svg("path", { class: "hits", d: [...marked].map((at) => `M${at} 0v8`).join("") }),
      svg("path", { class: "parting", d: partingStep(this.run) ? `M${x(partingStep(this.run).index)} 0v${high}` : "" }),
      svg("path", { class: "now", d: this.selected ? `M${x(this.selected.index + 0.5)} 0v${high}` : "" }),
      svg("rect", { class: "window", x: left + 0.75, y: 0.75, width: span - 1.5, height: high - 1.5, rx: 3 }));
  }

  // A column for each pixel: the greatest length there.
  lengthsPath(wide, high) {
    const { steps, totals } = this.run;
    const columns = Array.from({ length: wide }, (_, at) => {
      const from = Math.floor((at / wide) * steps.length);
      const to = Math.max(from + 1, Math.floor(((at + 1) / wide) * steps.length));
      let most = 0;
      for (let it = from; it < to; it++) most = Math.max(most, steps[it].waiting);
      return `L${at} ${high - (most / Math.max(1, totals.longest)) * (high - 12)}H${at + 1}`;
    });
    return `M0 ${high}${columns.join("")}V${high}z`;
  }
}

const signed = (number) => (number > 0 ? `+${number}` : `${number}`).replace("-", "−");
