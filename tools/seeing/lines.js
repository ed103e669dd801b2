// The lines of the trace, of which only those in view are nodes.

const ROW = 21;

// How tall a browser lets an element be, by far: with more lines than fit, the bar for scrolling moves by more than it
// is moved.
const TALLEST = 8_000_000;

const INSIDE = /^(create|set|link|unlink|enter|leave|delete|say|refused|end|invalid)\b/;

class Lines {
  constructor(box) {
    Object.assign(this, { box, rows: box.querySelector(".rows"), step: null, selected: 0 });
    Object.assign(this, { hits: new Hits(), about: new Set() });
    this.take();
    box.addEventListener("scroll", () => this.draw(), { passive: true });
    new ResizeObserver(() => this.draw()).observe(box);
    this.rows.addEventListener("click", (event) => {
      const line = event.target.closest(".line")?.dataset.line;
      if (line && !event.target.closest("a")) go(`line-${line}`);
    });
  }

  // Shows the lines of another run, or more lines.
  take() {
    let count = 0;
    for (const step of run.steps) {
      step.row = count;
      count += step.kept + (step.missing || step.kind === "gap" ? 1 : 0);
    }
    this.count = count + (run.cut ? 1 : 0);
    this.high = this.count * ROW + 12;
    this.rows.style.setProperty("--numbers", `${Math.max(3, String(run.totals.lines).length)}ch`);
    this.rows.style.height = `${Math.min(this.high, TALLEST)}px`;
  }

  // How far all lines move while the bar for scrolling moves by 1.
  get scale() {
    const { clientHeight } = this.box;
    return this.high > TALLEST ? (this.high - clientHeight) / (TALLEST - clientHeight) : 1;
  }

  // Shows a step, or a line of it, and marks the lines that are about what is selected.
  show(step, line, about) {
    Object.assign(this, { step, selected: line, about });
    const [from, high] = [this.box.scrollTop * this.scale, this.box.clientHeight];
    const top = (line ? step.row + Math.min(line - step.first, step.kept) : step.row) * ROW;
    const tall = line ? ROW : Math.min((step.kept + 1) * ROW, high - 2 * ROW);
    if (top < from + ROW || top + tall > from + high - ROW) {
      this.box.scrollTop = (top - Math.min(high / 4, 3 * ROW)) / this.scale;
    }
    this.draw();
  }

  // Selects the next line that is kept, or the one before, or at first that of the step.
  walk(by) {
    const line = this.selected ? this.selected + by : this.step.first;
    if (line < 1 || line > run.totals.lines) return;
    if (run.textAt(line) !== null) return go(`line-${line}`, true);
    const step = run.stepAt(line);
    const other = by > 0 || !step.kept ? run.steps[step.index + by] : step;
    if (other) go(`line-${by > 0 ? other.first : other.first + other.kept - 1}`, true);
  }

  draw() {
    const from = this.box.scrollTop;
    this.shift = from - from * this.scale;
    const first = Math.max(0, Math.floor((from * this.scale) / ROW) - 4);
    const last = Math.min(this.count, first + Math.ceil(this.box.clientHeight / ROW) + 10);
    this.rows.replaceChildren(...Array.from({ length: last - first }, (_, it) => this.row(first + it)));
  }

  row(index) {
    const step = run.steps[firstWhere(run.steps.length, (it) => run.steps[it].row > index) - 1];
    const place = index - step.row;
    const text = place < step.kept ? run.texts.at(step.at + place) : null;
    const number = text === null ? 0 : step.first + place;
    const how = { class: this.classes(step, number, text), "data-line": number || null, role: "listitem" };
    const made = html("div", how,
      html("span", { class: "line-number" }, number ? String(number) : ""),
      html("code", {}, text === null ? this.lost(step, place) : [told(text), setTold(number, text), namesIn(text)]));
    for (const it of made.querySelectorAll("a")) it.setAttribute("tabindex", -1);
    if (text?.length > 50) made.title = text;
    made.style.top = `${index * ROW + 6 + this.shift}px`;
    return made;
  }

  classes(step, number, text) {
    const all = {
      "of-step": step === this.step,
      selected: number > 0 && number === this.selected,
      inside: step.cycle > 0 && INSIDE.test(text ?? ""),
      hit: this.hits.has(number),
      about: this.about.has(number),
    };
    return ["line", ...Object.keys(all).filter((it) => all[it])].join(" ");
  }

  // What stands in place of lines that are not there.
  lost(step, place) {
    if (step.kind === "gap" && place === 0) return html("i", {}, `${plural(run.totals.dropped, "cycle")} not shown`);
    if (step.missing && place === step.kept) return html("i", {}, `${plural(step.missing, "line")} not kept`);
    return [html("i", {}, "cut here: "), run.cut];
  }
}
