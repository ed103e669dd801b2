// The editor of the workbench: a field of text with the numbers of its lines, which messages mark.

const LINE = 20;
const TOP = 8;
const WORST = ["error", "warning", "note"];

class Editor {
  constructor(box, changed) {
    Object.assign(this, { marked: new Map(), numbers: box.querySelector(".numbers") });
    Object.assign(this, { marks: box.querySelector(".marks"), field: box.querySelector("textarea") });
    this.field.addEventListener("input", () => {
      this.count();
      changed();
    });
    this.field.addEventListener("scroll", () => this.draw(), { passive: true });
    new ResizeObserver(() => this.draw()).observe(box);
    this.count();
  }

  get text() {
    return this.field.value;
  }

  set text(text) {
    this.field.value = text;
    this.count();
    this.field.setSelectionRange(0, 0);
    this.field.scrollTop = 0;
  }

  // Where each line begins.
  count() {
    this.starts = [0];
    for (let at = this.text.indexOf("\n"); at >= 0; at = this.text.indexOf("\n", at + 1)) this.starts.push(at + 1);
    this.draw();
  }

  // Marks lines by the worst of what is said of each.
  mark(faults) {
    this.marked.clear();
    for (const { line, kind } of [...faults].sort((a, b) => WORST.indexOf(b.kind) - WORST.indexOf(a.kind))) {
      if (line) this.marked.set(line, kind);
    }
    this.draw();
  }

  draw() {
    const { scrollTop, clientHeight } = this.field;
    const first = Math.max(1, Math.floor((scrollTop - TOP) / LINE) + 1);
    const last = Math.min(this.starts.length, Math.ceil((scrollTop + clientHeight) / LINE) + 1);
    const lines = Array.from({ length: Math.max(0, last - first + 1) }, (_, at) => first + at);
    const placed = (line, ...children) => {
      const made = html("span", { class: this.marked.get(line) }, ...children);
      made.style.top = `${TOP + (line - 1) * LINE - scrollTop}px`;
      return made;
    };
    this.numbers.replaceChildren(...lines.map((line) => placed(line, String(line))));
    this.marks.replaceChildren(...lines.filter((line) => this.marked.has(line)).map((line) => placed(line)));
  }

  // Goes to a place, whose column counts characters, and selects the word there.
  goTo(line, column) {
    const start = this.starts[Math.min(line, this.starts.length) - 1];
    const end = this.text.indexOf("\n", start);
    const text = this.text.slice(start, end < 0 ? undefined : end);
    const before = [...text].slice(0, Math.max(0, column - 1)).join("").length;
    const word = column ? (/^\w+|^./u.exec(text.slice(before))?.[0].length ?? 0) : text.length;
    this.field.focus({ preventScroll: true });
    this.field.setSelectionRange(start + before, start + before + word);
    this.field.scrollTop = (line - 1) * LINE - this.field.clientHeight / 3;
    this.field.scrollLeft = Math.max(0, before - 40) * 7;
    this.draw();
  }
}
