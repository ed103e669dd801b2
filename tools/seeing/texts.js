// The lines of a trace as one text, of which only those that are looked at are cut out.

// Where each line of a text begins, and, last, where one more would.
function startsOf(text) {
  let starts = new Uint32Array(1024);
  let count = 0;
  const add = (at) => {
    if (count === starts.length) {
      const more = new Uint32Array(2 * count);
      more.set(starts);
      starts = more;
    }
    starts[count++] = at;
  };
  if (text !== "") for (let at = 0; at > 0 || count === 0; at = text.indexOf("\n", at) + 1) add(at);
  add(text.length + 1);
  return starts.subarray(0, count);
}

// How changes begin, by the code of the first letter.
const CHANGES = [];
for (const it of ["create ", "set ", "link ", "unlink ", "enter ", "leave ", "delete "]) {
  (CHANGES[it.charCodeAt(0)] ??= []).push(it);
}

class Texts {
  constructor(text) {
    Object.assign(this, { text, starts: startsOf(text) });
    this.count = this.starts.length - 1;
  }

  at(place) {
    return this.text.slice(this.starts[place], this.starts[place + 1] - 1);
  }

  begins(place, text) {
    return this.text.startsWith(text, this.starts[place]);
  }

  // Whether a line is a change: its first letter tells most lines apart.
  isChange(place) {
    const all = CHANGES[this.text.charCodeAt(this.starts[place])];
    return all !== undefined && all.some((it) => this.begins(place, it));
  }

  // The same in small letters, for finding.
  get lowered() {
    this.low ??= new Texts(this.text.toLowerCase());
    return this.low;
  }

  // The places of the lines that have a text, which has no line feed, and of which `is` holds.
  *having(text, is = () => true) {
    let place = 0;
    for (let at = this.text.indexOf(text); at >= 0; at = this.text.indexOf(text, this.starts[place])) {
      while (this.starts[place + 1] <= at) place += 1;
      if (is(this.at(place))) yield place;
      place += 1;
      if (place >= this.count) return;
    }
  }
}
