// Which columns have their names on the axis, so that none runs into another.

// How broad a digit is, at 11.5 pixels, in the broadest font that the page asks for (DejaVu Sans, 0.64 of that), and
// how much room stands between two names. The name of the selected column has a pill around it.
const GLYPH = 7.4;
const BETWEEN = 6;
const PILL = 12;

const breadthOf = (text) => text.length * GLYPH;

// How many cycles there are from one that is named to the next, where a column is so wide and a name so long.
const namedEach = (width, longest) =>
  [1, 2, 5, 10, 20, 50].find((it) => it * width >= breadthOf(longest) + BETWEEN) ?? 100;

// Of columns, each with its `name`, its `cycle` and the middle that it is `at`, those that are named: what is selected,
// then cycles at even distances, then what is no cycle.
function axisNames(columns, every, selected) {
  const half = (it) => (breadthOf(it.name) + (it === selected ? PILL : 0)) / 2;
  const named = [];
  const isFree = (it) => named.every((other) => Math.abs(it.at - other.at) >= half(it) + half(other) + BETWEEN);
  const add = (all) => all.forEach((it) => isFree(it) && named.push(it));
  add(columns.filter((it) => it === selected));
  add(columns.filter((it) => it.cycle && it.cycle % every === 0));
  add(columns.filter((it) => !it.cycle));
  return named;
}
