// What a page needs for readers of screens and for the keyboard alone, as far as its elements tell: returns what is
// broken. It is the body of a function.

const isShown = (it) => it.getClientRects().length > 0 && getComputedStyle(it).visibility !== "hidden";
const all = (selector) => [...document.querySelectorAll(selector)].filter(isShown);
const isHidden = (it) => it.closest("[aria-hidden='true']") !== null;
const told = (it) => it.outerHTML.replace(/\s+/g, " ").slice(0, 90);
const broken = [];
const check = (holds, it, what) => holds || broken.push(`${what}: ${told(it)}`);

// ---- names

const named = (ids) => ids.split(" ").map((id) => document.getElementById(id)?.textContent ?? "").join(" ");

function nameOf(it) {
  const labels = [...(it.labels ?? [])].map((label) => label.textContent).join(" ");
  const title = it.getAttribute("title") ?? [...it.children].find((child) => child.tagName === "title")?.textContent;
  const texts = [it.getAttribute("aria-label"), named(it.getAttribute("aria-labelledby") ?? ""), labels];
  const own = it.matches("input, textarea, select, iframe") ? [] : [it.textContent];
  return [...texts, ...own, title, it.getAttribute("alt")].find((text) => text?.trim()) ?? "";
}

const CONTROLS = "a[href], button, input, textarea, select, summary, iframe, [tabindex], [role='button'], [role='img']";
for (const it of all(CONTROLS)) if (!isHidden(it)) check(nameOf(it), it, "a control without a name");
for (const it of all("img")) check(it.hasAttribute("alt"), it, "an image without a text");
for (const it of all("svg")) {
  check(isHidden(it) || it.getAttribute("role") || nameOf(it), it, "a drawing that is neither named nor hidden");
}
for (const it of all("input, textarea, select")) {
  check(it.labels?.length || it.hasAttribute("aria-label"), it, "a field without a label");
}

// ---- the keyboard

for (const it of document.querySelectorAll("[tabindex]")) {
  check(Number(it.getAttribute("tabindex")) <= 0, it, "a place in the order of tabs that is not its own");
}
for (const it of all("a[href], button, input, textarea, [tabindex='0']")) {
  check(!isHidden(it) || it.tabIndex < 0, it, "a control that is hidden from readers of screens and has the keys");
}

// ---- the structure

check(document.documentElement.lang, document.documentElement, "no language");
check(document.title.trim(), document.head, "no title");
check(all("h1").length === 1, document.body, "not one heading of the first level");
check(all("main").length === 1 || all(".nothing").length, document.body, "not one main part");
let level = 0;
for (const it of all("h1, h2, h3, h4")) {
  const next = Number(it.tagName[1]);
  check(next <= level + 1, it, "a heading that leaves out a level");
  level = next;
}
const ids = [...document.querySelectorAll("[id]")].map((it) => it.id);
check(new Set(ids).size === ids.length, document.body, "an id that is there twice");
for (const it of document.querySelectorAll("[aria-describedby], [aria-labelledby], [aria-controls]")) {
  for (const name of ["aria-describedby", "aria-labelledby", "aria-controls"]) {
    const missing = (it.getAttribute(name) ?? "").split(" ").filter((id) => id && !document.getElementById(id));
    check(!missing.length, it, `${name} names what is not there`);
  }
}

// ---- contrast, of texts whose colours are declared

const canvas = document.createElement("canvas").getContext("2d", { willReadFrequently: true });

function rgba(colour) {
  canvas.clearRect(0, 0, 1, 1);
  canvas.fillStyle = colour;
  canvas.fillRect(0, 0, 1, 1);
  const [red, green, blue, alpha] = canvas.getImageData(0, 0, 1, 1).data;
  return [red, green, blue, alpha / 255];
}

const over = ([r, g, b, alpha], below) => [r, g, b].map((it, at) => it * alpha + below[at] * (1 - alpha));

// The colour behind a text: what its element and those around it are filled with.
function behind(it) {
  const layers = [];
  for (let at = it; at; at = at.parentElement) {
    const colour = rgba(getComputedStyle(at).backgroundColor);
    if (colour[3] > 0) layers.unshift(colour);
    if (colour[3] === 1) break;
  }
  return layers.reduce((below, layer) => over(layer, below), [255, 255, 255]);
}

function luminance(colour) {
  const [r, g, b] = colour.map((it) => (it / 255 <= 0.04045 ? it / 255 / 12.92 : ((it / 255 + 0.055) / 1.055) ** 2.4));
  return 0.2126 * r + 0.7152 * g + 0.0722 * b;
}

function contrast(one, other) {
  const [low, high] = [luminance(one), luminance(other)].sort((a, b) => a - b);
  return (high + 0.05) / (low + 0.05);
}

const seen = new Set();
const hasText = (it) => [...it.childNodes].some((child) => child.nodeType === 3 && child.data.trim());
const isDisabled = (it) => it.closest(":disabled") !== null;
for (const it of all("body *").filter((it) => (hasText(it) || it.matches("input, textarea")) && !isDisabled(it))) {
  if (it.matches("script, style, title")) continue;
  const style = getComputedStyle(it);
  const isDrawn = it.closest("svg") !== null;
  // A name on a pill stands on what the pill is filled with.
  const pill = it.matches(".axis-name.selected") ? rgba(getComputedStyle(document.querySelector(".pill")).fill) : null;
  const below = pill ?? behind(isDrawn ? it.closest("svg").parentElement : it);
  const ink = over(rgba(isDrawn ? style.fill : style.color), below);
  const isLarge = parseFloat(style.fontSize) >= 24 || (parseFloat(style.fontSize) >= 18.66 && style.fontWeight >= 700);
  const ratio = contrast(ink, below);
  const key = `${ink} ${below}`;
  if (ratio < (isLarge ? 3 : 4.5) && !seen.has(key)) check(false, it, `a contrast of ${ratio.toFixed(2)}`);
  seen.add(key);
}

return broken;
