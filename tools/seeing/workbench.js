// The page of tools/workbench: it checks the text in the editor as it changes, runs it, and shows the run's page.

const PAUSE = 300;
const NEW = `%schema
{"classes": [
  {"name": "box", "slots": [{"name": "weight", "kind": "int"}]}
]}
%units
{"units": [
  {"name": "crate", "class": "box", "slots": {"weight": 3}}
]}
%sources
source hail on box {
  when create box;
  rate 1;
  do {
    with b = it as box { say "a box of", b.weight; }
  }
}
`;

const at = (selector) => document.querySelector(selector);
const editor = new Editor(at(".editor"), changed);
const many = (count, one) => `${count} ${one}${count === 1 ? "" : "s"}`;

async function post(path, asked) {
  const answer = await fetch(path, { method: "POST", body: JSON.stringify(asked) });
  if (!answer.ok) throw new Error((await answer.text()).trim());
  return answer.json();
}

// ---- the file: lines end as they ended in it

let ends = "\n";
let known = "";
let savedText = "";
let doubt = "";

const written = () => editor.text.replaceAll("\n", ends);
const isSaved = () => editor.text === savedText;

function tellSaved(text, isWrong = false) {
  at(".saved").textContent = text;
  at(".saved").classList.toggle("wrong", isWrong);
}

async function openFile() {
  const answer = await fetch("file");
  if (!answer.ok) return tellSaved((await answer.text()).trim(), true);
  const file = await answer.json();
  at(".path").value = file.path;
  known = file.digest;
  ends = file.text.includes("\r\n") ? "\r\n" : "\n";
  editor.text = file.digest ? file.text : NEW;
  savedText = editor.text;
  tellSaved(file.digest ? "" : "A new text, in no file yet.");
  check();
}

// A file with another text than the one that was opened or saved here is written at the second press alone.
async function save() {
  const [path, text] = [at(".path").value.trim(), editor.text];
  if (!path) return tellSaved("Name a file first.", true);
  try {
    const answer = await post("save", { path, text: written(), known, isSure: doubt === path });
    doubt = answer.isOther ? path : "";
    if (answer.isOther) return tellSaved("That file has another text: Save again replaces it.", true);
    [known, savedText] = [answer.digest, text];
    at(".path").value = answer.path;
    tellSaved(isSaved() ? "Saved." : "Saved; changed since.");
  } catch (fault) {
    tellSaved(`Not saved: ${fault.message}`, true);
  }
}

function changed() {
  tellSaved(isSaved() ? "" : "Not saved.");
  later();
}

// ---- checks

let due = 0;
let asked = 0;

function later() {
  clearTimeout(due);
  due = setTimeout(check, PAUSE);
}

async function check() {
  const number = (asked += 1);
  try {
    const found = await post("check", { text: written() });
    if (number === asked) showFaults(found);
  } catch (fault) {
    if (number === asked) showFaults({ state: "ended", faults: [], costs: "", told: String(fault.message) });
  }
}

function showFaults({ state, faults, costs, told }) {
  editor.mark(faults);
  const counts = WORST.map((kind) => [faults.filter((it) => it.kind === kind).length, kind]).filter(([count]) => count);
  const named = counts.map(([count, kind]) => many(count, kind)).join(", ");
  const short = { accepted: named ? `Accepted: ${named}.` : "Accepted.", refused: `Refused: ${named}.` }[state];
  at(".summary").textContent = short ?? (told.trim() || "The check ended without an answer.");
  at(".summary").className = `summary ${state}`;
  at(".faults").replaceChildren(...faults.map(faultItem));
  at(".costs").hidden = !costs;
  at(".costs pre").textContent = costs;
  document.body.dataset.checked = state;
}

function faultItem({ kind, text, line, column, number, notes }) {
  const place = line ? `line ${line}${column ? `, column ${column}` : ""}` : "";
  const button = html("button", { type: "button" }, place);
  button.addEventListener("click", () => editor.goTo(line, column));
  const name = html("span", { class: "kind" }, number ? `${kind} ${number}` : kind);
  return html("li", { class: kind }, place && button, name, text,
    notes.length > 0 && html("pre", {}, notes.join("\n")));
}

// Goes to the next message that has a place, or to the one before.
function goToFault(by) {
  const buttons = [...document.querySelectorAll(".faults button")];
  if (!buttons.length) return;
  goToFault.now = ((goToFault.now ?? (by > 0 ? -1 : 0)) + by + buttons.length) % buttons.length;
  buttons[goToFault.now].click();
}

// ---- runs

const ENDED = {
  0: "Ended: nothing could be chosen any more.",
  3: "Ended at its limit of cycles.",
  4: "Ended: there was no room for another unit or activation.",
  5: "Memory ran out.",
  6: "Its output failed.",
};

let watched = 0;

function tellRun(text, isWrong = false) {
  at(".state").textContent = text;
  at(".state").classList.toggle("wrong", isWrong);
}

async function run() {
  const [cycles, seconds] = [at("#cycles"), at("#seconds")].map((it) => Number(it.value));
  const number = (watched += 1);
  try {
    tellRun("Running …");
    const { page } = await post("run", { text: written(), cycles, seconds });
    at("iframe").src = page;
    at("iframe").hidden = false;
    at(".stop").disabled = false;
    await watch(number);
  } catch (fault) {
    tellRun(`Not run: ${fault.message}`, true);
  }
}

async function watch(number) {
  for (;;) {
    await new Promise((done) => setTimeout(done, PAUSE));
    const state = await (await fetch("state", { cache: "no-store" })).json();
    if (number !== watched) return;
    if (state.status === null) tellRun(`Running for ${state.took} s …`);
    else return ended(state);
  }
}

function ended({ status, why, refused, faults, took }) {
  at(".stop").disabled = true;
  document.body.dataset.ran = String(status);
  if (refused || status === 2) {
    at("iframe").hidden = true;
    return tellRun(`The input is refused, so there is no run. ${faults[0]?.text ?? refused}`, true);
  }
  if (why) return tellRun(`${why} What it wrote before is shown.`, true);
  tellRun(`${ENDED[status] ?? `It ended with status ${status}.`} It took ${took} s.`, !(status in ENDED));
}

// ---- keys and buttons

function pressed(event) {
  const isCtrl = event.ctrlKey || event.metaKey;
  const acts = { Enter: isCtrl && run, s: isCtrl && save, F8: () => goToFault(event.shiftKey ? -1 : 1) };
  const act = acts[event.key];
  if (!act) return;
  event.preventDefault();
  act();
}

const submits = (form, act) => at(form).addEventListener("submit", (event) => {
  event.preventDefault();
  act();
});

submits(".file", save);
submits(".bounds", run);
at(".stop").addEventListener("click", () => post("stop", {}));
document.addEventListener("keydown", pressed);
addEventListener("beforeunload", (event) => isSaved() || event.preventDefault());
openFile();
