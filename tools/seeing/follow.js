// A page that follows a run which goes on: it asks the server for what is new, and shows the last step or stays where
// it is.

const LEAST_PAUSE = 400;

const pause = (time) => new Promise((done) => setTimeout(done, time));

let isFollowing = true;

// Whether each step that comes is shown. A reader of screens would tell each, so it is kept silent while it is so.
function follow(is) {
  isFollowing = is;
  at("button.follow").setAttribute("aria-pressed", String(is));
  details.setAttribute("aria-live", is ? "off" : "polite");
  if (is) go(run.steps.at(-1).id, true);
}

// What a selection means for that: the last step is followed on.
function selectedWhileLive(step) {
  isFollowing = step === run.steps.at(-1);
  at("button.follow").setAttribute("aria-pressed", String(isFollowing));
}

function goOn(other) {
  const isFirst = !run;
  take(other);
  if (isFirst) {
    showKeys();
    listen();
    at("button.follow").hidden = false;
    at("button.follow").addEventListener("click", () => follow(!isFollowing));
  }
  if (!run.totals.lines) return;
  if (input.value) find();
  else if (isFollowing && !(isFirst && location.hash)) follow(true);
  else show();
}

// The run as the server has it now, or what is wrong.
async function asked(known) {
  try {
    const answer = await fetch(`run?known=${known}`, { cache: "no-store" });
    if (answer.status === 204) return { version: known };
    if (!answer.ok) return { fault: await answer.text() };
    return { version: answer.headers.get("X-Version"), run: await unpacked(await answer.arrayBuffer()) };
  } catch {
    return { fault: "The server does not answer: this is what it sent before." };
  }
}

async function followed() {
  let version = "";
  for (;;) {
    const began = performance.now();
    const news = await asked(version);
    if (news.run) goOn(news.run);
    if (run) showNotices(news.fault);
    version = news.version ?? version;
    document.body.dataset.state = "shown";
    await pause(Math.max(run?.isOn ? LEAST_PAUSE : 4 * LEAST_PAUSE, 4 * (performance.now() - began)));
  }
}
