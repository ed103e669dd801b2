"""What the page of `tools/workbench` asks for: checks and runs of the text in its editor, within bounds, and saving."""

import hashlib
import json
import os
import signal
import subprocess
import tempfile
import time
from dataclasses import asdict
from pathlib import Path
from threading import Event, Lock, Thread

from faults import faults_of
from following import Following
from forms import is_refusal
from given import NoInput, given_of_text
from page import live_page
from replay import Replay, opener
from serving import HTML, NOT_THERE, Answer, news_of

NO_LIBRARY = "a trace does not record it. Give the library that runs it again: tools/workbench FILE --library libbb.so"

# The bounds of a check and of a run: seconds, bytes of a trace.
CHECK_SECONDS = 5
MOST_SECONDS = 600
TRACE_LIMIT = 128 << 20


def killed(process: subprocess.Popen) -> None:
    """Ends a program, and what it started."""
    try:
        os.killpg(process.pid, signal.SIGKILL)
    except ProcessLookupError:
        pass
    process.wait()


def begun(program: list[str], given: bytes, written, told, *words: str) -> subprocess.Popen:
    """A program that reads an input from a file, which is gone at once, and tells what is wrong in another."""
    with tempfile.TemporaryFile() as file:
        file.write(given)
        file.seek(0)
        return subprocess.Popen(
            [*program, *words], stdin=file, stdout=written, stderr=told, start_new_session=True
        )


class Check:
    """Checks of inputs, of which a later one ends those before."""

    def __init__(self, program: list[str]):
        self.program = program
        self.lock = Lock()
        self.now: subprocess.Popen | None = None

    def of(self, given: bytes) -> dict:
        """The faults of an input, its warnings and costs, and what its parts cost."""
        with tempfile.TemporaryFile() as told:
            with self.lock:
                if self.now and self.now.poll() is None:
                    killed(self.now)
                self.now = process = begun(self.program, given, subprocess.PIPE, told, "check")
            try:
                costs, _ = process.communicate(timeout=CHECK_SECONDS)
            except subprocess.TimeoutExpired:
                killed(process)
                why = f"The check took more than {CHECK_SECONDS} s."
                return {"state": "slow", "faults": [], "costs": "", "told": why}
            told.seek(0)
            text = told.read().decode(errors="replace")
        faults = [asdict(it) for it in faults_of(text)]
        state = {0: "accepted", 2: "refused"}.get(process.returncode, "ended")
        costs = costs.decode(errors="replace") if state == "accepted" else ""
        return {"state": state, "faults": faults, "costs": costs, "told": text}


class Job:
    """A run, which is killed beyond its bounds. It writes its trace to a file, so it waits for no reader."""

    def __init__(self, program: list[str], given: bytes, cycles: int, seconds: float, library=None):
        self.seconds = seconds
        self.refused = ""
        self.why = ""
        self.error, self.trace = tempfile.TemporaryFile(), tempfile.TemporaryFile()
        self.following = following(given, library)
        self.done = Event()
        self.took = 0.0
        self.began = time.monotonic()
        self.process = begun(program, given, self.trace, self.error, "--limit", str(cycles))
        Thread(target=self.watch, daemon=True).start()
        Thread(target=self.read, daemon=True).start()

    def watch(self) -> None:
        """Waits for its end, or brings that about."""
        while self.process.poll() is None:
            if time.monotonic() - self.began > self.seconds:
                self.stop(f"It ran longer than {self.seconds:g} s.")
            elif os.fstat(self.trace.fileno()).st_size > TRACE_LIMIT:
                self.stop(f"Its trace had more than {TRACE_LIMIT >> 20} MiB.")
            else:
                time.sleep(0.02)
        self.took = time.monotonic() - self.began
        front = os.pread(self.trace.fileno(), 1 << 12, 0).partition(b"\n")[0]
        self.refused = front.decode(errors="replace") if is_refusal(front) else ""
        self.done.set()

    def read(self) -> None:
        """Takes the trace as it comes, at least its front, unless the input is refused."""
        place = 0
        while True:
            is_over = self.done.wait(0.0 if place else 0.05)
            data = os.pread(self.trace.fileno(), 1 << 18, place)
            if self.refused or is_over and not data or place > TRACE_LIMIT:
                break
            if data and (place or is_over or not data.startswith(b"refused ")):
                place += len(data)
                self.following.feed(data)
            elif not data:
                time.sleep(0.03)
        self.following.end()

    def stop(self, why: str) -> None:
        if not self.done.is_set():
            self.why = self.why or why
            killed(self.process)

    def told(self) -> dict:
        """How it stands."""
        is_done = self.done.is_set()
        text = os.pread(self.error.fileno(), 1 << 16, 0).decode(errors="replace") if is_done else ""
        took = self.took if is_done else time.monotonic() - self.began
        faults = [asdict(it) for it in faults_of(text)]
        status = self.process.returncode if is_done else None
        return {"status": status, "why": self.why, "refused": self.refused, "faults": faults, "took": round(took, 1)}


def following(text: bytes, library) -> Following:
    """What follows the run of an input: with the input, if it is one, and with its replay, if there is a library."""
    try:
        given = given_of_text(text.decode(), "the input")
    except (NoInput, UnicodeDecodeError):
        return Following()
    return Following(given, None, Replay(opener(given, 0, library)) if library else Replay(why=NO_LIBRARY))


def digest(text: bytes) -> str:
    return hashlib.sha256(text).hexdigest()


class Workplace:
    """The site of a workbench. It writes no file but the one that it is asked to save."""

    def __init__(self, page: str, program: list[str], file: Path | None, library=None):
        self.page, self.program, self.file, self.library = page.encode(), program, file, library
        self.check = Check(program)
        self.lock = Lock()
        self.job: Job | None = None
        self.count = 0

    def get(self, path: str, asked: dict[str, str]) -> Answer:
        if path == "":
            return Answer(self.page, HTML)
        if path == "file":
            return self.opened()
        if path == "state":
            return told(self.job.told() if self.job else {})
        number, _, rest = path.removeprefix("runs/").partition("/")
        if not (path.startswith("runs/") and self.job and number == str(self.count)):
            return NOT_THERE
        if rest == "":
            return Answer(live_page().encode(), HTML)
        return news_of(self.job.following, asked) if rest == "run" else NOT_THERE

    def post(self, path: str, sent: bytes) -> Answer:
        asked = json.loads(sent)
        if not isinstance(asked, dict):
            raise ValueError("an object is due")
        if path == "check":
            return told(self.check.of(text_in(asked)))
        if path == "run":
            return told(self.run(text_in(asked), asked.get("cycles"), asked.get("seconds")))
        if path == "stop":
            if self.job:
                self.job.stop("It was stopped.")
            return told({})
        return told(self.save(asked)) if path == "save" else NOT_THERE

    def opened(self) -> Answer:
        """The file that the workbench was started with, if it is there."""
        path = str(self.file.resolve()) if self.file else ""
        raw = self.file.read_bytes() if self.file and self.file.exists() else b""
        return told({"path": path, "text": raw.decode(), "digest": digest(raw) if raw else ""})

    def run(self, given: bytes, cycles, seconds) -> dict:
        """Begins a run, and ends the one before."""
        if not (type(cycles) is int and 0 <= cycles < 1 << 32):
            raise ValueError("a number of cycles is due")
        if not (type(seconds) in (int, float) and 0 < seconds <= MOST_SECONDS):
            raise ValueError(f"seconds up to {MOST_SECONDS} are due")
        with self.lock:
            if self.job:
                self.job.stop("Another one was begun.")
            self.job = Job(self.program, given, cycles, seconds, self.library)
            self.count += 1
            return {"page": f"runs/{self.count}/"}

    def save(self, asked: dict) -> dict:
        """Writes a file, unless it has another text than the one that the page knows of."""
        text, path = text_in(asked), asked.get("path")
        if not isinstance(path, str) or not path or "\0" in path:
            raise ValueError("the path of a file is due")
        file = Path(path).expanduser()
        file = (file if file.is_absolute() else Path.cwd() / file).resolve()
        if file.is_dir():
            raise ValueError(f"{file} is a folder")
        before = digest(file.read_bytes()) if file.exists() else ""
        if before not in ("", asked.get("known"), digest(text)) and not asked.get("isSure"):
            return {"path": str(file), "isOther": True}
        replace(file, text)
        return {"path": str(file), "digest": digest(text)}

    def close(self) -> None:
        if self.job:
            self.job.stop("The workbench ended.")


def replace(file: Path, text: bytes) -> None:
    """Writes a file at once: what reads it meanwhile has the text before or the whole text."""
    with tempfile.NamedTemporaryFile(dir=file.parent, prefix=f".{file.name}.", delete=False) as other:
        try:
            other.write(text)
            other.flush()
            os.fsync(other.fileno())
            os.chmod(other.name, file.stat().st_mode & 0o7777 if file.exists() else 0o666 & ~mask())
            os.replace(other.name, file)
        except OSError:
            os.unlink(other.name)
            raise


def mask() -> int:
    """Which rights a new file does not get."""
    now = os.umask(0o077)
    os.umask(now)
    return now


def text_in(asked: dict) -> bytes:
    text = asked.get("text")
    if not isinstance(text, str):
        raise ValueError("a text is due")
    return text.encode()


def told(what: dict) -> Answer:
    return Answer(json.dumps(what).encode(), "application/json")
