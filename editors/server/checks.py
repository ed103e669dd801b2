"""Runs `bb check` on what was opened or changed, one input after another, beside the answers to requests.

The newest text of an input counts: a check of an older one is ended. One that takes too long is ended too.
"""

import os
import shutil
import signal
import subprocess
import threading
import time
from collections.abc import Callable
from typing import NamedTuple

# How long nobody has to type before a check begins.
PAUSE = 0.15
# The program's names: others have a `bb` too, so the longer one comes first.
PROGRAMS = ("railcitron", "bb")


class Asked(NamedTuple):
    """An input that is to be checked, and from when on."""

    version: int | None
    text: str
    due: float


class Checked(NamedTuple):
    """What a check wrote, or why it wrote nothing."""

    output: str = ""
    said: str = ""
    fault: str = ""
    is_late: bool = False


class Checker:
    """Checks inputs in a thread of its own."""

    def __init__(self, report: Callable[[str, int | None, str, Checked], Callable[[], None]], program: str = "", seconds: float = 10):
        # What is told of a check is made beside other work; it is told only if nobody has changed or closed the input.
        self.report = report
        self.program = program
        self.seconds = seconds
        self.asked: dict[str, Asked] = {}
        self.running = ""
        self.process: subprocess.Popen | None = None
        self.is_closed = False
        self.change = threading.Condition()
        self.thread = threading.Thread(target=self.work, name="checks", daemon=True)

    def start(self) -> None:
        self.thread.start()

    def ask(self, uri: str, version: int | None, text: str) -> None:
        """Has an input checked, in place of an older version."""
        with self.change:
            self.asked[uri] = Asked(version, text, time.monotonic() + PAUSE)
            self.end_if_running(uri)
            self.change.notify()

    def forget(self, uri: str) -> None:
        """An input was closed."""
        with self.change:
            self.asked.pop(uri, None)
            self.end_if_running(uri)

    def close(self) -> None:
        """Ends what runs. No more is reported."""
        with self.change:
            self.is_closed = True
            self.asked.clear()
            self.end_if_running(self.running)
            self.change.notify()

    def end_if_running(self, uri: str) -> None:
        """Ends the check of an input. Its result is not reported."""
        if uri == self.running:
            self.running = ""
            end(self.process)

    def work(self) -> None:
        while (it := self.next()) is not None:
            uri, asked = it
            tell = self.report(uri, asked.version, asked.text, self.check(asked.text))
            with self.change:
                if self.running == uri:
                    self.running = ""
                    tell()

    def next(self) -> tuple[str, Asked] | None:
        """The next input to check, once its time has come; None if there will be none."""
        with self.change:
            while not self.is_closed:
                uri, asked = min(self.asked.items(), key=lambda it: it[1].due, default=("", None))
                wait = asked.due - time.monotonic() if asked else None
                if asked and wait is not None and wait <= 0:
                    self.running = uri
                    return uri, self.asked.pop(uri)
                self.change.wait(wait)
        return None

    def check(self, text: str) -> Checked:
        """Runs the program on a text."""
        found = self.found()
        if not found:
            return Checked(fault=f"{self.program or 'bb'} is not found, so faults are not shown")
        try:
            process = self.begin(found)
        except OSError as fault:
            return Checked(fault=f"{found} can't be run, so faults are not shown: {fault.strerror}")
        try:
            output, said = process.communicate(text.encode(errors="surrogatepass"), self.seconds)
        except subprocess.TimeoutExpired:
            end(process)
            return Checked(is_late=True)
        finally:
            self.process = None
            close_all(process)
        return self.checked(found, process.returncode, output.decode(errors="replace"), said.decode(errors="replace"))

    def begin(self, found: str) -> subprocess.Popen:
        """Starts the program, in a session of its own, so that what it starts can be ended with it."""
        pipe = subprocess.PIPE
        with self.change:
            words = [found, "check"]
            self.process = subprocess.Popen(words, stdin=pipe, stdout=pipe, stderr=pipe, start_new_session=True)
            if not self.running:
                end(self.process)
            return self.process

    def found(self) -> str | None:
        """The program's path."""
        names = (os.path.expanduser(self.program),) if self.program else PROGRAMS
        return next((path for it in names if (path := shutil.which(it))), None)

    @staticmethod
    def checked(found: str, status: int, output: str, said: str) -> Checked:
        """What the program wrote, if that is how it ends."""
        lines = output.splitlines()
        is_answer = lines and (status == 0 and lines[-1].startswith("checked ") or status == 2 and lines[0].startswith("refused "))
        if is_answer:
            return Checked(output, said)
        why = "its memory ran out" if status == 5 else f"it ended with status {status}"
        return Checked(fault=f"{found} check tells no faults: {why}")


def end(process: subprocess.Popen | None) -> None:
    """Ends a program and what it started."""
    if process and process.poll() is None:
        try:
            os.killpg(process.pid, signal.SIGKILL)
        except ProcessLookupError:
            pass


def close_all(process: subprocess.Popen) -> None:
    """Closes the pipes of a program that has ended, or has just been ended."""
    for it in (process.stdin, process.stdout, process.stderr):
        try:
            it.close()
        except OSError:
            pass
    process.wait()
