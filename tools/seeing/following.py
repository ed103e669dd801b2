"""Follows a run that goes on: the lines that were written so far, as a page that asks for them gets them."""

import os
from dataclasses import replace
from pathlib import Path
from threading import Lock

from given import Given
from page import packed
from reader import NoTrace, Reader
from replay import GOES_ON, Replay
from run import LINE_LIMIT, Run


def so_far(reader: Reader) -> Run:
    """The run up to here, where more lines may come. Of the step in which it is, no values are told."""
    reader.settle()
    step, until, why = reader.step, reader.replay.until, reader.replay.why
    if reader.replay.lines:
        step, until, why = replace(step, values={}), step.first, GOES_ON
    return replace(reader.run, kept=reader.run.kept.with_last(step), until=until, why=why)


class Following:
    """A run of which more and more lines come. What is not one of a trace ends it, and `fault` says why."""

    def __init__(self, given: Given | None = None, floor: int | None = None, replay: Replay | None = None):
        self.given, self.floor, self.replay = given, floor, replay
        self.lock = Lock()
        self.reader = Reader(given, floor, replay)
        self.rest = b""
        self.fault = ""
        self.is_over = False

    def feed(self, data: bytes) -> None:
        """More of the trace."""
        with self.lock:
            *lines, self.rest = (self.rest + data).split(b"\n")
            for it in [] if self.fault else lines:
                try:
                    self.reader.take_bytes(it + b"\n")
                except NoTrace as fault:
                    self.fault = str(fault)
                    return

    def end(self) -> None:
        """Nothing more comes."""
        with self.lock:
            self.is_over = True
            if self.rest:
                self.reader.run.cut = self.rest.decode(errors="replace")[:LINE_LIMIT]

    @property
    def version(self) -> str:
        return f"{self.reader.run.lines}-{int(self.is_over)}-{int(bool(self.fault))}"

    def news(self, known: str) -> tuple[str, bytes]:
        """The version of what was written so far, and that, packed, if it is another than the known one."""
        with self.lock:
            version = self.version
            is_on = not (self.is_over or self.reader.run.finish)
            more = {"isOn": is_on and not self.fault, "fault": self.fault}
            return version, packed(so_far(self.reader), more=more) if version != known else b""

    def close(self) -> None:
        if self.replay:
            self.replay.close()


class Grown:
    """A trace in a file that grows. If the file is another, or shorter, what it has is another run; so may be what does
    not go on with the lines before, which is why it is read from its start then."""

    def __init__(self, file: Path, made):
        self.file, self.made = file, made
        self.lock = Lock()
        self.following = None
        self.place, self.node, self.count, self.is_faulty = 0, None, 0, False

    def news(self, known: str) -> tuple[str, bytes]:
        with self.lock:
            self.look()
        version, data = self.following.news(known.partition(".")[2] if known.startswith(f"{self.count}.") else "")
        return f"{self.count}.{version}", data

    def look(self) -> None:
        """Reads what came since."""
        with self.file.open("rb") as file:
            stat = os.fstat(file.fileno())
            node = stat.st_dev, stat.st_ino
            if self.node != node or stat.st_size < self.place:
                self.begin(node)
            was_read = self.place > 0
            self.read(file)
            if self.following.fault and was_read and not self.is_faulty:
                self.begin(node)
                self.read(file)
            self.is_faulty = bool(self.following.fault)

    def begin(self, node: tuple[int, int]) -> None:
        self.close()
        self.node, self.place, self.following = node, 0, self.made()
        self.count += 1

    def read(self, file) -> None:
        file.seek(self.place)
        while data := file.read(1 << 20):
            self.place += len(data)
            self.following.feed(data)

    def close(self) -> None:
        if self.following:
            self.following.close()
