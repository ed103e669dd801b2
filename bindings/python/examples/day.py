#!/usr/bin/env python3
"""A scheduler that may be killed at any moment, and goes on as if nothing had happened.

    day.py examples/day.bb JOBS LOG TRACE

JOBS has a line for each job, by rising time: TIME MINUTES DUE NAME. Each move of the run is in LOG before it is made. When the
program is started again, it takes the run up from there: all that it has to know is on the blackboard. At the end of the day
the whole trace is in TRACE.
"""

from __future__ import annotations

import sys
from collections.abc import Iterator
from pathlib import Path
from typing import NamedTuple, cast

if (HOME := Path(__file__).resolve().parent.parent).joinpath("railcitron").is_dir():
    sys.path.insert(0, str(HOME))
import railcitron  # noqa: E402


class Job(NamedTuple):
    time: int
    minutes: int
    due: int
    name: str


def jobs_of(text: str) -> Iterator[Job]:
    for line in text.splitlines():
        time, minutes, due, name = line.split()
        yield Job(int(time), int(minutes), int(due), name)


def whole_moves(log: str) -> str:
    """The moves of a log that are whole. A program that is killed while it writes one leaves a part of it, and has not made it."""
    end = length = 0
    is_open = False
    for line in log.splitlines(keepends=True):
        length += len(line)
        is_open = line in ("post\n", "answer\n") or (is_open and line != "end\n")
        if line.endswith("\n") and not is_open:
            end = length
    return log[:end]


def begun(data: bytes, log: Path) -> railcitron.Run:
    """The run, as the moves in the log leave it. Moves from here on go to the end of the log."""
    moves = whole_moves(log.read_text()) if log.exists() else ""
    log.write_text(moves)
    keep = log.open("a", buffering=1).write
    return railcitron.Run.resume(data, moves, keep_history=keep)


def next_minute(run: railcitron.Run, jobs: list[Job]) -> int | None:
    """When something happens next: a job comes, or a press has printed its own. None at the end of the day."""
    minutes = [cast(int, run.get(press, "until")) for press in run.units("press") if run.links(press, "job")]
    minutes += [job.time for job in jobs[len(run.units("job")) :][:1]]
    return min(minutes, default=None)


def post(run: railcitron.Run, minute: int, jobs: list[Job]) -> None:
    """Reports to the run that it is this minute, and which jobs came."""
    with run.post() as asks:
        asks.set(run.units("day")[0], "minute", minute)
        for job in jobs[len(run.units("job")) :]:
            if job.time > minute:
                break
            unit = asks.new("job")
            asks.set(unit, "name", job.name)
            asks.set(unit, "minutes", job.minutes)
            asks.set(unit, "due", job.due)
            asks.enter(unit, "tray")


def main() -> None:
    data, jobs, log, trace = (Path(it) for it in sys.argv[1:])
    coming = [*jobs_of(jobs.read_text())]
    with begun(data.read_bytes(), log) as run:
        while True:
            while run.turn():
                pass
            minute = next_minute(run, coming)
            if minute is None:
                break
            post(run, minute, coming)
        told = run.read() + run.finish()
    trace.write_text(told)


if __name__ == "__main__":
    main()
