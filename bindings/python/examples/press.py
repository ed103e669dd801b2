#!/usr/bin/env python3
"""A host in Python that schedules: what examples/c/press.c is in C.

    press.py examples/press.bb day.trace < examples/c/press.jobs

Jobs come on its standard input, by rising time, a line each: TIME HOURS DUE NAME. It posts each as it comes, and that a
press is free when its job has ended, lets the sources decide, tells each decision, and at the end how many jobs are
printed. If a second file is named, the trace goes there, of which `tools/see` makes a page.
"""

from __future__ import annotations

import sys
from pathlib import Path
from typing import cast

if (HOME := Path(__file__).resolve().parent.parent).joinpath("railcitron").is_dir():
    sys.path.insert(0, str(HOME))
import railcitron  # noqa: E402


class Shop:
    """A run, the time, when the job of each press ends that has one, and the trace."""

    def __init__(self, run: railcitron.Run) -> None:
        self.run = run
        self.now = 0
        self.ends: dict[int, int] = {}
        self.trace: list[str] = []

    def decide(self) -> None:
        """Lets the sources decide, and tells what they decided: which job each press that was free now has."""
        while self.run.turn():
            pass
        self.trace.append(self.run.read())
        for press in self.run.units("press"):
            if press not in self.ends:
                for job in self.run.links(press, "job"):
                    self.begins(press, job)

    def begins(self, press: int, job: int) -> None:
        hours, due = (cast(int, self.run.get(job, slot)) for slot in ("hours", "due"))
        end = self.ends[press] = self.now + hours
        late = ", late" if end > due else ""
        print(f"{self.now}: {self.run.get(press, 'name')} begins {self.run.get(job, 'name')}, until {end}{late}")

    def job_comes(self, time: int, hours: int, due: int, name: str) -> None:
        self.now = time
        with self.run.post() as asks:
            job = asks.new("job")
            asks.set(job, "name", name)
            asks.set(job, "hours", hours)
            asks.set(job, "due", due)
            asks.enter(job, "tray")
        self.decide()

    def press_is_free(self, press: int) -> None:
        self.now = self.ends.pop(press)
        with self.run.post() as asks:
            asks.set(press, "free", True)
        self.decide()

    def free_until(self, time: int | None = None) -> None:
        """Frees each press whose job has ended by then, the first first."""
        while self.ends:
            press = min(self.ends, key=lambda it: (self.ends[it], it))
            if time is not None and self.ends[press] > time:
                return
            self.press_is_free(press)


def main() -> None:
    with railcitron.Run(Path(sys.argv[1]).read_bytes()) as run:
        shop = Shop(run)
        shop.decide()
        for line in sys.stdin:
            time, hours, due, name = line.split()
            shop.free_until(int(time))
            shop.job_comes(int(time), int(hours), int(due), name)
        shop.free_until()
        print(sum(run.get(job, "state") == "printed" for job in run.units("job")), "jobs are printed")
        shop.trace.append(run.finish())
    if len(sys.argv) > 2:
        Path(sys.argv[2]).write_text("".join(shop.trace))


if __name__ == "__main__":
    main()
