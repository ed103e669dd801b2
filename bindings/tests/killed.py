#!/usr/bin/env python3
"""Kills a scheduler at random moments, a hundred times in a day, and compares its trace with that of a day in peace.

    killed.py DAY INPUT [TIMES]

DAY is bindings/python/examples/day.py, or a program that takes the same words. A host in Python finds its library by
RAILCITRON_LIBRARY. If the host ends by itself with a status, or says something on its errors, the trial fails.
"""

import random
import signal
import subprocess
import sys
import tempfile
import time
from pathlib import Path

JOBS, SECONDS = 3000, 120


def jobs(chance):
    """The jobs of a day: most come within a few minutes of each other, so that some wait for a press."""
    now = 0
    for number in range(JOBS):
        now += chance.choice((0, 1, 1, 2, 5))
        yield f"{now} {chance.randint(1, 6)} {now + chance.randint(5, 60)} job{number}\n"


class Days:
    """A folder with days of the same jobs."""

    def __init__(self, program, folder, chance):
        self.program, self.folder, self.chance = program, folder, chance
        (folder / "jobs").write_text("".join(jobs(chance)))

    def size(self, name):
        """How long the log of a day is."""
        log = self.folder / f"{name}.log"
        return log.stat().st_size if log.exists() else 0

    def lives(self, name, growth=None):
        """Starts the host, and kills it when its log has grown by so many bytes. Whether it was killed."""
        words = [*self.program, self.folder / "jobs", self.folder / f"{name}.log", self.folder / f"{name}.trace"]
        words = [sys.executable, *words] if words[0].endswith(".py") else words
        begin, end = self.size(name), time.monotonic() + SECONDS
        with subprocess.Popen(words, stderr=subprocess.PIPE, text=True) as host:
            while host.poll() is None and time.monotonic() < end:
                if growth is not None and self.size(name) >= begin + growth:
                    time.sleep(self.chance.uniform(0, 0.001))
                    host.send_signal(signal.SIGKILL)
                    break
                time.sleep(0.0001)
            said = host.stderr.read()
            status = host.wait()
        if status not in (0, -signal.SIGKILL) or said:
            sys.exit(f"killed.py: the host ended with status {status}: {said[-400:]}")
        return status != 0


def main():
    program, times = sys.argv[1:3], int((sys.argv[3:] or ["100"])[0])
    chance = random.Random(1)
    with tempfile.TemporaryDirectory() as name:
        days = Days(program, Path(name), chance)
        days.lives("peace")
        # Each life gets a hundredth of the day further on average, or not at all: it is then killed while it takes the run up.
        step = 1.5 * days.size("peace") / times
        kills = sum(days.lives("war", chance.uniform(0, step) if chance.random() < 0.9 else 0) for _ in range(times))
        done = days.size("war") / days.size("peace")
        days.lives("war")
        same = (days.folder / "peace.trace").read_bytes() == (days.folder / "war.trace").read_bytes()
    verdict = "the same trace" if same else "ANOTHER TRACE"
    print(f"killed.py: {kills} times killed, in the first {done:.0%} of the day; then it came to {verdict}")
    sys.exit(0 if same and kills == times else 1)


if __name__ == "__main__":
    main()
