"""Two runs side by side: the first line at which their traces part."""

from collections.abc import Iterator
from typing import NamedTuple

from run import Run


class Beside(NamedTuple):
    """Another run: what both are called, its own run, and the line at which they part, 0 where they do not."""

    name: str
    other: str
    parting: int
    run: Run


class Common:
    """The lines of a trace, which are compared with those of another while they are read."""

    def __init__(self, one, other):
        self.one, self.other = one, other
        self.count = self.parting = 0

    def __iter__(self) -> Iterator[bytes]:
        yield from iter(self.readline, b"")

    def readline(self) -> bytes:
        line = self.one.readline()
        self.count += 1
        if not self.parting and line != self.other.readline():
            self.parting = self.count
        return line
