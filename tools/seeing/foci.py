"""What foci add to ratings, as docs/users/formats/trace.md has it, as far as an input and a trace tell."""

from collections import Counter
from typing import NamedTuple


class Held(NamedTuple):
    """What the slots of a focus hold, at first their defaults; None is what a code has set, which no trace tells."""

    source: str | None = ""
    area: str | None = ""
    weight: int | None = 0
    active: bool | None = True

    def matches(self, source: str, classes: tuple[str, ...]) -> bool | None:
        """Whether it matches activations of a source, on a class and those above it; None is perhaps."""
        answers = [
            self.active,
            None if self.source is None else self.source in ("", source),
            None if self.area is None else self.area in ("", *classes),
        ]
        return False if False in answers else None if None in answers else True

    def adds(self, source: str, classes: tuple[str, ...]) -> int | None:
        """What it adds to the ratings of a source; None is something or nothing."""
        matches = self.matches(source, classes)
        if matches is False or self.weight == 0:
            return 0
        return self.weight if matches else None


class Foci:
    """The foci that there are: how many hold the same."""

    def __init__(self):
        self.counts: Counter[Held] = Counter()
        self.sums: dict[str, int | None] = {}

    def change(self, before: Held | None, after: Held | None) -> None:
        """A focus holds something else, or is new, or is gone."""
        self.sums.clear()
        if before:
            self.counts[before] -= 1
            if not self.counts[before]:
                del self.counts[before]
        if after:
            self.counts[after] += 1

    def add(self, source: str, classes: tuple[str, ...]) -> int | None:
        """What all of them add to the ratings of a source; None where that is not told."""
        if source not in self.sums:
            adds = [(held.adds(source, classes), count) for held, count in self.counts.items()]
            self.sums[source] = None if any(it is None for it, _ in adds) else sum(it * count for it, count in adds)
        return self.sums[source]
