"""What an ordinary slot holds, and what the agenda has, in Python."""

from __future__ import annotations

from typing import NamedTuple


class Label(str):
    """A label of a set: the text of its name, with the name of its set as `set`. It equals that text."""

    __match_args__ = ("set", "label")
    set: str

    def __new__(cls, set: str, label: str) -> Label:
        made = super().__new__(cls, label)
        made.set = set
        return made

    @property
    def label(self) -> str:
        """The name of the label."""
        return str(self)

    def __repr__(self) -> str:
        return f"Label({self.set!r}, {str.__repr__(self)})"

    def __reduce__(self) -> tuple[type[Label], tuple[str, str]]:
        return Label, (self.set, self.label)


class Interval(NamedTuple):
    """All numbers from `low` to `high`, both included."""

    low: int
    high: int


class Activation(NamedTuple):
    """A pending activation: its number, its source's name, the unit of its event, or None if it has none, its base, and its
    rating, the base plus the weights of the foci that match. A rating that has no room in 64 bits is the greatest or the
    least number that has."""

    number: int
    source: str
    unit: int | None
    base: int
    rating: int


Value = int | bool | str | Label | Interval


def kind_of(value: object) -> str | None:
    """The kind of slot that holds such a value, as a schema names it, or None if none does."""
    match value:
        case bool():
            return "bool"
        case int():
            return "int"
        case Label():
            return "label"
        case str():
            return "text"
        case Interval():
            return "interval"
    return None
