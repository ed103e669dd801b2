"""The lines of a trace as values, which `Run.notes` gives. docs/users/formats/trace.md says when each is told.

    for note in run.notes():
        match note:
            case notes.Said(values):
                print(*values)
            case notes.AskRefused(ask, reason):
                ...

`str(note)` is the line.
"""

from __future__ import annotations

import json
import re
from dataclasses import Field, dataclass, fields
from typing import Any, ClassVar

from ._values import Interval


class Unit(int):
    """A unit that was said, by its number."""

    def __repr__(self) -> str:
        return f"Unit({int(self)})"


class Name(str):
    """A label that was said, by its name: a trace does not tell its set."""

    def __repr__(self) -> str:
        return f"Name({str.__repr__(self)})"


# What a line `say` has.
Spoken = int | bool | str | Interval | Unit | Name


@dataclass(frozen=True)
class Note:
    """A line of a trace. A line that this package does not know, as that of a later library, is an `Other`."""

    form: ClassVar[str] = ""

    def __str__(self) -> str:
        return self.form.format(**{it.name: getattr(self, it.name) for it in fields(self)})


@dataclass(frozen=True)
class Other(Note):
    form: ClassVar[str] = "{line}"
    line: str


@dataclass(frozen=True)
class Created(Note):
    form: ClassVar[str] = "create {unit} {class_name}"
    unit: int
    class_name: str


@dataclass(frozen=True)
class Set(Note):
    form: ClassVar[str] = "set {unit}.{slot}"
    unit: int
    slot: str


@dataclass(frozen=True)
class Linked(Note):
    form: ClassVar[str] = "link {unit}.{slot} {other}"
    unit: int
    slot: str
    other: int


@dataclass(frozen=True)
class Unlinked(Note):
    form: ClassVar[str] = "unlink {unit}.{slot} {other}"
    unit: int
    slot: str
    other: int


@dataclass(frozen=True)
class Entered(Note):
    form: ClassVar[str] = "enter {unit} {space}"
    unit: int
    space: str


@dataclass(frozen=True)
class Left(Note):
    form: ClassVar[str] = "leave {unit} {space}"
    unit: int
    space: str


@dataclass(frozen=True)
class Deleted(Note):
    form: ClassVar[str] = "delete {unit}"
    unit: int


@dataclass(frozen=True)
class Triggered(Note):
    form: ClassVar[str] = "trigger {activation} {source} unit {unit} rating {rating}"
    activation: int
    source: str
    unit: int
    rating: int


@dataclass(frozen=True)
class Declined(Note):
    form: ClassVar[str] = "decline {source} unit {unit}"
    source: str
    unit: int


@dataclass(frozen=True)
class Obviated(Note):
    form: ClassVar[str] = "obviate {activation}"
    activation: int


@dataclass(frozen=True)
class Retriggered(Note):
    form: ClassVar[str] = "retrigger {activation} {rating}"
    activation: int
    rating: int


@dataclass(frozen=True)
class Chosen(Note):
    form: ClassVar[str] = "cycle {cycle} act {activation} {source} unit {unit} rating {rating}"
    cycle: int
    activation: int
    source: str
    unit: int
    rating: int


@dataclass(frozen=True)
class Invalid(Note):
    form: ClassVar[str] = "invalid {activation}"
    activation: int


@dataclass(frozen=True)
class Said(Note):
    values: tuple[Spoken, ...]

    def __str__(self) -> str:
        return " ".join(["say", *map(_told, self.values)])


@dataclass(frozen=True)
class Executed(Note):
    """The end of a code, with what it cost."""

    form: ClassVar[str] = "end steps {steps} found {found} budget {budget}"
    steps: int
    found: int
    budget: int


@dataclass(frozen=True)
class Answered(Note):
    """The end of a native, with the number of its asks."""

    form: ClassVar[str] = "end native {asks}"
    asks: int


@dataclass(frozen=True)
class AskRefused(Note):
    form: ClassVar[str] = "refused ask {ask} {reason}"
    ask: int
    reason: int


@dataclass(frozen=True)
class Posting(Note):
    """Asks from outside follow."""

    form: ClassVar[str] = "post"


@dataclass(frozen=True)
class Posted(Note):
    """The end of the asks from outside, with their number."""

    form: ClassVar[str] = "end post {asks}"
    asks: int


@dataclass(frozen=True)
class Quiescence(Note):
    form: ClassVar[str] = "quiescence"


@dataclass(frozen=True)
class Finished(Note):
    form: ClassVar[str] = "finish {ending}"
    ending: str


@dataclass(frozen=True)
class Closed(Note):
    form: ClassVar[str] = "closed {name} {number}"
    name: str
    number: int


_NUMBER = "(-?[0-9]+)"
_NAME = "([a-z][a-z0-9_]*)"
_VALUE = re.compile(rf' (?:(?P<text>"(?:[^"\\]|\\.)*")|\[{_NUMBER},{_NUMBER}\]|#(?P<unit>[0-9]+)|(?P<number>-?[0-9]+)|(?P<name>[a-z][a-z0-9_]*))')


def _is_number(field: Field[Any]) -> bool:
    """Whether a field holds a number, and not a name."""
    return str(field.type) == "int"


def _pattern(kind: type[Note]) -> re.Pattern[str]:
    """What a line of a kind of note looks like, with a group for each field."""
    text = re.escape(kind.form)
    for it in fields(kind):
        text = text.replace(re.escape(f"{{{it.name}}}"), _NUMBER if _is_number(it) else _NAME)
    return re.compile(text)


_KINDS: dict[str, list[tuple[re.Pattern[str], type[Note]]]] = {}
for _kind in Note.__subclasses__():
    if _kind not in (Other, Said):
        _KINDS.setdefault(_kind.form.split(" ")[0], []).append((_pattern(_kind), _kind))


def parse(line: str) -> Note:
    """Returns a line of a trace, without its end, as a note."""
    word = line.partition(" ")[0]
    if word == "say":
        return _said(line) or Other(line)
    for pattern, kind in _KINDS.get(word, ()):
        if found := pattern.fullmatch(line):
            given = zip(fields(kind), found.groups())
            return kind(*(int(text) if _is_number(it) else text for it, text in given))
    return Other(line)


def _said(line: str) -> Said | None:
    """A line that says values, if each of them is one."""
    values: list[Spoken] = []
    at = len("say")
    while found := _VALUE.match(line, at):
        values.append(_value(found))
        at = found.end()
    return Said(tuple(values)) if at == len(line) else None


def _value(found: re.Match[str]) -> Spoken:
    if (text := found["text"]) is not None:
        return str(json.loads(text))
    if (unit := found["unit"]) is not None:
        return Unit(unit)
    if (number := found["number"]) is not None:
        return int(number)
    if (name := found["name"]) is not None:
        return {"true": True, "false": False}.get(name, Name(name))
    return Interval(int(found[2]), int(found[3]))


def _told(value: Spoken) -> str:
    """A value as a trace has it."""
    match value:
        case bool():
            return "true" if value else "false"
        case Unit():
            return f"#{int(value)}"
        case Interval(low, high):
            return f"[{low},{high}]"
        case int() | Name():
            return str(value)
    return json.dumps(value, ensure_ascii=False)
