"""What a host asks of a run."""

from __future__ import annotations

from typing import TYPE_CHECKING, Any, NamedTuple

from . import _library as calls
from ._faults import Misuse, OutOfMemory, Refused
from ._values import Interval, Label, Value, kind_of

if TYPE_CHECKING:
    from ._run import Run
    from ._schema import Class, Slot

# Why an ask is refused, by the number in the trace.
_REASONS = {
    1: "a unit that it names is not live",
    2: "the unit's class has no such slot",
    3: "the slot can't hold the value, or a text to be said is too long",
    4: "the slot leads to another class",
    5: "there is no such space, or it does not admit the unit's class",
    6: "there is no such class",
}


class RefusedAsk(NamedTuple):
    """An ask that was refused when it was applied: its number, the first being 1, and the reason's, as the trace has them."""

    number: int
    reason: int

    @property
    def why(self) -> str:
        """The reason as a sentence."""
        return _REASONS.get(self.reason, f"reason {self.reason}")


def within(number: int, low: int, high: int) -> int:
    """A number that C can take: `ctypes` would cut it."""
    if not low <= number < high:
        raise OverflowError(f"{number} is not from {low} up to {high}")
    return number


def as_int(number: int) -> int:
    return within(number, -(1 << 63), 1 << 63)


def as_unit(number: int) -> int:
    return within(number, 0, 1 << 64)


def as_bytes(text: str) -> tuple[bytes, int]:
    """A text as bytes and their number."""
    data = text.encode()
    return data, len(data)


class Asks:
    """The asks of one post or answer, in their order. They are applied at the end of its block.

    Each method adds one ask, or raises and adds none: `Refused` if the schema lacks a class, slot, space or label that it
    names, `TypeError` and `OverflowError` if the value is of a kind that the slot doesn't hold or C can't take,
    `OutOfMemory`, and `Misuse` once the block has ended. A unit need not be live yet: what is wrong with an ask only when
    it is applied is not raised. `refused` has these asks then, and the trace a line `refused ask I R` for each.
    """

    def __init__(self, run: Run) -> None:
        self._run = run
        self._count = 0
        self._is_open = True
        self._first = run.next
        self._classes: dict[int, str | None] = {}
        self._new = 0
        self.refused: list[RefusedAsk] = []

    def __len__(self) -> int:
        """The number of asks."""
        return self._count

    def __bool__(self) -> bool:
        """These are asks, also if there is none yet."""
        return True

    def __repr__(self) -> str:
        return f"<railcitron.Asks: {self._count}, {'gathered' if self._is_open else 'applied or forgotten'}>"

    def new(self, class_name: str) -> int:
        """Asks for a new unit. Returns the number that it will have, unless an earlier one of these asks is refused."""
        if class_name not in self._run.schema.classes:
            raise Refused(None, f"the schema has no class {class_name!r}")
        self._ask("bb_ask_new", *as_bytes(class_name))
        number = self._first + self._new
        self._new += 1
        self._classes[number] = class_name
        return number

    def set(self, unit: int, slot: str, value: Value) -> None:
        """Asks that an ordinary slot of a unit hold a value. A slot of labels takes a label by its name, as a `str`."""
        held = self._slot(unit, slot)
        if held and held.kind == "label" and held.of and kind_of(value) == "text":
            value = Label(held.of, str(value))
        if held and kind_of(value) not in (held.kind, None):
            raise TypeError(f"the slot {slot} holds {held.kind}, and not a {type(value).__name__}")
        at = (as_unit(unit), *as_bytes(slot))
        match value:
            case bool():
                self._ask("bb_ask_bool", *at, value)
            case int():
                self._ask("bb_ask_int", *at, as_int(value))
            case Label(set=names, label=label):
                if held and held.of != names:
                    raise Refused(None, f"the slot {slot} holds labels of {held.of}, and not of {names}")
                why = f"the schema has no label {label!r} in a set {names!r}"
                self._ask("bb_ask_label", *at, *as_bytes(names), *as_bytes(label), why=why)
            case str():
                self._ask("bb_ask_text", *at, *as_bytes(value))
            case Interval(low, high):
                why = f"the interval [{low},{high}] ends before it begins"
                self._ask("bb_ask_interval", *at, as_int(low), as_int(high), why=why)
            case _:
                raise TypeError(f"a slot holds no {type(value).__name__}")

    def link(self, unit: int, slot: str, other: int) -> None:
        """Asks for a link of a unit to another."""
        self._want_link(unit, slot)
        self._ask("bb_ask_link", as_unit(unit), *as_bytes(slot), as_unit(other))

    def unlink(self, unit: int, slot: str, other: int) -> None:
        """Asks that a link of a unit to another be removed."""
        self._want_link(unit, slot)
        self._ask("bb_ask_unlink", as_unit(unit), *as_bytes(slot), as_unit(other))

    def enter(self, unit: int, space: str) -> None:
        """Asks that a unit enter a space."""
        self._want_space(space)
        self._ask("bb_ask_enter", as_unit(unit), *as_bytes(space))

    def leave(self, unit: int, space: str) -> None:
        """Asks that a unit leave a space."""
        self._want_space(space)
        self._ask("bb_ask_leave", as_unit(unit), *as_bytes(space))

    def delete(self, unit: int) -> None:
        """Asks that a unit be deleted, with its parts."""
        self._ask("bb_ask_delete", as_unit(unit))

    def say(self, text: str) -> None:
        """Asks that a text be said."""
        self._ask("bb_ask_say", *as_bytes(text))

    def _ask(self, name: str, *passed: Any, why: str = "a name is refused") -> None:
        if not self._is_open:
            raise Misuse("these asks were posted, or answered by, or forgotten")
        status = self._run._call(name, *passed)
        if status == calls.REFUSED:
            raise Refused(None, why)
        if status == calls.MEMORY:
            raise OutOfMemory("there is no memory for the ask, which was not added")
        if status != calls.OK:
            raise Misuse("there is no run, or it was finished")
        self._count += 1

    def _class(self, unit: int) -> tuple[str, Class] | None:
        """The class of a unit, if it is live or one of these asks makes it."""
        if unit not in self._classes:
            self._classes[unit] = self._run.class_of(unit)
        name = self._classes[unit]
        return (name, self._run.schema.classes[name]) if name else None

    def _slot(self, unit: int, slot: str) -> Slot | None:
        """The ordinary slot of a unit, if its class is known."""
        if (found := self._class(unit)) is None:
            return None
        if slot not in found[1].slots:
            raise Refused(None, f"the class {found[0]} has no ordinary slot {slot!r}")
        return found[1].slots[slot]

    def _want_link(self, unit: int, slot: str) -> None:
        found = self._class(unit)
        if found and slot not in found[1].links:
            raise Refused(None, f"the class {found[0]} has no link slot {slot!r}")

    def _want_space(self, space: str) -> None:
        if space not in self._run.schema.spaces:
            raise Refused(None, f"the schema has no space {space!r}")
