"""What a host can look up of a run, and read of its trace."""

from __future__ import annotations

import ctypes
import os
from collections.abc import Iterator
from typing import Literal

from . import _library as calls
from . import notes
from ._asks import as_bytes, as_unit, within
from ._faults import Misuse
from ._held import Held
from ._schema import Slot
from ._values import Activation, Interval, Label, Value

Ending = Literal["quiescence", "limit", "full"]

# The bytes of a name, at most.
_NAME = 32


class Looks(Held):
    """The looks at a run, and the readings of its trace: none changes the run."""

    def __init__(self, data: bytes, library: str | os.PathLike[str] | ctypes.CDLL | None) -> None:
        super().__init__(data, library)
        self._ending: Ending | None = None
        # Slots that were read, by their names. Another class may have another slot of a name, so labels are not among them.
        self._kept: dict[str, Slot] = {}

    def read(self) -> str:
        """Returns what the run told since it was read last. Raises `Misuse` if there is no run."""
        return self._take_told()

    def skip(self) -> None:
        """Discards what the run told since it was read last, which is kept in memory until then. Raises `Misuse` if there is no run."""
        if self._call("bb_skip") == calls.MISUSE:
            raise Misuse("there is no run")
        self._told = []

    def lines(self) -> Iterator[str]:
        """Iterates over the lines that the run told since it was read last, without their ends. They are read at once.

        Texts in a trace may have characters at which `str.splitlines` splits, so this does not. Raises what `read` raises.
        """
        told = self.read()
        return iter(told.removesuffix("\n").split("\n") if told else ())

    def notes(self) -> Iterator[notes.Note]:
        """Iterates over the whole lines that the run told since it was read last, as values. They are read at once.

        Raises what `read` raises.
        """
        told, end, rest = self.read().rpartition("\n")
        if rest:
            self._told.append(rest)
        return map(notes.parse, told.split("\n") if end else ())

    def class_of(self, unit: int) -> str | None:
        """Returns the name of the class of a unit, or None if there is no such unit.

        Raises `OverflowError` for a number that no unit can have, and `Misuse` if there is no run.
        """
        return self._text("bb_class", as_unit(unit))

    def get(self, unit: int, slot: str) -> Value:
        """Returns the value of an ordinary slot of a unit.

        Raises `KeyError` if there is no such unit, or its class has no such slot; and what `class_of` raises.
        """
        at = (as_unit(unit), *as_bytes(slot))
        kept = self._kept.get(slot)
        if kept and (value := self._value(kept, at)) is not None:
            return value
        held = self._slot_of(unit, slot)
        if held.of is None:
            self._kept[slot] = held
        if (value := self._value(held, at)) is None:
            raise KeyError((unit, slot))
        return value

    def _value(self, held: Slot, at: tuple[int, bytes, int]) -> Value | None:
        """What a slot of a unit holds, if it is such a slot."""
        low, high, truth = ctypes.c_int64(), ctypes.c_int64(), ctypes.create_string_buffer(1)
        if held.kind == "int":
            return low.value if self._looked("bb_int", *at, ctypes.byref(low)) else None
        if held.kind == "bool":
            return truth.raw != b"\0" if self._looked("bb_bool", *at, truth) else None
        if held.kind == "interval":
            is_there = self._looked("bb_interval", *at, ctypes.byref(low), ctypes.byref(high))
            return Interval(low.value, high.value) if is_there else None
        if held.kind == "text":
            return self._text("bb_text", *at)
        label = self._text("bb_label", *at)
        return None if label is None or held.of is None else Label(held.of, label)

    def _slot_of(self, unit: int, slot: str) -> Slot:
        """An ordinary slot of a unit, as the schema declares it."""
        class_name = self.class_of(unit)
        slots = self.schema.classes[class_name].slots if class_name else {}
        if slot not in slots:
            raise KeyError((unit, slot))
        return slots[slot]

    def links(self, unit: int, slot: str) -> list[int]:
        """Returns the numbers of a unit's partners by a link slot, in the order of linking; by an ordinary slot there are none.

        Raises `KeyError` if there is no such unit, or its class has no such slot; `OutOfMemory`; and what `class_of` raises.
        """
        if (found := self._units("bb_links", as_unit(unit), *as_bytes(slot))) is None:
            raise KeyError((unit, slot))
        return found

    def units(self, class_name: str) -> list[int]:
        """Returns the numbers of the units of a class, and of the classes below it, ascending.

        Raises `KeyError` if there is no such class, or the run was finished; `OutOfMemory`; and `Misuse` if there is no run.
        """
        if (found := self._units("bb_units", *as_bytes(class_name))) is None:
            raise KeyError(class_name)
        return found

    def members(self, space: str) -> list[int]:
        """Returns the numbers of the units in a space, ascending.

        Raises `KeyError` if there is no such space, or the run was finished; `OutOfMemory`; and `Misuse` if there is no run.
        """
        if (found := self._units("bb_members", *as_bytes(space))) is None:
            raise KeyError(space)
        return found

    def pending(self) -> list[Activation]:
        """Returns the pending activations, by ascending number.

        Raises `OutOfMemory`, and `Misuse` if there is no run or it was finished.
        """
        if (found := self._units("bb_pending")) is None:
            raise Misuse("the run was finished")
        return [it for it in map(self._activation, found) if it is not None]

    @property
    def choice(self) -> Activation | None:
        """The activation that the next cycle executes, or None if none can be chosen, or the run was finished. It is not known
        after `OutOfMemory` of a move. Raises `Misuse` if there is no run."""
        number = ctypes.c_uint64()
        return self._activation(number.value) if self._looked("bb_choice", ctypes.byref(number)) else None

    def _activation(self, number: int) -> Activation | None:
        """The activation with a number, if it is pending."""
        unit, base, rating = ctypes.c_uint64(), ctypes.c_int64(), ctypes.c_int64()
        passed = (number, ctypes.byref(unit), ctypes.byref(base), ctypes.byref(rating))
        if (source := self._text("bb_activation", *passed)) is None:
            return None
        return Activation(number, source, unit.value or None, base.value, rating.value)

    def __iter__(self) -> Iterator[int]:
        """Iterates over the numbers of all units, ascending, as they are now. Raises `OutOfMemory`, and `Misuse` if there is
        no run or it was finished."""
        if self._ending is not None:
            raise Misuse("the run was finished")
        return iter(sorted(unit for top in self.schema.tops() for unit in self.units(top)))

    def __contains__(self, unit: object) -> bool:
        """Whether there is a unit of that number. Raises `Misuse` if there is no run."""
        return isinstance(unit, int) and 0 <= unit < 1 << 64 and self.class_of(unit) is not None

    def document(self) -> str:
        """Returns the blackboard as a document of initial units, which an input has below its line `%units`. Units have new
        numbers there, from 1 without gaps; pending activations are left out.

        Raises `OutOfMemory`, and `Misuse` if there is no run or it was finished.
        """
        if (text := self._text("bb_document")) is None:
            raise Misuse("the run was finished")
        return text

    def most_steps(self, found: int = 1 << 16) -> int:
        """Returns the maximum number of steps of one execution of any code of the sources, if no sequence that it finds has
        more than `found` units; at most 2^64 - 1. A turn may execute several: an action, and what its events ask of sources.

        Raises `OverflowError` if `found` is negative or not below 2^32, and `Misuse` if there is no run or it was finished.
        """
        steps = ctypes.c_uint64()
        if not self._looked("bb_most_steps", within(found, 0, 1 << 32), ctypes.byref(steps)):
            raise Misuse("the run was finished")
        return steps.value

    @property
    def creates(self) -> bool:
        """Whether a code of the sources has an op that creates a unit. Raises `Misuse` if there is no run or it was finished."""
        truth = ctypes.create_string_buffer(1)
        if not self._looked("bb_creates", truth):
            raise Misuse("the run was finished")
        return truth.raw != b"\0"

    @property
    def due(self) -> tuple[int, str] | None:
        """The unit on which a native is due, and the native's name, or None if none is. Raises `Misuse` if there is no run."""
        unit, name, length = ctypes.c_uint64(), ctypes.create_string_buffer(_NAME), ctypes.c_size_t()
        if not self._looked("bb_due", ctypes.byref(unit), name, _NAME, ctypes.byref(length)):
            return None
        return unit.value, name.raw[: length.value].decode()

    @property
    def next(self) -> int:
        """The number of the next new unit, without the asks that are gathered; 0 if there is no run, or it was finished."""
        return int(self._call("bb_next"))

    @property
    def made(self) -> int:
        """The number of cycles that were made; 0 if there is no run, or it was finished."""
        return int(self._call("bb_made"))
