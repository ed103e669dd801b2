"""What the schema of an input declares. The library has accepted it, so nothing is checked here."""

from __future__ import annotations

import json
import re
from typing import Any, NamedTuple

# The header line after the schema.
_HEADER = re.compile(rb"^%(?:units|sources|bundle)\r?(?:\n|\Z)", re.M)


class Slot(NamedTuple):
    """An ordinary slot: its kind, and its label set if it holds labels."""

    kind: str
    of: str | None


class Class(NamedTuple):
    """A class: its parent's name, and its ordinary slots and link slots, with the inherited ones."""

    parent: str | None
    slots: dict[str, Slot]
    links: frozenset[str]


FOCUS = Class(
    None,
    {"source": Slot("text", None), "area": Slot("text", None), "weight": Slot("int", None), "active": Slot("bool", None)},
    frozenset(),
)


class Schema:
    """The classes of a schema, with their slots, and the names of its spaces."""

    def __init__(self, text: bytes) -> None:
        read: dict[str, Any] = json.loads(text)
        self.classes: dict[str, Class] = {"focus": FOCUS}
        for entry in read.get("classes", []):
            self.classes[entry["name"]] = self._class_of(entry)
        self.spaces = frozenset(it["name"] for it in read.get("spaces", []))

    def _class_of(self, entry: dict[str, Any]) -> Class:
        parent = entry.get("parent")
        above = self.classes[parent] if parent else Class(None, {}, frozenset())
        slots = {it["name"]: Slot(it["kind"], it.get("of")) for it in entry.get("slots", [])}
        links = {it["name"] for it in entry.get("links", [])}
        return Class(parent, {**above.slots, **slots}, above.links | links)

    def tops(self) -> list[str]:
        """The classes without a parent: each unit is of one of them, or of a class below one."""
        return [name for name, it in self.classes.items() if it.parent is None]


def section_of(data: bytes) -> bytes:
    """The schema's section of an input."""
    begin = data.find(b"\n") + 1
    header = _HEADER.search(data, begin)
    return data[begin : header.start() if header else len(data)]
