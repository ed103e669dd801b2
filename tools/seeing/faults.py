"""Reads what the program says on standard error of an input: faults, warnings and costs, with their places."""

import sys
from dataclasses import dataclass, field
from pathlib import Path

# Last, as that folder has modules of the same names as this one.
sys.path.append(str(Path(__file__).resolve().parent.parent.parent / "editors/server"))
from messages import SEVERITIES, said_in  # noqa: E402

KINDS = {number: word for word, number in SEVERITIES.items()}


@dataclass(slots=True)
class Fault:
    """A message: `error`, `warning` or `note`, and the line and the column of the input, 0 where it names none."""

    kind: str
    text: str
    line: int = 0
    column: int = 0
    number: str = ""
    notes: list[str] = field(default_factory=list)


def faults_of(told: str) -> list[Fault]:
    """The messages, each with the notes below it."""
    return [Fault(KINDS[it.severity], it.told, it.line, it.column, it.code, it.below) for it in said_in(told)]
