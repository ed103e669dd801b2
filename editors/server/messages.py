"""Reads what `bb check` writes: faults, warnings and costs on standard error, and the cost of parts on standard output.

A message may be followed by notes, lines that begin with `  | `. Two of them may show a line of the input, with a caret:

    input:7:12: error[compile 1]: "hello" is no name here; in scope: it
      | source hail, line 4 of %sources
      |   do { say hello; }
      |            ^

The language server, `tools/messages`, `tools/explain` and `tools/workbench` all read messages by this module. It imports
nothing but `tokens` of this folder.
"""

import re
from dataclasses import dataclass, field

from tokens import span_at

ERROR, WARNING, INFORMATION = 1, 2, 3
SEVERITIES = {"error": ERROR, "warning": WARNING, "note": INFORMATION}
NOTE = "  | "
# A host that passes sections, and no whole input, has lines of a section: `%sources:4:12: `.
MESSAGE = re.compile(
    r"(input|%(?:schema|units|sources|bundle))(?::(\d+))?(?::(\d+))?: (error|warning|note)(?:\[([^\]]*)\])?: (.*)"
)
# What a sentence begins with: whose it is, or the entry of a document, whose section the number of the fault names.
PLACE = re.compile(
    r"(?:the first units would be refused: )?(source [a-z]\w*(?:, [^:]*)?|((?:labels|classes|spaces|units|links)\[[^:]*)): (.*)"
)
# A note that tells the place once more, by the lines of a section; the notes below a line of the input that is shown, and
# instead of one.
SHOWN = re.compile(r"source [a-z]\w*(?:, \w+)?|(?:source [a-z]\w*(?:, \w+)?, )?line \d+ of %\w+")
CARET = re.compile(r" *\^")
BYTE = re.compile(r"byte \d+ of the code, which has \d+")
# What stands where a line of the input that is shown continues.
MORE = ".."
ROW = re.compile(r"(\w+) (require|obviate|retrigger|revalidate|do) ops (\d+) budget (\d+) (\d+)")
REFUSED = re.compile(r"refused (\w+)(?: .*?)?( code)? (\w+)")


@dataclass
class Said:
    """A message: its line and column in the input, from 1, or 0 if it has none; what it begins with; and its sentence."""

    severity: int
    sentence: str
    line: int = 0
    column: int = 0
    place: str = ""
    code: str = ""
    # The notes, without those that only show the place.
    notes: list[str] = field(default_factory=list)
    # What its lines and columns count in, `input` or a section; the sentence and all that is below it, as written.
    origin: str = "input"
    told: str = ""
    below: list[str] = field(default_factory=list)
    # The line of the input that is shown, the column after the word at its caret, or 0, and what is below without both.
    excerpt: str | None = None
    end: int = 0
    beside: list[str] = field(default_factory=list)


def said_in(told: str) -> list[Said]:
    """The messages of a check, in their order."""
    found: list[Said] = []
    is_note_of_one = False
    for line in told.replace("\r\n", "\n").split("\n"):
        said = None if line.startswith(NOTE) else said_by(line)
        if said:
            found.append(said)
            is_note_of_one = True
        elif line.startswith(NOTE) and is_note_of_one:
            found[-1].below.append(line[len(NOTE) :])
        else:
            is_note_of_one = False
    for said in found:
        take_notes(said)
    return found


def said_by(line: str) -> Said | None:
    """The message that a line is; None if it is another line."""
    message = MESSAGE.fullmatch(line)
    if not message:
        return None
    said = Said(SEVERITIES[message[4]], message[6], int(message[2] or 0), int(message[3] or 0), code=message[5] or "")
    said.origin, said.told = message[1], message[6]
    place = PLACE.fullmatch(said.sentence)
    if place:
        section = said.code.partition(" ")[0]
        said.place, said.sentence = f"{section}, {place[2]}" if place[2] else place[1], place[3]
    return said


def take_notes(said: Said) -> None:
    """Takes the line that is shown from what is below a message, and the notes that tell more than the place."""
    places = {index for index, note in enumerate(said.below) if SHOWN.fullmatch(note)}
    shown = shown_line(said.below, places)
    taken: set[int] = set()
    if shown is not None:
        line = said.excerpt = said.below[shown]
        taken = {shown}
        if is_caret(said.below, shown + 1):
            taken.add(shown + 1)
            said.end = end_of(said.column, line, len(said.below[shown + 1]) - 1)
    for index, note in enumerate(said.below):
        if index not in taken:
            said.beside.append(note)
            numbered = re.match(r"line \d+: (.*)", note)
            if index not in places:
                said.notes.append(numbered[1] if numbered and said.code.startswith("input ") else note)


def shown_line(notes: list[str], places: set[int]) -> int | None:
    """The index of the note that is a line of the input: the one above a caret, or below the note of a place."""
    above = next((it - 1 for it in range(1, len(notes)) if is_caret(notes, it)), None)
    if above is not None:
        # The line may be a caret itself, below the note of its place.
        return above + 1 if above in places and is_caret(notes, above + 2) else above
    below = min(places, default=len(notes)) + 1
    return below if below < len(notes) and not BYTE.fullmatch(notes[below]) else None


def is_caret(notes: list[str], index: int) -> bool:
    return index < len(notes) and CARET.fullmatch(notes[index]) is not None


def end_of(column: int, excerpt: str, caret: int) -> int:
    """The column after the word at a caret; 0 where no word stands there, or the line that is shown ends in it."""
    first, last = span_at(excerpt, caret)
    is_cut = excerpt.endswith(MORE) and last > len(excerpt) - len(MORE) - 1
    return column + last - caret if column and first <= caret < last and not is_cut else 0


def code_of(output: str) -> str:
    """The number of a refusal by the line on standard output, as `compile 1`; nothing if it has none."""
    first = REFUSED.fullmatch(output.partition("\n")[0])
    return f"{first[1]}{first[2] or ''} {first[3]}" if first else ""


def costs_in(output: str) -> dict[tuple[str, str], tuple[str, ...]]:
    """Of each part, by its source and its name: its ops, and its budgets for nothing found and for one unit."""
    rows = (ROW.fullmatch(line) for line in output.splitlines())
    return {(it[1], it[2]): it.groups()[2:] for it in rows if it}
