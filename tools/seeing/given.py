"""Reads an input, as docs/users/formats/inputs.md has it: what a page shows of a run that its trace does not tell.

An input of a run was accepted by the program, so only what a page needs is looked at.
"""

import json
import re
from collections.abc import Callable, Iterator
from dataclasses import dataclass
from pathlib import Path
from typing import NamedTuple

from foci import Held

HEADERS = ["%schema", "%units", "%sources", "%bundle"]
SIZE_LIMIT = 16_777_216
PARTS = ["require", "obviate", "retrigger", "revalidate", "do", "native"]

# The tokens of a text of sources that tell where a source and its parts begin and end.
TOKEN = re.compile(r'//[^\n]*|"(?:\\.|[^"\\\n])*"|[a-z][a-z0-9_]*|[{};.]')


class NoInput(Exception):
    """Why a file is no input of a run."""

    def __init__(self, why: str):
        super().__init__(f"input: {why}")


class Section(NamedTuple):
    """The lines of a section, and the number of the first of them in the input."""

    first: int
    lines: list[str]


class Piece(NamedTuple):
    """A piece of a source's text: its first line in the input, and the part that it is, which may be none."""

    part: str
    line: int
    text: str


@dataclass(slots=True)
class Written:
    """A source as the input has it: its class with those above that, and its text, cut where parts begin and end."""

    name: str
    classes: tuple[str, ...]
    pieces: list[Piece]

    @property
    def is_native(self) -> bool:
        """Whether a native acts for it."""
        return any(it.part == "do" and it.text.lstrip().startswith("native") for it in self.pieces)


@dataclass(slots=True)
class First:
    """A first unit, and what it holds where it is a focus."""

    name: str
    of: str
    held: Held | None


@dataclass(slots=True)
class Given:
    """What the input in a file gives: its text, its classes, each with those above it, its first units, its sources."""

    file: str
    text: str
    classes: dict[str, tuple[str, ...]]
    firsts: list[First]
    sources: dict[str, Written]


def given_of(file: Path) -> Given:
    """What the input in a file gives."""
    return given_of_text(text_of(file), file.name)


def given_of_text(text: str, name: str) -> Given:
    """What an input gives, by its text and what it is called."""
    sections = sections_of(text)
    classes = read_document(sections, "%schema", classes_of)
    firsts = read_document(sections, "%units", lambda document: firsts_of(document, classes))
    texts = sources_of_text(sections["%sources"]) if "%sources" in sections else []
    bundled = sources_of_bundle(sections["%bundle"]) if "%bundle" in sections else []
    sources = {name: Written(name, classes_above(classes, of), pieces) for name, of, pieces in [*texts, *bundled]}
    return Given(name, text, classes, firsts, sources)


def text_of(file: Path) -> str:
    try:
        with file.open("rb") as opened:
            raw = opened.read(SIZE_LIMIT + 1)
    except OSError as fault:
        raise NoInput(f"{ascii(str(file))} can't be read: {fault.strerror}") from None
    if len(raw) > SIZE_LIMIT:
        raise NoInput(f"it has more than {SIZE_LIMIT:,} bytes")
    try:
        return raw.decode()
    except UnicodeDecodeError:
        raise NoInput("it is no UTF-8") from None


def sections_of(text: str) -> dict[str, Section]:
    """The sections, each under its header line."""
    lines = text.split("\n")
    found: dict[str, Section] = {}
    for number, line in enumerate(lines, 1):
        word = line.removesuffix("\r") if number < len(lines) else line
        if word not in HEADERS:
            if not found:
                raise NoInput("its first line is not %schema")
            found[next(reversed(found))].lines.append(line)
        elif HEADERS.index(word) <= max((HEADERS.index(it) for it in found), default=-1):
            raise NoInput(f"line {number}: {word} is out of order or there twice")
        else:
            found[word] = Section(number + 1, [])
    if "%schema" not in found:
        raise NoInput("its first line is not %schema")
    return found


# The documents


def read_document(sections: dict[str, Section], header: str, made: Callable):
    """What is made of a document, which is empty where there is none."""
    try:
        return made(json.loads("\n".join(sections[header].lines)) if header in sections else {})
    except (AttributeError, KeyError, TypeError, ValueError, RecursionError):
        raise NoInput(f"its {header} has another form than is due") from None


def classes_of(schema: dict) -> dict[str, tuple[str, ...]]:
    """Each class with those that it descends from, itself first."""
    found = {"focus": ("focus",)}
    for it in schema.get("classes", []):
        found[it["name"]] = it["name"], *(found[it["parent"]] if "parent" in it else ())
    return found


def firsts_of(document: dict, classes: dict[str, tuple[str, ...]]) -> list[First]:
    """The first units in their order, which is that of their numbers."""
    return [first_of(it["name"], it["class"], it.get("slots", {}), classes) for it in document.get("units", [])]


def first_of(name: str, of: str, slots: dict, classes: dict[str, tuple[str, ...]]) -> First:
    if not isinstance(name, str):
        raise TypeError("a name is a text")
    return First(name, of, held_of(slots) if "focus" in classes[of] else None)


def held_of(slots: dict) -> Held:
    """What a first unit holds as a focus: the defaults, but for the slots that are given."""
    held = Held(**{slot: slots[slot] for slot in Held._fields if slot in slots})
    if [type(it) for it in held] != [type(it) for it in Held()]:
        raise TypeError("a value is not of its slot's kind")
    return held


def classes_above(classes: dict[str, tuple[str, ...]], of: str) -> tuple[str, ...]:
    if of not in classes:
        raise NoInput(f"a source is on {ascii(of)}, a class that its %schema has not")
    return classes[of]


# Sources: each as its name, its class and its pieces


def sources_of_text(section: Section) -> Iterator[tuple[str, str, list[Piece]]]:
    """The sources of `%sources`. Each is `source NAME on CLASS { .. }`, and its parts stand in these brackets alone."""
    text = "\n".join(section.lines)
    heads: list[re.Match] = []
    parts: list[tuple[str, int, int]] = []
    part = ""
    for depth, token, found in tokens(text):
        if depth == 0:
            heads.append(found)
            if token == "}":
                name, of = named_by(heads, section.first + text.count("\n", 0, found.start()))
                yield name, of, list(pieces(text, section.first, heads[0].start(), parts, found.end()))
                heads, parts = [], []
        elif depth == 1 and not part and token in PARTS:
            part, begin = token, found.start()
        elif depth == 1 and token == (";" if part == "native" else "}"):
            parts.append((part, begin, found.end()))
            part = ""
    if heads:
        raise NoInput("its %sources end within a source")


def tokens(text: str) -> Iterator[tuple[int, str, re.Match]]:
    """Each token, with how many brackets are open around it. A word behind a dot is a name, so it is empty here."""
    depth, before = 0, ""
    for found in TOKEN.finditer(text):
        token = found[0]
        if token.startswith("//"):
            continue
        depth -= token == "}"
        yield depth, token if before != "." else "", found
        depth += token == "{"
        before = token


def named_by(heads: list[re.Match], line: int) -> tuple[str, str]:
    """The name and the class of a source, by what stands outside of its brackets."""
    words = [it[0] for it in heads]
    if len(words) != 6 or [words[0], words[2], *words[4:]] != ["source", "on", "{", "}"]:
        raise NoInput(f"what ends in line {line} is no source")
    return words[1], words[3]


def pieces(text: str, first: int, start: int, parts: list[tuple[str, int, int]], end: int) -> Iterator[Piece]:
    """The text of a source, cut where its parts begin and end; blanks before a part in its line belong to it."""
    cuts, at = [], start
    for part, begin, over in parts:
        line = text.rfind("\n", 0, begin) + 1
        begin = line if line > at and not text[line:begin].strip() else begin
        cuts += [("", at, begin), ("do" if part == "native" else part, begin, over)]
        at = over
    for part, at, over in [*cuts, ("", at, end)]:
        if at < over:
            yield Piece(part, first + text.count("\n", 0, at), text[at:over])


def sources_of_bundle(section: Section) -> Iterator[tuple[str, str, list[Piece]]]:
    """The sources of `%bundle`, where each part has its line, and a reaction more lines `when`."""
    sources: list[tuple[str, str, list[Piece]]] = []
    for number, line in enumerate(section.lines, section.first):
        line = line.removesuffix("\r")
        word, *others = line.split(" ")
        if word == "source" and len(others) == 3:
            sources.append((others[0], others[1], [Piece("", number, line)]))
        elif sources and word in ["", "when", *PARTS]:
            add_line(sources[-1][2], word, number, line)
        elif word:
            raise NoInput(f"line {number} is no line of a bundle")
    for name, of, found in sources:
        yield name, of, [*found[:-1], found[-1]._replace(text=found[-1].text.rstrip())]


def add_line(found: list[Piece], word: str, number: int, line: str) -> None:
    """A line of a source of a bundle: a piece of its own where it begins a part, or else the end of the last piece."""
    last = found[-1]
    found[-1] = last._replace(text=f"{last.text}\n")
    if word in PARTS:
        found.append(Piece("do" if word == "native" else word, number, line))
    else:
        found[-1] = last._replace(text=f"{last.text}\n{line}")
