"""Finds the words that a message of `bb check` is about, in the input that was checked."""

import re

from documents import Node
from input import Input
from messages import Said
from tokens import span_at

STEP = re.compile(r"(\w+)\[(\d+)\]")
QUOTED = re.compile(r'"([^"]+)"')


def span_of(said: Said, whole: Input) -> tuple[int, int]:
    """The offsets of what a message is about: the word at its line and column, else what its place names."""
    words = said.place.split(", ")
    if said.line:
        return span_of_line(said.line, said.column, whole)
    if words[0] in ("schema", "units"):
        return span_of_entry(said, f"%{words[0]}", whole)
    relative = re.search(r"line (\d+)", said.place)
    section = whole.sections.get("%bundle" if words[0] == "bundle" else "%sources")
    if relative and section:
        return span_of_line(whole.text.line_at(section.start) + int(relative[1]), said.column, whole)
    source = whole.source_of(words[0].removeprefix("source ")) if words[0].startswith("source ") else None
    part = next((it for it in source.parts if it.name in words), None) if source else None
    if part:
        return part.word
    return source.word if source else span_of_line(1, 0, whole)


def span_of_line(line: int, column: int, whole: Input) -> tuple[int, int]:
    """The word at a line and a column, both from 1; without a column the words of the line."""
    text = whole.text
    start, end = text.line_span(min(max(line, 1), len(text.starts)) - 1)
    shown = text.whole[start:end]
    if not column:
        return start + len(shown) - len(shown.lstrip()), start + len(shown.rstrip() or shown)
    first, last = span_at(shown, min(column - 1, len(shown)))
    return start + first, start + last


def span_of_entry(said: Said, header: str, whole: Input) -> tuple[int, int]:
    """What an entry of a document, as `classes[3].links[0]`, has that its notes quote, else its name, else all of it."""
    document = whole.documents.get(header)
    if not document:
        section = whole.sections.get(header)
        return span_of_line(whole.text.line_at(section.head) + 1 if section else 1, 0, whole)
    path = tuple(it for key, index in STEP.findall(said.place) for it in (key, int(index)))
    entry = document.at(path)
    if not path or not entry:
        return first_line(document, whole)
    quoted = [it for note in said.notes for it in QUOTED.findall(note.partition(": ")[2] or note)]
    texts = list(entry.texts())
    found = next((it for word in quoted for it in texts if it.text == word), None)
    return found.inner if found else name_of(entry, whole)


def name_of(entry: Node, whole: Input) -> tuple[int, int]:
    """The name of an entry, or its first line."""
    name = entry.get("name")
    if entry.sort == "text":
        return entry.inner
    return name.inner if name and name.sort == "text" else first_line(entry, whole)


def first_line(node: Node, whole: Input) -> tuple[int, int]:
    """A value as far as its first line goes."""
    return node.start, min(node.end, whole.text.line_span(whole.text.line_at(node.start))[1])
