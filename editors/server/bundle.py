"""Reads the lines of a bundle for names. Its codes have numbers in place of names, but for the texts in them."""

import re
from collections.abc import Iterator

from names import Symbol, Uses
from schema import Schema
from sections import Section
from sources import Part, Source
from text import Text
from words import MOVES, PARTS, REACTIONS

WORD = re.compile(r"\S+")


class Words:
    """The words of a line, each with its span."""

    def __init__(self, text: Text, line: int):
        self.start, self.end = text.line_span(line)
        self.found = [(it[0], it.span()) for it in WORD.finditer(text.whole, self.start, self.end)]

    def word(self, at: int) -> str:
        return self.found[at][0] if at < len(self.found) else ""


def lines_of(text: Text, section: Section) -> Iterator[Words]:
    """The lines of the section that are not empty."""
    lines = range(text.line_at(section.start), text.line_at(section.end) + 1) if section.start < section.end else ()
    for line in lines:
        words = Words(text, line)
        if words.found and words.start < section.end:
            yield words


def bundle_of(text: Text, section: Section, schema: Schema, uses: Uses) -> list[Source]:
    """The sources of a bundle, each part with its line."""
    sources: list[Source] = []
    for words in lines_of(text, section):
        first = words.word(0)
        if first == "source" and words.word(1):
            add_source(sources, words, uses)
        elif sources and first in (*PARTS, "native"):
            part = Part(first, words.start, words.end, words.found[0][1])
            sources[-1].parts.append(part)
            sources[-1].is_native |= first == "native"
            use_class(words, 1 if first in REACTIONS else 9, uses)
        elif first == "when":
            use_event(words, schema, uses)
        if sources:
            sources[-1].end = words.end
    return sources


def add_source(sources: list[Source], words: Words, uses: Uses) -> None:
    name, span = words.found[1]
    sources.append(Source(name, words.word(2), words.start, words.end, span))
    uses.add(Symbol("source", name), span, True)
    use_class(words, 2, uses)


def use_class(words: Words, at: int, uses: Uses) -> None:
    if words.word(at):
        uses.add(Symbol("class", words.word(at)), words.found[at][1])


def use_event(words: Words, schema: Schema, uses: Uses) -> None:
    """A line `when`: its class, and its slot or space."""
    if not words.word(2):
        return
    start = words.found[2][1][0]
    of, dot, slot = words.word(2).partition(".")
    uses.add(Symbol("class", of), (start, start + len(of)))
    found = schema.slot(of, slot) if dot else None
    if found:
        uses.add(found.symbol, (start + len(of) + 1, start + len(of) + 1 + len(slot)))
    if words.word(1) in MOVES and words.word(3):
        uses.add(Symbol("space", words.word(3)), words.found[3][1])
