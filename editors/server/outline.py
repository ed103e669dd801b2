"""The outline of an input: its sections, and in them classes with their slots, spaces, units, sources with their parts."""

from collections.abc import Iterator
from dataclasses import dataclass, field

from documents import Node
from input import Input
from sources import Source

# Numbers of the protocol for what an entry is.
MODULE, CLASS, FIELD, ENUM, MEMBER, FUNCTION, OBJECT, STRUCT, KEY, EVENT = 2, 5, 8, 10, 22, 12, 19, 23, 20, 24
UNIT_LIMIT = 2_000


@dataclass
class Entry:
    """An entry: what it is, all of it, the span of its name, and the entries in it."""

    name: str
    sort: int
    span: tuple[int, int]
    word: tuple[int, int]
    inner: list["Entry"] = field(default_factory=list)
    detail: str = ""


def outline_of(whole: Input) -> list[Entry]:
    """The sections, in their order."""
    entries = []
    for it in whole.sections.values():
        word = it.head, it.head + len(it.header)
        inner = sorted(inner_of(whole, it.header), key=lambda entry: entry.span)
        entries.append(Entry(it.header, MODULE, (it.head, max(it.end, word[1])), word, inner))
    return entries


def inner_of(whole: Input, header: str) -> list[Entry]:
    document = whole.documents.get(header)
    if header == "%sources":
        return [of_source(it) for it in whole.sources]
    if header == "%bundle":
        return [of_source(it) for it in whole.bundled]
    if not document:
        return []
    if header == "%units":
        return [*named(document.list_of("units")[:UNIT_LIMIT], OBJECT)]
    labels = [*named(document.list_of("labels"), ENUM, ("values",), MEMBER)]
    classes = [*named(document.list_of("classes"), CLASS, ("slots", "links"), FIELD)]
    return [*labels, *classes, *named(document.list_of("spaces"), STRUCT, ("dims",), KEY)]


def named(nodes: list[Node], sort: int, keys: tuple = (), inner: int = 0) -> Iterator[Entry]:
    """Entries of a document: those that have a name, with those in their lists."""
    for it in nodes:
        name = it if it.sort == "text" else it.get("name")
        if name and name.text:
            within = [entry for key in keys for entry in named(it.list_of(key), inner)]
            of = it.get("class")
            yield Entry(name.text, sort, (it.start, it.end), name.inner, within, of.text if of else "")


def of_source(source: Source) -> Entry:
    """A source, with its parts."""
    parts = [Entry(it.name, EVENT, (it.start, max(it.end, it.word[1])), it.word) for it in source.parts]
    name = source.name or "source"
    return Entry(name, FUNCTION, (source.start, max(source.end, source.word[1])), source.word, parts, source.of)
