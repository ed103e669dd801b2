"""The sections of an input, also of one that is not whole: `bb check` says what is wrong with it, not this."""

from typing import NamedTuple

from text import Text

HEADERS = ("%schema", "%units", "%sources", "%bundle")


class Section(NamedTuple):
    """A section: its header, where that begins, and where its text begins and ends."""

    header: str
    head: int
    start: int
    end: int


def header_at(text: Text, line: int) -> str:
    """The header that a line is, or nothing."""
    start = text.starts[line]
    if not text.whole.startswith("%", start):
        return ""
    start, end = text.line_span(line)
    word = text.whole[start:end]
    return word if word in HEADERS else ""


def sections_of(text: Text) -> dict[str, Section]:
    """The sections by their headers. Of two with one header, the first counts."""
    found: dict[str, Section] = {}
    heads = [line for line in range(len(text.starts)) if header_at(text, line)]
    for line, after in zip(heads, [*heads[1:], len(text.starts)]):
        header = header_at(text, line)
        start = text.starts[line + 1] if line + 1 < len(text.starts) else len(text.whole)
        end = text.starts[after] if after < len(text.starts) else len(text.whole)
        found.setdefault(header, Section(header, text.starts[line], start, end))
    return found
