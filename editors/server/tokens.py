"""The tokens of a text of sources. Any text has some: a capital, or a text without its end, is for `bb check` to refuse."""

import re
from typing import NamedTuple

TOKEN = re.compile(
    r'(?P<comment>//[^\n]*)|(?P<text>"(?:\\.|[^"\\\n])*"?)|(?P<number>[0-9]+)|(?P<word>[A-Za-z_][A-Za-z0-9_]*)|(?P<sign><=|\S)'
)


class Token(NamedTuple):
    """A token: its sort, what it is, and where it begins and ends."""

    sort: str
    word: str
    start: int
    end: int


def tokens_of(whole: str, start: int, end: int) -> list[Token]:
    """The tokens between two offsets, without comments."""
    found = (Token(it.lastgroup or "", it[0], *it.span()) for it in TOKEN.finditer(whole, start, end))
    return [it for it in found if it.sort != "comment"]


def span_at(line: str, column: int) -> tuple[int, int]:
    """The token at a column of a line, from 0; behind the last one, that one."""
    spans = [it.span() for it in TOKEN.finditer(line)]
    last = next((it for it in reversed(spans) if it[0] <= column), None)
    if last is None:
        return (column, column) if not spans else spans[0]
    after = next((it for it in spans if it[0] > column), None)
    return after if after and column >= last[1] else last
