"""What is named in an input, and where: a symbol for each thing, and a use for each place of its name."""

import re
from bisect import bisect_right
from typing import NamedTuple

NAME = re.compile("[a-z][a-z0-9_]*")
NAME_LIMIT = 31


class Symbol(NamedTuple):
    """A thing with a name: its sort, and whose it is: a slot's class, a dimension's space, a label's set."""

    sort: str
    name: str
    owner: str = ""


class Use(NamedTuple):
    """A place of a symbol's name. An entry declares it."""

    start: int
    end: int
    symbol: Symbol
    is_entry: bool


class Uses:
    """All places of names. Those whose symbol is declared nowhere are left out when they are finished."""

    def __init__(self) -> None:
        self.known: set[Symbol] = set()
        self.all: list[Use] = []
        self.starts: list[int] = []

    def add(self, symbol: Symbol, span: tuple[int, int], is_entry: bool = False) -> None:
        """A name at a span. A second entry of a symbol is only another place: the first one counts."""
        is_first = is_entry and symbol not in self.known
        if is_entry:
            self.known.add(symbol)
        self.all.append(Use(*span, symbol, is_first))

    def know(self, symbol: Symbol) -> None:
        """A symbol that needs no entry."""
        self.known.add(symbol)

    def finish(self) -> None:
        self.all = sorted(it for it in self.all if it.symbol in self.known)
        self.starts = [it.start for it in self.all]

    def at(self, offset: int) -> Use | None:
        """The name at an offset, also at its end."""
        at = bisect_right(self.starts, offset) - 1
        return self.all[at] if at >= 0 and offset <= self.all[at].end else None

    def of(self, symbols: set[Symbol]) -> list[Use]:
        return [it for it in self.all if it.symbol in symbols]

    def entry(self, symbol: Symbol) -> Use | None:
        """Where a symbol is declared; None for what each schema has."""
        return next((it for it in self.all if it.is_entry and it.symbol == symbol), None)
