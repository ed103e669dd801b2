"""Reads `%sources` for names: what each word names, and which names of values are in scope where.

It judges nothing, which `bb check` does: a word is known by the tokens next to it, so that half-typed text has names too.
The words `source` and those of the parts stand nowhere else, so what is not closed before them ends there.
"""

from dataclasses import dataclass, field

from names import Symbol, Uses
from schema import FOCUS, Schema, Slot
from tokens import Token
from units import NAMING
from values import Value, value_of
from words import EVENTS, MOVES, PARTS, REACTIONS, RESERVED, TESTS

NONE = Token("", "", 0, 0)


@dataclass
class Variable:
    """A name of a value: what it is, and from where to where it is in scope."""

    symbol: Symbol
    value: Value
    start: int = 0
    end: int = 0


@dataclass
class Part:
    """A part of a source. `ev` is the class of its event's unit, in a reaction."""

    name: str
    start: int
    end: int
    word: tuple[int, int]
    ev: str = ""
    # Where its block begins.
    body: int = -1


@dataclass
class Source:
    """A source: its class, its parts, and whether a native acts for it."""

    name: str
    of: str
    start: int
    end: int
    word: tuple[int, int]
    parts: list[Part] = field(default_factory=list)
    is_native: bool = False


class Reader:
    """Goes over the tokens once."""

    def __init__(self, tokens: list[Token], schema: Schema, uses: Uses, end: int):
        self.tokens = tokens
        # The words, where one behind a dot has it: a slot may have the name of a reserved word.
        self.words = [f".{it.word}" if at and tokens[at - 1].word == "." else it.word for at, it in enumerate(tokens)]
        self.schema = schema
        self.uses = uses
        self.end = end
        self.sources: list[Source] = []
        self.variables: list[Variable] = []
        # What foci name by values that are no written texts: sources, or classes.
        self.unknown: set[str] = set()
        # The names of each open block, those that come into scope with the next block or statement, and open brackets.
        self.blocks: list[list[Variable]] = []
        self.scope: dict[str, list[Variable]] = {}
        self.waiting: list[Variable] = []
        self.brackets = 0
        # The spaces of the searches around a token, each with how many brackets were open at it.
        self.finds: list[tuple[int, str]] = []
        self.when = -9

    def read(self) -> "Reader":
        """Reads all tokens. A source at their end stays open, until it is ended."""
        for at, token in enumerate(self.tokens):
            if token.sort == "word":
                self.read_word(at, token)
            elif token.sort == "sign":
                self.read_sign(token)
        return self

    def before(self, at: int, steps: int = 1) -> str:
        return self.words[at - steps] if at >= steps else ""

    def token(self, at: int) -> Token:
        return self.tokens[at] if at < len(self.tokens) else NONE

    # Brackets, and the end of statements

    def read_sign(self, token: Token) -> None:
        if token.word in "([":
            self.brackets += 1
        elif token.word in ")]":
            self.brackets = max(0, self.brackets - 1)
            while self.finds and self.finds[-1][0] > self.brackets:
                self.finds.pop()
        elif token.word in ";{}":
            self.brackets, self.finds, self.when = 0, [], -9
            getattr(self, {";": "end_statement", "{": "open", "}": "close"}[token.word])(token)

    def end_statement(self, token: Token) -> None:
        if self.blocks:
            self.bring(token.end, self.blocks[-1])
        if self.part and self.part.name == "native":
            self.end_part(token.end)

    def bring(self, start: int, block: list[Variable]) -> None:
        """What waits comes into scope."""
        for it in self.waiting:
            it.start = start
            self.scope.setdefault(it.symbol.name, []).append(it)
        block += self.waiting
        self.waiting = []

    def open(self, token: Token) -> None:
        if self.source:
            block: list[Variable] = []
            self.bring(token.end, block)
            self.blocks.append(block)
            if self.part and len(self.blocks) == 2:
                self.part.body = token.end

    def close(self, token: Token) -> None:
        self.waiting = []
        self.end_blocks(len(self.blocks) - 1, token.start)
        if len(self.blocks) == 1:
            self.end_part(token.end)
        elif not self.blocks:
            self.end_source(token.end)

    def end_blocks(self, count: int, end: int) -> None:
        """Ends all blocks but the first ones. Their names are in scope no more."""
        for it in [it for block in self.blocks[max(0, count) :] for it in block]:
            it.end = end
            self.scope[it.symbol.name].remove(it)
        del self.blocks[max(0, count) :]

    # Sources and their parts

    @property
    def source(self) -> Source | None:
        return self.sources[-1] if self.sources and self.sources[-1].end < 0 else None

    @property
    def part(self) -> Part | None:
        source = self.source
        return source.parts[-1] if source and source.parts and source.parts[-1].end < 0 else None

    def begin_source(self, at: int, token: Token) -> None:
        self.end_source(token.start)
        name, of = self.token(at + 1), self.token(at + 3)
        is_named = name.sort == "word" and name.word not in RESERVED
        has_class = self.token(at + 2).word == "on" and of.sort == "word"
        word = (name.start, name.end) if is_named else (token.start, token.end)
        source = Source(name.word if is_named else "", of.word if has_class else "", token.start, -1, word)
        self.sources.append(source)
        if is_named:
            self.uses.add(Symbol("source", name.word), word, True)

    def end_source(self, end: int) -> None:
        source = self.source
        if source:
            self.end_part(end)
            source.end = end
        self.end_blocks(0, end)
        self.waiting, self.brackets, self.finds, self.when = [], 0, [], -9

    def begin_part(self, at: int, token: Token) -> None:
        source = self.source
        if not source:
            return
        self.end_part(token.start)
        self.end_blocks(1, token.start)
        part = Part(token.word, token.start, -1, (token.start, token.end))
        if token.word in REACTIONS and self.token(at + 1).word == "on":
            part.ev = self.token(at + 2).word
        source.parts.append(part)
        source.is_native |= token.word == "native"

    def end_part(self, end: int) -> None:
        part = self.part
        if part:
            part.end = end

    # Words

    def read_word(self, at: int, token: Token) -> None:
        before = self.before(at)
        if before == ".":
            self.read_slot(at, token)
        elif token.word == "source":
            self.begin_source(at, token)
        elif token.word in (*PARTS, "native"):
            self.begin_part(at, token)
        elif token.word == "when":
            self.when = at
        elif token.word == "find":
            space = self.token(at + 3).word if self.token(at + 2).word == "in" else ""
            self.finds.append((self.brackets, space))
        elif token.word in TESTS:
            self.read_dim(at)
        elif token.word not in RESERVED:
            self.read_name(at, token, before)

    def read_name(self, at: int, token: Token, before: str) -> None:
        """A word that is not reserved, by what stands before it."""
        span = token.start, token.end
        if before in ("on", "as", "find") or self.names_class(at):
            self.uses.add(Symbol("class", token.word), span)
        elif self.names_space(at):
            self.uses.add(Symbol("space", token.word), span)
        elif before in ("let", "with", "for", "new"):
            self.declare(at, token, before)
        elif self.token(at + 1).word == ":":
            self.uses.add(Symbol("set", token.word), span)
        elif before == ":":
            self.uses.add(Symbol("label", token.word, self.before(at, 2)), span)
        elif before != "source" and self.token(at + 1).word not in TESTS:
            variable = self.variable(token.word)
            if variable:
                self.uses.add(variable.symbol, span)

    def names_class(self, at: int) -> bool:
        """Whether a class stands here: that of an event, or of a new unit."""
        is_event = at == self.when + 2 and self.before(at) in EVENTS
        return is_event or (self.before(at) == ":" and self.before(at, 3) == "new")

    def names_space(self, at: int) -> bool:
        """Whether a space stands here: that of an event, a search or a statement."""
        if at == self.when + 3:
            return self.before(at, 2) in MOVES
        is_searched = self.before(at) == "in" and self.before(at, 3) == "find"
        return is_searched or (self.before(at, 2) in MOVES and at > self.when + 3)

    def declare(self, at: int, token: Token, before: str) -> None:
        """A name of a value, which is in scope behind its statement, or in its block."""
        symbol = Symbol("variable", token.word, str(token.start))
        variable = Variable(symbol, value_of(self, at, before), self.end, self.end)
        self.variables.append(variable)
        self.waiting = [variable]
        self.uses.add(symbol, (token.start, token.end), True)

    def variable(self, name: str) -> Variable | None:
        """The name of a value that is in scope."""
        found = self.scope.get(name)
        return found[-1] if found else None

    def class_of(self, name: str) -> str:
        """The class of the unit that a word names here, as far as it is plain."""
        if name == "it":
            return self.source.of if self.source else ""
        if name == "ev":
            return self.part.ev if self.part else ""
        variable = self.variable(name)
        return variable.value.of if variable else ""

    # Slots and dimensions

    def slot_at(self, at: int) -> Slot | None:
        """The slot behind a dot: of the class of an event, or of a unit."""
        owner = self.before(at, 2)
        is_event = at == self.when + 4
        return self.schema.slot(owner if is_event else self.class_of(owner), self.tokens[at].word)

    def read_slot(self, at: int, token: Token) -> None:
        slot = self.slot_at(at)
        if not slot:
            return
        self.uses.add(slot.symbol, (token.start, token.end))
        if slot.owner == FOCUS and slot.name in NAMING:
            self.read_text(at, NAMING[slot.name])

    def read_text(self, at: int, sort: str) -> None:
        """The text next to a slot of a focus that names a source or a class. Of other values nobody knows what they name."""
        after = self.token(at + 2) if self.token(at + 1).word == "=" else NONE
        ahead = self.token(at - 4) if at > 3 and self.before(at, 3) == "=" else NONE
        texts = [it for it in (after, ahead) if it.sort == "text"]
        for it in texts:
            self.uses.add(Symbol(sort, it.word[1:-1]), (it.start + 1, it.end - 1))
        if not texts:
            self.unknown.add(sort)

    def read_dim(self, at: int) -> None:
        """A dimension stands before its test, in the space of the innermost search."""
        name = self.tokens[at - 1] if at else NONE
        if self.finds and name.sort == "word":
            self.uses.add(Symbol("dim", name.word, self.finds[-1][1]), (name.start, name.end))
