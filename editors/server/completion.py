"""What may be written at a place of `%sources`: words of the language, names of the schema, names of values in scope."""

from collections.abc import Iterable, Iterator
from typing import NamedTuple

from hover import kind_of
from input import Input
from names import Uses
from sources import Reader, Source, Variable
from tokens import TOKEN, tokens_of
from words import CHANGES, ENDS, EVENTS, LINKS, MOVES, PARTS, REACTIONS, RESERVED, STATEMENTS, TESTS, VALUES, told_of

# Numbers of the protocol for what an item is.
WORD, CLASS, SLOT, SPACE, LABEL, VARIABLE, SET, SOURCE, OPERATOR = 14, 7, 5, 9, 20, 6, 13, 3, 24
OPERATORS = ("and", "or")
OPENING = ("=", "<", "<=", "+", "-", "*", "/", "%", "(", "[", ",", "if", "say", "answer", "rate", "and", "or", *TESTS)


class Item(NamedTuple):
    """Something that may be written: what it is, and what is told beside it."""

    name: str
    sort: int
    detail: str = ""


def items_in_sources(whole: Input, offset: int) -> list[Item]:
    """What may stand at an offset of `%sources`, in place of the word that is half there."""
    text, section = whole.text.whole, whole.sections["%sources"]
    line = max(text.rfind("\n", 0, offset) + 1, section.start)
    if any(it.lastgroup == "comment" for it in TOKEN.finditer(text, line, offset)):
        return []
    tokens = tokens_of(text, section.start, offset)
    if tokens and tokens[-1].end == offset and tokens[-1].sort == "word":
        tokens = tokens[:-1]
    reader = Reader(tokens, whole.schema, Uses(), offset).read()
    return distinct(Completing(whole, reader).items())


def distinct(items: Iterable[Item]) -> list[Item]:
    """Of items with one name the first."""
    found: dict[str, Item] = {}
    for it in items:
        found.setdefault(it.name, it)
    return list(found.values())


class Completing:
    """A place at the end of what a reader has read."""

    def __init__(self, whole: Input, reader: Reader):
        self.schema = whole.schema
        self.whole = whole
        self.reader = reader
        self.end = len(reader.tokens)

    def word(self, steps: int) -> str:
        return self.reader.before(self.end, steps)

    def items(self) -> Iterable[Item]:
        last = self.word(1)
        token = self.reader.tokens[-1] if self.reader.tokens else None
        if token and token.sort == "text" and (len(token.word) < 2 or not token.word.endswith('"')):
            return self.texts()
        if not self.reader.source:
            return self.words("source") if last in ("", "}") else []
        if last == ".":
            return self.slots()
        if last == ":":
            return self.classes() if self.word(3) == "new" else self.labels(self.word(2))
        if last in ("on", "as", "find"):
            return self.classes()
        if self.reader.when >= 0:
            return self.of_event()
        if not self.reader.part or self.reader.part.body < 0:
            return self.of_head(self.reader.source)
        return self.in_part(last)

    # Names

    def words(self, *words: str) -> Iterator[Item]:
        for it in words:
            told = told_of(it, self.word(1), bool(self.reader.part and self.reader.part.body >= 0))
            yield Item(it, OPERATOR if it in (*OPERATORS, *TESTS) else WORD, told[0] if told else "")

    def classes(self) -> Iterator[Item]:
        return (Item(it.name, CLASS, f"below {it.parent}" if it.parent else "") for it in self.schema.classes.values())

    def spaces(self) -> Iterator[Item]:
        return (Item(it.name, SPACE, ", ".join(it.classes)) for it in self.schema.spaces.values())

    def labels(self, name: str) -> Iterator[Item]:
        return (Item(it, LABEL, name) for it in self.schema.sets.get(name, []))

    def dims(self) -> Iterator[Item]:
        space = self.schema.spaces.get(self.reader.finds[-1][1]) if self.reader.finds else None
        return (Item(name, SLOT, kind) for name, kind in space.dims.items()) if space else iter(())

    def variables(self, is_unit: bool = False) -> Iterator[Item]:
        found = [it for block in reversed(self.reader.blocks) for it in block]
        yield from (self.of_variable(it) for it in found if it.value.of or not is_unit)
        yield Item("it", WORD, self.reader.class_of("it"))
        if self.reader.class_of("ev"):
            yield Item("ev", WORD, self.reader.class_of("ev"))

    @staticmethod
    def of_variable(it: Variable) -> Item:
        return Item(it.symbol.name, VARIABLE, it.value.of or it.value.kind)

    def values(self) -> Iterator[Item]:
        """What a value may begin with."""
        yield from self.variables()
        yield from self.words(*VALUES)
        yield from (Item(it, SET, ", ".join(labels)) for it, labels in self.schema.sets.items())

    def texts(self) -> Iterator[Item]:
        """In a text: the sources or classes that a focus may name."""
        is_set, slot = self.word(2) == "=", self.word(3)
        if is_set and slot == ".source":
            yield from (Item(it.name, SOURCE, it.of) for it in [*self.whole.sources, *self.whole.bundled] if it.name)
        elif is_set and slot == ".area":
            yield from self.classes()

    # Slots

    def slots(self) -> Iterator[Item]:
        """The slots behind a dot that fit: of the class before it, or of all classes where that is not plain."""
        reader = self.reader
        is_event = self.end == reader.when + 4
        owner = self.word(2) if is_event else reader.class_of(self.word(2))
        known = self.schema.classes
        slots = self.schema.slots(owner) if owner in known else [it for name in known for it in known[name].slots.values()]
        verb, wants_one = self.word(3), self.word(3) == "=" and self.word(5) == "with"
        wants_link = wants_one or verb in (*LINKS, "in") or self.word(3) == "(" and self.word(4) == "size"
        for it in slots:
            if it.is_link == wants_link and not (wants_one and it.many):
                yield Item(it.name, SLOT, kind_of(self.schema, it))

    # Heads of sources and parts

    def of_event(self) -> Iterable[Item]:
        steps = self.end - self.reader.when
        if steps == 1:
            return self.words(*EVENTS)
        if steps == 2 and self.word(1) in EVENTS:
            return self.classes()
        return self.spaces() if steps == 3 and self.word(2) in MOVES else []

    def of_head(self, source: Source) -> Iterable[Item]:
        """Where no part is open: its class, its events, or the parts that are not there."""
        last = self.word(1)
        if not self.reader.blocks:
            return self.words("on") if self.word(2) == "source" else []
        if self.reader.part and self.reader.part.name in REACTIONS:
            return self.words("when") if last != self.reader.part.name else self.words("on")
        if last not in ("{", "}", ";"):
            return []
        last_part = max((PARTS.index(it.name) for it in source.parts if it.name in PARTS), default=-1)
        head = () if source.parts else ("when", "rate")
        return self.words(*head, *PARTS[last_part + 1 :], *(() if source.is_native else ("native",)))

    # Statements

    def in_part(self, last: str) -> Iterable[Item]:
        if last in ("{", "}", ";"):
            return self.statements(last)
        if self.reader.finds:
            return self.in_find(last)
        if last in (*MOVES, *LINKS, "set", "delete") or last == "=" and self.word(3) == "with":
            return self.variables(is_unit=True)
        if self.word(2) == "with":
            return []
        if self.word(2) in MOVES:
            return self.spaces()
        if self.word(2) == "for":
            return self.words("in")
        if last == "in":
            return [*self.words("find"), *self.variables(is_unit=True)]
        return self.in_value(last)

    def in_value(self, last: str) -> Iterable[Item]:
        """Within a statement: a value where one is due, else what may follow one."""
        if last in ("let", "for", "with", "new"):
            return []
        if self.word(2) == "=" and self.word(4) == "with":
            return self.words("as")
        is_link = self.word(4) in LINKS and self.word(2) == "."
        if is_link or last in OPENING:
            return self.variables(is_unit=True) if is_link else self.values()
        return self.words(*OPERATORS)

    def statements(self, last: str) -> Iterator[Item]:
        part = self.reader.part
        if last == "}":
            yield from self.words("else")
        yield from self.words(*STATEMENTS)
        if part and part.name == "do":
            yield from self.words(*CHANGES)
        yield from self.words(*(ENDS.get(part.name, ()) if part else ()))
        yield from (it for it in self.variables() if it.name not in RESERVED)

    def in_find(self, last: str) -> Iterable[Item]:
        """Within a search: its space, and its pattern."""
        if last == "in":
            return self.spaces()
        if self.word(2) == "find":
            return self.words("in")
        if self.word(4) == "find" or last == "find":
            return self.words("where")
        is_pattern = last == "where" or last in ("(", ",") and self.is_in_pattern()
        if is_pattern:
            return [*self.dims(), *self.words("all", "and", "or", "not")]
        if last in OPENING:
            return self.values()
        return self.words(*(TESTS if self.word(2) in ("where", "(", ",") else OPERATORS))

    def is_in_pattern(self) -> bool:
        """Whether the innermost open bracket is one of a pattern: `and(`, `or(` or `not(` where a test may stand."""
        depth = 0
        for steps in range(1, self.end + 1):
            word = self.word(steps)
            depth += (word in (")", "]")) - (word in ("(", "["))
            if depth < 0:
                return word == "(" and self.word(steps + 1) in ("and", "or", "not") and self.word(steps + 2) in ("where", "(", ",")
        return False
