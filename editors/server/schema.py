"""What a schema declares, as far as it can be read: label sets, classes with their slots, spaces with their dimensions."""

from collections.abc import Iterator
from dataclasses import dataclass, field

from documents import Node
from names import Symbol, Uses

FOCUS = "focus"
CLASS_LIMIT = 256
KINDS = ("int", "bool", "text", "label", "interval")
# The slots that each schema gives the class of foci.
FOCUS_SLOTS = {"source": ("text", '""'), "area": ("text", '""'), "weight": ("int", "0"), "active": ("bool", "true")}
DEFAULTS = {"int": "0", "bool": "false", "text": '""', "interval": "[0, 0]"}


@dataclass
class Slot:
    """A slot of a class. A link slot has `to` and `inverse`, an ordinary one a kind."""

    name: str
    owner: str
    kind: str = ""
    of: str = ""
    default: str = ""
    to: str = ""
    inverse: str = ""
    many: bool = False
    owns: bool = False
    is_link: bool = False

    @property
    def symbol(self) -> Symbol:
        return Symbol("slot", self.name, self.owner)


@dataclass
class Class:
    """A class with the slots that it adds to those of its parent."""

    name: str
    parent: str = ""
    slots: dict[str, Slot] = field(default_factory=dict)
    # How many classes come before it.
    number: int = 0


@dataclass
class Space:
    """A space: the classes that it lists, and the kind of each dimension, for labels with their set."""

    name: str
    classes: list[str] = field(default_factory=list)
    dims: dict[str, str] = field(default_factory=dict)


class Schema:
    """The schema of an input. Of two entries with one name the first counts."""

    def __init__(self) -> None:
        self.sets: dict[str, list[str]] = {}
        self.classes: dict[str, Class] = {FOCUS: Class(FOCUS)}
        self.spaces: dict[str, Space] = {}
        for name, (kind, default) in FOCUS_SLOTS.items():
            self.classes[FOCUS].slots[name] = Slot(name, FOCUS, kind, default=default)

    def above(self, name: str) -> Iterator[Class]:
        """A class and those above it, nearest first. A parent that comes later is none, and no chain is longer."""
        it = self.classes.get(name)
        for _ in range(CLASS_LIMIT):
            if not it:
                return
            yield it
            parent = self.classes.get(it.parent)
            it = parent if parent and parent.number < it.number else None

    def is_below(self, name: str, other: str) -> bool:
        """Whether a class is another one, or descends from it."""
        return any(it.name == other for it in self.above(name))

    def below(self, name: str) -> list[str]:
        """A class and those below it."""
        return [it for it in self.classes if self.is_below(it, name)]

    def slots(self, name: str) -> list[Slot]:
        """All slots of a class: first those that it inherits."""
        chain = [list(it.slots.values()) for it in self.above(name)]
        return [slot for slots in reversed(chain) for slot in slots]

    def slot(self, name: str, slot: str) -> Slot | None:
        """A slot of a class, its own or an inherited one."""
        return next((it.slots[slot] for it in self.above(name) if slot in it.slots), None)

    def admits(self, space: Space, name: str) -> bool:
        """Whether a space admits a class."""
        return any(self.is_below(name, it) for it in space.classes)


def schema_of(document: Node | None, whole: str, uses: Uses) -> Schema:
    """The schema that a document declares; the places of its names go to the uses."""
    schema = Schema()
    uses.know(Symbol("class", FOCUS))
    for slot in schema.classes[FOCUS].slots.values():
        uses.know(slot.symbol)
    if document:
        for it in document.list_of("labels"):
            add_set(schema, it, uses)
        for it in document.list_of("classes"):
            add_class(schema, it, whole, uses)
        for it in document.list_of("spaces"):
            add_space(schema, it, uses)
        for it in document.list_of("classes"):
            add_inverses(schema, it, uses)
        uses_of_defaults(schema, document, uses)
    return schema


def word_of(entry: Node, key: str) -> str:
    """What the text says that is the value of a key."""
    value = entry.get(key)
    return value.text if value else ""


def use(entry: Node, key: str, uses: Uses, symbol: Symbol, is_entry: bool = False) -> None:
    """Notes that the value of a key names a symbol."""
    value = entry.get(key)
    if value and value.text:
        uses.add(symbol, value.inner, is_entry)


def add_set(schema: Schema, entry: Node, uses: Uses) -> None:
    name = word_of(entry, "name")
    use(entry, "name", uses, Symbol("set", name), True)
    labels = [it for it in entry.list_of("values") if it.text]
    for it in labels:
        uses.add(Symbol("label", it.text, name), it.inner, True)
    schema.sets.setdefault(name, [it.text for it in labels])


def add_class(schema: Schema, entry: Node, whole: str, uses: Uses) -> None:
    name, parent = word_of(entry, "name"), word_of(entry, "parent")
    use(entry, "name", uses, Symbol("class", name), True)
    use(entry, "parent", uses, Symbol("class", parent))
    declared = Class(name, parent)
    for it in entry.list_of("slots"):
        slot = Slot(word_of(it, "name"), name, word_of(it, "kind"), word_of(it, "of"))
        given = it.get("default")
        slot.default = whole[given.start : given.end] if given else default_of(schema, slot)
        use(it, "of", uses, Symbol("set", slot.of))
        add_slot(declared, slot, it, uses)
    for it in entry.list_of("links"):
        to, inverse = word_of(it, "to"), word_of(it, "inverse")
        is_many, is_owning = (getattr(it.get(key), "raw", "") == "true" for key in ("many", "owns"))
        slot = Slot(word_of(it, "name"), name, "", "", "", to, inverse, is_many, is_owning, True)
        use(it, "to", uses, Symbol("class", to))
        add_slot(declared, slot, it, uses)
    if name and name not in schema.classes:
        declared.number = len(schema.classes)
        schema.classes[name] = declared


def default_of(schema: Schema, slot: Slot) -> str:
    """The default of a slot that gives none."""
    if slot.kind == "label":
        return next((f'"{it}"' for it in schema.sets.get(slot.of, [])), "")
    return DEFAULTS.get(slot.kind, "")


def add_slot(declared: Class, slot: Slot, entry: Node, uses: Uses) -> None:
    use(entry, "name", uses, slot.symbol, True)
    if slot.name:
        declared.slots.setdefault(slot.name, slot)


def add_space(schema: Schema, entry: Node, uses: Uses) -> None:
    space = Space(word_of(entry, "name"))
    use(entry, "name", uses, Symbol("space", space.name), True)
    for it in entry.list_of("classes"):
        if it.text:
            space.classes.append(it.text)
            uses.add(Symbol("class", it.text), it.inner)
    for it in entry.list_of("dims"):
        kind, of = word_of(it, "kind"), word_of(it, "of")
        use(it, "name", uses, Symbol("dim", word_of(it, "name"), space.name), True)
        use(it, "of", uses, Symbol("set", of))
        space.dims.setdefault(word_of(it, "name"), f"{kind} of {of}" if of else kind)
    if space.name:
        schema.spaces.setdefault(space.name, space)


def add_inverses(schema: Schema, entry: Node, uses: Uses) -> None:
    """What links name as their inverses: slots that the classes which they lead to declare themselves."""
    for it in entry.list_of("links"):
        use(it, "inverse", uses, Symbol("slot", word_of(it, "inverse"), word_of(it, "to")))


def uses_of_defaults(schema: Schema, document: Node, uses: Uses) -> None:
    """Labels that slots have as their defaults."""
    for entry in document.list_of("classes"):
        for it in entry.list_of("slots"):
            use(it, "default", uses, Symbol("label", word_of(it, "default"), word_of(it, "of")))
