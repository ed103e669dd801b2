"""What may be written at a place of `%schema` or `%units`: keys, and names that a value may be."""

from collections.abc import Callable, Iterable

from completion import CLASS, LABEL, SET, SLOT, SOURCE, SPACE, WORD, Item, distinct
from documents import Node
from hover import kind_of
from input import Input
from schema import FOCUS, KINDS, word_of
from units import NAMING

UNIT = 19
# The keys of entries, by the lists that lead to them.
ENTRIES = {
    "%schema": {
        (): ("labels", "classes", "spaces"),
        ("labels",): ("name", "values"),
        ("classes",): ("name", "parent", "slots", "links"),
        ("classes", "slots"): ("name", "kind", "of", "default"),
        ("classes", "links"): ("name", "to", "many", "inverse", "owns"),
        ("spaces",): ("name", "classes", "dims"),
        ("spaces", "dims"): ("name", "kind", "of"),
    },
    "%units": {(): ("units", "links", "spaces"), ("units",): ("name", "class", "slots")},
}


class Place:
    """Where an offset is in a document: the nodes around it, the keys and indices that lead to it, and its text."""

    def __init__(self, document: Node, offset: int):
        self.path: list[str | int] = []
        self.nodes = [document]
        self.is_key = False
        self.text: Node | None = None
        while self.go_in(self.nodes[-1], offset):
            pass

    def go_in(self, node: Node, offset: int) -> bool:
        """Goes into the value at an offset; whether there may be one in that."""
        if node.sort == "text":
            self.text = node
            return False
        for at, it in enumerate(node.items):
            if is_in(it, offset):
                return self.go(at, it)
        for pair in node.pairs:
            if is_in(pair.key, offset):
                self.text, self.is_key = pair.key, True
                return False
            if pair.value and is_in(pair.value, offset):
                return self.go(pair.key.text, pair.value)
        return self.go_to_end(node, offset)

    def go(self, step: str | int, node: Node) -> bool:
        self.path.append(step)
        self.nodes.append(node)
        return True

    def go_to_end(self, node: Node, offset: int) -> bool:
        """Between the values of a list or an object: behind a colon a value is due, else an item or a key."""
        if node.sort == "list":
            self.path.append(sum(it.end <= offset for it in node.items))
        elif node.sort == "object":
            before = [it for it in node.pairs if it.key.end <= offset]
            last = before[-1] if before else None
            if last and last.has_colon and not last.value and (last.comma < 0 or offset <= last.comma):
                self.path.append(last.key.text)
            else:
                self.is_key = True
        return False

    def lists(self) -> tuple[str, ...]:
        """The keys that lead to it, without indices."""
        return tuple(it for it in self.path if isinstance(it, str))


def is_in(node: Node, offset: int) -> bool:
    """Whether an offset is in a value, or at the end of one that may go on."""
    goes_on = node.sort == "other" or not node.is_closed or node.sort == "text" and node.inner[1] == node.end
    return node.start < offset < node.end or node.start < offset == node.end and goes_on


def items_in_document(whole: Input, header: str, offset: int) -> tuple[list[Item], bool]:
    """What may stand at an offset of a document, and whether that is within quotes already."""
    document = whole.documents.get(header)
    if not document:
        return [], False
    place = Place(document, offset)
    giver: Callable = {"%schema": of_schema, "%units": of_units}[header]
    items: Iterable[Item] = keys_at(whole, header, place) if place.is_key else giver(whole, place)
    return distinct(items), place.text is not None


def keys_at(whole: Input, header: str, place: Place) -> Iterable[Item]:
    """Keys that an object may have and has not: those of its entry, or the slots of a unit."""
    there = {it.key.text for it in place.nodes[-1].pairs if it.key is not place.text}
    if header == "%units" and place.lists() == ("units", "slots"):
        of = word_of(place.nodes[-2], "class")
        return [Item(it.name, SLOT, kind_of(whole.schema, it)) for it in whole.schema.slots(of) if not it.is_link and it.name not in there]
    return [Item(it, WORD) for it in ENTRIES[header].get(place.lists(), ()) if it not in there]


def of_schema(whole: Input, place: Place) -> Iterable[Item]:
    """Names and words that a value of the schema may be."""
    schema, lists = whole.schema, place.lists()
    entry = next((it for it in reversed(place.nodes) if it.sort == "object"), place.nodes[0])
    last = lists[-1] if lists else ""
    if last in ("parent", "to") or lists == ("spaces", "classes"):
        return [Item(it, CLASS) for it in schema.classes]
    if last == "of":
        return [Item(it, SET, ", ".join(labels)) for it, labels in schema.sets.items()]
    if last == "kind":
        return [Item(it, WORD) for it in (("ordered", "label") if "dims" in lists else KINDS)]
    if last == "inverse":
        to = schema.classes.get(word_of(entry, "to"))
        return [Item(it.name, SLOT, kind_of(schema, it)) for it in to.slots.values() if it.is_link] if to else []
    if lists == ("classes", "slots", "default"):
        return [Item(it, LABEL) for it in schema.sets.get(word_of(entry, "of"), [])]
    if lists == ("spaces", "dims", "name"):
        space = schema.spaces.get(word_of(place.nodes[2], "name"))
        slots = [slot for it in (space.classes if space else []) for slot in schema.slots(it)]
        return [Item(it.name, SLOT, kind_of(schema, it)) for it in slots if it.is_link is False]
    return [Item(it, WORD) for it in ("true", "false")] if last in ("many", "owns") and not place.text else []


def of_units(whole: Input, place: Place) -> Iterable[Item]:
    """Names that a value of the initial units may be."""
    schema, lists, path = whole.schema, place.lists(), place.path
    if lists == ("units", "class"):
        return [Item(it, CLASS) for it in schema.classes]
    if lists[:2] == ("units", "slots") and len(lists) == 3:
        unit = next((it for it in reversed(place.nodes) if it.get("class")), None)
        slot = schema.slot(word_of(unit, "class") if unit else "", lists[2])
        if slot and slot.kind == "label":
            return [Item(it, LABEL, slot.of) for it in schema.sets.get(slot.of, [])]
        if slot and slot.owner == FOCUS and slot.name in NAMING:
            return [Item(it.name, SOURCE) for it in whole.sources + whole.bundled] if slot.name == "source" else [Item(it, CLASS) for it in schema.classes]
    key, at = (path[0], path[2]) if len(path) == 3 else ("", 0)
    return of_row(whole, place, key, at) if key in ("links", "spaces") and isinstance(at, int) else []


def of_row(whole: Input, place: Place, key: str, at: int) -> Iterable[Item]:
    """An entry of `links` or `spaces`: units, a link slot of the first one, or a space."""
    if at == 1 and key == "spaces":
        return [Item(it, SPACE) for it in whole.schema.spaces]
    if at == 1:
        row = place.nodes[2].items
        slots = whole.schema.slots(whole.units.get(row[0].text, "")) if row else []
        return [Item(it.name, SLOT, kind_of(whole.schema, it)) for it in slots if it.is_link]
    return [Item(name, UNIT, of) for name, of in whole.units.items()] if at in (0, 2) else []
