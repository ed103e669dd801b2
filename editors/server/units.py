"""What the initial units of an input name: classes, slots, spaces, labels, and each other."""

from documents import Node, Pair
from names import Symbol, Uses
from schema import FOCUS, Schema, use, word_of

# The slots of a focus whose texts name something, and what they name.
NAMING = {"source": "source", "area": "class"}


def units_of(document: Node | None, schema: Schema, uses: Uses) -> dict[str, str]:
    """The class of each unit, by the unit's name; the places of names go to the uses."""
    classes: dict[str, str] = {}
    if not document:
        return classes
    for it in document.list_of("units"):
        name, of = word_of(it, "name"), word_of(it, "class")
        use(it, "name", uses, Symbol("unit", name), True)
        use(it, "class", uses, Symbol("class", of))
        classes.setdefault(name, of)
        slots = it.get("slots")
        for pair in slots.pairs if slots else []:
            use_slot(pair, of, schema, uses)
    for it in document.list_of("links"):
        use_link(it.items, classes, schema, uses)
    for it in document.list_of("spaces"):
        for node, sort in zip(it.items, ("unit", "space")):
            uses.add(Symbol(sort, node.text), node.inner)
    return classes


def use_slot(pair: Pair, of: str, schema: Schema, uses: Uses) -> None:
    """A key of `slots`, and the label, source or class that its value names."""
    slot = schema.slot(of, pair.key.text)
    if not slot:
        return
    uses.add(slot.symbol, pair.key.inner)
    value = pair.value
    if value and value.text and slot.kind == "label":
        uses.add(Symbol("label", value.text, slot.of), value.inner)
    elif value and value.text and slot.owner == FOCUS and slot.name in NAMING:
        uses.add(Symbol(NAMING[slot.name], value.text), value.inner)


def use_link(items: list[Node], classes: dict[str, str], schema: Schema, uses: Uses) -> None:
    """An entry of `links`: a unit, a link slot of its class, and another unit."""
    for node in items[:3:2]:
        uses.add(Symbol("unit", node.text), node.inner)
    slot = schema.slot(classes.get(items[0].text, ""), items[1].text) if len(items) > 1 else None
    if slot:
        uses.add(slot.symbol, items[1].inner)
