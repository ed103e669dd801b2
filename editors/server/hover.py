"""What is told of the word at a place: a name of the input, or a word of the language."""

from input import Input
from names import Symbol
from schema import Schema, Slot, Space
from words import told_of

BOUNDS = {
    "int": "from -9223372036854775808 to 9223372036854775807",
    "text": "at most 65,535 bytes",
    "bool": "true or false",
    "interval": "two numbers, the first no greater than the second",
}
HEADERS = {
    "%schema": "the schema, a JSON document: labels, classes and spaces",
    "%units": "the initial units, a JSON document: units, links and spaces",
    "%sources": "sources as text",
    "%bundle": "sources with their codes",
}
Costs = dict[tuple[str, str], tuple[str, ...]]


def hover_at(whole: Input, offset: int, costs: Costs) -> tuple[list[str], tuple[int, int]] | None:
    """The lines that tell of the word at an offset, and its span."""
    use = whole.uses.at(offset)
    if use:
        return told_of_symbol(whole, use.symbol, costs), (use.start, use.end)
    section = next((it for it in whole.sections.values() if it.head <= offset <= it.head + len(it.header)), None)
    if section:
        return [section.header, HEADERS[section.header]], (section.head, section.head + len(section.header))
    at = next((at for at, it in enumerate(whole.tokens) if it.start <= offset <= it.end and it.sort == "word"), None)
    lines = told_of_word(whole, at, costs) if at is not None else []
    return (lines, whole.tokens[at][2:]) if at is not None and lines else None


def told_of_word(whole: Input, at: int, costs: Costs) -> list[str]:
    """What LANGUAGE says of a reserved word, and what is known of it here: the class of a unit, the cost of a part."""
    token = whole.tokens[at]
    before = whole.tokens[at - 1].word if at else ""
    source = whole.source_at(token.start)
    part = next((it for it in source.parts if it.start <= token.start < it.end), None) if source else None
    is_in_part = bool(part and 0 <= part.body <= token.start)
    told = told_of(token.word, before, is_in_part) if before != "." else None
    if not told:
        return []
    lines = [*told]
    if source and part and is_in_part and token.word in ("it", "ev"):
        of = source.of if token.word == "it" else part.ev
        lines.append(f"class {of}" if of else f"{token.word} is no unit in {part.name}")
    elif source and part and token.word == part.name:
        lines += cost_of(costs, source.name, part.name)
    return lines


def cost_of(costs: Costs, source: str, part: str) -> list[str]:
    """The cost of a part by the last check, if that told it."""
    ops, none, one = costs.get((source, part), ("", "", ""))
    return [f"{part} of {source}: {ops} ops, budget {none} if what it finds is empty, {one} if it is one unit"] if ops else []


def told_of_symbol(whole: Input, symbol: Symbol, costs: Costs) -> list[str]:
    """What is known of a thing with a name."""
    tellers = {
        "class": told_of_class,
        "slot": told_of_slot,
        "space": told_of_space,
        "dim": told_of_dim,
        "set": told_of_set,
        "label": told_of_label,
        "unit": told_of_unit,
        "variable": told_of_variable,
    }
    if symbol.sort == "source":
        return told_of_source(whole, symbol, costs)
    return tellers[symbol.sort](whole, symbol)


def kind_of(schema: Schema, slot: Slot) -> str:
    """The kind of a slot as one reads it."""
    if slot.is_link:
        return f"link to {'many' if slot.many else 'one'} {slot.to}{', which it owns' if slot.owns else ''}"
    return f"label of {slot.of}" if slot.kind == "label" else slot.kind


def told_of_class(whole: Input, symbol: Symbol) -> list[str]:
    schema = whole.schema
    parent = schema.classes[symbol.name].parent
    lines = [f"class {symbol.name}{f', below {parent}' if parent else ''}"]
    for it in schema.slots(symbol.name):
        own = f", of {it.owner}" if it.owner != symbol.name else ""
        default = f", default {it.default}" if it.default else ""
        lines.append(f"  {it.name}: {kind_of(schema, it)}{default}{own}")
    spaces = [it.name for it in schema.spaces.values() if schema.admits(it, symbol.name)]
    return [*lines, f"spaces: {', '.join(spaces) or 'none admits it'}"]


def told_of_slot(whole: Input, symbol: Symbol) -> list[str]:
    schema = whole.schema
    slot = schema.slot(symbol.owner, symbol.name)
    if not slot:
        return [f"slot {symbol.name} of class {symbol.owner}"]
    if slot.is_link:
        return [f"link slot {slot.name} of class {slot.owner}", f"kind: {kind_of(schema, slot)}", f"inverse: {slot.inverse}"]
    bounds = BOUNDS.get(slot.kind, ", ".join(schema.sets.get(slot.of, [])))
    lines = [f"slot {slot.name} of class {slot.owner}", f"kind: {kind_of(schema, slot)}", f"bounds: {bounds}"]
    lines += [f"default: {slot.default}"] if slot.default else []
    spaces = [it.name for it in schema.spaces.values() if slot.name in it.dims and reads(schema, it, slot)]
    return [*lines, f"dimension of {', '.join(spaces)}"] if spaces else lines


def reads(schema: Schema, space: Space, slot: Slot) -> bool:
    """Whether the dimension of a space that has a slot's name reads the slot."""
    return any(schema.slot(it, slot.name) is slot for it in space.classes)


def told_of_space(whole: Input, symbol: Symbol) -> list[str]:
    space = whole.schema.spaces[symbol.name]
    dims = [f"  {name}: {kind}" for name, kind in space.dims.items()]
    return [f"space {space.name}", f"classes: {', '.join(space.classes) or 'none'}", f"dimensions:{'' if dims else ' none'}", *dims]


def told_of_dim(whole: Input, symbol: Symbol) -> list[str]:
    space = whole.schema.spaces[symbol.owner]
    kind = space.dims.get(symbol.name, "")
    slots = [it for it in (whole.schema.slot(name, symbol.name) for name in space.classes) if it]
    lines = [f"  {it.owner}.{it.name}: {kind_of(whole.schema, it)}" for it in slots]
    return [f"dimension {symbol.name} of space {symbol.owner}", f"kind: {kind}", "reads", *lines]


def told_of_set(whole: Input, symbol: Symbol) -> list[str]:
    return [f"label set {symbol.name}", f"labels: {', '.join(whole.schema.sets.get(symbol.name, []))}"]


def told_of_label(whole: Input, symbol: Symbol) -> list[str]:
    return [f"label {symbol.name} of {symbol.owner}", f"labels: {', '.join(whole.schema.sets.get(symbol.owner, []))}"]


def told_of_unit(whole: Input, symbol: Symbol) -> list[str]:
    number = list(whole.units).index(symbol.name) + 1
    return [f"unit {symbol.name}, number {number}", f"class {whole.units[symbol.name]}"]


def told_of_variable(whole: Input, symbol: Symbol) -> list[str]:
    variable = whole.variable_of(symbol)
    if not variable or not any(variable.value):
        return [symbol.name]
    return [symbol.name, f"class {variable.value.of}" if variable.value.of else variable.value.kind]


def told_of_source(whole: Input, symbol: Symbol, costs: Costs) -> list[str]:
    source = whole.source_of(symbol.name)
    if not source:
        return [f"source {symbol.name}"]
    parts = ", ".join(it.name for it in source.parts)
    lines = [f"source {source.name} on {source.of}", f"parts: {parts or 'none'}"]
    return [*lines, *(line for it in source.parts for line in cost_of(costs, source.name, it.name))]
