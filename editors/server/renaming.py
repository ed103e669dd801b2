"""Renames what an input names, in all of its sections, or says why that can't be."""

import json

from hover import reads
from input import Input
from names import NAME, NAME_LIMIT, Symbol, Use
from schema import FOCUS
from words import RESERVED

TOLD = {"dim": "dimension", "set": "label set"}


class NoRename(Exception):
    """Why a name stays as it is."""


def renamable_at(whole: Input, offset: int) -> Use:
    """The use of a name at an offset, if the name can be changed."""
    use = whole.uses.at(offset)
    if not use:
        raise NoRename("no name of this input stands here")
    symbol = use.symbol
    if any(it == Symbol("class", FOCUS) or it == Symbol("slot", it.name, FOCUS) for it in renamed_with(whole, symbol)):
        raise NoRename(f"each schema has {symbol.name}, by this name")
    sources = [it for it in [*whole.sources, *whole.bundled] if symbol == Symbol("source", it.name)]
    if any(it.is_native for it in sources):
        raise NoRename(f"a native acts for {symbol.name}, which the program finds by this name")
    if symbol.sort in ("source", "class") and is_in_code(whole, symbol.name):
        raise NoRename(f'a code of the bundle has the text "{symbol.name}", which may name this {symbol.sort}')
    line = line_of_text(whole, symbol.name) if symbol.sort in whole.unknown else 0
    if line:
        raise NoRename(f'line {line} has the text "{symbol.name}", by which a focus may name this {symbol.sort}')
    return use


def line_of_text(whole: Input, name: str) -> int:
    """The first line, from 1, where a name stands as a text that a slot may hold; 0 if it does so nowhere."""
    used = {it.start for it in whole.uses.all}
    found = [it.start for it in whole.tokens if it.sort == "text" and it.word == f'"{name}"']
    for key, header in (("units", "%units"), ("classes", "%schema")):
        document = whole.documents[header]
        for entry in document.list_of(key) if document else ():
            slots = entry.get("slots")
            found += [it.start for it in slots.texts() if it.text == name] if slots else []
    return next((whole.text.line_at(it) + 1 for it in sorted(found) if it + 1 not in used), 0)


def is_in_code(whole: Input, name: str) -> bool:
    """Whether a code of the bundle has a text: its length in two bytes, and its bytes."""
    section = whole.sections.get("%bundle")
    if not section:
        return False
    code = (len(name.encode()).to_bytes(2, "big") + name.encode()).hex()
    return code in whole.text.whole[section.start : section.end].lower()


def edits_of(whole: Input, offset: int, name: str) -> list[tuple[int, int, str]]:
    """What is to be replaced so that the name at an offset becomes another one."""
    symbol = renamable_at(whole, offset).symbol
    together = renamed_with(whole, symbol)
    if name == symbol.name:
        return []
    if symbol.sort != "unit":
        check_name(name)
    taken = taken_by(whole, together, name)
    if taken:
        raise NoRename(f"{json.dumps(name)} is taken: {taken}")
    new = json.dumps(name, ensure_ascii=False)[1:-1]
    return [(it.start, it.end, new) for it in whole.uses.of(together)]


def check_name(name: str) -> None:
    if name in RESERVED:
        raise NoRename(f"{json.dumps(name)} is a reserved word")
    if not NAME.fullmatch(name) or len(name) > NAME_LIMIT:
        raise NoRename(f"{json.dumps(name)} is no name: a letter from a to z, then letters, digits and _, at most {NAME_LIMIT} bytes")


def renamed_with(whole: Input, symbol: Symbol) -> set[Symbol]:
    """A symbol with those that must have the same name: a dimension reads the slots of its name."""
    found, waiting = {symbol}, [symbol] if symbol.sort in ("slot", "dim") else []
    while waiting:
        it = waiting.pop()
        others = slots_of_dim(whole, it) if it.sort == "dim" else dims_of_slot(whole, it)
        waiting += others - found
        found |= others
    return found


def slots_of_dim(whole: Input, dim: Symbol) -> set[Symbol]:
    space = whole.schema.spaces[dim.owner]
    slots = (whole.schema.slot(it, dim.name) for it in space.classes)
    return {it.symbol for it in slots if it and not it.is_link}


def dims_of_slot(whole: Input, symbol: Symbol) -> set[Symbol]:
    slot = whole.schema.slot(symbol.owner, symbol.name)
    spaces = [it for it in whole.schema.spaces.values() if symbol.name in it.dims]
    return {Symbol("dim", symbol.name, it.name) for it in spaces if slot and not slot.is_link and reads(whole.schema, it, slot)}


def taken_by(whole: Input, symbols: set[Symbol], name: str) -> str:
    """What has a name already that one of these symbols is to have; nothing if it is free."""
    for it in sorted(symbols):
        taken = taken_for(whole, it, name)
        if taken:
            return taken
    return ""


def taken_for(whole: Input, symbol: Symbol, name: str) -> str:
    schema = whole.schema
    if symbol.sort == "slot":
        related = [it.name for it in schema.above(symbol.owner)] + schema.below(symbol.owner)
        owner = next((it for it in related if name in schema.classes[it].slots), "")
        return f"class {owner} has a slot of this name" if owner else ""
    if symbol.sort == "variable":
        return "it is in scope there" if is_in_scope(whole, symbol, name) else ""
    other = Symbol(symbol.sort, name, symbol.owner)
    if other in whole.uses.known:
        return f"there is a {TOLD.get(symbol.sort, symbol.sort)} of this name"
    return ""


def is_in_scope(whole: Input, symbol: Symbol, name: str) -> bool:
    """Whether another name of a value is in scope where this one is. Names in scope differ."""
    this = whole.variable_of(symbol)
    others = [it for it in whole.variables if it.symbol.name == name]
    return bool(this) and any(it.start <= this.start < it.end or this.start <= it.start < this.end for it in others)
