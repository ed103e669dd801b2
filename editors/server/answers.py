"""Answers to requests about an input, as the protocol has them."""

import json
from typing import Any

from completing_json import items_in_document
from completion import Item, items_in_sources
from hover import Costs, hover_at
from input import Input
from outline import Entry, outline_of
from renaming import edits_of, renamable_at
from sections import HEADERS
from text import Text


def hover(whole: Input, offset: int, costs: Costs) -> dict | None:
    told = hover_at(whole, offset, costs)
    if not told:
        return None
    lines, span = told
    return {"contents": {"kind": "plaintext", "value": "\n".join(lines)}, "range": whole.text.range_of(*span)}


def definition(whole: Input, uri: str, offset: int) -> dict | None:
    """Where the name at an offset is declared."""
    use = whole.uses.at(offset)
    entry = whole.uses.entry(use.symbol) if use else None
    return {"uri": uri, "range": whole.text.range_of(entry.start, entry.end)} if entry else None


def references(whole: Input, uri: str, offset: int, has_entry: bool) -> list[dict]:
    """All places of the name at an offset."""
    use = whole.uses.at(offset)
    uses = whole.uses.of({use.symbol}) if use else []
    return [{"uri": uri, "range": whole.text.range_of(it.start, it.end)} for it in uses if has_entry or not it.is_entry]


def prepare_rename(whole: Input, offset: int) -> dict:
    use = renamable_at(whole, offset)
    return {"range": whole.text.range_of(use.start, use.end), "placeholder": use.symbol.name}


def rename(whole: Input, uri: str, offset: int, name: str) -> dict:
    edits = edits_of(whole, offset, name)
    return {"changes": {uri: [{"range": whole.text.range_of(start, end), "newText": new} for start, end, new in edits]}}


def completion(whole: Input, offset: int) -> list[dict]:
    """What may be written at an offset."""
    text = whole.text
    line = text.whole[text.starts[text.line_at(offset)] : offset]
    if line.startswith("%") and line[1:].isalpha() or line == "%":
        return [{"label": it, "kind": 14, "textEdit": header_edit(text, offset, it)} for it in HEADERS if it not in whole.sections]
    section = whole.section_at(offset)
    if not section or section.header == "%bundle":
        return []
    if section.header == "%sources":
        return [completion_item(it, it.name) for it in items_in_sources(whole, offset)]
    items, is_quoted = items_in_document(whole, section.header, offset)
    return [completion_item(it, inserted(it.name, is_quoted)) for it in items]


def inserted(name: str, is_quoted: bool) -> str:
    """A name as a document has it, without the quotes that are there already. A truth value has none."""
    text = json.dumps(name, ensure_ascii=False)
    return name if name in ("true", "false") else text[1:-1] if is_quoted else text


def header_edit(text: Text, offset: int, header: str) -> dict:
    return {"range": text.range_of(text.starts[text.line_at(offset)], offset), "newText": header}


def completion_item(item: Item, text: str) -> dict:
    told: dict[str, Any] = {"label": item.name, "kind": item.sort}
    if text != item.name:
        told["insertText"] = text
    if item.detail:
        told["detail"] = item.detail
    return told


def symbols(whole: Input, uri: str, has_levels: bool) -> list[dict]:
    """The outline: in levels, or as a list for a client that knows no levels."""
    outline = outline_of(whole)
    return [level_of(whole.text, it) for it in outline] if has_levels else list_of(whole.text, uri, outline, "")


def level_of(text: Text, entry: Entry) -> dict:
    told = {"name": entry.name, "kind": entry.sort, "range": text.range_of(*entry.span)}
    told |= {"selectionRange": text.range_of(*entry.word), "children": [level_of(text, it) for it in entry.inner]}
    return told | ({"detail": entry.detail} if entry.detail else {})


def list_of(text: Text, uri: str, entries: list[Entry], within: str) -> list[dict]:
    found = []
    for it in entries:
        told = {"name": it.name, "kind": it.sort, "location": {"uri": uri, "range": text.range_of(*it.span)}}
        found.append(told | ({"containerName": within} if within else {}))
        found += list_of(text, uri, it.inner, it.name)
    return found
