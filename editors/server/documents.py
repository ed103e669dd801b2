"""Reads a JSON document with the place of each value, which Python's `json` does not tell.

Half of a document is read as far as it goes: what is not closed ends with the section, and a bracket closes the nearest
one of its sort. What is wrong with it, `bb check` says.
"""

import json
import re
from collections.abc import Iterator, Sequence
from dataclasses import dataclass

TOKEN = re.compile(r'"(?:\\.|[^"\\\n])*"?|[{}\[\],:]|[^\s{}\[\],:"]+')
SORTS = {"{": "object", "}": "object", "[": "list", "]": "list"}


@dataclass(slots=True)
class Node:
    """A value: an object, a list, a text, or another. Its span has the quotes and brackets, which may not be closed."""

    sort: str
    start: int
    end: int
    raw: str = ""
    # What a text says; of any other value nothing.
    text: str = ""
    items: "list[Node] | tuple[()]" = ()
    pairs: "list[Pair] | tuple[()]" = ()
    is_closed: bool = True

    @property
    def inner(self) -> tuple[int, int]:
        """The span of a text without its quotes."""
        is_quoted = len(self.raw) > 1 and self.raw.endswith('"')
        return self.start + 1, self.end - is_quoted

    def get(self, key: str) -> "Node | None":
        """The value of a key of an object. Of two with one key the last counts, as for the program."""
        found = None
        for it in self.pairs:
            if it.key.text == key and it.value:
                found = it.value
        return found

    def list_of(self, key: str) -> "Sequence[Node]":
        """The items of a list that is the value of a key; none if it is none."""
        value = self.get(key)
        return value.items if value else ()

    def at(self, path: tuple) -> "Node | None":
        """The value to which keys and indices lead."""
        node: Node | None = self
        for step in path:
            if node and isinstance(step, str):
                node = node.get(step)
            elif node:
                node = node.items[step] if step < len(node.items) else None
        return node

    def texts(self, depth: int = 8) -> "Iterator[Node]":
        """All texts in it, keys too."""
        if self.sort == "text":
            yield self
        for it in self.items if depth else ():
            yield from it.texts(depth - 1)
        for pair in self.pairs if depth else ():
            yield pair.key
            yield from pair.value.texts(depth - 1) if pair.value else ()


@dataclass(slots=True)
class Pair:
    """A key of an object with its value, which may not be there yet, and where the comma behind it stands."""

    key: Node
    value: Node | None = None
    has_colon: bool = False
    comma: int = -1


def document_of(whole: str, start: int, end: int) -> Node | None:
    """The document between two offsets; None if there is no value."""
    root = Node("list", start, end, items=[])
    stack, opened = [root], {"object": 0, "list": 0}
    for it in TOKEN.finditer(whole, start, end):
        word = it[0]
        if word in "{[":
            node = Node(SORTS[word], it.start(), end, items=[], pairs=[], is_closed=False)
            put(stack[-1], node)
            stack.append(node)
            opened[node.sort] += 1
        elif word in "}]" and opened[SORTS[word]]:
            close(stack, opened, SORTS[word], it.end())
        elif word == ":" and stack[-1].pairs:
            stack[-1].pairs[-1].has_colon = True
        elif word == "," and stack[-1].pairs:
            stack[-1].pairs[-1].comma = it.start()
        elif word not in ",:}]":
            is_text = word.startswith('"')
            sort, text = ("text", said_by(word)) if is_text else ("other", "")
            put(stack[-1], Node(sort, it.start(), it.end(), word, text))
    return root.items[0] if root.items else None


def said_by(raw: str) -> str:
    """What a text says, by how it is written."""
    if "\\" not in raw:
        return raw[1:].removesuffix('"')
    try:
        return json.loads(raw)
    except ValueError:
        return raw[1:].removesuffix('"')


def put(into: Node, node: Node) -> None:
    """Puts a value into the list or object that is open. A value where a key is due is left out."""
    last = into.pairs[-1] if into.pairs else None
    if into.sort == "list":
        into.items.append(node)
    elif last and last.has_colon and not last.value and last.comma < 0:
        last.value = node
    elif node.sort == "text":
        into.pairs.append(Pair(node))


def close(stack: list[Node], opened: dict[str, int], sort: str, end: int) -> None:
    """Closes the innermost value of a sort, which is open, and what is open in it."""
    is_closed = False
    while not is_closed:
        node = stack.pop()
        node.end = end
        node.is_closed = True
        opened[node.sort] -= 1
        is_closed = node.sort == sort
