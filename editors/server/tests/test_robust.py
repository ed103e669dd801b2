"""Tests that no text stops the server: cuts and edits of the examples, and texts made to cost much.

Each request is answered within a second, or refused as a rename may be; nothing is written to standard error.
"""

import random

from client import ROOT, URI, Error, of, position_at
from input import Input
from outline import outline_of
from text import Text

EXAMPLES = sorted((ROOT / "examples").rglob("*.bb"))
METHODS = ("hover", "completion", "definition", "prepareRename")
PIECES = ["", "{", "}", "[", "]", '"', "(", ")", ";", ".", ":", ",", "%sources\n", "source ", "do ", "find ", "with x = ", "𝄞", "\\", "\0", "//"]

# How often a piece stands in a text that is made to cost much, behind which header.
MANY = 10_000
COSTLY = {
    "brackets": "%schema\n" + "[" * MANY,
    "objects": "%schema\n" + '{"classes":' * MANY,
    "brackets that close others": "%schema\n" + "[" * MANY + "}" * MANY,
    "quotes": "%schema\n" + '"' * MANY,
    "classes below each other": '%schema\n{"classes":[' + ",".join(f'{{"name":"c{it}","parent":"c{it - 1}"}}' for it in range(1_500)) + "]}",
    "classes of a name": '%schema\n{"classes":[' + '{"name":"c","slots":[{"name":"s"}]},' * 3_000,
    "blocks": "%schema\n{}\n%sources\nsource s on focus { do " + "{" * MANY,
    "blocks that end": "%schema\n{}\n%sources\nsource s on focus { do " + "}" * MANY,
    "brackets of values": "%schema\n{}\n%sources\nsource s on focus { do { let x = " + "(" * MANY + ")" * MANY,
    "searches": "%schema\n{}\n%sources\nsource s on focus { do { say " + "size(find focus in w where " * 3_000 + ")" * MANY,
    "names": "%schema\n{}\n%sources\nsource s on focus { do { " + "let a = a; " * 4_000 + "say a",
    "names that wait": "%schema\n{}\n%sources\nsource s on focus { do { " + "new a " * 6_000,
    "statements without an end": "%schema\n{}\n%sources\nsource s on focus { do { " + "let a = 1 " * 4_000,
    "sources": "%schema\n{}\n%sources\n" + "source s on focus { when create focus; do { } }\n" * 700,
    "headers": "%schema\n%units\n%sources\n%bundle\n" * 4_000,
    "lines": "%schema\n{}\n%bundle\n" + "\n" * 40_000,
    "one line": '%schema\n{"classes":[{"name":"job"}]}\n%units\n{"units":[' + '{"name":"a","class":"job"},' * 3_000,
    "clefs": '%schema\n{"classes":[{"name":"' + "𝄞" * 40_000 + '"}]}',
}


def ask_all(client, text, at):
    """All requests at an offset."""
    position = position_at(text, at)
    for method in METHODS:
        wanted(client.at, method, position)
    wanted(client.at, "rename", position, newName="fresh_name")
    client.at("references", position, context={"includeDeclaration": True})
    client.ask("textDocument/documentSymbol", textDocument={"uri": URI})


def wanted(ask, *words, **more):
    """An answer, or the refusal of a rename."""
    try:
        ask(*words, **more)
    except Error as error:
        assert error.code == -32803 and ("ename" in words[0]), error


class Robust:
    def cuts_and_edits_of_the_examples(self):
        chance = random.Random(79)
        version = 1
        with of("") as client:
            for example in EXAMPLES:
                text = example.read_text()
                for _ in range(3):
                    cut = text[: chance.randrange(len(text) + 1)]
                    start = chance.randrange(len(text))
                    bent = f"{text[:start]}{chance.choice(PIECES)}{text[start + chance.choice([0, 1, 9]) :]}"
                    for changed, at in ((cut, len(cut)), (bent, start)):
                        version += 1
                        client.change(version, {"text": changed})
                        ask_all(client, changed, min(at, len(changed)))

    def the_outline_of_a_cut_is_in_order(self):
        """The name of each entry is within it, as clients want it, and its text is the name."""
        chance = random.Random(97)
        for example in EXAMPLES:
            text = example.read_text()
            for cut in [len(text), *(chance.randrange(len(text) + 1) for _ in range(6))]:
                waiting = outline_of(Input(Text(text[:cut])))
                while waiting:
                    it = waiting.pop()
                    assert it.span[0] <= it.word[0] <= it.word[1] <= it.span[1] <= cut, (example.name, cut, it)
                    assert it.name in (text[slice(*it.word)], "source"), it
                    waiting += it.inner

    def texts_that_are_no_input(self):
        with of("") as client:
            texts = ["", "\n", "%", "%schema", "%schema\n%", "%units\n{", "%sources\nsource", "hello", "\r", "\ufeff%schema\n{}", "%bundle\nsource", "%bundle\nwhen a b.c"]
            for version, text in enumerate(texts, 2):
                client.change(version, {"text": text})
                for at in range(len(text) + 1):
                    ask_all(client, text, at)

    def texts_that_cost_much(self):
        with of("") as client:
            for version, text in enumerate(COSTLY.values(), 2):
                client.change(version, {"text": text})
                for at in (len(text) // 2, len(text)):
                    ask_all(client, text, at)

    def texts_that_are_too_long(self):
        """Their names are not looked up."""
        text = '%schema\n{"classes":[{"name":"job"}]}\n' + " " * 1_000_000
        with of(text) as client:
            ask_all(client, text, text.index("job"))
            assert client.at("hover", position_at(text, text.index("job"))) is None
