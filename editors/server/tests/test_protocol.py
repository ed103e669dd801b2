"""Tests of the protocol: what begins and ends a server, what is refused, and what changes make of a text."""

import io
import json
import random

from client import URI, Client, Error, frame, of, place, position_at, span
from frames import Broken, Frames
from inputs import GARDEN


def refused(code, ask, *words, **more):
    """The request is refused with this number."""
    try:
        found = ask(*words, **more)
    except Error as error:
        assert error.code == code, f"{error.code}: {error}"
        return
    raise AssertionError(f"answered: {found}")


def unit_shift(text, start, end, new):
    """A change of the protocol that replaces what is between two offsets."""
    return {"range": {"start": position_at(text, start), "end": position_at(text, end)}, "text": new}


class Protocol:
    def begin_and_end(self):
        with Client() as client:
            told = client.begun["capabilities"]
            provided = ("hover", "completion", "definition", "references", "rename", "documentSymbol")
            assert all(told[f"{it}Provider"] for it in provided) and told["renameProvider"]["prepareProvider"], told
            assert told["textDocumentSync"] == {"openClose": True, "change": 2, "save": True}
            refused(-32600, client.ask, "initialize")

    def requests_out_of_order(self):
        client = Client(begin=False)
        refused(-32002, client.at, "hover", {"line": 0, "character": 0})
        client.tell("textDocument/didOpen", textDocument={"uri": URI, "version": 1, "text": GARDEN})
        client.ask("initialize", capabilities={})
        refused(-32602, client.at, "hover", {"line": 0, "character": 0})
        assert client.ask("shutdown") is None
        refused(-32600, client.at, "hover", {"line": 0, "character": 0})
        client.tell("exit")
        assert (client.end(), client.complaint) == (0, b"")

    def ends_without_a_farewell(self):
        """A client that only says exit, or is gone."""
        client = Client()
        client.tell("exit")
        assert client.end() == 1
        client = Client()
        client.process.stdin.close()
        assert client.end() == 1

    def what_is_no_request(self):
        with of(GARDEN) as client:
            refused(-32601, client.ask, "textDocument/nothing")
            client.tell("$/setTrace", value="off")
            client.tell("workspace/didChangeConfiguration", settings=None)
            client.send(frame({"jsonrpc": "2.0", "id": 7, "result": None}))
            for raw, code in ((b"Content-Length: 3\r\n\r\n{\"x", -32700), (frame([1]), -32600), (frame({"id": 9}), -32600)):
                client.send(raw)
                refused(code, client.hear, None)
            assert client.at("hover", place(GARDEN, "here.wa^ter +"))

    def heads_of_frames(self):
        """A header may have more lines, in any case."""
        with of("") as client:
            content = json.dumps({"jsonrpc": "2.0", "id": 5, "method": "textDocument/nothing"}).encode()
            client.send(b"content-type: application/vscode-jsonrpc; charset=utf-8\r\ncontent-length: %d\r\n\r\n" % len(content) + content)
            refused(-32601, client.hear, 5)
        client = Client()
        client.send(b"nothing\r\n\r\n")
        assert client.end() == 1 and client.complaint == b"railcitron-server: a header is due, and not b'nothing\\r\\n'\n", client.complaint
        for raw in (b"Content-Length: x\r\n\r\n", b"Content-Type: a\r\n\r\n", b"Content-Length: 99999999999\r\n\r\n", b"Content-Length: -1\r\n\r\n"):
            try:
                raise AssertionError(Frames(io.BytesIO(raw), io.BytesIO()).read())
            except Broken:
                pass
        for raw in (b"", b"Content-Len", b"Content-Length: 5\r\n", b"Content-Length: 5\r\n\r\n{}"):
            assert Frames(io.BytesIO(raw), io.BytesIO()).read() is None, raw

    def parameters_of_another_form(self):
        """They are told, and the next request is answered."""
        client = Client()
        client.open(GARDEN)
        for params in ({}, {"textDocument": {"uri": URI}}, {"textDocument": 3, "position": 4}, {"textDocument": {"uri": URI}, "position": {"line": "x"}}):
            refused(-32602, client.ask, "textDocument/hover", **params)
        client.tell("textDocument/didChange", textDocument={"uri": URI}, contentChanges=[{}])
        client.tell("textDocument/didOpen")
        assert client.at("hover", place(GARDEN, "here.wa^ter +"))
        client.ask("shutdown")
        client.tell("exit")
        assert client.end() == 0

    def places_outside_of_the_text(self):
        with of(GARDEN) as client:
            for line, character in ((-1, 0), (0, -5), (10**9, 0), (3, 10**9), (0, 10**9)):
                for method in ("hover", "completion", "definition"):
                    client.at(method, {"line": line, "character": character})

    def characters_of_two_units(self):
        """A clef has two UTF-16 units, an accented letter one; the word behind them is found by units."""
        text = '%schema\n{"classes":[{"name":"note","slots":[{"name":"key","kind":"text","default":"é𝄞𝄞"},{"name":"pitch","kind":"int"}]}]}\n'
        with of(text) as client:
            before = '{"classes":[{"name":"note","slots":[{"name":"key","kind":"text","default":"'
            at = len(before) + len("é") + 4 + len('"},{"name":"')
            found = client.at("hover", {"line": 1, "character": at})
            assert found["contents"]["value"].startswith("slot pitch of class note"), found
            assert found["range"] == {"start": {"line": 1, "character": at}, "end": {"line": 1, "character": at + 5}}
            edits = client.at("rename", {"line": 1, "character": at}, newName="tone")["changes"][URI]
            assert edits == [{"range": found["range"], "newText": "tone"}]
            # one unit less is still in the text before, whose second clef a change takes away
            client.change(2, {"range": {"start": {"line": 1, "character": at - 14}, "end": {"line": 1, "character": at - 12}}, "text": ""})
            found = client.at("hover", {"line": 1, "character": at - 2})
            assert found["range"]["start"] == {"line": 1, "character": at - 2}, found

    def changes(self):
        """Changes of ranges, several at once, each in the text that the one before left; then of all."""
        with of(GARDEN) as client:
            text = GARDEN.replace("wa", "we", 1)
            first = GARDEN.index("wa")
            last = text.index("let level")
            client.change(2, unit_shift(GARDEN, first, first + 2, "we"), unit_shift(text, last, last, "\n\n"))
            text = f"{text[:last]}\n\n{text[last:]}"
            found = client.at("hover", place(text, "let le^vel"))
            assert found["range"] == span(text, "let <<level>>")
            client.change(3, {"text": "%schema\n{}\n"})
            assert client.at("hover", {"line": 1, "character": 1}) is None
            client.close()
            refused(-32602, client.at, "hover", {"line": 0, "character": 0})

    def lines_that_end_with_two_characters(self):
        text = GARDEN.replace("\n", "\r\n")
        with of(text) as client:
            found = client.at("hover", place(GARDEN, "here.wa^ter +"))
            assert found["range"] == span(GARDEN, "here.<<water>> +")
            end = client.at("completion", {"line": place(GARDEN, "^new task")["line"], "character": 999})
            assert "set" in [it["label"] for it in end]

    def random_changes_make_the_text_of_the_client(self):
        """After each of many changes, the outline is that of the text that the client has."""
        chance = random.Random(79)
        pieces = ["", "x", "\n", "\r\n", "𝄞", "é", "%sources\n", '{"name": "q"}', "source z on bed { do { } }\n", "}", '"']
        with of(GARDEN) as client:
            text = GARDEN
            for version in range(2, 42):
                start = chance.randrange(len(text) + 1)
                end = min(len(text), start + chance.choice([0, 0, 1, 5, 40]))
                if "\r" in (text[start - 1 : start], text[end - 1 : end]):
                    continue
                new = chance.choice(pieces)
                client.change(version, unit_shift(text, start, end, new))
                text = f"{text[:start]}{new}{text[end:]}"
                client.open(text, uri="file:///same.bb", version=version)
                found, wanted = (client.ask("textDocument/documentSymbol", textDocument={"uri": it}) for it in (URI, "file:///same.bb"))
                for it in wanted:
                    it["location"]["uri"] = URI
                assert found == wanted, (version, found, wanted)
