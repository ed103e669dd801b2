"""The server: takes messages of a client, keeps the inputs that it opened, and answers."""

import sys
import traceback
from collections.abc import Callable
from typing import Any

import answers
from checks import Checked, Checker
from finding import span_of
from frames import Frames, NoJson
from hover import Costs
from input import Input
from messages import ERROR, INFORMATION, Said, code_of, costs_in, said_in
from renaming import NoRename
from text import Text

NAME = "railcitron"
# Numbers of the protocol for what went wrong.
PARSE, INVALID, NO_METHOD, NO_PARAMS, INTERNAL, NOT_BEGUN, FAILED = -32700, -32600, -32601, -32602, -32603, -32002, -32803
CAPABILITIES = {
    "textDocumentSync": {"openClose": True, "change": 2, "save": True},
    "hoverProvider": True,
    "completionProvider": {"triggerCharacters": [".", ":", '"', "%"]},
    "definitionProvider": True,
    "referencesProvider": True,
    "renameProvider": {"prepareProvider": True},
    "documentSymbolProvider": True,
}


class Refused(Exception):
    """Why a request has no answer."""

    def __init__(self, code: int, why: str):
        super().__init__(why)
        self.code = code


class Open:
    """An input that the client has open, as it is read, and what its last check told of costs."""

    def __init__(self, text: Text, version: int | None):
        self.text = text
        self.version = version
        self.costs: Costs = {}
        self.read: Input | None = None

    def input(self) -> Input:
        """The input, which is read when it is first asked for."""
        if not self.read or self.read.text is not self.text:
            self.read = Input(self.text)
        return self.read


class Server:
    """Answers one client, from `initialize` to `exit`."""

    def __init__(self, frames: Frames, program: str = "", seconds: float = 0):
        self.frames = frames
        self.program, self.seconds = program, seconds
        self.opened: dict[str, Open] = {}
        self.checker = Checker(self.report)
        self.state = "new"
        self.has_levels = False
        self.told: set[str] = set()
        self.requests: dict[str, Callable[[dict], Any]] = {
            "textDocument/hover": self.hover,
            "textDocument/completion": lambda it: answers.completion(*self.place(it)),
            "textDocument/definition": self.definition,
            "textDocument/references": self.references,
            "textDocument/prepareRename": lambda it: answers.prepare_rename(*self.place(it)),
            "textDocument/rename": self.rename,
            "textDocument/documentSymbol": self.symbols,
            "shutdown": self.shut_down,
        }
        self.notices: dict[str, Callable[[dict], None]] = {
            "textDocument/didOpen": self.open,
            "textDocument/didChange": self.change,
            "textDocument/didSave": self.save,
            "textDocument/didClose": self.close,
        }

    def serve(self) -> int:
        """Answers until the client ends; the status of the program."""
        while True:
            try:
                message = self.frames.read()
            except NoJson as fault:
                self.refuse(None, PARSE, str(fault))
                continue
            if message is None or isinstance(message, dict) and message.get("method") == "exit":
                self.checker.close()
                return 0 if self.state == "ended" else 1
            self.take(message)

    def take(self, message: object) -> None:
        """Takes a message. What goes wrong with one is told, and the next is taken."""
        if not isinstance(message, dict) or not isinstance(message.get("method"), str):
            if not isinstance(message, dict) or not message.keys() & {"result", "error"}:
                self.refuse(None, INVALID, "a message is due that has a method")
            return
        number, params = message.get("id"), message.get("params")
        try:
            answer = self.answer(message["method"], params if isinstance(params, dict) else {}, "id" in message)
        except Refused as fault:
            self.refuse(number, fault.code, str(fault), "id" in message)
        except NoRename as fault:
            self.refuse(number, FAILED, str(fault))
        except (KeyError, TypeError, AttributeError) as fault:
            traceback.print_exc(file=sys.stderr)
            self.refuse(number, NO_PARAMS, f"parameters of another form: {fault!r}", "id" in message)
        except Exception as fault:
            traceback.print_exc(file=sys.stderr)
            self.refuse(number, INTERNAL, repr(fault), "id" in message)
        else:
            if "id" in message:
                self.frames.write({"id": number, "result": answer})

    def refuse(self, number: object, code: int, why: str, is_request: bool = True) -> None:
        if is_request:
            self.frames.write({"id": number, "error": {"code": code, "message": why}})

    def answer(self, method: str, params: dict, is_request: bool) -> Any:
        """The answer to a request; a notice has none."""
        if method == "initialize" and self.state == "new":
            return self.initialize(params)
        if self.state != "open":
            code = NOT_BEGUN if self.state == "new" else INVALID
            raise Refused(code, f"{method} is not due {'before initialize' if self.state == 'new' else 'any more'}")
        if method in self.notices:
            return self.notices[method](params)
        if method in self.requests:
            return self.requests[method](params)
        raise Refused(NO_METHOD if method != "initialize" else INVALID, f"{method} is not known here, or not twice")

    # Begin and end

    def initialize(self, params: dict) -> dict:
        options = params.get("initializationOptions")
        options = options if isinstance(options, dict) else {}
        program, seconds = options.get("program"), options.get("seconds")
        self.checker.program = self.program or (program if isinstance(program, str) else "")
        is_time = isinstance(seconds, (int, float)) and seconds > 0
        self.checker.seconds = self.seconds or (seconds if is_time else self.checker.seconds)
        known = params.get("capabilities") or {}
        outline = (known.get("textDocument") or {}).get("documentSymbol") or {}
        self.has_levels = bool(outline.get("hierarchicalDocumentSymbolSupport"))
        self.state = "open"
        self.checker.start()
        return {"capabilities": CAPABILITIES, "serverInfo": {"name": NAME}}

    def shut_down(self, _: dict) -> None:
        self.state = "ended"
        self.checker.close()

    # Inputs

    def open(self, params: dict) -> None:
        it = params["textDocument"]
        self.opened[it["uri"]] = Open(Text(it["text"]), it.get("version"))
        self.checker.ask(it["uri"], it.get("version"), it["text"])

    def change(self, params: dict) -> None:
        uri = params["textDocument"]["uri"]
        opened = self.known(uri)
        for it in params["contentChanges"]:
            opened.text = opened.text.changed(it)
        opened.version = params["textDocument"].get("version")
        opened.costs = {}
        self.checker.ask(uri, opened.version, opened.text.whole)

    def save(self, params: dict) -> None:
        uri = params["textDocument"]["uri"]
        opened = self.known(uri)
        self.checker.ask(uri, opened.version, opened.text.whole)

    def close(self, params: dict) -> None:
        uri = params["textDocument"]["uri"]
        self.opened.pop(uri, None)
        self.checker.forget(uri)
        self.publish(uri, None, [])

    def known(self, uri: str) -> Open:
        if uri not in self.opened:
            raise Refused(NO_PARAMS, f"{uri} is not open")
        return self.opened[uri]

    def place(self, params: dict) -> tuple[Input, int]:
        """The input and the offset that a request is about."""
        whole = self.known(params["textDocument"]["uri"]).input()
        return whole, whole.text.offset_of(params["position"])

    # Requests

    def hover(self, params: dict) -> dict | None:
        return answers.hover(*self.place(params), self.known(params["textDocument"]["uri"]).costs)

    def definition(self, params: dict) -> dict | None:
        whole, offset = self.place(params)
        return answers.definition(whole, params["textDocument"]["uri"], offset)

    def references(self, params: dict) -> list[dict]:
        whole, offset = self.place(params)
        has_entry = bool((params.get("context") or {}).get("includeDeclaration", True))
        return answers.references(whole, params["textDocument"]["uri"], offset, has_entry)

    def rename(self, params: dict) -> dict:
        whole, offset = self.place(params)
        return answers.rename(whole, params["textDocument"]["uri"], offset, params["newName"])

    def symbols(self, params: dict) -> list[dict]:
        uri = params["textDocument"]["uri"]
        return answers.symbols(self.known(uri).input(), uri, self.has_levels)

    # Checks

    def report(self, uri: str, version: int | None, text: str, checked: Checked) -> Callable[[], None]:
        """What tells the client of a check. The thread of checks calls this, and then that."""
        try:
            found = self.diagnostics(text, checked)
        except Exception:
            traceback.print_exc(file=sys.stderr)
            found = []
        return lambda: self.tell(uri, version, found, checked)

    def tell(self, uri: str, version: int | None, found: list[dict], checked: Checked) -> None:
        opened = self.opened.get(uri)
        if opened:
            opened.costs = costs_in(checked.output)
        self.publish(uri, version, found)
        if checked.fault and checked.fault not in self.told:
            self.told.add(checked.fault)
            self.frames.write({"method": "window/showMessage", "params": {"type": 2, "message": checked.fault}})

    def diagnostics(self, text: str, checked: Checked) -> list[dict]:
        """What a check told, each at its words."""
        said = said_in(checked.said)
        if checked.is_late:
            said = [Said(INFORMATION, f"bb check was ended after {self.checker.seconds:g} s, so faults are not known")]
        whole = Input(Text(text)) if said else None
        first = next((it for it in said if it.severity == ERROR), None)
        if first:
            first.code = first.code or code_of(checked.output)
        return [diagnostic_of(it, whole) for it in said] if whole else []

    def publish(self, uri: str, version: int | None, found: list[dict]) -> None:
        params = {"uri": uri, "diagnostics": found} | ({"version": version} if version is not None else {})
        self.frames.write({"method": "textDocument/publishDiagnostics", "params": params})


def diagnostic_of(said: Said, whole: Input) -> dict:
    told = {"range": whole.text.range_of(*span_of(said, whole)), "severity": said.severity, "source": "bb"}
    told |= {"message": "\n".join([said.sentence, *said.notes])}
    return told | ({"code": said.code} if said.code else {})
