"""A client of the server, for its tests: starts it, speaks the protocol to it, and wants each answer within a second
of work."""

import json
import os
import queue
import subprocess
import sys
import threading
import time
from contextlib import contextmanager
from pathlib import Path

SERVER = Path(__file__).resolve().parent.parent
ROOT = SERVER.parent.parent
START = SERVER / "railcitron-server"
# How long the server may work for an answer: seconds of a processor, so that other work beside the test does not count.
SECONDS = 1
# How long a test waits for what has to come, where other work takes all processors.
PATIENCE = 90
TICKS = os.sysconf("SC_CLK_TCK")
URI = "file:///garden.bb"


class Error(Exception):
    """The server's refusal of a request."""

    def __init__(self, error):
        super().__init__(error["message"])
        self.code = error["code"]


def frame(message):
    content = json.dumps(message).encode()
    return b"Content-Length: %d\r\n\r\n%s" % (len(content), content)


class Client:
    """A started server. Its standard error has to stay empty, unless a test takes it."""

    def __init__(self, *words, options=None, capabilities=None, begin=True, program="", environment=None):
        words = [sys.executable, "-S", START, *words, *(["--program", program] if program else [])]
        pipe = subprocess.PIPE
        self.process = subprocess.Popen(words, stdin=pipe, stdout=pipe, stderr=pipe, env=environment)
        self.messages = queue.Queue()
        self.notices = []
        self.number = 0
        self.complaint = b""
        self.threads = [threading.Thread(target=it, daemon=True) for it in (self._hear, self._hear_complaint)]
        for it in self.threads:
            it.start()
        if begin:
            self.begun = self.ask("initialize", capabilities=capabilities or {}, initializationOptions=options)
            self.tell("initialized")

    def __enter__(self):
        return self

    def __exit__(self, *fault):
        if fault != (None, None, None):
            self.process.kill()
        elif self.process.poll() is None:
            self.ask("shutdown")
            self.tell("exit")
        status = self.end()
        if fault == (None, None, None):
            assert (status, self.complaint) == (0, b""), (status, self.complaint.decode())

    def end(self):
        """The status of the server, which has to end."""
        try:
            return self.process.wait(PATIENCE)
        except subprocess.TimeoutExpired:
            self.process.kill()
            return self.process.wait()
        finally:
            for it in self.threads:
                it.join(PATIENCE)
            for it in (self.process.stdin, self.process.stdout, self.process.stderr):
                it.close()

    def _hear(self):
        stream = self.process.stdout
        while head := stream.readline():
            length = int(head.removeprefix(b"Content-Length: "))
            assert stream.readline() == b"\r\n"
            message = json.loads(stream.read(length))
            assert message["jsonrpc"] == "2.0"
            self.messages.put(message)
        self.messages.put(None)

    def _hear_complaint(self):
        self.complaint = self.process.stderr.read()

    def send(self, raw):
        self.process.stdin.write(raw)
        self.process.stdin.flush()

    def tell(self, method, **params):
        self.send(frame({"jsonrpc": "2.0", "method": method, "params": params}))

    def ask(self, method, **params):
        """The answer to a request."""
        self.number += 1
        begun = self._worked()
        self.send(frame({"jsonrpc": "2.0", "id": self.number, "method": method, "params": params}))
        try:
            return self.hear(self.number)
        finally:
            took = self._worked() - begun
            assert took < SECONDS, f"{method} took {took:.2f} s"

    def _worked(self):
        """How long the server has worked, in seconds of a processor."""
        words = Path(f"/proc/{self.process.pid}/stat").read_text().rpartition(")")[2].split()
        return (int(words[11]) + int(words[12])) / TICKS

    def hear(self, number):
        """The answer with a number; notices before it are kept."""
        while True:
            message = self._next(PATIENCE)
            if "method" in message:
                self.notices.append(message)
            elif message["id"] == number:
                if "error" in message:
                    raise Error(message["error"])
                return message["result"]

    def _next(self, seconds):
        message = self.messages.get(timeout=seconds)
        assert message is not None, f"the server ended: {self.complaint.decode()}"
        return message

    def notice(self, method, is_wanted=lambda params: True, seconds=PATIENCE):
        """The next notice of a sort, among those that were kept and those that come; its parameters."""
        until = time.monotonic() + seconds
        while True:
            for it in self.notices:
                if it["method"] == method and is_wanted(it["params"]):
                    self.notices.remove(it)
                    return it["params"]
            self.notices.append(self._next(max(0.01, until - time.monotonic())))

    def quiet(self, method, seconds):
        """That no notice of a sort comes for a time."""
        try:
            found = self.notice(method, seconds=seconds)
        except queue.Empty:
            return
        raise AssertionError(f"{method}: {found}")

    # Inputs

    def open(self, text, uri=URI, version=1):
        it = {"uri": uri, "languageId": "railcitron", "version": version, "text": text}
        self.tell("textDocument/didOpen", textDocument=it)

    def change(self, version, *changes, uri=URI):
        self.tell("textDocument/didChange", textDocument={"uri": uri, "version": version}, contentChanges=list(changes))

    def close(self, uri=URI):
        self.tell("textDocument/didClose", textDocument={"uri": uri})

    def at(self, method, position, uri=URI, **more):
        return self.ask(f"textDocument/{method}", textDocument={"uri": uri}, position=position, **more)

    def faults(self, version=1, uri=URI):
        """The diagnostics of a version."""
        is_wanted = lambda it: it["uri"] == uri and it.get("version") == version  # noqa: E731
        return self.notice("textDocument/publishDiagnostics", is_wanted)["diagnostics"]


SHARED = []


@contextmanager
def of(text):
    """A client that has a text open, and no program. All tests that only ask share it; the first one starts it."""
    if not SHARED:
        SHARED.append(Client(program=os.devnull))
    client = SHARED[0]
    try:
        client.open(text)
        yield client
    except BaseException:
        SHARED.pop().process.kill()
        raise


def end_all():
    """Ends the client that is shared."""
    for it in SHARED:
        it.__exit__(None, None, None)


def offset_of(text, mark):
    """The offset of `^` in a piece of the text that stands there once without it."""
    piece = mark.replace("^", "", 1)
    assert text.count(piece) == 1, f"{piece!r} stands there {text.count(piece)} times"
    return text.index(piece) + mark.index("^")


def position_at(text, offset):
    """A place as the protocol has it: its line, and the UTF-16 units before it."""
    line = text.rfind("\n", 0, offset) + 1
    return {"line": text.count("\n", 0, offset), "character": len(text[line:offset].encode("utf-16-le")) // 2}


def place(text, mark):
    return position_at(text, offset_of(text, mark))


def span(text, mark):
    """The range of what stands between the first `<` and `>` that are doubled in a piece of the text."""
    before, rest = mark.split("<<")
    inner, after = rest.split(">>")
    start = offset_of(text, f"{before}^{inner}{after}")
    return {"start": position_at(text, start), "end": position_at(text, start + len(inner))}
