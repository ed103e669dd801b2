"""Messages of the protocol on two streams: each is JSON, with its length in a header before it."""

import json
import threading
from typing import BinaryIO

LENGTH_LIMIT = 1 << 28
LINE_LIMIT = 1 << 12


class Broken(Exception):
    """The stream has no frame where one is due, so nothing after it can be read."""


class NoJson(Exception):
    """A frame whose content is not JSON. The next one can be read."""


class Frames:
    """Reads and writes messages. Several threads may write."""

    def __init__(self, source: BinaryIO, sink: BinaryIO):
        self.source = source
        self.sink = sink
        self.lock = threading.Lock()

    def read(self) -> object | None:
        """The next message; None at the end of the stream."""
        length = self.read_head()
        if length is None:
            return None
        content = self.source.read(length)
        if len(content) < length:
            return None
        try:
            return json.loads(content)
        except (ValueError, RecursionError) as fault:
            raise NoJson(str(fault)) from None

    def read_head(self) -> int | None:
        """The length that a header gives; None at the end of the stream."""
        length, is_empty = None, True
        while (line := self.source.readline(LINE_LIMIT)).endswith(b"\n") or len(line) == LINE_LIMIT:
            word = line.strip()
            if not word and not is_empty:
                break
            is_empty = is_empty and not word
            name, colon, value = word.partition(b":")
            if word and not colon:
                raise Broken(f"a header is due, and not {ascii(line[:60])}")
            if name.strip().lower() == b"content-length":
                length = self.length_of(value.strip())
        else:
            return None
        if length is None:
            raise Broken("a header lacks Content-Length")
        return length

    @staticmethod
    def length_of(value: bytes) -> int:
        if not value.isdigit() or len(value) > 12 or int(value) > LENGTH_LIMIT:
            raise Broken(f"{ascii(value[:60])} is no length")
        return int(value)

    def write(self, message: dict) -> None:
        """Writes a message. A client that is gone does not hear it."""
        content = json.dumps({"jsonrpc": "2.0", **message}, separators=(",", ":")).encode()
        with self.lock:
            try:
                self.sink.write(b"Content-Length: %d\r\n\r\n%s" % (len(content), content))
                self.sink.flush()
            except (OSError, ValueError):
                pass
