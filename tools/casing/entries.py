"""Files of cases: their entries, each a header with the lines of its text, and perhaps a second one, and the rows of tables.

Texts are bytes, since an insert may stand for any.
"""

import re

import faults
from faults import Fault

INDENT = b"    "
SECOND = (b"gives", b"rows")
NAME = re.compile(rb"[A-Za-z0-9_]+")
DIGITS = re.compile(rb"\+?[0-9]+|-[0-9]*[1-9][0-9]*")
PARENTHESES = re.compile(rb"[()]")
U8, U16, U32, U64 = ((0, 2**it - 1) for it in (8, 16, 32, 64))
I64 = (-(2**63), 2**63 - 1)


def number(word, bounds):
    """The number that a word is."""
    if DIGITS.fullmatch(word) and bounds[0] <= int(word) <= bounds[1]:
        return int(word)
    raise Fault(faults.NUMBER)


class Part:
    """A header and the lines below it, without their indent."""

    def __init__(self, line, text):
        self.line = line
        words = [it for it in text.split(b" ") if it]
        self.kind, self.name, *self.options = words if len(words) > 1 else [*words, b""]
        self.wrong = self.options[-1:] == [b"wrong"]
        if self.wrong:
            self.options.pop()
        self.lines = []

    def check(self, allowed):
        """There is a name, and the options are among the allowed ones."""
        if not NAME.fullmatch(self.name):
            raise Fault(faults.NAME)
        if len(self.options) % 2 or not {*self.options[::2]} <= {*allowed}:
            raise Fault(faults.OPTIONS)

    def option(self, name, absent=None):
        """The value of an option."""
        for word, value in zip(self.options[::2], self.options[1::2]):
            if word == name:
                return value
        return absent

    def number(self, name, bounds):
        """The number that an option has, or nothing without the option."""
        word = self.option(name)
        return None if word is None else number(word, bounds)

    def text(self):
        """The lines as one text."""
        return b"".join(line + b"\n" for _, line in self.lines)


class Entry:
    """An entry of a file: what it is, and what it gives or its rows."""

    def __init__(self, first):
        self.first, self.second = first, None

    def part(self, word):
        """The second part, which begins with that word."""
        if self.second is None:
            raise Fault(faults.NO_SECOND)
        if self.second.kind != word:
            raise Fault(faults.SECOND)
        return self.second

    def rows(self):
        """The rows of a table: for inputs they come after their form."""
        if self.first.kind == b"inputs":
            return rows_of(self.part(b"rows"))
        if self.second is not None:
            raise Fault(faults.SECOND)
        return rows_of(self.first)


class FileFault(Fault):
    """A fault of a line, which leaves no case of its file."""

    def __init__(self, line, fault):
        super().__init__(fault)
        self.line = line


def add_header(entries, at, line):
    """Begins an entry or its second part."""
    if line.startswith(b" "):
        raise FileFault(at, faults.INDENT)
    part = Part(at, line)
    if part.kind not in SECOND:
        entries.append(Entry(part))
    elif entries and entries[-1].second is None:
        entries[-1].second = part
    else:
        raise FileFault(at, faults.SECOND)


def add_text(entries, at, text):
    """Adds a line to the part that is begun."""
    if not text.decode().strip():
        raise FileFault(at, faults.INDENT)
    if not entries:
        raise FileFault(at, faults.NO_HEADER)
    (entries[-1].second or entries[-1].first).lines.append((at, text))


def entries_of(text):
    """The entries of a file."""
    try:
        text.decode()
    except UnicodeDecodeError:
        raise FileFault(0, faults.FILE) from None
    entries = []
    for at, line in enumerate(text.split(b"\n"), 1):
        if not line or line.startswith(b"#"):
            continue
        if line.startswith(INDENT):
            add_text(entries, at, line[len(INDENT) :])
        else:
            add_header(entries, at, line)
    return entries


class Row:
    """A row of a table, and the lines below it, each with its end."""

    def __init__(self, line, text):
        self.line, self.text, self.below = line, text, b""

    def sides(self):
        """What is before the first `|` and what is after it, without the spaces around it."""
        front, bar, back = self.text.partition(b"|")
        if not bar:
            raise Fault(faults.ROW)
        return front.removesuffix(b" "), back.removeprefix(b" ")


def depth_after(line, depth):
    """How deep in inserts a text is behind a line."""
    for found in PARENTHESES.finditer(line):
        at = found.start()
        if found[0] == b")":
            depth = max(0, depth - 1)
        elif depth or line[at - 1 : at] == b"$":
            depth += 1
    return depth


def rows_of(part):
    """The rows of a part. One goes on over more lines where an insert is not yet closed."""
    rows, depth = [], 0
    for at, line in part.lines:
        below = depth == 0 and line.startswith(b"  ")
        if (depth or below) and not rows:
            raise Fault(faults.ROW)
        if depth:
            rows[-1].text += b"\n" + line
        elif below:
            rows[-1].below += line[2:] + b"\n"
        else:
            rows.append(Row(at, line))
        depth = depth_after(line, depth)
    return rows
