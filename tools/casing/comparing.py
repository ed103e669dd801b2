"""The kinds of cases that the built programs run: what comes of each is compared with what is wanted."""

import re
from collections import namedtuple

import faults
from entries import I64, U8, U32, U64, number
from faults import Fault
from inserts import Scope, text_of

MODES = (b"run", b"check", b"compile", b"units")
REFUSED, FAILED, FINISHED = 2, 6, (0, 3, 4)
# What the natives of the program add to the trace of a run that has none of its own: each is closed, and was not called.
CLOSED = b"closed tally 0\nclosed reaper 0\n"
# How much of a line is shown.
SHOWN = 300
HEX = re.compile(rb"(?:[0-9a-f]{2})*")

# Where what is given begins to differ: the line, from 1, or 0 if the status differs.
Difference = namedtuple("Difference", "line wanted given")


def shown(line):
    """The front of a line in quotes, with numbers for bytes that are no plain characters, or the end of a text."""
    if line is None:
        return "the end"
    text = "".join(chr(it) if 32 <= it < 127 and it not in b'"\\' else other(it) for it in line[:SHOWN])
    return f'"{text}"' + (".." if len(line) > SHOWN else "")


def other(byte):
    """How a byte is shown that does not stand for itself."""
    return "\\" + chr(byte) if byte in b'"\\' else f"\\x{byte:02x}"


def difference(wanted, given):
    """The first difference between two texts."""
    if wanted == given:
        return None
    ours, theirs = wanted.split(b"\n"), given.split(b"\n")
    at = next((at for at, (one, two) in enumerate(zip(ours, theirs)) if one != two), min(len(ours), len(theirs)))
    return Difference(at + 1, *(shown(it[at] if at < len(it) else None) for it in (ours, theirs)))


def difference_served(served, status, output):
    """The first difference of an output, or else that of the status."""
    found = difference(output, served.output)
    if found or served.status == status:
        return found
    return Difference(0, str(status), str(served.status))


class Serving:
    """How the inputs below a header are served."""

    def __init__(self, programs, header):
        header.check((b"mode", b"limit", b"floor", b"room", b"by", b"natives"))
        self.programs = programs
        self.mode = header.option(b"mode", b"run")
        natives = header.option(b"natives", b"program")
        if self.mode not in MODES or natives != b"program":
            raise Fault(faults.OPTIONS)
        self.words = [self.mode.decode()] if header.option(b"mode") else []
        for word, bounds in (b"limit", U32), (b"floor", I64):
            if (value := header.number(word, bounds)) is not None:
                self.words.append(f"--{word.decode()}={value}")
        self.room, self.step = header.number(b"room", U64), header.number(b"by", U64)
        self.without_natives = self.mode == b"run" and header.option(b"natives") is None

    def compare(self, given, status, output, said):
        """The first difference of the output, of the status, and of what is said, if that is compared."""
        room = self.room
        if self.without_natives and status in FINISHED:
            output += CLOSED
            room = None if room is None else room + len(CLOSED)
        served = self.programs.serve(self.words, given, room, self.step)
        found = difference_served(served, status, output)
        if self.without_natives and status == FAILED and room is not None:
            found = found or self.fits(given)
        return found or (None if said is None else difference(said, served.said))

    def fits(self, given):
        """The difference of a trace that should not fit, if it would where the natives of the program added nothing to it."""
        whole = self.programs.serve(self.words, given)
        if len(whole.output.removesuffix(CLOSED)) <= self.room:
            return Difference(0, str(FAILED), str(whole.status))
        return None


def compare_input(programs, names, entry):
    """The first difference of a case of an input."""
    scope = Scope(names, programs.code)
    serving = Serving(programs, entry.first)
    gives = entry.part(b"gives")
    gives.check((b"said",))
    given = scope.expanded(entry.first.text())
    status = number(gives.name, U8)
    name = gives.option(b"said")
    said = None if name is None else names.text(name)
    return serving.compare(given, status, scope.expanded(gives.text()), said)


class Inputs:
    """A table of inputs of one form, each refused."""

    def __init__(self, programs, names, entry):
        self.serving = Serving(programs, entry.first)
        self.scope, self.names = Scope(names, programs.code), names
        self.form = entry.first.text()

    def compare(self, row):
        line, back = row.sides()
        said = text_of(self.scope.expanded(row.below))
        at_row = Scope(self.names, self.scope.code, self.scope.expanded(back))
        given = at_row.expanded(self.form)
        return self.serving.compare(given, REFUSED, line + b"\n", said or None)


class Spelled:
    """A table of bytes, or of texts that are no codes."""

    def __init__(self, programs, names, entry):
        entry.first.check(())
        self.programs, self.scope = programs, Scope(names, programs.code)
        self.is_bytes = entry.first.kind == b"bytes"

    def compare(self, row):
        front, back = row.sides()
        text = text_of(self.scope.expanded(back))
        given = self.given_bytes(text) if self.is_bytes else self.programs.line_of_fault(text)
        return difference(front + b"\n" + row.below, given.encode() + b"\n")

    def given_bytes(self, text):
        """`ok`, or the fault of the bytes of some hex, between which there may be spaces."""
        digits = b"".join(text.split()).lower()
        if not HEX.fullmatch(digits):
            raise Fault(faults.HEX)
        return self.programs.read_again(digits + b"\n")
