"""The built programs, as cases call them: inputs and codes go in, and what comes of them is told."""

import os
import re
from collections import namedtuple
from functools import cache

import faults
import narrow
from faults import Fault, LeftOut

LINE = re.compile(r"line (\d+): ")

# What came of an input: the status, the output, and what was written to standard error.
Served = namedtuple("Served", "status output said")

# What `bbasm` says of bytes that are no code, and the name of the fault: docs/users/formats/code.md has what each means.
SENTENCES = {
    "this is no code": "Magic",
    "the code has another version": "Version",
    "the code ends too early": "Short",
    "an op is unknown": "Opcode",
    "an operand or a text is wrong": "Operand",
    "a count is outside its limits": "Limit",
    "bytes follow the code": "Trailing",
}


def file_of(given=b""):
    """A file in memory, to be read from its front."""
    file = os.memfd_create("case")
    view = memoryview(given)
    while view:
        view = view[os.write(file, view) :]
    os.lseek(file, 0, os.SEEK_SET)
    return file


def taken(file):
    """What a file has taken, which is closed."""
    with open(file, "rb") as it:
        it.seek(0)
        return it.read()


def call(words, given):
    """Runs a program over files in memory, and returns its status and what it wrote. It is done so often that pipes cost
    more than the programs."""
    files = [file_of(given), file_of(), file_of()]
    actions = [(os.POSIX_SPAWN_DUP2, file, at) for at, file in enumerate(files)]
    _, status = os.waitpid(os.posix_spawn(words[0], words, {}, file_actions=actions), 0)
    os.close(files[0])
    return os.waitstatus_to_exitcode(status), taken(files[1]), taken(files[2])


def name_of(sentence):
    """The name of a fault of bytes, or else what was said."""
    return SENTENCES.get(sentence, sentence)


class Programs:
    """`bb` and `bbasm`, or nothing in place of one that is not there."""

    def __init__(self, bb, bbasm):
        self.bb, self.bbasm = bb, bbasm
        self.code = cache(self.code)

    def serve(self, words, given, room=None, step=None):
        """What comes of an input, where the output takes so many bytes, or so many at a time."""
        if room is None and step is None:
            return Served(*call([self.bb, *words], given))
        return Served(*narrow.run([self.bb, *words], given, room, step), b"")

    def spell(self, word, text):
        """What `bbasm` makes of a text or of hex digits, and what it says where it makes nothing."""
        if self.bbasm is None:
            raise LeftOut("a code is spelled by bbasm")
        status, output, said = call([self.bbasm, word], text)
        said = said.decode().removeprefix("bbasm: ").removesuffix("\n")
        if status not in (0, 1) or (status == 0) == bool(said):
            raise Fault(f"bbasm ends with status {status}, and says {said!r}")
        return output, said

    def code(self, text):
        """The hex digits of the code that a text is, which was written out and read again."""
        digits, said = self.spell("hex", text)
        if said:
            raise Fault(f"in its code, {said}")
        self.read_again(digits)
        return digits.removesuffix(b"\n")

    def read_again(self, digits):
        """Hex digits of a code, written out in text and read again, are the same, or the name of their fault is returned."""
        text, said = self.spell("text", digits)
        if said:
            return name_of(said)
        if self.spell("hex", text) != (digits, ""):
            raise Fault(faults.SPELLING)
        return "ok"

    def line_of_fault(self, text):
        """The line of the first fault of a text, or `ok` where it has none."""
        _, said = self.spell("hex", text)
        found = LINE.match(said)
        return found[1] if found else said or "ok"
