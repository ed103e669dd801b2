"""Why a case can't be run, in the words of bb_cases."""

FILE = "the file can't be read"
INDENT = "a line of spaces alone, or one indented by fewer than four"
NO_HEADER = "a text has no header above it"
KIND = "no kind of entries has this name"
SECOND = "`gives` or `rows` stands behind no case that has it"
NO_SECOND = "what it gives is not said"
NAME = "a name of letters, digits and `_` is due"
TAKEN = "this name stands for something already"
UNKNOWN = "no text or board has this name"
OPTIONS = "an option that this kind has not, one without a value, or a mode that is none"
NUMBER = "a number in its range is due"
PART = "a part is due, as `do:1`"
SCHEMA = "the schema is refused"
OPEN = "an insert has no end"
JOIN = "`$(join)` stands at the end of a line"
INSERT = "no such insert"
DEPTH = "inserts are too deep in each other"
HEX = "bytes in hex are due"
UTF8 = "a text is not UTF-8"
ROW = "a row has `|` between what is wanted and what is given"
SPELLING = "a code, written out and read again, has other bytes"


class Fault(Exception):
    """What is wrong with a case or with its file."""


class LeftOut(Fault):
    """A case takes a program that is not there."""
