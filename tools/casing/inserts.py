"""What names and inserts stand for. Every text of a case goes through `expanded`."""

import re
from functools import cache
from math import prod

import faults
from entries import NAME, PARENTHESES, U64, number
from faults import Fault

# How deep inserts may be in each other.
DEPTH = 8
RESERVED = {b"n", b"m", b"row", b"join", b"byte", b"code", b"times"}
BETWEEN = re.compile(rb"[ \n]")
BYTE = re.compile(rb"\+?0*[0-9a-fA-F]{1,2}")


class Names:
    """What names stand for, in a file and in all files: a text, nothing here where it is a board, or why it is left out."""

    def __init__(self, shared=()):
        self.shared = dict(shared)
        self.own = {}

    def get(self, name):
        return self.own.get(name, self.shared.get(name))

    def add(self, name, text):
        if not NAME.fullmatch(name):
            raise Fault(faults.NAME)
        if name in self.own or name in self.shared or name in RESERVED:
            raise Fault(faults.TAKEN)
        self.own[name] = text

    def text(self, name):
        text = self.get(name)
        if text is None:
            raise Fault(faults.UNKNOWN)
        if isinstance(text, Fault):
            raise text
        return text


@cache
def cut(text):
    """The pieces of a text, each with whether it is an insert. `$()` is no piece, nor are `$(join)` and the end of its line."""
    pieces, start = [], 0
    while (begin := text.find(b"$(", start)) >= 0:
        pieces.append((text[start:begin], False))
        end = end_of(text, begin + 2)
        insert, start = text[begin + 2 : end], end + 1
        if insert != b"join":
            pieces.append((insert, True))
        elif text[start : start + 1] != b"\n":
            raise Fault(faults.JOIN)
        else:
            start += 1
    pieces.append((text[start:], False))
    return [it for it in pieces if it[0]]


def end_of(text, start):
    """Where the parenthesis of an insert is closed."""
    depth = 1
    for found in PARENTHESES.finditer(text, start):
        depth += 1 if found[0] == b"(" else -1
        if not depth:
            return found.start()
    raise Fault(faults.OPEN)


def split(text):
    """The first word of a text, and what is behind the space or the end of line after it."""
    word, *rest = BETWEEN.split(text, maxsplit=1)
    return word, rest[0] if rest else b""


def in_range(value):
    """A number that 64 bits hold."""
    if value > U64[1]:
        raise Fault(faults.NUMBER)
    return value


class Scope:
    """What inserts can stand for at a place: names, the codes of texts, a row, and the numbers of two turns."""

    def __init__(self, names, code, row=None):
        self.names, self.code, self.row = names, code, row

    def expanded(self, text, depth=DEPTH, n=None, m=None):
        """The bytes that a text stands for."""
        return b"".join(self.insert(it, depth, n, m) if is_insert else it for it, is_insert in cut(text))

    def insert(self, insert, depth, n, m):
        """What an insert stands for."""
        if not depth:
            raise Fault(faults.DEPTH)
        word, rest = split(insert)
        if word == b"times":
            return self.times(rest, depth - 1, n)
        if word == b"code":
            return self.code(text_of(self.expanded(rest, depth - 1, n, m)))
        if word == b"byte":
            return bytes_of(rest)
        return self.value(insert, n, m)

    def times(self, text, depth, m):
        """A text as many times as the number before it says."""
        word, text = split(text)
        count = number(word, U64)
        if b"$(" not in text:
            return text * count
        if depth and count and (form := form_of(text)):
            return counted(*form, count, m)
        return b"".join(self.expanded(text, depth, n, m) for n in range(count))

    def value(self, insert, n, m):
        """The row, a number, or what a name stands for."""
        if insert == b"row":
            if self.row is None:
                raise Fault(faults.INSERT)
            return self.row
        if is_sum(insert):
            return b"%d" % sum_of(insert, n, m)
        return self.names.text(insert).removesuffix(b"\n")


@cache
def terms_of(text):
    """The products between `+`: of each the product of its numbers, and how often `n` and `m` stand in it."""
    terms = []
    for words in (it.split(b"*") for it in text.split(b"+")):
        factor = in_range(prod(number(it, U64) for it in words if it not in (b"n", b"m")))
        terms.append((factor, words.count(b"n"), words.count(b"m")))
    return terms


def sum_of(text, n, m):
    """The number that products between `+` are."""
    total = 0
    for factor, ns, ms in terms_of(text):
        if (ns and n is None) or (ms and m is None):
            raise Fault(faults.INSERT)
        total += factor * (n**ns if ns else 1) * (m**ms if ms else 1)
    return in_range(total)


def is_sum(insert):
    """Whether an insert without a first word is a number."""
    return insert in (b"n", b"m") or b"+" in insert or b"*" in insert


@cache
def form_of(text):
    """A text with a place for each number in it, and these numbers, if it has no other inserts and `n` stands in no square."""
    pieces = cut(text)
    sums = [it for it, is_insert in pieces if is_insert]
    if any(BETWEEN.search(it) or not is_sum(it) for it in sums) or any(ns > 1 for it in sums for _, ns, _ in terms_of(it)):
        return None
    return b"".join(b"%d" if is_insert else it.replace(b"%", b"%%") for it, is_insert in pieces), sums


def counted(form, sums, count, m):
    """A text so many times, with its numbers: what `Scope.times` does turn by turn, for the many lines of a limit."""
    firsts = [sum_of(it, 0, m) for it in sums]
    lasts = [sum_of(it, count - 1, m) for it in sums]
    steps = [(last - first) // max(1, count - 1) for first, last in zip(firsts, lasts)]
    pairs = list(zip(firsts, steps))
    return b"".join([form % tuple([first + step * n for first, step in pairs]) for n in range(count)])


def bytes_of(words):
    """Bytes, which are written in hex."""
    found = words.split(b" ")
    if not all(BYTE.fullmatch(it) for it in found):
        raise Fault(faults.HEX)
    return bytes(int(it, 16) for it in found)


def text_of(text):
    """Bytes that are UTF-8."""
    try:
        text.decode()
    except UnicodeDecodeError:
        raise Fault(faults.UTF8) from None
    return text
