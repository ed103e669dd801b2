"""Bends inputs: a byte, a word, a line or a section is changed, doubled, moved or taken away."""

import re
from random import Random

WORDS = re.compile(rb"[A-Za-z_][A-Za-z0-9_]*|-?[0-9]+|\s+|.", re.S)
HEADER = re.compile(rb"(?m)^(?=%(?:schema|units|sources|bundle)\r?$)")
# Numbers at the ends of what is read, and words that mean something where they stand.
NUMBERS = [b"0", b"-1", b"255", b"65535", b"65536", b"9223372036854775807", b"-9223372036854775809", b"1.0", b"007"]
BYTES = [b"\0", b"\r", b"\n", b"\xff", b"\xc3\xa9", b"{", b"}", b'"', b"%schema\n", b"//"]


def place(random, text):
    return random.randint(0, len(text))


def bend_byte(random, text):
    at = place(random, text)
    return text[:at] + bytes([random.randrange(256)]) + text[at + 1 :]


def bend_digit(random, text):
    """A hex digit, a letter or another character becomes one of its sort."""
    spots = [it.start() for it in re.finditer(rb"[0-9a-f]", text)]
    if not spots:
        return text
    at = random.choice(spots)
    return text[:at] + random.choice(b"0123456789abcdef").to_bytes(1, "big") + text[at + 1 :]


def bend_code(random, text):
    """A byte of a code, in hex, becomes another, or one more or less, or is doubled or taken away."""
    codes = [it.span() for it in re.finditer(rb"(?<= )(?:[0-9a-f]{2}){15,}(?=\s)", text)]
    if not codes:
        return bend_digit(random, text)
    begin, end = random.choice(codes)
    at = begin + 2 * random.randrange((end - begin) // 2)
    byte = int(text[at : at + 2], 16)
    others = [[random.randrange(256)], [(byte + 1) % 256], [(byte - 1) % 256], [byte, byte], []]
    return text[:at] + bytes(random.choice(others)).hex().encode() + text[at + 2 :]


def put(random, text):
    at = place(random, text)
    return text[:at] + random.choice(BYTES) + text[at:]


def cut(random, text):
    begin = place(random, text)
    return text[:begin] + text[begin + random.choice([1, 2, 8, 64, 1 << 20]) :]


def pieces_bent(random, pieces):
    """Pieces of which one is doubled, taken away, or changes its place with another."""
    if not pieces:
        return pieces
    a, b = random.randrange(len(pieces)), random.randrange(len(pieces))
    how = random.randrange(4)
    if how == 0:
        pieces[a] = pieces[b]
    elif how == 1:
        pieces[a], pieces[b] = pieces[b], pieces[a]
    elif how == 2:
        pieces.insert(a, pieces[b])
    else:
        del pieces[a]
    return pieces


def bend_word(random, text):
    return b"".join(pieces_bent(random, WORDS.findall(text)))


def bend_line(random, text):
    return b"".join(pieces_bent(random, text.splitlines(keepends=True)))


def bend_section(random, text):
    return b"".join(pieces_bent(random, HEADER.split(text)))


def bend_number(random, text):
    spots = [it.span() for it in re.finditer(rb"-?[0-9]+", text)]
    if not spots:
        return text
    begin, end = random.choice(spots)
    return text[:begin] + random.choice(NUMBERS) + text[end:]


# Each as often as it stands here.
BENDS = [bend_byte, bend_digit, *[bend_code] * 3, put, cut, *[bend_word] * 3, bend_line, bend_section, bend_number]


def bent(random: Random, text: bytes, times: int):
    for _ in range(times):
        text = random.choice(BENDS)(random, text)
    return text
