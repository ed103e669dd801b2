"""Names that have one hash in the standard library's hasher of text, and others, for growth.py."""

WORD = (1 << 64) - 1
# The seed and the multiplier of the standard library's `FoldHasher`.
SEED = 0x243F6A8885A308D3
MULTIPLIER = 0x9E3779B97F4A7C15

LETTERS = b"abcdefghijklmnopqrstuvwxyz"
# What may be in a JSON text as it is.
PLAIN = set(range(0x20, 0x7F)) - set(b'"\\')


def folded(a, b):
    """The halves of a product, joined: the hasher's one step."""
    product = a * b
    return (product & WORD) ^ (product >> 64)


def little(part):
    return int.from_bytes(part, "little")


def digits(number, length):
    """A number in letters, the last letter counting fastest."""
    out = bytearray()
    for _ in range(length):
        number, digit = divmod(number, len(LETTERS))
        out.append(LETTERS[digit])
    return bytes(reversed(out))


def colliding_front():
    """24 bytes with which each name of 32 bytes has one hash.

    The state after 16 bytes is looked for that is itself a text of 8 bytes. With these next the hasher multiplies
    the last 8 bytes by 0.
    """
    number = 0
    while True:
        half = digits(number, 16)
        state = folded(little(half[:8]) ^ (SEED + 32 & WORD), little(half[8:]) ^ MULTIPLIER)
        third = state.to_bytes(8, "little")
        if all(byte in PLAIN for byte in third):
            return half + third
        number += 1


def hash_of(name):
    """The hasher's state after a name of 32 bytes."""
    first = folded(little(name[:8]) ^ (SEED + 32 & WORD), little(name[8:16]) ^ MULTIPLIER)
    return folded(little(name[16:24]) ^ first, little(name[24:]) ^ MULTIPLIER)


FRONT = colliding_front()
assert hash_of(FRONT + b"aaaaaaaa") == hash_of(FRONT + b"zebra123") == 0


def colliding(number):
    return (FRONT + digits(number, 8)).decode()


def other(number):
    """A name of the same length, with a hash of its own."""
    return "name_that_has_a_hash_of_" + digits(number, 8).decode()
