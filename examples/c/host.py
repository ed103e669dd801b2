#!/usr/bin/env python3
"""A host in Python: serves its standard input, and writes what comes of it.

    host.py LIBRARY < INPUT

The library is that of crates/bb_c, as a shared one. The status is the call's, or 1 where the host itself failed.
"""

import ctypes
import sys

VERSION = 4
RUN = 0
ROOM = 6

# The most cycles of a run, and the least rating that is chosen.
CYCLES = 1000
FLOOR = 0

# What `bb_serve` takes. A pointer to the bytes of Python is never null, nor where there are none.
TAKES = [
    ctypes.c_char_p,
    ctypes.c_size_t,
    ctypes.c_uint8,
    ctypes.c_uint32,
    ctypes.c_int64,
    ctypes.c_char_p,
    ctypes.c_size_t,
    ctypes.POINTER(ctypes.c_size_t),
]


def load(path):
    """The library, with the types of its calls."""
    library = ctypes.CDLL(path)
    library.bb_version.argtypes = []
    library.bb_version.restype = ctypes.c_uint32
    library.bb_serve.argtypes = TAKES
    library.bb_serve.restype = ctypes.c_uint8
    if library.bb_version() != VERSION:
        raise OSError(f"{path} is of another version than this host")
    return library


def call(library, data, room, mode=RUN):
    """The status, and what was written with so much room."""
    output, written = ctypes.create_string_buffer(room), ctypes.c_size_t()
    status = library.bb_serve(data, len(data), mode, CYCLES, FLOOR, output, room, ctypes.byref(written))
    return status, output[: written.value]


def serve(library, data):
    """The status, and what was written, with as much room as that takes."""
    room = 1 << 16
    while (answer := call(library, data, room))[0] == ROOM:
        room *= 2
    return answer


def main():
    if len(sys.argv) != 2:
        sys.exit(f"usage: {sys.argv[0]} LIBRARY < INPUT")
    try:
        status, text = serve(load(sys.argv[1]), sys.stdin.buffer.read())
        sys.stdout.buffer.write(text)
        sys.stdout.buffer.flush()
    except OSError as fault:
        sys.exit(f"host.py: {fault}")
    except MemoryError:
        sys.exit("host.py: there is no memory")
    sys.exit(status)


if __name__ == "__main__":
    main()
