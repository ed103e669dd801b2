"""The library and its calls, as crates/bb_c/include/bb.h declares them."""

from __future__ import annotations

import ctypes
import functools
import os
from ctypes import POINTER, c_char_p, c_int64, c_size_t, c_uint8, c_uint32, c_uint64
from pathlib import Path
from typing import Any

VERSION = 4
RUN = 0

# Statuses.
OK = RESTING = DONE = 0
NONE = 1
REFUSED, GOING, FULL, MEMORY, ROOM, DUE, MISUSE = 2, 3, 4, 5, 6, 8, 9
LIMIT = GOING

# The moves that have a text.
MOVE_TURN, MOVE_ADVANCE, MOVE_POST, MOVE_ANSWER = 0, 1, 2, 3

# The environment's variable that names the library.
VARIABLE = "RAILCITRON_LIBRARY"


class Handle(ctypes.Structure):
    """`bb_run`: it begins as none."""

    _fields_ = [("at", ctypes.c_void_p), ("is_open", c_uint8)]


_RUN = POINTER(Handle)
_BYTES: list[Any] = [c_char_p, c_size_t]
_SLOT: list[Any] = [_RUN, c_uint64, *_BYTES]
_INT = POINTER(c_int64)
_UNIT = POINTER(c_uint64)
_TEXT: list[Any] = [*_BYTES, POINTER(c_size_t)]
_UNITS: list[Any] = [_UNIT, c_size_t, POINTER(c_size_t)]

# What each call returns, and what it takes. A pointer to Python's bytes is never null.
CALLS: dict[str, tuple[Any, list[Any]]] = {
    "bb_version": (c_uint32, []),
    "bb_serve": (c_uint8, [*_BYTES, c_uint8, c_uint32, c_int64, *_BYTES, POINTER(c_size_t)]),
    "bb_open": (c_uint8, [_RUN, *_BYTES, *_BYTES, c_int64]),
    "bb_refusal": (c_uint8, [*_BYTES, *_BYTES, c_int64, *_TEXT]),
    "bb_explain": (c_uint8, [*_BYTES, *_BYTES, c_int64, *_TEXT]),
    "bb_turn": (c_uint8, [_RUN]),
    "bb_advance": (c_uint8, [_RUN, c_uint32]),
    "bb_made": (c_uint64, [_RUN]),
    "bb_ask_new": (c_uint8, [_RUN, *_BYTES]),
    "bb_ask_int": (c_uint8, [*_SLOT, c_int64]),
    "bb_ask_bool": (c_uint8, [*_SLOT, c_uint8]),
    "bb_ask_interval": (c_uint8, [*_SLOT, c_int64, c_int64]),
    "bb_ask_text": (c_uint8, [*_SLOT, *_BYTES]),
    "bb_ask_label": (c_uint8, [*_SLOT, *_BYTES, *_BYTES]),
    "bb_ask_link": (c_uint8, [*_SLOT, c_uint64]),
    "bb_ask_unlink": (c_uint8, [*_SLOT, c_uint64]),
    "bb_ask_enter": (c_uint8, _SLOT),
    "bb_ask_leave": (c_uint8, _SLOT),
    "bb_ask_delete": (c_uint8, [_RUN, c_uint64]),
    "bb_ask_say": (c_uint8, [_RUN, *_BYTES]),
    "bb_discard": (c_uint8, [_RUN]),
    "bb_post": (c_uint8, [_RUN]),
    "bb_due": (c_uint8, [_RUN, _UNIT, *_TEXT]),
    "bb_answer": (c_uint8, [_RUN]),
    "bb_next": (c_uint64, [_RUN]),
    "bb_class": (c_uint8, [_RUN, c_uint64, *_TEXT]),
    "bb_int": (c_uint8, [*_SLOT, _INT]),
    "bb_bool": (c_uint8, [*_SLOT, c_char_p]),
    "bb_kind": (c_uint8, [*_SLOT, c_char_p]),
    "bb_interval": (c_uint8, [*_SLOT, _INT, _INT]),
    "bb_text": (c_uint8, [*_SLOT, *_TEXT]),
    "bb_label": (c_uint8, [*_SLOT, *_TEXT]),
    "bb_links": (c_uint8, [*_SLOT, *_UNITS]),
    "bb_units": (c_uint8, [_RUN, *_BYTES, *_UNITS]),
    "bb_members": (c_uint8, [_RUN, *_BYTES, *_UNITS]),
    "bb_pending": (c_uint8, [_RUN, *_UNITS]),
    "bb_activation": (c_uint8, [_RUN, c_uint64, _UNIT, _INT, _INT, *_TEXT]),
    "bb_choice": (c_uint8, [_RUN, _UNIT]),
    "bb_document": (c_uint8, [_RUN, *_TEXT]),
    "bb_most_steps": (c_uint8, [_RUN, c_uint32, POINTER(c_uint64)]),
    "bb_creates": (c_uint8, [_RUN, c_char_p]),
    "bb_history": (c_uint8, [_RUN, c_uint8, c_uint32, *_TEXT]),
    "bb_resume": (c_uint8, [_RUN, *_BYTES, *_BYTES, c_int64, *_BYTES, _UNIT]),
    "bb_read": (c_uint8, [_RUN, *_BYTES, POINTER(c_size_t)]),
    "bb_skip": (c_uint8, [_RUN]),
    "bb_finish": (c_uint8, [_RUN]),
    "bb_close": (None, [_RUN]),
}


def load(path: str | os.PathLike[str] | None = None) -> ctypes.CDLL:
    """Returns the library at a path; or at that of RAILCITRON_LIBRARY; or `libbb.so` beside this package.

    Raises `OSError` if there is none (`FileNotFoundError`), if it can't be loaded, and if it is of another version than
    this package.
    """
    named = path or os.environ.get(VARIABLE)
    file = os.path.abspath(named or Path(__file__).with_name("libbb.so"))
    if not os.path.exists(file):
        raise FileNotFoundError(_lack(file, named is not None))
    return _load(file)


def _lack(file: str, is_named: bool) -> str:
    """What a host can do without a library."""
    if is_named:
        return f"there is no library {file}: {VARIABLE}, or the argument of `load`, has to name a libbb.so"
    return (
        f"there is no library {file}: this package was installed from its source, or is a checkout, and neither has the"
        f" library. Install the wheel of a release, or have {VARIABLE} name a libbb.so, which the package's README tells"
        " how to make"
    )


@functools.cache
def _load(file: str) -> ctypes.CDLL:
    try:
        library = ctypes.CDLL(file)
    except OSError as fault:
        raise OSError(f"{file} can't be loaded: {fault}. {VARIABLE}, or the argument of `load`, names another") from None
    return with_types(library, file)


def with_types(library: ctypes.CDLL, file: str) -> ctypes.CDLL:
    """The library with the types of its calls, if it is of this package's version."""
    _type(library, "bb_version", file, "calls of another kind")
    version = library.bb_version()
    if version != VERSION:
        raise OSError(f"{file} has version {version} of the calls, and this package needs version {VERSION}")
    for name in CALLS:
        _type(library, name, file, f"version {version} of the calls, as this package")
    return library


def _type(library: ctypes.CDLL, name: str, file: str, version: str) -> None:
    try:
        call = getattr(library, name)
    except AttributeError:
        raise OSError(f"{file} has {version}, but not {name}: it is older than this package, or no such library") from None
    call.restype, call.argtypes = CALLS[name]


def why_refused(library: ctypes.CDLL, *opened: Any) -> tuple[str | None, str]:
    """The line by which the library refuses an input, and its message, given what `bb_open` was passed."""
    line, message = (_told(getattr(library, name), opened) for name in ("bb_refusal", "bb_explain"))
    return line, message or line or "the input is refused, and there is no memory to say why"


def _told(call: Any, opened: tuple[Any, ...]) -> str | None:
    """What a call tells of an input, or None if it tells nothing. What is longer than the room is made twice."""
    room, length = 1 << 12, c_size_t()
    while True:
        text = ctypes.create_string_buffer(room)
        if call(*opened, text, room, ctypes.byref(length)) != OK:
            return None
        if length.value <= room:
            return ctypes.string_at(text, length.value).decode()
        room = length.value
