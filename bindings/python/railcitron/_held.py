"""A run's handle, and how calls on it are made."""

from __future__ import annotations

import codecs
import ctypes
import os
import threading
import warnings
from collections.abc import Iterator
from functools import cached_property
from typing import Any

from . import _library as calls
from ._faults import Misuse, OutOfMemory, Refused
from ._schema import Schema, section_of

# The bytes of the buffer for texts and for the trace, and the units of that for units.
_ROOM = 1 << 16
_UNITS = 1 << 10


class Held:
    """A handle, the library that it is passed to, and what the library told."""

    def __init__(self, data: bytes, library: str | os.PathLike[str] | ctypes.CDLL | None) -> None:
        self._handle = calls.Handle()
        self._home = threading.get_ident(), os.getpid()
        is_path = library is None or isinstance(library, (str, os.PathLike))
        self._library: Any = calls.load(library) if is_path else library
        self._section = section_of(data)
        self._decoder = codecs.getincrementaldecoder("utf-8")()
        self._told: list[str] = []
        self._room = ctypes.create_string_buffer(_ROOM)
        self._found = (ctypes.c_uint64 * _UNITS)()

    @cached_property
    def schema(self) -> Schema:
        """What the schema of the run's input declares."""
        return Schema(self._section)

    def close(self) -> None:
        """Frees the run, on its thread and in its process. What was not read is lost. A closed run may be closed again.

        Raises `Misuse` on another thread. In a forked child nothing happens.
        """
        if os.getpid() == self._home[1]:
            self._call("bb_close")

    def __del__(self) -> None:
        handle = getattr(self, "_handle", None)
        if handle is None or not handle.is_open or os.getpid() != self._home[1]:
            return
        warnings.warn("a run was not closed", ResourceWarning, source=self)
        if threading.get_ident() == self._home[0]:
            self._call("bb_close")

    def _call(self, name: str, *passed: Any) -> Any:
        if (threading.get_ident(), os.getpid()) != self._home:
            raise Misuse("a run stays on the thread, and in the process, that opened it")
        return getattr(self._library, name)(ctypes.byref(self._handle), *passed)

    def _looked(self, name: str, *passed: Any) -> bool:
        """Whether what a call looks up exists."""
        status = self._call(name, *passed)
        if status == calls.REFUSED:
            raise Refused(None, "a name is refused")
        if status == calls.MEMORY:
            raise OutOfMemory("there is no memory for what is looked up")
        if status == calls.MISUSE:
            raise Misuse("there is no run")
        return bool(status == calls.OK)

    def _text(self, name: str, *passed: Any) -> str | None:
        """The text that a call looks up, if it exists. One that is longer than the buffer is made twice."""
        text, room, length = self._room, _ROOM, ctypes.c_size_t()
        while self._looked(name, *passed, text, room, ctypes.byref(length)):
            if length.value <= room:
                return ctypes.string_at(text, length.value).decode()
            room = length.value
            text = ctypes.create_string_buffer(room)
        return None

    def _units(self, name: str, *passed: Any) -> list[int] | None:
        """The units that a call looks up, if it finds any place for them."""
        found: ctypes.Array[ctypes.c_uint64] = self._found
        count = ctypes.c_size_t()
        while self._looked(name, *passed, found, len(found), ctypes.byref(count)):
            if count.value <= len(found):
                return found[: count.value]
            found = (ctypes.c_uint64 * count.value)()
        return None

    def _pieces(self) -> Iterator[bytes]:
        """The bytes of the trace that were not read yet."""
        length = ctypes.c_size_t()
        while True:
            if self._call("bb_read", self._room, _ROOM, ctypes.byref(length)) == calls.MISUSE:
                raise Misuse("there is no run")
            if length.value == 0:
                return
            yield ctypes.string_at(self._room, length.value)

    def _hear(self) -> str:
        """Takes what the library told since it was heard last, and keeps it for `read`."""
        told = "".join(self._decoder.decode(piece) for piece in self._pieces())
        if told:
            self._told.append(told)
        return told

    def _take_told(self) -> str:
        """What was told and not read."""
        self._hear()
        told, self._told = "".join(self._told), []
        return told
