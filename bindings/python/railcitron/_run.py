"""A run that Python holds."""

from __future__ import annotations

import contextlib
import ctypes
import os
import re
from collections.abc import Callable, Iterable, Iterator, Mapping
from contextlib import AbstractContextManager
from typing import Any, TypeVar

from . import _library as calls
from ._asks import Asks, RefusedAsk, as_bytes, as_int, within
from ._faults import Due, Fault, Full, Misuse, OutOfMemory, Refused
from ._looks import Ending, Looks

Native = Callable[[int, Asks], object]
Given = TypeVar("Given", bound=Native)
Keeper = Callable[[str], object]

# The cycles that one call makes, at most.
_SLICE = 1 << 10

_ENDINGS: dict[int, Ending] = {calls.DONE: "quiescence", calls.LIMIT: "limit", calls.FULL: "full"}
_STATES = {calls.RESTING: "at rest", calls.GOING: "going", calls.FULL: "full", calls.MEMORY: "out of memory", calls.DUE: "due"}
_NATIVE = re.compile(r"[a-z][a-z0-9_]*")
_STEPS = {"bb_turn": calls.MOVE_TURN, "bb_advance": calls.MOVE_ADVANCE, "bb_post": calls.MOVE_POST, "bb_answer": calls.MOVE_ANSWER}
_REFUSED = re.compile(r"^refused ask ([0-9]+) ([0-9]+)$", re.M)


def _input(data: object) -> bytes:
    """The bytes of an input."""
    if isinstance(data, str):
        return data.encode()
    if isinstance(data, (bytes, bytearray, memoryview)):
        return bytes(data)
    raise TypeError(f"an input is a str, or bytes, and not a {type(data).__name__}")


def _natives(natives: Iterable[str] | Mapping[str, Native | None]) -> dict[str, Native | None]:
    """The natives by their names, each with its function, if there is one."""
    if isinstance(natives, (str, bytes)):
        raise TypeError("natives are a list of names, or a dict of functions by names, and not one text")
    named: dict[str, Native | None] = {**natives} if isinstance(natives, Mapping) else {it: None for it in natives}
    for name, function in named.items():
        if not isinstance(name, str):
            raise TypeError(f"the name of a native is a str, and not a {type(name).__name__}")
        if not _NATIVE.fullmatch(name):
            raise ValueError(f"{name!r} is the name of no source, so of no native")
        if function is not None and not callable(function):
            raise TypeError(f"the native {name} is a function, and not a {type(function).__name__}")
    return named


class Run(Looks):
    """The run of an input.

    `data` is the input, as text or as bytes. A source with `native` has one of the names `natives`, which may give their
    functions: `natives={"weigh": weigh}`, or `natives=["weigh"]` and later `run.native("weigh")`. No activation rated
    below `floor` is chosen. `library` is what `load` returns, or a path; None is the usual one.

    `keep_history` has the run keep its moves as text, from which `resume` takes the run up again. A function receives the
    text of each move before the move is made: `keep_history=log.write` with a file that is written through, as
    `open(name, "a", buffering=1)`. What it raises leaves the move, which is not made. With True, `history` returns the texts.

    `with` closes the run. It stays on its thread: a thread that ends without closing it leaks it. `for unit in run` gives
    the numbers of all units, ascending, and `unit in run` says whether a unit is live.

    Raises `Refused` if the input is refused, `OutOfMemory`, what `load` raises, and `TypeError`, `ValueError` or
    `OverflowError` for arguments of other kinds.
    """

    def __init__(
        self,
        data: str | bytes | bytearray | memoryview,
        *,
        natives: Iterable[str] | Mapping[str, Native | None] = (),
        floor: int = 0,
        library: str | os.PathLike[str] | ctypes.CDLL | None = None,
        keep_history: bool | Keeper = False,
    ) -> None:
        self._begin(data, natives, floor, library, keep_history, None)

    @classmethod
    def resume(
        cls,
        data: str | bytes | bytearray | memoryview,
        history: str | bytes | bytearray | memoryview,
        *,
        natives: Iterable[str] | Mapping[str, Native | None] = (),
        floor: int = 0,
        library: str | os.PathLike[str] | ctypes.CDLL | None = None,
        keep_history: bool | Keeper = False,
    ) -> Run:
        """Takes a run up again: begins the run of an input, and makes the moves of a history of it, with the same natives and
        floor. No function of a native is called, as their answers are in the history. `read` returns the trace from its
        start. The history that the run keeps has the moves from here on, so append it to the other one.

        Raises `Refused` if a line of the history is wrong, or if the history ends in the middle of a post or an answer;
        `UnicodeDecodeError` if it is not UTF-8; and what `Run` raises.
        """
        run = cls.__new__(cls)
        run._begin(data, natives, floor, library, keep_history, _input(history))
        return run

    def _begin(
        self,
        data: str | bytes | bytearray | memoryview,
        natives: Iterable[str] | Mapping[str, Native | None],
        floor: int,
        library: str | os.PathLike[str] | ctypes.CDLL | None,
        keep_history: bool | Keeper,
        history: bytes | None,
    ) -> None:
        """Opens the run, or takes it up again."""
        given = _input(data)
        self._natives = _natives(natives)
        self._asks: Asks | None = None
        self._stands = calls.MISUSE
        self._history: list[str] | None = [] if keep_history is True else None
        self._keep: Keeper | None = keep_history if callable(keep_history) else None
        super().__init__(given, library)
        opened = (given, len(given), *as_bytes("\n".join(self._natives)), as_int(floor))
        line = ctypes.c_uint64()
        if history is None:
            stands = self._call("bb_open", *opened)
        else:
            history.decode()
            stands = self._call("bb_resume", *opened, history, len(history), ctypes.byref(line))
        if stands == calls.REFUSED and line.value:
            raise Refused(None, f"the history is none: line {line.value} is wrong, or is missing in a post or an answer")
        if stands == calls.REFUSED:
            raise Refused(*calls.why_refused(self._library, *opened))
        if stands == calls.MEMORY:
            raise OutOfMemory("there is no memory for the run")
        self._stands = stands

    # ---- moves

    def native(self, name: str) -> Callable[[Given], Given]:
        """Decorates the function that acts for the sources of a name. It receives the unit and asks, which are applied when
        it returns. What it raises leaves the move, and the native is still due.

        Raises `Misuse` if the run has no native of that name.
        """
        if name not in self._natives:
            raise Misuse(f"the run has no native {name!r}")

        def given(function: Given) -> Given:
            self._natives[name] = function
            return function

        return given

    def turn(self) -> bool:
        """Makes a cycle, or tells quiescence if nothing can be chosen. Returns whether the run goes on.

        Raises `Due` if a native is due that has no function, what a native's function raises, `Full`, `OutOfMemory`, and
        `Misuse` if there is no run, it was finished, or asks are gathered.
        """
        return self._goes_on(self._answered(self._move("bb_turn")))

    def advance(self, cycles: int) -> bool:
        """Makes at most so many cycles, and then tells quiescence if nothing can be chosen. Returns whether the run goes on.

        The library is called for some cycles at a time, which the trace does not show: Ctrl-C is heard between two calls,
        and `made` tells then how many cycles there were. Nothing is heard during an execution.

        Raises what `turn` raises, and `OverflowError` if `cycles` is negative or not below 2^32.
        """
        left = within(cycles, 0, 1 << 32)
        until = self.made + left
        while True:
            stands = self._move("bb_advance", min(left, _SLICE))
            is_last = stands != calls.DUE and left <= _SLICE
            stands = self._answered(stands)
            if stands != calls.GOING or is_last:
                return self._goes_on(stands)
            left = until - self.made

    def post(self) -> AbstractContextManager[Asks]:
        """What happened outside: a block of `with` that gathers asks, and posts them at its end. If the block raises, they
        are forgotten. Afterwards `refused` of the asks has those that could not be applied.

        Before anything is gathered it raises `Due` if a native is due, `Full` or `OutOfMemory` if the run is over for that
        reason, and `Misuse` if there is no run, it was finished, or other asks are gathered. The block's end raises
        `Full` or `OutOfMemory` if the post ends the run.
        """
        self._want_post()
        return self._gathers("bb_post", self._want_post)

    def answer(self) -> AbstractContextManager[Asks]:
        """What the native that is due asks: a block of `with` that gathers asks, perhaps none, and answers with them at its
        end. If the block raises, they are forgotten, and the native is still due.

        Raises `Misuse` if no native is due, before anything is gathered, and otherwise what `post` raises.
        """
        self._want_due()
        return self._gathers("bb_answer", self._want_due)

    def _want_post(self) -> None:
        """A post will be applied."""
        if due := self.due:
            raise Due(*due)
        if self._stands in (calls.FULL, calls.MEMORY):
            self._goes_on(self._stands)
        if self._ending is not None or not self._handle.is_open:
            raise Misuse("there is no run, or it was finished")

    def _want_due(self) -> None:
        """An answer will be applied."""
        if self.due is None:
            raise Misuse("no native is due")

    @contextlib.contextmanager
    def _gathers(self, move: str, want: Callable[[], None]) -> Iterator[Asks]:
        self._want_no_asks()
        want()
        asks = Asks(self)
        self._call("bb_discard")
        self._asks = asks
        try:
            yield asks
        except BaseException:
            self._asks = None
            self._call("bb_discard")
            raise
        finally:
            asks._is_open, self._asks = False, None
        self._hear()
        try:
            self._before(move)
        except BaseException:
            self._call("bb_discard")
            raise
        stands = self._call(move)
        if stands == calls.MISUSE:
            self._call("bb_discard")
            want()
        self._stands = stands
        asks.refused = [RefusedAsk(int(number), int(reason)) for number, reason in _REFUSED.findall(self._hear())]
        self._goes_on(self._stands)

    def _want_no_asks(self) -> None:
        if self._asks is not None:
            raise Misuse("asks are gathered: no other move is made before the end of their block")

    def _before(self, move: str, cycles: int = 0) -> None:
        """Keeps the text of a move that is about to be made, if the run keeps a history."""
        if self._keep is None and self._history is None:
            return
        try:
            text = self._text("bb_history", _STEPS[move], cycles)
        except Refused:
            raise Refused(None, "an ask has a class, a slot or a space that is no name, and a history can't tell it") from None
        if text is not None and self._history is not None:
            self._history.append(text)
        elif text is not None and self._keep is not None:
            self._keep(text)

    def history(self) -> str:
        """Returns the moves that were made since it was called last, as text. Each is returned once: append them to a log.

        Raises `Misuse` if the run does not keep its moves, or passes them to a function.
        """
        if self._history is None:
            raise Misuse("the run keeps no history, or passes it to a function")
        kept, self._history = "".join(self._history), []
        return kept

    def _move(self, name: str, *passed: Any) -> int:
        self._want_no_asks()
        if self._stands == calls.GOING:
            self._before(name, *passed)
        self._stands = self._call(name, *passed)
        return self._stands

    def _answered(self, stands: int) -> int:
        """How the run stands once the native that may be due was answered for."""
        if stands != calls.DUE:
            return stands
        if (due := self.due) is None:
            raise Misuse("no native is due")
        function = self._natives.get(due[1])
        if function is None:
            raise Due(*due)
        with self.answer() as asks:
            function(due[0], asks)
        return calls.GOING

    def _goes_on(self, stands: int) -> bool:
        """Whether a run that stands so goes on."""
        if stands == calls.FULL:
            raise Full("the run is over: there is no space for another unit or activation")
        if stands == calls.MEMORY:
            raise OutOfMemory("memory ran out in a move: the run can only be read and closed")
        if stands == calls.MISUSE:
            raise Misuse("there is no run, or it was finished")
        return stands in (calls.GOING, calls.DUE)

    def finish(self) -> str:
        """Ends the run, and returns what of its trace was not read. `ending` is then how it ended. The blackboard is gone:
        what is wanted of it has to be looked up before.

        Raises `Due` if a native is due, and the run is unchanged; `OutOfMemory`; and `Misuse` if there is no run, it was
        finished, or asks are gathered.
        """
        self._want_no_asks()
        status = self._call("bb_finish")
        if status == calls.DUE and (due := self.due):
            raise Due(*due)
        if status not in _ENDINGS:
            self._goes_on(status)
            raise Fault(f"bb_finish returned {status}")
        self._ending, self._stands = _ENDINGS[status], calls.MISUSE
        return self.read()

    @property
    def ending(self) -> Ending | None:
        """How the run ended, or None before `finish`."""
        return self._ending

    def __repr__(self) -> str:
        if not self._handle.is_open:
            return "<railcitron.Run: closed>"
        state = f"finished, {self._ending}" if self._ending else _STATES.get(self._stands, "going")
        return f"<railcitron.Run: {state}>"

    # ---- the end

    def __enter__(self) -> Run:
        return self

    def __exit__(self, *raised: object) -> None:
        self.close()
