"""What calls raise."""

from __future__ import annotations


class Fault(Exception):
    """What any call of this package raises, except for `KeyError` and for the wrong types and values of Python's own."""


class Refused(Fault):
    """An input is refused, or what an ask names or holds.

    `message` says what is wrong. Of an input it is what the program writes to standard error: a sentence and, on lines
    below it, what the input has at that place. `line` is the line by which the program refuses the input; None for an ask,
    and if there was no memory for it.
    """

    def __init__(self, line: str | None, message: str) -> None:
        super().__init__(line, message)
        self.line = line
        self.message = message

    def __str__(self) -> str:
        return self.message


class Full(Fault):
    """The run is over: there is no space for another unit or activation. It can be read, finished and closed."""


class Due(Fault):
    """The native `name` is due on `unit`. Until `Run.answer` answers for it, or a turn calls its function, the run can
    neither go on nor be posted to or finished."""

    def __init__(self, unit: int, name: str) -> None:
        super().__init__(unit, name)
        self.unit = unit
        self.name = name

    def __str__(self) -> str:
        return f"the native {self.name} is due on unit {self.unit}, and nothing has answered for it yet"


class OutOfMemory(Fault, MemoryError):
    """Memory ran out. If a move raises it, the run can only be read and closed. Any other call did nothing."""


class Misuse(Fault):
    """There is no such run: it was finished or closed, or it belongs to another thread or process. Or the call does not fit
    the state of the run: no native is due, or asks are gathered."""
