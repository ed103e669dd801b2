"""Replays a run by the library, turn by turn, for the values that slots held: a trace does not record them."""

import json
import os
import sys
import time
from collections import deque
from collections.abc import Callable
from pathlib import Path

from given import Given
from run import STEP_LIMIT, VALUE_COSTS

# Where the package for hosts in Python is, in a checkout and in a release; and where a release has the library.
TOP = Path(__file__).resolve().parent.parent.parent
PACKAGES = [TOP / "bindings/python", TOP / "python"]
LIBRARY = TOP / "lib/libbb.so"
VARIABLE = "RAILCITRON_LIBRARY"

# The bounds of a replay: the seconds that its moves take, after which it begins no other, and the characters of a value.
SECONDS = 120
VALUE_LIMIT = 500

ALL = "tools/see --input FILE --library libbb.so"
NO_INPUT = f"a trace does not record it. Give the input, and the library that runs it again: {ALL}"
NO_LIBRARY = f"a trace does not record it. Give the library that runs the input again: {ALL}"
NOT_ASKED = "the page was made with --no-replay"
POSTED = "the host posts there, and a trace does not record the values that a host sets"
NATIVE = "a native acts there, and a trace does not record the values that it sets"
FLOOR = "what acts there is rated below 0, so the floor is another. Give it: tools/see --floor=N"
TIME = f"the replay had taken {SECONDS} s"
MEMORY = "memory ran out in the replay"
SIZE = "more values change there than a page can have"
CUT = "the trace is cut there"
GOES_ON = "the run goes on there"


class NoLibrary(Exception):
    """Why a library that was named can't replay a run."""

    def __init__(self, why: str):
        super().__init__(f"library: {ascii(why)[1:-1]}")


class Differs(Exception):
    """What a replay has where the trace has another line."""


def loaded(named: Path | None):
    """The library, or None where there is none and none was named."""
    must_be = named or os.environ.get(VARIABLE)
    sys.path += [str(it) for it in PACKAGES if (it / "railcitron").is_dir() and str(it) not in sys.path]
    try:
        import railcitron

        return railcitron.load(named or (LIBRARY if not must_be and LIBRARY.exists() else None))
    except (ImportError, OSError) as fault:
        if must_be:
            raise NoLibrary(str(fault)) from None
        return None


def opener(given: Given, floor: int, library) -> Callable:
    """What opens the run of an input by a library, or by one that stands in for it."""
    import railcitron

    natives = [name for name, it in given.sources.items() if it.is_native]
    return lambda: railcitron.Run(given.text, natives=natives, floor=floor, library=library)


def text_of(value) -> str:
    """A value as a trace says it, of a long one the front."""
    if isinstance(value, tuple):
        return f"[{value[0]},{value[1]}]"
    if isinstance(value, bool):
        return "true" if value else "false"
    text = json.dumps(value[: VALUE_LIMIT + 1], ensure_ascii=False) if type(value) is str else str(value)
    return text if len(text) <= VALUE_LIMIT else f"{text[:VALUE_LIMIT]}…"


class Replay:
    """The replay of one run, which a reader of its trace moves on, a step at a time.

    Its values are those that the slots which a step set, and all slots of the units that it created, have at its end.
    Where it stops it gives none from that line on: 1 is from the start.
    """

    def __init__(self, opened: Callable | None = None, why: str = NO_INPUT, seconds: float = SECONDS):
        self.opened = opened
        self.held = None
        self.lines: deque[str] = deque()
        self.values: dict[tuple[int, str], object] = {}
        self.is_moved = False
        self.until, self.why = (0, "") if opened else (1, why)
        self.left = seconds

    def expected(self, line: int, text: str) -> str | None:
        """The line that the replay has where the trace has this one; None where it tells nothing of it."""
        if self.until or text.startswith("closed "):
            return None
        if not self.lines:
            self.move(line, text)
        return None if self.until else self.lines.popleft() if self.lines else ""

    def move(self, line: int, text: str) -> None:
        """Makes the move that brings the next line."""
        import railcitron

        began = time.monotonic()
        try:
            self.make(line, text)
        except railcitron.Due:
            self.stop(line, NATIVE)
        except (railcitron.OutOfMemory, MemoryError):
            self.stop(line, MEMORY)
        except railcitron.Refused as fault:
            raise Differs(f"the library refuses the input: {ascii(fault.line or fault.message)}") from None
        finally:
            self.left -= time.monotonic() - began

    def make(self, line: int, text: str) -> None:
        """Opens the run, makes a turn, or finishes it, unless it stops."""
        if text == "post" or self.left < 0:
            self.stop(line, POSTED if text == "post" else TIME)
            return
        if not self.held:
            self.held = self.opened()
            self.look(line)
        if self.until:
            return
        if not self.lines and text.startswith("finish "):
            self.lines.extend(self.held.finish().removesuffix("\n").split("\n"))
        elif not self.lines:
            self.turn()
            self.look(line)

    def turn(self) -> None:
        """A turn that meets a full blackboard ends the run, and what it told is read as ever."""
        import railcitron

        try:
            self.held.turn()
        except railcitron.Full:
            pass

    def look(self, line: int) -> None:
        """Takes the lines of a step, and looks up what it has set."""
        self.lines.extend(self.held.lines())
        self.values = {}
        costs = 0
        for unit, slot in dict.fromkeys(key for text in self.lines for key in self.keys(text)):
            try:
                value = self.held.get(unit, slot)
            except KeyError:
                continue  # The step deleted its unit too.
            self.values[unit, slot] = value
            costs += len(text_of(value)) + VALUE_COSTS
            if costs > STEP_LIMIT:
                self.stop(line, SIZE)
                return
        self.is_moved = True

    def keys(self, text: str) -> list[tuple[int, str]]:
        """The slots that a line sets, each with its unit."""
        word, *others = text.split(" ", 2)
        if word == "create":
            return [(int(others[0]), slot) for slot in self.held.schema.classes[others[1]].slots]
        if word == "set":
            unit, slot = others[0].split(".")
            return [(int(unit), slot)]
        return []

    def taken(self) -> dict[tuple[int, str], str] | None:
        """The values of the step that the replay has come to, as texts, once."""
        if not self.is_moved:
            return None
        self.is_moved = False
        return {key: text_of(value) for key, value in self.values.items()}

    def stop(self, line: int, why: str) -> None:
        """There are no values from a line on."""
        if self.until:
            return
        self.until, self.why = line, why
        self.values, self.is_moved = {}, False
        self.lines.clear()
        self.close()

    def close(self) -> None:
        if self.held:
            self.held.close()
            self.held = None
