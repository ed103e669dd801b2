"""The text of an input, with places as the three sides count them.

A client counts lines from 0 and UTF-16 units, `bb` lines and characters from 1, Python's texts characters from 0, which
are called offsets here. Lines end with LF, as `bb` counts them; a CR before it is no place of its line.
"""

import re
from bisect import bisect_left, bisect_right

# Characters of two UTF-16 units.
WIDE = re.compile("[\U00010000-\U0010ffff]")


class Text:
    """A text, cut into lines."""

    def __init__(self, whole: str):
        self.whole = whole
        self.starts = [0]
        at = whole.find("\n")
        while at >= 0:
            self.starts.append(at + 1)
            at = whole.find("\n", at + 1)
        self.wide = [] if whole.isascii() else [it.start() for it in WIDE.finditer(whole)]

    def line_at(self, offset: int) -> int:
        """The line of an offset, from 0."""
        return bisect_right(self.starts, offset) - 1

    def line_span(self, line: int) -> tuple[int, int]:
        """Where a line begins and ends, without what ends it."""
        start = self.starts[line]
        if line + 1 == len(self.starts):
            return start, len(self.whole)
        end = self.starts[line + 1] - 1
        return start, end - (end > start and self.whole[end - 1] == "\r")

    def offset_of(self, position: dict) -> int:
        """The offset of a client's position. One that is outside of the text is moved into it."""
        line = position["line"]
        if line < 0:
            return 0
        if line >= len(self.starts):
            return len(self.whole)
        start, end = self.line_span(line)
        at = start + position["character"]
        for wide in self.wide[bisect_left(self.wide, start) : bisect_left(self.wide, end)]:
            # Half of such a character is before it.
            at -= at > wide
            if at <= wide:
                break
        return max(start, min(at, end))

    def position_of(self, offset: int) -> dict:
        """The client's position of an offset."""
        line = self.line_at(offset)
        start = self.starts[line]
        wide = bisect_left(self.wide, offset) - bisect_left(self.wide, start)
        return {"line": line, "character": offset - start + wide}

    def range_of(self, start: int, end: int) -> dict:
        """The client's range from one offset to another."""
        return {"start": self.position_of(start), "end": self.position_of(end)}

    def changed(self, change: dict) -> "Text":
        """The text after a change of the client's: of a range, or of all."""
        if "range" not in change:
            return Text(change["text"])
        start = self.offset_of(change["range"]["start"])
        end = max(start, self.offset_of(change["range"]["end"]))
        return Text(f"{self.whole[:start]}{change['text']}{self.whole[end:]}")
