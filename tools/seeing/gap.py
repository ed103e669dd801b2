"""What changed in the steps of a run that a page does not keep, as far as later steps still show it."""

from collections import defaultdict
from dataclasses import dataclass, field


@dataclass(slots=True)
class Gap:
    """What dropped steps leave on the blackboard.

    `values` are of slots, each with its unit. `moves` say of a unit, a link slot and a partner whether they were linked
    last, and of a unit, no slot and a space whether it was entered: the last first is the one longest ago. Both are of
    units that are still there, so they grow with the blackboard alone.
    """

    values: dict[tuple[int, str], str] = field(default_factory=dict)
    moves: dict[tuple[int, str, str], bool] = field(default_factory=dict)
    keys: defaultdict[int, set[tuple]] = field(default_factory=lambda: defaultdict(set))

    def fold(self, texts: list[str], values: dict[tuple[int, str], str]) -> None:
        """Another step is dropped: its lines, and the values at its end."""
        for key, value in values.items():
            self.values[key] = value
            self.keys[key[0]].add(key)
        for text in texts:
            word, _, others = text.partition(" ")
            if word in ("link", "unlink"):
                place, other = others.split(" ")
                unit, slot = place.split(".")
                self.move((int(unit), slot, other), word == "link")
                self.keys[int(other)].add((int(unit), slot, other))
            elif word in ("enter", "leave"):
                unit, space = others.split(" ")
                self.move((int(unit), "", space), word == "enter")
            elif word == "delete":
                self.forget(int(others))

    def move(self, key: tuple[int, str, str], is_there: bool) -> None:
        self.moves.pop(key, None)
        self.moves[key] = is_there
        self.keys[key[0]].add(key)

    def forget(self, unit: int) -> None:
        """A unit is gone, and its number does not come again."""
        for key in self.keys.pop(unit, ()):
            self.values.pop(key, None)
            self.moves.pop(key, None)
