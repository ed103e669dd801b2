"""What a trace says of a run: its steps, units and activations, of which a page can bear so many."""

from collections import deque
from dataclasses import dataclass, field, replace

from foci import Held
from gap import Gap
from given import Given

# What a page can bear: so many characters of the first steps, as many of the last ones, of one step, and of one line.
# The values at the end of a step count too, each with what stands around it. 100,000 cycles have some 40 million.
LINE_COSTS = 40
VALUE_COSTS = 16
ENDS_LIMIT = 60_000_000
STEP_LIMIT = 1_000_000
LINE_LIMIT = 2_000


@dataclass(slots=True)
class Source:
    """A source, with how often each mark of it stands in the trace."""

    name: str
    index: int
    counts: dict[str, int] = field(
        default_factory=lambda: dict.fromkeys(["trigger", "cycle", "decline", "obviate", "retrigger", "invalid"], 0)
    )


@dataclass(slots=True)
class Unit:
    """A unit, with the lines in which it was created and deleted, 0 where it was not.

    A first unit has its name, and a focus what it held, with the line from which on: both are of the input.
    """

    number: int
    of: str
    created: int
    deleted: int = 0
    name: str = ""
    held: list[tuple[int, Held]] = field(default_factory=list)


@dataclass(slots=True)
class Activation:
    """An activation: its bases with the lines that tell them, and the line that ended its waiting, 0 while it waits."""

    number: int
    source: Source
    unit: int
    bases: list[tuple[int, int]]
    fate: str = "waits"
    ended: int = 0


@dataclass(slots=True)
class Line:
    """A line, and the unit or activation that it is about; of a reaction the first and last event it may answer."""

    number: int
    text: str
    about: Unit | Activation | None = None
    causes: tuple[int, int] | None = None


@dataclass(slots=True)
class Step:
    """The start, a cycle, a post, or a quiescence: its first lines, and how many more there were.

    `values` are what slots hold at its end, each with its unit: those that it set, as far as a replay tells them.
    """

    kind: str
    first: int
    cycle: int = 0
    chosen: Activation | None = None
    rating: int = 0
    waiting: int = 0
    lines: list[Line] = field(default_factory=list)
    missing: int = 0
    costs: int = 0
    values: dict[tuple[int, str], str] = field(default_factory=dict)
    value_costs: int = 0

    def add(self, line: Line) -> None:
        costs = len(line.text) + LINE_COSTS
        if self.missing or self.costs + costs > STEP_LIMIT:
            self.missing += 1
            return
        self.costs += costs
        self.lines.append(line)

    def hold(self, values: dict[tuple[int, str], str]) -> None:
        """Its values are these."""
        self.values = values
        self.value_costs = sum(len(it) + VALUE_COSTS for it in values.values())

    @property
    def size(self) -> int:
        return self.costs + self.value_costs


@dataclass(slots=True)
class Kept:
    """The first steps of a run and its last ones: all of a run that is not too long for a page."""

    first: list[Step] = field(default_factory=list)
    last: deque[Step] = field(default_factory=deque)
    first_costs: int = 0
    last_costs: int = 0
    dropped: list[Step] = field(default_factory=list)
    dropped_cycles: int = 0
    gap: Gap = field(default_factory=Gap)

    def add(self, step: Step) -> None:
        if not self.last and self.first_costs + step.size <= ENDS_LIMIT:
            self.first.append(step)
            self.first_costs += step.size
            return
        self.last.append(step)
        self.last_costs += step.size
        while self.last_costs > ENDS_LIMIT:
            self.drop(self.last.popleft())

    def with_last(self, step: Step) -> "Kept":
        """These steps and one more, which may change yet."""
        ends = (self.first, [*self.last, step]) if self.last else ([*self.first, step], [])
        return replace(self, first=ends[0], last=deque(ends[1]))

    def drop(self, step: Step) -> None:
        """Only the first step that is dropped is remembered, without its lines, how many cycles there were, and what
        they left."""
        self.last_costs -= step.size
        self.gap.fold([it.text for it in step.lines], step.values)
        self.dropped_cycles += step.kind == "cycle"
        if not self.dropped:
            self.dropped.append(Step("gap", step.first))


@dataclass(slots=True)
class Run:
    """What a trace says. `finish` is empty where the trace is cut, and `cut` is a last line that was not ended.

    `given` is the input, where it is there; `floor` is None where the run had another one than the program's own.
    There are no values from the line `until` on, for the reason `why`; 0 is where there are values of all steps.
    """

    kept: Kept = field(default_factory=Kept)
    sources: dict[str, Source] = field(default_factory=dict)
    live: dict[int, Unit] = field(default_factory=dict)
    waiting: dict[int, Activation] = field(default_factory=dict)
    lines: int = 0
    cycles: int = 0
    activations: int = 0
    units: int = 0
    longest: int = 0
    finish: str = ""
    cut: str = ""
    given: Given | None = None
    floor: int | None = 0
    until: int = 1
    why: str = ""

    @property
    def steps(self) -> list[Step]:
        """The steps that are kept, in their order, with one of kind `gap` for those that are not."""
        return [*self.kept.first, *self.kept.dropped, *self.kept.last]

    @property
    def gap(self) -> range:
        """The lines of the steps that are not kept."""
        return range(self.kept.dropped[0].first, self.kept.last[0].first) if self.kept.dropped else range(0)
