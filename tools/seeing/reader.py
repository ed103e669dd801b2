"""Reads a trace, as docs/users/formats/trace.md has it: its lines, and what they say of steps, activations and units.

With the input of the run it knows more: what first units are called, and what foci weigh until a code sets them. With
a replay it knows the values of slots.
"""

import re
from collections.abc import Iterable
from dataclasses import dataclass

from foci import Foci, Held
from forms import FORMS, told_refusal, told_unknown
from given import First, Given
from replay import CUT, FLOOR, Differs, Replay
from run import LINE_LIMIT, Activation, Line, Run, Source, Step, Unit

ANOTHER = "so the input is not that of this trace"
DIFFERS = "so the input, the floor or the library is not that of this trace"


class NoTrace(Exception):
    """A line that can't be in a trace, or not there."""

    def __init__(self, line: int | None, why: str):
        super().__init__(why if line is None else f"line {line}: {why}")
        self.line = line


@dataclass(slots=True)
class Reaction:
    """A line by which a source answers to an event: its rank in that event, and the first event that it may answer."""

    line: Line
    source: Source
    rank: tuple[int, int]
    unit: int | None
    event: int


class Reader:
    """Takes the lines of a trace, one after another, and refuses the first that can't stand where it does."""

    def __init__(self, given: Given | None = None, floor: int | None = None, replay: Replay | None = None):
        self.replay = replay or Replay()
        self.run = Run(given=given, floor=floor or 0)
        self.is_floor_told = floor is not None
        self.foci = Foci()
        self.step = Step("start", 1)
        # What may come next: changes of the first units, what a code does, reactions, or nothing but `closed`.
        self.state = "first units"
        self.idle = False
        self.events: list[tuple[int, int]] = []
        self.reactions: list[Reaction] = []
        self.latest: dict[str, Reaction] = {}

    def take_bytes(self, raw: bytes) -> None:
        """The next line, with its line feed."""
        try:
            text = raw[:-1].decode()
        except UnicodeDecodeError:
            raise NoTrace(self.run.lines + 1, "no UTF-8") from None
        self.take(text)

    def take(self, text: str) -> None:
        """The next line, without its line feed."""
        self.run.lines += 1
        word = text.partition(" ")[0]
        match = FORMS[word].fullmatch(text) if word in FORMS else None
        if not match:
            self.refuse(told_refusal(text) if self.run.lines == 1 else told_unknown(text))
        if self.state == "finished" and word != "closed":
            self.refuse("a line after `finish`")
        expected = self.replayed(text)
        shown = text
        if len(text) > LINE_LIMIT:
            shown = f"{text[:LINE_LIMIT]}… ({len(text) - LINE_LIMIT} more characters)"
        line = Line(self.run.lines, shown)
        getattr(self, f"take_{word}")(line, match)
        self.want_replayed(text, expected)
        self.step.add(line)

    def replayed(self, text: str) -> str | None:
        """The line that a replay has here."""
        try:
            return self.replay.expected(self.run.lines, text)
        except Differs as fault:
            self.refuse(f"{fault}, {DIFFERS}")

    def want_replayed(self, text: str, expected: str | None) -> None:
        """A line is that of the replay. The first line of a step brings what is set at its end."""
        if self.run.floor is None:
            self.replay.stop(self.run.lines, FLOOR)
        elif expected is not None and expected != text:
            has = ascii(expected[:60] + "…" * (len(expected) > 60)) if expected else "no more lines"
            self.refuse(f"the replay has {has}, {DIFFERS}")
        values = self.replay.taken()
        if values is not None:
            self.step.hold(values)

    def refuse(self, why: str) -> None:
        raise NoTrace(self.run.lines, why)

    def begin(self, step: Step, state: str) -> None:
        """The step before is over."""
        self.want_all_firsts()
        self.close()
        self.step = step
        self.state = state
        self.events, self.reactions, self.latest = [], [], {}

    def close(self) -> None:
        self.settle()
        self.run.kept.add(self.step)

    def settle(self) -> None:
        """What is known of a step where its lines end."""
        self.settle_causes()
        self.step.waiting = len(self.run.waiting)
        self.run.longest = max(self.run.longest, self.step.waiting)

    def end(self) -> Run:
        """There are no more lines. Of a step in which the trace is cut, what a replay holds at its end is left out."""
        if self.replay.lines:
            self.replay.stop(self.step.first, CUT)
            self.step.hold({})
        self.run.until, self.run.why = self.replay.until, self.replay.why
        self.close()
        return self.run

    # What the input tells

    def want_all_firsts(self) -> None:
        """The first units were all created."""
        if self.run.given and self.step.kind == "start" and self.run.units < len(self.run.given.firsts):
            self.refuse(f"the input has {len(self.run.given.firsts)} first units, {ANOTHER}")

    def know_unit(self, unit: Unit) -> None:
        """A new unit: its name, and what it holds if it is a focus."""
        given = self.run.given
        if unit.of not in given.classes:
            self.refuse(f"the input has no class {unit.of}, {ANOTHER}")
        held = Held() if "focus" in given.classes[unit.of] else None
        if self.step.kind == "start":
            first = self.first(unit)
            unit.name, held = first.name, first.held
        if held:
            unit.held.append((unit.created, held))
            self.foci.change(None, held)

    def first(self, unit: Unit) -> First:
        firsts = self.run.given.firsts
        if unit.number > len(firsts):
            self.refuse(f"the input has {len(firsts)} first units, {ANOTHER}")
        if firsts[unit.number - 1].of != unit.of:
            self.refuse(f"unit {unit.number} is a {firsts[unit.number - 1].of} in the input, {ANOTHER}")
        return firsts[unit.number - 1]

    def know_set(self, line: Line, unit: Unit, slot: str) -> None:
        """A code sets a slot of a focus; to what, only a replay tells. Of what it held in a step the last is kept."""
        if not unit.held or slot not in Held._fields or self.step.kind == "start":
            return
        since, before = unit.held[-1]
        after = before._replace(**{slot: self.replay.values.get((unit.number, slot))})
        if since >= self.step.first:
            unit.held.pop()
        unit.held.append((line.number, after))
        self.foci.change(before, after)

    def want_rating(self, chosen: Activation, rating: int) -> None:
        """What a cycle chooses is rated as the input has it, and no lower than the floor."""
        written = self.run.given and self.run.given.sources[chosen.source.name]
        add = self.foci.add(written.name, written.classes) if written else None
        if add is not None and rating != chosen.bases[-1][1] + add:
            self.refuse(f"rated {rating}, where the input comes to {chosen.bases[-1][1] + add}, {ANOTHER}")
        if self.run.floor is not None and rating < self.run.floor:
            if self.is_floor_told:
                self.refuse(f"rated {rating}, so {self.run.floor} is not the floor of this trace")
            self.run.floor = None

    # Changes

    def take_change(self, line: Line, unit: Unit) -> None:
        self.want(("first units", "code", "post"), "a change outside of the first units, of cycles and of posts")
        line.about = unit
        self.events.append((line.number, unit.number))

    def live(self, number: str) -> Unit:
        unit = self.run.live.get(int(number))
        if not unit:
            self.refuse(f"unit {number} is not there")
        return unit

    def take_create(self, line: Line, match: re.Match) -> None:
        number = int(match[1])
        if number != self.run.units + 1:
            self.refuse(f"unit {number} is created where unit {self.run.units + 1} is due")
        unit = Unit(number, match[2], line.number)
        self.take_change(line, unit)
        if self.run.given:
            self.know_unit(unit)
        self.run.units = number
        self.run.live[number] = unit

    def take_set(self, line: Line, match: re.Match) -> None:
        unit = self.live(match[1])
        self.take_change(line, unit)
        self.know_set(line, unit, match[2])

    def take_enter(self, line: Line, match: re.Match) -> None:
        self.take_change(line, self.live(match[1]))

    take_leave = take_enter

    def take_link(self, line: Line, match: re.Match) -> None:
        self.live(match[3])
        self.take_change(line, self.live(match[1]))

    take_unlink = take_link

    def take_delete(self, line: Line, match: re.Match) -> None:
        unit = self.live(match[1])
        self.take_change(line, unit)
        unit.deleted = line.number
        del self.run.live[unit.number]
        if unit.held:
            self.foci.change(unit.held[-1][1], None)

    # Reactions

    def take_reaction(self, line: Line, source: Source, rank: tuple[int, int], unit: int | None = None) -> None:
        """A source answers to one of the events, in their order; its answers to one event have rising ranks."""
        self.want(("first units", "reactions"), f"a reaction in a {self.step.kind} that has no `end` yet")
        if self.state == "first units":
            self.want_all_firsts()
        self.state = "reactions"
        before = self.latest.get(source.name)
        event = self.reactions[-1].event if self.reactions else 0
        if before and before.rank >= rank:
            event = max(event, before.event + 1)
        while event < len(self.events) and unit not in (None, self.events[event][1]):
            event += 1
        if event >= len(self.events):
            self.refuse("a reaction to no event" if unit is None else f"a reaction to no event of unit {unit}")
        self.latest[source.name] = Reaction(line, source, rank, unit, event)
        self.reactions.append(self.latest[source.name])

    def settle_causes(self) -> None:
        """Each reaction is given the first and the last event that it can be an answer to."""
        last = len(self.events) - 1
        after: dict[str, tuple[tuple[int, int], int]] = {}
        for it in reversed(self.reactions):
            rank, event = after.get(it.source.name, ((9, 0), 0))
            if it.rank >= rank:
                last = min(last, event - 1)
            while it.unit not in (None, self.events[last][1]):
                last -= 1
            after[it.source.name] = it.rank, last
            it.line.causes = self.events[it.event][0], self.events[last][0]

    def source(self, name: str) -> Source:
        if name not in self.run.sources:
            if self.run.given and name not in self.run.given.sources:
                self.refuse(f"the input has no source {name}, {ANOTHER}")
            self.run.sources[name] = Source(name, len(self.run.sources))
        return self.run.sources[name]

    def waits(self, number: str) -> Activation:
        activation = self.run.waiting.get(int(number))
        if not activation:
            self.refuse(f"activation {number} does not wait")
        return activation

    def over(self, activation: Activation, fate: str) -> None:
        activation.fate = fate
        activation.ended = self.run.lines
        del self.run.waiting[activation.number]

    def take_trigger(self, line: Line, match: re.Match) -> None:
        number, unit, base = int(match[1]), int(match[3]), int(match[4])
        if number != self.run.activations + 1:
            self.refuse(f"activation {number} where {self.run.activations + 1} is due")
        source = self.source(match[2])
        self.take_reaction(line, source, (2, 0), unit)
        line.about = Activation(number, source, unit, [(line.number, base)])
        source.counts["trigger"] += 1
        self.run.activations = number
        self.run.waiting[number] = line.about

    def take_decline(self, line: Line, match: re.Match) -> None:
        source = self.source(match[1])
        self.take_reaction(line, source, (2, 0), int(match[2]))
        source.counts["decline"] += 1

    def take_obviate(self, line: Line, match: re.Match) -> None:
        line.about = self.waits(match[1])
        self.take_reaction(line, line.about.source, (0, line.about.number))
        line.about.source.counts["obviate"] += 1
        self.over(line.about, "obviated")

    def take_retrigger(self, line: Line, match: re.Match) -> None:
        """What has the base that it had is not rated anew."""
        line.about = self.waits(match[1])
        self.take_reaction(line, line.about.source, (1, line.about.number))
        if int(match[2]) != line.about.bases[-1][1]:
            line.about.source.counts["retrigger"] += 1
            line.about.bases.append((line.number, int(match[2])))

    # Cycles

    def want(self, states: tuple[str, ...], otherwise: str) -> None:
        if self.state == "chosen" and "code" in states:
            self.state = "code"
        if self.state not in states:
            self.refuse(otherwise)

    def take_cycle(self, line: Line, match: re.Match) -> None:
        self.want(("first units", "reactions"), f"a cycle in a {self.step.kind} that has no `end` yet")
        cycle, act, name, unit, rating = int(match[1]), *match.group(2, 3, 4), int(match[5])
        if cycle != self.run.cycles + 1:
            self.refuse(f"cycle {cycle} where {self.run.cycles + 1} is due")
        chosen = self.waits(act)
        if (name, int(unit)) != (chosen.source.name, chosen.unit):
            self.refuse(f"activation {act} was triggered for {chosen.source.name} and unit {chosen.unit}")
        self.want_rating(chosen, rating)
        self.begin(Step("cycle", line.number, cycle, chosen, rating), "chosen")
        self.idle = False
        self.run.cycles = cycle
        self.over(chosen, "acted")
        chosen.source.counts["cycle"] += 1
        line.about = chosen

    def take_invalid(self, line: Line, match: re.Match) -> None:
        self.want(("chosen",), "`invalid` comes right after its `cycle`")
        line.about = self.step.chosen
        if int(match[1]) != line.about.number:
            self.refuse(f"activation {line.about.number} was chosen, not {match[1]}")
        line.about.fate = "invalid"
        line.about.source.counts["invalid"] += 1
        self.state = "reactions"

    def take_say(self, line: Line, match: re.Match) -> None:
        self.want(("code", "post"), f"`{line.text.partition(' ')[0]}` outside of a cycle and of a post")

    take_refused = take_say

    def take_end(self, line: Line, match: re.Match) -> None:
        """The end of a code or of a native, or of a post."""
        if match[5]:
            self.want(("post",), "`end post` outside of a post")
        else:
            self.want(("code",), "`end` outside of a cycle")
        line.about = self.step.chosen
        self.state = "reactions"

    # What the host posts

    def take_post(self, line: Line, match: re.Match) -> None:
        self.want(("first units", "reactions"), f"`post` in a {self.step.kind} that has no `end` yet")
        self.begin(Step("post", line.number), "post")
        self.idle = False

    # Quiescence, and the end

    def take_quiescence(self, line: Line, match: re.Match) -> None:
        self.want(("first units", "reactions"), f"`quiescence` in a {self.step.kind} that has no `end` yet")
        if self.idle:
            self.refuse("`quiescence` again, with no cycle and no post since")
        self.begin(Step("quiescence", line.number), "reactions")
        self.idle = True
        self.events.append((line.number, 0))

    def take_finish(self, line: Line, match: re.Match) -> None:
        self.run.finish = match[1]
        if match[1] in ("quiescence", "limit"):
            self.want(("first units", "reactions"), f"`finish {match[1]}` in a {self.step.kind} that has no `end` yet")
        if match[1] == "quiescence" and not self.idle:
            self.refuse("`finish quiescence` without `quiescence`, or with a cycle or a post since")
        self.want_all_firsts()
        self.state = "finished"

    def take_closed(self, line: Line, match: re.Match) -> None:
        self.want(("finished",), "`closed` comes after `finish`")


def read(
    lines: Iterable[bytes], given: Given | None = None, floor: int | None = None, replay: Replay | None = None
) -> Run:
    """The run that a trace tells, whose lines end with their line feeds; a last one that does not is cut."""
    reader = Reader(given, floor, replay)
    for raw in lines:
        if not raw.endswith(b"\n"):
            reader.run.cut = raw.decode(errors="replace")[:LINE_LIMIT]
            break
        reader.take_bytes(raw)
    return reader.end()
