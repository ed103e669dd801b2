"""Makes the page of a run: what it shows as rows, in one block of text that is packed, and the page around it."""

import base64
import hashlib
import json
import re
import zlib
from itertools import chain
from pathlib import Path

from beside import Beside
from foci import Held
from given import Given, Written
from run import ENDS_LIMIT, LINE_LIMIT, VALUE_COSTS, Activation, Run, Step, Unit

SEEING = Path(__file__).resolve().parent
SCRIPTS = ["unpack.js", "texts.js", "rows.js", "run.js", "board.js", "nodes.js", "axis.js", "timeline.js", "pieces.js"]
SCRIPTS += ["given.js", "values.js", "said.js", "panels.js", "beside.js", "lines.js", "page.js"]
NAME_LIMIT = 200
BLOCK = '<script type="text/plain" id="{}">{}</script>'


def exact(number):
    """A number as a script reads it without a loss: one that is too large for that is a text. None stays None."""
    return number if number is None or abs(number) < 1 << 53 else str(number)


def abouts(run, sort, others):
    """The units or the activations that kept lines are about, and the others, by number."""
    found = {it.number: it for it in others}
    for step in run.steps:
        found.update({line.about.number: line.about for line in step.lines if isinstance(line.about, sort)})
    return [found[number] for number in sorted(found)]


def seen(run, entries):
    """Of what begins with a line: the first, and of those whose lines are not kept the last alone."""
    after = [it[0] for it in entries[1:]] + [0]
    return [it for it, line in zip(entries, after) if it is entries[0] or it[0] not in run.gap or line not in run.gap]


def columns(names, rows):
    """Rows as the page has them: a list for each name, which a script reads sooner than a list for each row."""
    found = list(zip(*rows)) or [()] * len(names)
    return dict(zip(names, found))


STEP = ["kind", "cycle", "first", "kept", "missing", "act", "rating", "waiting", "answers"]
KINDS = ["start", "cycle", "post", "quiescence", "gap"]


def step_row(step: Step):
    """A step as the page has it."""
    act = step.chosen.number if step.chosen else 0
    answers = sum(1 for it in step.lines if it.causes)
    kept = len(step.lines)
    kind, rating = KINDS.index(step.kind), exact(step.rating)
    return kind, step.cycle, step.first, kept, step.missing, act, rating, step.waiting, answers


ACT = ["number", "source", "unit", "fate", "ended", "trigger", "base"]
FATES = ["waits", "acted", "invalid", "obviated"]


def act_row(act: Activation):
    """An activation as the page has it, with its first base alone."""
    line, base = act.bases[0]
    return act.number, act.source.index, act.unit, FATES.index(act.fate), act.ended, line, exact(base)


def bases_of(run: Run, acts: list[Activation]):
    """The other bases of activations that were rated anew, each with its line."""
    return [[it.number, [[at, exact(base)] for at, base in seen(run, it.bases)[1:]]] for it in acts if it.bases[1:]]


def causes_of(step: Step):
    """The first and the last event that each reaction of a step may answer, as lines after the step's first."""
    return chain.from_iterable((it.causes[0] - step.first, it.causes[1] - step.first) for it in step.lines if it.causes)


def clipped(text, limit):
    return text if len(text) <= limit else f"{text[:limit]}…"


def source_row(written: Written):
    """A source of the input as the page has it: its class, and its text in pieces."""
    lines = [(it, it.text.replace("\r", "").split("\n")) for it in written.pieces]
    return [written.classes[0], [[it.part, it.line, [clipped(line, LINE_LIMIT) for line in all]] for it, all in lines]]


def held_row(run: Run, held: Held):
    """What a focus holds as the page has it, with what it adds to each source that it may match."""
    sources = [run.given.sources[name] for name in run.sources]
    adds = [(index, held.adds(it.name, it.classes)) for index, it in enumerate(sources)]
    texts = [it and clipped(it, NAME_LIMIT) for it in (held.source, held.area)]
    return [*texts, exact(held.weight), held.active, [[it, exact(add)] for it, add in adds if add != 0]]


def told_by(given: Given, run: Run, units: list[Unit]):
    """What the input tells of the run: its sources, the names of its units, and what the foci among these held."""
    held = {it: index for index, it in enumerate(dict.fromkeys(it for unit in units for _, it in unit.held))}
    return {
        "file": clipped(given.file, NAME_LIMIT),
        "sources": [source_row(given.sources[name]) for name in run.sources],
        "names": [[it.number, clipped(it.name, NAME_LIMIT)] for it in units if it.name],
        "held": [held_row(run, it) for it in held],
        "foci": [[it.number, [[line, held[what]] for line, what in seen(run, it.held)]] for it in units if it.held],
    }


def board_of(run: Run, units: list[Unit]):
    """What units held: the values at the end of each step, as a step, a unit, a slot and a value one after another, and
    what changed in the steps that are not kept. That is left out where a page can't have it."""
    gap = run.kept.gap
    costs = sum(len(it) + VALUE_COSTS for it in gap.values.values()) + VALUE_COSTS * len(gap.moves)
    is_lost = costs > ENDS_LIMIT
    there = {it.number for it in units}
    slots, texts = {}, {}

    def told(index, step):
        for (unit, slot), text in (gap.values if step.kind == "gap" and not is_lost else step.values).items():
            if unit in there:
                yield from (index, unit, slots.setdefault(slot, len(slots)), texts.setdefault(text, len(texts)))

    values = list(chain.from_iterable(told(*it) for it in enumerate(run.steps)))
    moves = [] if is_lost else [[*key, is_there] for key, is_there in gap.moves.items()]
    ends = {"until": run.until, "why": run.why, "isLost": is_lost}
    return {**ends, "values": values, "moves": moves, "slots": list(slots), "texts": list(texts)}


UNIT = ["number", "of", "created", "deleted"]


def data_of(run: Run):
    """The run as the page has it (seeing/run.js), but for its lines: rows in place of objects."""
    acts = abouts(run, Activation, run.waiting.values())
    units = abouts(run, Unit, run.live.values())
    classes = sorted({it.of for it in units})
    class_of = {name: index for index, name in enumerate(classes)}
    totals = {it: getattr(run, it) for it in ["lines", "cycles", "activations", "units", "longest"]}
    return {
        "floor": exact(run.floor),
        "given": run.given and told_by(run.given, run, units),
        "finish": run.finish,
        "cut": run.cut,
        "totals": {**totals, "dropped": run.kept.dropped_cycles},
        "sources": [[it.name, it.counts] for it in run.sources.values()],
        "classes": classes,
        "steps": columns(STEP, map(step_row, run.steps)),
        "causes": list(chain.from_iterable(causes_of(it) for it in run.steps)),
        "acts": columns(ACT, map(act_row, acts)),
        "bases": bases_of(run, acts),
        "units": columns(UNIT, [(it.number, class_of[it.of], it.created, it.deleted) for it in units]),
        "board": board_of(run, units),
    }


def packed(run: Run, name: str = "", parting: int = 0, more: dict | None = None) -> bytes:
    """The run as a page unpacks it (seeing/unpack.js): what it shows of it in one line of JSON, and then its lines."""
    data = {**data_of(run), "name": clipped(name, NAME_LIMIT), "parting": parting, **(more or {})}
    told = json.dumps(data, separators=(",", ":"))
    return zlib.compress("\n".join([told, *(line.text for step in run.steps for line in step.lines)]).encode())


def digest(text):
    """The name of a text in the page's policy, by which no other style and no other script counts."""
    return f"'sha256-{base64.b64encode(hashlib.sha256(text.encode()).digest()).decode()}'"


def blocks_of(run: Run, beside: Beside | None) -> dict[str, bytes]:
    """The runs of a page, each packed, by the names of their blocks."""
    if not beside:
        return {"run": packed(run)}
    return {
        "run": packed(run, beside.name, beside.parting),
        "beside": packed(beside.run, beside.other, beside.parting),
    }


def page_of(run: Run, beside: Beside | None = None) -> str:
    """The page of a run. Nothing that a trace or an input spells stands in it as it is."""
    return made(f"A run of {run.cycles:,} cycle{'s' * (run.cycles != 1)}", blocks_of(run, beside))


def live_page() -> str:
    """The page that a server gives for a run that goes on: it asks the server for the run (seeing/follow.js)."""
    return made("A run that goes on", {"live": b""}, "connect-src 'self'; ")


def made(title: str, blocks: dict[str, bytes], more_policy: str = "") -> str:
    names = ["follow.js", *SCRIPTS] if "live" in blocks else SCRIPTS
    scripts = [(SEEING / name).read_text() for name in names]
    return assembled("page", title, scripts, more_policy + "img-src data:; ", [
        BLOCK.format(name, base64.b64encode(it).decode()) for name, it in blocks.items()
    ])


def assembled(name: str, title: str, scripts: list[str], policy: str, blocks: list[str]) -> str:
    """A page with its style and its script, and by its policy no others."""
    style = (SEEING / f"{name}.css").read_text()
    script = '"use strict";\n{\n' + "\n".join(scripts) + "}\n"
    texts = {
        "policy": f"default-src 'none'; {policy}style-src {digest(style)}; script-src {digest(script)}",
        "title": title,
        "style": style,
        "script": script,
        "data": "\n".join(blocks),
    }
    return re.sub(r"\{\{(\w+)\}\}", lambda it: texts[it[1]], (SEEING / f"{name}.html").read_text())
