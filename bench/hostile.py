#!/usr/bin/env python3
"""Runs the program on small inputs made to cost much, each beside a control: the same work without what makes it dear.

    bench/hostile.py crates/bb/out/bb [--runs N] [--only WORD]

A row is out of proportion where it takes more than three times the processor seconds of its control, or, with four times
the work, more than eight times the seconds (times below a twentieth of a second are not compared), or more bytes for
each thing that it makes than the row allows. The status is 1 if one is.
"""

import argparse
import json
import os
import subprocess
import sys
import tempfile
from dataclasses import dataclass
from typing import Callable, Optional

CONTROL_LIMIT, GROWTH_LIMIT, FLOOR = 3.0, 8.0, 0.05
# The run ended, at quiescence, at its limit or where no unit more can be created.
ENDED = (0, 3, 4)
LONGEST = 65_535
SEED = {"name": "seed", "slots": [{"name": "x", "kind": "int"}, {"name": "y", "kind": "int"}]}


# ---- inputs


def written(schema, units, sources):
    """An input with these sections."""
    parts = ["%schema", json.dumps(schema)]
    parts += ["%units", json.dumps(units)] if units else []
    return "\n".join([*parts, "%sources", *sources, ""])


def crowd(count, cls="seed", space="pot", **first):
    """Units of a class, all in a space; the first has these slots set."""
    units = [{"name": str(i), "class": cls} for i in range(count)]
    units[0] |= {"slots": first} if first else {}
    return {"units": units, "spaces": [[str(i), space] for i in range(count)]}


def schema(*classes, spaces=("pot",)):
    return {"classes": [SEED, *classes], "spaces": [{"name": it, "classes": ["seed"], "dims": []} for it in spaces]}


def once(body, before="", after=""):
    """A source that repeats a body for each pair of the crowd, once."""
    return (
        "source once on seed { when create seed; rate 1000000; require { with a = it as seed { if a.y = 7 { rate 1000000; } } decline; }"
        " do { with a = it as seed { %s for s in find seed in pot { for t in find seed in pot { %s } } %s } } }" % (before, body, after)
    )


def kick(body):
    """A source that sets `y` of the first unit, when all else is done."""
    return (
        "source kick on seed { when quiescence; rate 5; require { for a in find seed in pot { if a.y = 7 { rate 1; } } decline; }"
        " do { for a in find seed in pot { if a.y = 7 { %s } } } }" % body
    )


def steady(waiting):
    """Each cycle deletes a unit and makes two, while others wait, or one in front of them, with a lower rating."""
    slot = {"name": "r", "kind": "int", "default": 1}
    units = [{"name": "u%d" % i, "class": "n", **({"slots": {"r": 0}} if i < waiting else {})} for i in range(waiting + 1)]
    source = (
        "source g on n { when create n; rate 1; require { with x = it as n { rate x.r; } decline; }"
        " do { with x = it as n { delete x; } new y: n; new z: n; } }"
    )
    return written({"classes": [{"name": "n", "slots": [slot]}]}, {"units": units}, [source])


def many_wait(count, first):
    """As many units wait as cycles come; with 0 the first of them is rated lower, and waits in front of all."""
    slot = {"name": "r", "kind": "int", "default": 1}
    units = [{"name": "u%d" % i, "class": "n"} for i in range(count)]
    units[0]["slots"] = {"r": first}
    source = (
        "source g on n { when create n; rate 1; require { with x = it as n { rate x.r; } decline; }"
        " do { with x = it as n { delete x; } new y: n; } }"
    )
    return written({"classes": [{"name": "n", "slots": [slot]}]}, {"units": units}, [source])


def obviates(root, test):
    """One event obviates what waits where a test holds: root * root activations."""
    box = {"name": "box", "slots": [{"name": "x", "kind": "int"}]}
    wait = (
        "source wait on box { when create box; rate -5; obviate on seed when update seed.y;"
        " { with a = it as box { answer %s; } answer false; } do { } }" % test
    )
    body = "new b: box; set b.x = n; n = n + 1;"
    return written(schema(box), crowd(root, y=7), [once(body, before="let n = 0;"), wait, kick("set a.y = 8;")])


def obviates_own(root, answer):
    """Forty sources ask whether an event obviates what waits for the unit: root * root activations of another source."""
    wait = "source wait on seed { when update seed.x; rate -5; do { } }"
    asks = [
        "source o%d on seed { when delete seed; rate -1; obviate on seed when update seed.y; { %s } do { } }" % (i, answer)
        for i in range(40)
    ]
    sets = "set a.y = 8;" + "set a.y = 9;" * 100
    return written(schema(), crowd(root, y=7), [once("set a.x = 1;"), wait, kick(sets), *asks])


def long_name(number):
    return "d" + "x" * 27 + "%03d" % number


def sets_unread(root, spaces):
    """A slot that no space reads is set root * root times, of a unit in so many spaces of 16 dimensions."""
    slots = [{"name": long_name(i), "kind": "int"} for i in range(17)]
    dims = [{"name": long_name(i), "kind": "ordered"} for i in range(16)]
    shelves = [{"name": "s%d" % i, "classes": ["c"], "dims": dims} for i in range(255)]
    given = schema({"name": "c", "slots": slots})
    given["spaces"] += shelves
    units = crowd(root)
    units["units"].append({"name": "c", "class": "c"})
    units["spaces"] += [["c", "s%d" % i] for i in range(spaces)]
    source = (
        "source g on c { when create c; rate 1; do { with x = it as c {"
        " for a in find seed in pot { for b in find seed in pot { set x.%s = 1; } } } } }" % long_name(16)
    )
    return written(given, units, [source])


def wide_schema(spaces, dims):
    """Spaces of 255 classes that inherit 64 slots, with so many dimensions each."""
    slots = [{"name": "a" * 28 + "%03d" % i, "kind": "int"} for i in range(64)]
    names = ["c%03d" % i for i in range(255)]
    classes = [{"name": it, **({"slots": slots} if it == names[0] else {"parent": names[0]})} for it in names]
    each = [{"name": "a" * 28 + "%03d" % (63 - i), "kind": "ordered"} for i in range(dims)]
    return written(
        {"classes": classes, "spaces": [{"name": "s%d" % i, "classes": names, "dims": each} for i in range(spaces)]}, None, []
    )


def compares(root, other):
    """Thirty comparisons of two long texts in each of root * root turns."""
    both = [{"name": "p", "kind": "text"}, {"name": "q", "kind": "text"}]
    given = {"classes": [{"name": "seed", "slots": [*SEED["slots"], *both]}], "spaces": schema()["spaces"]}
    test = " or ".join(["x = y"] * 30)
    source = once("if %s { q = 1; }" % test, before="let x = a.p; let y = a.q; let q = 0;", after="say q;")
    return written(given, crowd(root, y=7, p="a" * LONGEST, q=other), [source])


def defaults(root, text):
    """Twelve slots of root * root units are set to a text; their default is the longest there may be."""
    slots = [{"name": "t%d" % i, "kind": "text", "default": "a" * LONGEST} for i in range(12)]
    sets = "".join("set b.t%d = x; " % i for i in range(12))
    return written(schema({"name": "box", "slots": slots}), crowd(root, y=7), [once("new b: box; " + sets, before='let x = "%s";' % text)])


def memberships(count):
    """So many units enter each of 256 spaces of 16 dimensions."""
    slots = [{"name": "d%d" % i, "kind": "int"} for i in range(16)]
    dims = [{"name": "d%d" % i, "kind": "ordered"} for i in range(16)]
    given = {"classes": [{"name": "c", "slots": slots}, {"name": "m"}]}
    given["spaces"] = [{"name": "s%d" % i, "classes": ["c"], "dims": dims} for i in range(256)]
    units = crowd(count, cls="c", space="s0")
    units["units"].append({"name": "m", "class": "m"})
    enters = " ".join("enter x s%d;" % i for i in range(1, 256))
    return written(given, units, ["source g on m { when create m; rate 1; do { for x in find c in s0 { %s } } }" % enters])


def links(root):
    """Each of so many units is linked to each."""
    pair = [{"name": a, "to": "n", "many": True, "inverse": b} for a, b in ("pq", "qp")]
    given = {"classes": [{"name": "n", "links": pair}, {"name": "m"}], "spaces": [{"name": "w", "classes": ["n"], "dims": []}]}
    units = crowd(root, cls="n", space="w")
    units["units"].append({"name": "m", "class": "m"})
    return written(given, units, ["source g on m { when create m; rate 1; do { for a in find n in w { for b in find n in w { link a.p b; } } } }"])


def blanks(root):
    """root * root units of 64 slots, of which none is set."""
    cls = {"name": "c", "slots": [{"name": "s%d" % i, "kind": "int"} for i in range(64)]}
    return written(schema(cls), crowd(root, y=7), [once("new b: c;")])


def frames(count):
    """So many sources whose frames are as wide and as many as a text can have them."""
    names = "".join("let a%d=1;" % i for i in range(28))
    deep = "a0=" + "a0+(" * 55 + "a0" + ")" * 55 + ";"
    body = names + deep * 16
    source = "source s%d on seed {when create seed;rate 1;require{%s decline;}do{%s}}"
    return written(schema(), None, [source % (i, body, body) for i in range(count)])


# ---- rows


@dataclass
class Row:
    """An input of some size, and what it is held to."""

    title: str
    make: Callable[[int], str]
    size: int
    # What the program is asked, by size.
    words: Callable[[int], list] = lambda size: []
    control: Optional[Callable[[int], str]] = None
    # The least size that has a quarter of the work: half where it is squared.
    quarter: Optional[int] = None
    # How many things the size makes, and how many bytes each may take.
    things: Optional[Callable[[int], int]] = None
    bytes_each: int = 0


def half(size):
    return size // 2


ROWS = [
    Row("One activation waits in front", lambda n: steady(1), 65_000, lambda n: ["--limit=%d" % n], lambda n: steady(0), 16_250),
    Row("Many wait after one", lambda n: many_wait(n, 0), 65_000, lambda n: ["--limit=20000"], lambda n: many_wait(n, 1), 16_250),
    Row("Every second one is obviated", lambda n: obviates(n, "a.x % 2 = 0"), 255, control=lambda n: obviates(n, "true"), quarter=127),
    Row(
        "Asked about the event's own unit",
        lambda n: obviates_own(n, "answer it = ev;"),
        128,
        control=lambda n: obviates_own(n, "if true { answer it = ev; } answer false;"),
        quarter=64,
    ),
    Row("A slot that no space reads is set", lambda n: sets_unread(n, 255), 255, control=lambda n: sets_unread(n, 0), quarter=127),
    Row("Spaces of all classes", lambda n: wide_schema(n, 16), 255, lambda n: ["check"], lambda n: wide_schema(n, 0), 63),
    # No control: a comparison of texts of one length looks at their bytes, as SECURITY says.
    Row("Long texts that differ at the end", lambda n: compares(n, "a" * (LONGEST - 1) + "b"), 255, quarter=127),
    Row(
        "Long texts of two lengths",
        lambda n: compares(n, "a" * (LONGEST - 1)),
        255,
        control=lambda n: compares(n, "b"),
        quarter=127,
    ),
    Row(
        "Texts equal to a long default",
        lambda n: defaults(n, "a" * LONGEST),
        255,
        lambda n: ["units"],
        lambda n: defaults(n, "a"),
        127,
    ),
    Row("Memberships in 16 dimensions", memberships, 1_024, things=lambda n: n * 256, bytes_each=1_250),
    Row("Links of all", links, 1_024, things=lambda n: n * n, bytes_each=195),
    Row("Units of 64 slots, none set", blanks, 254, things=lambda n: n * n, bytes_each=1_350),
    Row("Wide frames", frames, 256, lambda n: ["check"], things=lambda n: len(frames(1)) * n, bytes_each=78),
]


# ---- runs


def measure(program, text, words, runs):
    """The least processor seconds of some runs, and the megabytes of one."""
    took = []
    with tempfile.TemporaryFile() as stdin:
        stdin.write(text.encode())
        for _ in range(runs):
            stdin.seek(0)
            child = subprocess.Popen([program, *words], stdin=stdin, stdout=subprocess.DEVNULL, stderr=subprocess.DEVNULL)
            _, status, used = os.wait4(child.pid, 0)
            child.returncode = os.waitstatus_to_exitcode(status)
            if child.returncode not in ENDED:
                sys.exit("bench/hostile.py: status %d" % child.returncode)
            took.append(used.ru_utime + used.ru_stime)
    return min(took), used.ru_maxrss / 1024


def judged(row, took, memory, control, quarter):
    """What is out of proportion in a row."""
    if control is not None and took > CONTROL_LIMIT * max(control, FLOOR):
        yield "%.1f times its control" % (took / max(control, FLOOR))
    if quarter is not None and took > GROWTH_LIMIT * max(quarter, FLOOR):
        yield "four times the work takes %.1f times as long" % (took / max(quarter, FLOOR))
    if row.things and memory * 2**20 / row.things(row.size) > row.bytes_each:
        yield "more than %d bytes each" % row.bytes_each


def shown(number, form):
    return "" if number is None else form % number


def line(program, row, runs):
    """Prints the line of a row, and gives what is not allowed in it."""
    text = row.make(row.size)
    took, memory = measure(program, text, row.words(row.size), runs)
    control = measure(program, row.control(row.size), row.words(row.size), runs)[0] if row.control else None
    quarter = measure(program, row.make(row.quarter), row.words(row.quarter), runs)[0] if row.quarter else None
    each = memory * 2**20 / row.things(row.size) if row.things else None
    cells = [row.title, "%.1f" % (len(text) / 1000), "%.2f" % took, shown(control, "%.2f"), shown(quarter, "%.2f"), "%.0f" % memory]
    print("| %s | %s |" % (" | ".join(cells), shown(each, "%.0f")), flush=True)
    return ["%s: %s" % (row.title, it) for it in judged(row, took, memory, control, quarter)]


def main():
    parser = argparse.ArgumentParser(description=__doc__, formatter_class=argparse.RawDescriptionHelpFormatter)
    parser.add_argument("program", help="the built program, crates/bb/out/bb")
    parser.add_argument("--runs", type=int, default=3, help="runs of each input, of which the fastest counts")
    parser.add_argument("--only", default="", help="the rows whose title has this word")
    options = parser.parse_args()
    print("| Input | KB | Seconds | Control | A quarter | Memory, MB | Bytes each |\n|---|---|---|---|---|---|---|")
    refused = []
    for row in ROWS:
        if options.only.lower() in row.title.lower():
            refused += line(options.program, row, options.runs)
    for it in refused:
        print("OUT OF PROPORTION: " + it)
    if not refused:
        print("\nEach costs what its work is worth.")
    return 1 if refused else 0


if __name__ == "__main__":
    sys.exit(main())
