#!/usr/bin/env python3
"""Runs sources that verified code is compiled from, and prints what a step and a statement of them cost, as a table of
docs/contributors/PERFORMANCE.md. Where Lua 5.4 and the interpreter of wabt are on the path, they do the same sums
beside it.

    bench/executing.py crates/bb/out/bb [--runs N] [--only WORD] [--instructions]

Times are of the processor: that of a run less that of the same without what is measured, so none has the start of a
program. So are the steps, which the trace tells. The fastest of the runs counts. With --instructions it counts those of
the processor for the sums and a turn, by callgrind of valgrind, which says the same on a machine that does other work.
"""

import argparse
import json
import re
import resource
import shutil
import subprocess
import tempfile
from functools import partial
from pathlib import Path
from typing import NamedTuple

WORDS = 1000
# So many suffice where instructions are counted.
FEW_WORDS = 100
ACTIVATIONS = 60_000

SCHEMA = {
    "classes": [
        {"name": "task"},
        {"name": "idle"},
        {"name": "word", "slots": [{"name": "at", "kind": "int"}, {"name": "span", "kind": "interval"}]},
    ],
    "spaces": [{"name": "board", "classes": ["word"], "dims": [{"name": "span", "kind": "ordered"}]}],
}


class Sum(NamedTuple):
    """A statement for each pair of words, so many times one after another: of a source, in Lua, and in WebAssembly."""

    of: str
    bb: str
    lua: str
    wat: str
    times: int = 10


SUMS = [
    Sum("`x = x + 3`", "x = x + 3;", "x = x + 3", "(local.set $x (i64.add (local.get $x) (i64.const 3)))"),
    Sum(
        "`x = (x + 3) % 7`",
        "x = (x + 3) % 7;",
        "x = (x + 3) % 7",
        "(local.set $x (i64.rem_s (i64.add (local.get $x) (i64.const 3)) (i64.const 7)))",
    ),
    Sum(
        "`if x < 5 { x = x + 2; } else { x = x - 4; }`",
        "if x < 5 { x = x + 2; } else { x = x - 4; }",
        "if x < 5 then x = x + 2 else x = x - 4 end",
        "(if (i64.lt_s (local.get $x) (i64.const 5)) (then (local.set $x (i64.add (local.get $x) (i64.const 2))))"
        " (else (local.set $x (i64.sub (local.get $x) (i64.const 4)))))",
    ),
    Sum(
        "`x = x + b.at`, a slot of a unit",
        "x = x + b.at;",
        "x = x + b.at",
        "(local.set $x (i64.add (local.get $x) (i64.load (local.get $b))))",
    ),
    Sum(
        "`set b.at = x`, noted and written",
        "set b.at = x;",
        "b.at = x",
        "(i64.store (local.get $b) (local.get $x))",
        times=1,
    ),
]


WIDE = ", ".join(f"span within [{-n}, {WORDS}]" for n in range(16))
FAR = ", ".join(f"span within [{1 + WORDS}, {WORDS + n}]" for n in range(1, 16))


class Search(NamedTuple):
    """A statement for each word, so many times one after another."""

    of: str
    bb: str
    times: int


SEARCHES = [
    Search("`say x`, noted and written", "say x;", 1000),
    Search("`size(find ..)` of all 1,000 units of a space", "x = size(find word in board);", 100),
    Search("the same, by `not` of a test", f"x = size(find word in board where not(span more [{WORDS}, {WORDS}]));", 3),
    Search("the same, by an `or` of 16 tests", f"x = size(find word in board where or({WIDE}));", 3),
    Search("the same, by an `and` of 16 tests", f"x = size(find word in board where and({WIDE}));", 3),
    Search("the same, by an `or` of 16 tests, 15 of them in vain", f"x = size(find word in board where or({FAR}, {WIDE.split(', span')[0]}));", 3),
    Search("`size(find ..)` of 11 of 1,000 units", "x = size(find word in board where span within [10, 20]);", 100),
]


class Row(NamedTuple):
    """What is measured, so many times in a run: pairs of inputs, and of texts in other languages, with and without."""

    of: str
    number: int
    bb: tuple[str, str]
    lua: tuple[str, str] | None = None
    wat: tuple[str, str] | None = None
    # The steps of all in the first input beyond the second, if the trace does not tell them.
    steps: int | None = None


# ---- inputs of the program


def an_input(units, sources, schema=SCHEMA):
    return f"%schema\n{json.dumps(schema)}\n%units\n{json.dumps(units)}\n%sources\n{sources}"


def on_words(sources, more_units=()):
    """A run with words on the board, other units, and a task."""
    words = [{"name": f"w{n}", "class": "word", "slots": {"at": n, "span": [n, n]}} for n in range(WORDS)]
    spaces = [[word["name"], "board"] for word in words]
    return an_input({"units": [*words, *more_units, {"name": "all", "class": "task"}], "spaces": spaces}, sources)


def worker(body):
    return f"source work on task {{ when create task; rate 1; do {{ let x = 1; {body} say x; }} }}\n"


def over_words(name, body):
    return f"for {name} in find word in board {{ {body} }}"


def in_loop(statements):
    return on_words(worker(over_words("a", statements)))


def in_loops(statements):
    return in_loop(over_words("b", statements))


def asked(reaction):
    """A run in which 1,000 activations wait below the floor while 10,000 slots are set."""
    waiting = [{"name": f"i{n}", "class": "idle"} for n in range(WORDS)]
    waits = f"source wait on idle {{ when create idle; rate -1; {reaction} do {{ }} }}\n"
    return on_words(waits + worker(over_words("a", "set a.at = x; " * 10)), waiting)


def activated(source):
    """A run of units, each of which may be an activation of the source."""
    return an_input({"units": [{"name": f"i{n}", "class": "idle"} for n in range(ACTIVATIONS)]}, source)


def told(statement):
    """A run in which a unit in 255 spaces of 16 dimensions, each of which reads a slot, does a statement for each word."""
    names = [f"d{n}" for n in range(16)]
    dims = [{"name": name, "kind": "ordered"} for name in names]
    spaces = [{"name": f"s{n}", "classes": ["hub"], "dims": dims} for n in range(255)]
    hub = {"name": "hub", "slots": [{"name": name, "kind": "int"} for name in names]}
    board = {"name": "board", "classes": ["word"], "dims": []}
    schema = {"classes": [{"name": "word"}, hub], "spaces": [board, *spaces]}
    words = [{"name": f"w{n}", "class": "word"} for n in range(WORDS)]
    entered = [*([word["name"], "board"] for word in words), *(["hub", it["name"]] for it in spaces)]
    units = {"units": [*words, {"name": "hub", "class": "hub"}], "spaces": entered}
    loop = f"let x = 1; {over_words('a', statement)} say x;"
    source = f"source tell on hub {{ when create hub; rate 1; do {{ with h = it as hub {{ {loop} }} }} }}\n"
    return an_input(units, source, schema)


# ---- the same sums elsewhere


def in_lua(statements, loops=1):
    inner = f"for j = 1, #words do local b = words[j] {statements} end " * loops
    return f"""
local function nothing() end
local words = {{}}
for n = 1, {WORDS} do words[n] = {{at = n - 1}} end
local x = 1
for i = 1, #words do local a = words[i] {inner} end
print(x)
"""


def in_wat(statements, loops=1):
    """Words are numbers of 8 bytes in memory; `$a` and `$b` are their places."""
    inner = f"""(local.set $b (i32.const 0))
      (loop $inner {statements}
        (local.set $b (i32.add (local.get $b) (i32.const 8)))
        (br_if $inner (i32.lt_u (local.get $b) (i32.const {8 * WORDS}))))"""
    return f"""(module (memory 1)
  (func $nothing)
  (func (export "run") (result i64) (local $x i64) (local $a i32) (local $b i32)
    (local.set $x (i64.const 1))
    (loop $fill
      (i64.store (local.get $a) (i64.extend_i32_u (i32.shr_u (local.get $a) (i32.const 3))))
      (local.set $a (i32.add (local.get $a) (i32.const 8)))
      (br_if $fill (i32.lt_u (local.get $a) (i32.const {8 * WORDS}))))
    (local.set $a (i32.const 0))
    (loop $outer
      {inner * loops}
      (local.set $a (i32.add (local.get $a) (i32.const 8)))
      (br_if $outer (i32.lt_u (local.get $a) (i32.const {8 * WORDS}))))
    (local.get $x)))
"""


# ---- what is measured


def sums():
    for it in SUMS:
        lua, wat = f"{it.lua} " * it.times, it.wat * it.times
        bb = in_loops(it.bb * it.times), in_loops("")
        yield Row(it.of, WORDS * WORDS * it.times, bb, (in_lua(lua), in_lua("")), (in_wat(wat), in_wat("")))


def turns():
    """Inner loops one after another, each with the search for its words, which is what a loop over them takes."""
    loops = 10
    bb = in_loop(over_words("b", "") * loops), in_loop("")
    lua, wat = (in_lua("", loops), in_lua("", 0)), (in_wat("", loops), in_wat("", 0))
    yield Row("a turn of the inner loop, with the search for its unit", WORDS * WORDS * loops, bb, lua, wat)


def parts():
    """Each slot that is set is an event, about which each activation that waits is asked."""
    number = 10 * WORDS * WORDS
    bb = asked("retrigger on word when update word.at; { decline; }"), asked("")
    lua, wat = (in_lua("nothing() " * 10), in_lua("")), (in_wat("(call $nothing)" * 10), in_wat(""))
    yield Row("an execution of a part of one op", number, bb, lua, wat, steps=number)
    bb = activated("source rest on idle { when create idle; rate 1; do { } }"), activated("")
    yield Row("an activation of `do { }`, with the lines of it", ACTIVATIONS, bb)


def searches():
    for it in SEARCHES:
        yield Row(it.of, WORDS * it.times, (in_loop(it.bb * it.times), in_loop("")))


def sets():
    pair = told("x = x + 1; set h.d0 = x;"), told("x = x + 1;")
    yield Row("`set h.d0 = x` of a unit in 255 spaces of 16 dimensions", WORDS, pair)


# ---- measuring


def seconds_of_children():
    used = resource.getrusage(resource.RUSAGE_CHILDREN)
    return used.ru_utime + used.ru_stime


def fastest(runs, words, text=""):
    """The processor seconds of the fastest run, and what it wrote."""
    best = None
    for _ in range(runs):
        began = seconds_of_children()
        ran = subprocess.run(words, input=text, capture_output=True, text=True)
        took = seconds_of_children() - began
        if ran.returncode != 0:
            raise SystemExit(f"{words[0]} fails:\n{ran.stdout[-300:]}{ran.stderr}")
        best = took if best is None else min(best, took)
    return best, ran.stdout


def counted(words, text=""):
    """The instructions of the processor that a run takes, and what it wrote."""
    valgrind = ["valgrind", "--tool=callgrind", "--callgrind-out-file=/dev/null"]
    ran = subprocess.run([*valgrind, *words], input=text, capture_output=True, text=True)
    found = re.search(r"Collected : (\d+)", ran.stderr)
    if ran.returncode != 0 or not found:
        raise SystemExit(f"{words[0]} fails:\n{ran.stdout[-300:]}{ran.stderr}")
    return int(found[1]), ran.stdout


class Programs:
    """The program, what is on the path of Lua and of the interpreter of wabt, and how a run of one is measured."""

    def __init__(self, bb, folder, measured):
        self.bb, self.folder, self.measured = bb, Path(folder), measured
        self.lua = shutil.which("lua5.4")
        self.wabt = shutil.which("wat2wasm") and shutil.which("wasm-interp")

    def by_bb(self, text):
        """What a run takes, and the steps of its activations."""
        took, trace = self.measured([self.bb], text)
        return took, sum(map(int, re.findall(r"^end steps (\d+)", trace, re.MULTILINE)))

    def by_lua(self, text):
        file = self.folder / "sum.lua"
        file.write_text(text)
        return self.measured([self.lua, str(file)])[0]

    def by_wabt(self, text):
        source, module = self.folder / "sum.wat", self.folder / "sum.wasm"
        source.write_text(text)
        subprocess.run(["wat2wasm", str(source), "-o", str(module)], check=True)
        return self.measured([self.wabt, str(module), "--run-all-exports"])[0]

    def cells(self, row):
        """A row of the table: how often, steps of one, nanoseconds of a step and of one, and of one elsewhere."""
        (took, steps), (bare, bare_steps) = map(self.by_bb, row.bb)
        took, steps = took - bare, steps - bare_steps if row.steps is None else row.steps
        yield f"{row.number:,}"
        yield f"{steps / row.number:.3g}"
        yield f"{took / steps * 1e9:.1f}"
        yield f"{took / row.number * 1e9:.1f}"
        for there, pair, by in [(self.lua, row.lua, self.by_lua), (self.wabt, row.wat, self.by_wabt)]:
            yield f"{(by(pair[0]) - by(pair[1])) / row.number * 1e9:.1f}" if there and pair else ""

    def instructions(self, row):
        """A row of the table: instructions of one, and of one in Lua."""
        for there, pair, by in [(self.bb, row.bb, lambda text: self.by_bb(text)[0]), (self.lua, row.lua, self.by_lua)]:
            yield f"{(by(pair[0]) - by(pair[1])) / row.number:.0f}" if there else ""


def print_rows(head, rows, cells):
    print(head)
    print("|---" * (head.count("|") - 1) + "|")
    for row in rows:
        print(f"| {' | '.join([row.of, *cells(row)])} |", flush=True)


def main():
    global WORDS
    parser = argparse.ArgumentParser(description=__doc__, formatter_class=argparse.RawDescriptionHelpFormatter)
    parser.add_argument("program", help="the built program, crates/bb/out/bb")
    parser.add_argument("--runs", type=int, default=3, help="runs of each program, of which the fastest counts")
    parser.add_argument("--only", default="", help="rows that have this word")
    parser.add_argument("--instructions", action="store_true", help="count instructions, of sums and a turn alone")
    wanted = parser.parse_args()
    with tempfile.TemporaryDirectory() as folder:
        if wanted.instructions:
            WORDS = FEW_WORDS
            rows = [row for row in [*sums(), *turns()] if wanted.only in row.of]
            print_rows("| | Instructions | Lua 5.4 |", rows, Programs(wanted.program, folder, counted).instructions)
        else:
            rows = [row for row in [*sums(), *turns(), *parts(), *searches(), *sets()] if wanted.only in row.of]
            programs = Programs(wanted.program, folder, partial(fastest, wanted.runs))
            head = "| | Number | Steps | ns a step | ns | Lua 5.4, ns | `wasm-interp`, ns |"
            print_rows(head, rows, programs.cells)

if __name__ == "__main__":
    main()
