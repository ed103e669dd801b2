#!/usr/bin/env python3
"""Has the program compile large texts beside `luac5.4 -p` (Debian's package `lua5.4`), which compiles the same statements in
as many functions and writes nothing.

    bench/texts.py crates/bb/out/bb [--runs N]

Nothing triggers the sources, so the program reads its input, compiles the text, verifies the code and ends. The figures
are the fastest of the runs, in seconds of the processor.
"""

import argparse
import resource
import shutil
import subprocess
import tempfile
from pathlib import Path
from typing import NamedTuple

SOURCES = 256
SCHEMA = '%schema\n{"classes":[{"name":"note","slots":[{"name":"at","kind":"int"}]}]}\n%sources\n'


class Statements(NamedTuple):
    """A statement as it stands in a source and in a function of Lua, and how many a part has room for."""

    of: str
    bb: str
    lua: str
    each: int


KINDS = [
    Statements("`say x;`", "say x;", "say(x)", 2_000),
    Statements("`x = x + 3;`", "x = x + 3;", "x = x + 3", 1_000),
    Statements("`if x < 5 { x = x + 2; }`", "if x < 5 { x = x + 2; }", "if x < 5 then x = x + 2 end", 450),
]


def texts_of(kind):
    """The input of the program, and the text of Lua."""
    body, same = f"    {kind.bb}\n" * kind.each, f"  {kind.lua}\n" * kind.each
    ours = (
        f"source s{it} on note {{\n  when delete note;\n  rate 1;\n  do {{\n    let x = 1;\n{body}  }}\n}}\n"
        for it in range(SOURCES)
    )
    theirs = (f"function s{it}()\n  local x = 1\n{same}end\n" for it in range(SOURCES))
    return SCHEMA + "".join(ours), "".join(theirs)


def took(words, given=None):
    """The seconds of the processor that one run takes."""
    before = resource.getrusage(resource.RUSAGE_CHILDREN)
    with open(given or "/dev/null", "rb") as stdin:
        subprocess.run(words, stdin=stdin, stdout=subprocess.DEVNULL, check=True)
    after = resource.getrusage(resource.RUSAGE_CHILDREN)
    return after.ru_utime + after.ru_stime - before.ru_utime - before.ru_stime


def row(name, kind, text, seconds):
    lines = text.count("\n")
    return f"| {kind} | {name} | {lines:,} | {len(text) / 1e6:.1f} | {seconds:.2f} | {lines / seconds / 1e6:.2f} |"


def main():
    parser = argparse.ArgumentParser(description=__doc__, formatter_class=argparse.RawDescriptionHelpFormatter)
    parser.add_argument("program", help="the built program, crates/bb/out/bb")
    parser.add_argument("--runs", type=int, default=5)
    options = parser.parse_args()
    luac = shutil.which("luac5.4")
    print("| Statements | Program | Lines | MB | Seconds | Million lines a second |\n|---|---|---|---|---|---|")
    with tempfile.TemporaryDirectory() as folder:
        for kind in KINDS:
            ours, theirs = Path(folder, "ours"), Path(folder, "theirs.lua")
            texts = texts_of(kind)
            ours.write_text(texts[0])
            theirs.write_text(texts[1])
            print(row("`bb`", kind.of, texts[0], min(took([options.program], ours) for _ in range(options.runs))))
            if luac:
                least = min(took([luac, "-p", theirs]) for _ in range(options.runs))
                print(row("`luac5.4 -p`", "", texts[1], least))


if __name__ == "__main__":
    main()
