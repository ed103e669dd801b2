#!/usr/bin/env python3
"""Runs the program on foci beside activations that wait, and prints what so many cycles took.

    bench/foci.py crates/bb/out/bb crates/bbasm/out/bbasm [--foci N] [--pending N] [--cycles N] [--runs N]

A clock ticks as often as there are cycles; activations of another source wait beside it, and foci on that source press
them under the floor. Each choice rates them all.
"""

import argparse
import json
import subprocess
import time

TICK = """
locals 2
frame end Old:2 Any
        Load 0; Alive end; Store 1
        Load 1; Get 4; PushInt %d; Lt; Unless end
        Load 1; Load 1; Get 4; PushInt 1; Add; Set 4
end:    Done
"""

SCHEMA = {"classes": [{"name": "note"}, {"name": "clock", "slots": [{"name": "ticks", "kind": "int"}]}]}


def hex_of(bbasm, code):
    return subprocess.run([bbasm, "hex"], input=code, text=True, capture_output=True, check=True).stdout.strip()


def input_of(bbasm, foci, pending, cycles):
    """An input whose run makes so many cycles."""
    focus = {"class": "focus", "slots": {"source": "hail", "weight": -1}}
    units = [{"name": "f%d" % i, **focus} for i in range(foci)]
    units += [{"name": "n%d" % i, "class": "note"} for i in range(pending)]
    units += [{"name": "clock", "class": "clock"}]
    sources = [
        "source tick clock 1\nwhen create clock\nwhen update clock.ticks\ndo " + hex_of(bbasm, TICK % (cycles - 1)),
        "source hail note 0\nwhen create note\ndo " + hex_of(bbasm, "Done\n"),
    ]
    parts = ["%schema", json.dumps(SCHEMA), "%units", json.dumps({"units": units}), "%bundle", *sources]
    return "\n".join(parts) + "\n"


def seconds(program, text):
    began = time.perf_counter()
    ran = subprocess.run([program], input=text, text=True, capture_output=True)
    if ran.returncode or "\nfinish quiescence\n" not in ran.stdout:
        raise SystemExit("the run did not end by quiescence: " + ran.stdout[-200:])
    return time.perf_counter() - began, ran.stdout.count("\ncycle ")


def main():
    parser = argparse.ArgumentParser(description=__doc__, formatter_class=argparse.RawDescriptionHelpFormatter)
    parser.add_argument("program")
    parser.add_argument("bbasm")
    parser.add_argument("--foci", type=int, default=1_000)
    parser.add_argument("--pending", type=int, default=1_000)
    parser.add_argument("--cycles", type=int, default=10_000)
    parser.add_argument("--runs", type=int, default=1, help="the fastest of so many counts")
    given = parser.parse_args()
    text = input_of(given.bbasm, given.foci, given.pending, given.cycles)
    least, cycles = min(seconds(given.program, text) for _ in range(given.runs))
    print("| Foci | Pending | Cycles | Seconds | Milliseconds a cycle |\n|---|---|---|---|---|")
    print("| %d | %d | %d | %.2f | %.3f |" % (given.foci, given.pending, cycles, least, 1000 * least / cycles))


if __name__ == "__main__":
    main()
