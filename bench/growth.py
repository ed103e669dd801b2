#!/usr/bin/env python3
"""Runs the program on inputs of growing size, and prints what each took, as docs/contributors/PERFORMANCE.md has it.

    bench/growth.py crates/bb/out/bb [--runs N] [--only WORD] [--seconds S]

Each kind of input doubles from row to row. `colliding` names have one hash in the standard library's default hasher,
whose seed is fixed; `others` are names of the same length that have not. The status is 1 where names that collide cost
more than three times what others cost, or where an input costs more than twice its share, by its size, of what the
least input costs that takes a twentieth of a second. Lesser times are not compared.
"""

import argparse
import os
import subprocess
import sys
import tempfile
import time

sys.dont_write_bytecode = True
import inputs  # noqa: E402
import source_texts  # noqa: E402
from names import colliding, other  # noqa: E402


def short(number):
    return "c%d" % number


KINDS = source_texts.kinds(short) + [
    ("Units", "units", inputs.units, [("others", other), ("colliding", colliding)], 4_096, 65_536),
    ("Units with values in their slots", "units", inputs.values, [("short", short)], 4_096, 65_536),
    ("Units at a long default text", "units", inputs.defaults, [("short", short)], 4_096, 65_536),
    ("Units linked one to one", "units", inputs.chain, [("others", other), ("colliding", colliding)], 4_096, 65_536),
    ("Units linked to one hub", "units", inputs.hub, [("short", short)], 4_096, 65_536),
    ("Links that displace one another", "links", inputs.moving, [("short", short)], 12_500, 400_000),
    ("Links to and fro between two hubs", "links", inputs.to_and_fro, [("short", short)], 12_500, 250_000),
    ("Parts of one unit, deleted in one activation", "units", inputs.swept, [("short", short)], 4_096, 65_536),
    ("A unit that owns all others, deleted", "units", inputs.owned_hub, [("short", short)], 4_096, 65_536),
    ("Units that each own the next, the first deleted", "units", inputs.owned_chain, [("short", short)], 4_096, 65_536),
    ("The same, each unit after its parts", "units", inputs.owned_backwards, [("short", short)], 4_096, 65_536),
    ("Units that enter a space", "units", inputs.members, [("short", short)], 4_096, 65_536),
    ("The same, the last unit first", "units", inputs.backwards, [("short", short)], 4_096, 65_536),
    ("Units that enter 256 spaces", "pairs", inputs.everywhere, [("short", short)], 12_800, 409_600),
    ("Units set and deleted beside 256 spaces", "units", inputs.cleared, [("short", short)], 4_096, 65_536),
    ("Reactions to events of the activation's own unit", "units", inputs.reacting, [("short", short)], 4_096, 65_536),
    ("A focus with a long area, set again and again", "units", inputs.weighed, [("short", short)], 128, 65_535),
    ("Values of no slot", "values", inputs.values_of_no_slot, [("others", other), ("colliding", colliding)], 12_500, 400_000),
    ("Class entries", "classes", inputs.classes, [("others", other), ("colliding", colliding)], 10_000, 320_000),
    ("Links to a class of many slots", "slots", inputs.inverses, [("short", short)], 18_750, 300_000),
    ("The same, with longer names", "slots", inputs.inverses, [("others", other), ("colliding", colliding)], 10_000, 160_000),
    ("Keys that no document has", "keys", inputs.keys, [("others", other), ("colliding", colliding)], 12_500, 400_000),
    ("A document of many classes", "classes", inputs.classes, [("short", short)], 25_000, 400_000),
    ("Objects of one key", "objects", inputs.objects, [("short", short)], 62_500, 2_000_000),
    ("Clauses of a class beside units of another", "clauses", inputs.clauses, [("short", short)], 26_781, 857_000),
    ("Units of a deep class beside 256 sources", "units", inputs.deep, [("short", short)], 4_096, 65_536),
    ("Spaces in a line of a bundle", "spaces", inputs.spaces, [("short", short)], 1_000_000, 16_000_000),
    ("Sources with wide frames", "sources", inputs.wide, [("short", short)], 125, 2_000),
    ("Activations that wait beside events of another source", "units", inputs.waiting, [("short", short)], 4_096, 65_536),
]

# ---- runs

# How many times what others cost colliding names may cost, and how many times its share a larger input may.
COLLIDING_LIMIT = 3.0
GROWTH_LIMIT = 2.0
# Below this a time says more about the machine than about the program.
FLOOR = 0.05


def run_once(program, path):
    """The seconds, the megabytes and the first line of the answer."""
    with open(path, "rb") as stdin, tempfile.TemporaryFile() as stdout:
        begun = time.perf_counter()
        child = subprocess.Popen([program], stdin=stdin, stdout=stdout, stderr=subprocess.DEVNULL)
        _, _, used = os.wait4(child.pid, 0)
        seconds = time.perf_counter() - begun
        child.returncode = 0
        stdout.seek(0)
        answer = stdout.readline(80).decode(errors="replace").strip()
    return seconds, used.ru_maxrss / 1024, answer


def measure(program, pieces, runs):
    """The bytes of an input, and the least time of some runs of it with memory and answer."""
    with tempfile.NamedTemporaryFile("w", encoding="utf-8") as file:
        file.writelines(pieces)
        file.flush()
        return os.path.getsize(file.name), *min(run_once(program, file.name) for _ in range(runs))


def grows_wrongly(rows):
    """The rows that cost more than their share of what the least one costs that can be compared."""
    compared = [row for row in rows if row[2] >= FLOOR]
    for count, size, took in compared[1:]:
        _, base_size, base = compared[0]
        times = took / base / (size / base_size)
        if times > GROWTH_LIMIT:
            yield "%d take %.1f times their share" % (count, times)


def collide_wrongly(rows, others):
    """The rows of colliding names that cost more than others do."""
    plain = {count: took for count, _, took in others}
    for count, _, took in rows:
        times = took / max(plain.get(count, took), FLOOR)
        if times > COLLIDING_LIMIT:
            yield "%d take %.1f times what others take" % (count, times)


def table(program, kind, runs, seconds):
    """Prints the table of a kind, and gives what is not allowed in it."""
    title, unit, make, names, least, most = kind
    print("\n### %s\n" % title)
    print("| Names | Number of %s | Input, MB | Seconds | Memory, MB | Answer |" % unit)
    print("|---|---|---|---|---|---|")
    refused = []
    tables = {}
    for label, name in names:
        rows = tables[label] = []
        count = least
        while count <= most:
            size, took, memory, answer = measure(program, make(name, count), runs)
            row = (label, count, size / 1e6, took, memory, answer)
            print("| %s | %d | %.1f | %.2f | %.0f | `%s` |" % row, flush=True)
            rows.append((count, size, took))
            if took > seconds:
                refused.append("%s, %s: stopped at %d" % (title, label, count))
                break
            count *= 2
        refused += ["%s, %s: %s" % (title, label, text) for text in grows_wrongly(rows)]
    colliding, others = tables.get("colliding", []), tables.get("others", [])
    refused += ["%s, colliding: %s" % (title, text) for text in collide_wrongly(colliding, others)]
    return refused


def main():
    parser = argparse.ArgumentParser(description=__doc__, formatter_class=argparse.RawDescriptionHelpFormatter)
    parser.add_argument("program", help="the built program, crates/bb/out/bb")
    parser.add_argument("--runs", type=int, default=3, help="runs of each input, of which the fastest counts")
    parser.add_argument("--only", default="", help="the kinds whose title has this word")
    parser.add_argument("--seconds", type=float, default=60, help="no larger input after one that takes longer")
    options = parser.parse_args()
    refused = []
    for kind in KINDS:
        if options.only.lower() in kind[0].lower():
            refused += table(options.program, kind, options.runs, options.seconds)
    print()
    for line in refused:
        print("NOT IN PROPORTION: " + line)
    if not refused:
        print("All grow in proportion, and names that collide cost what others cost.")
    return 1 if refused else 0


if __name__ == "__main__":
    sys.exit(main())
