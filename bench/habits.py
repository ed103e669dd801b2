#!/usr/bin/env python3
"""Runs the program on what authors are in the habit of writing, over more and more units: each of them asks something of
all of them, or of all sources. Prints a row for each habit, the fastest of three runs.

    bench/habits.py crates/bb/out/bb [--runs N]
"""

import argparse
import json
import subprocess
import sys
import tempfile
import time

sys.dont_write_bytecode = True
import inputs  # noqa: E402

COUNTS = 4_000, 8_000, 16_000

SCHEMA = {
    "classes": [
        {"name": "star", "slots": [{"name": "mag", "kind": "int"}, {"name": "open", "kind": "int", "default": 1}]},
    ],
    "spaces": [
        {
            "name": "sky",
            "classes": ["star"],
            "dims": [{"name": "mag", "kind": "ordered"}, {"name": "open", "kind": "ordered"}],
        }
    ],
}

IDLE = "source idle on star { when delete star; rate 1; do { } }"
SAY = 'source hail on star { when create star; rate 1; do { say "a star"; } }'
OWN = """source dim on star {
  when create star; rate 1;
  obviate on star when update star.mag; { answer it = ev; }
  do { with s = it as star { set s.mag = s.mag + 1; } }
}"""
NONE_BRIGHTER = """source brightest on star {
  when create star; rate 1;
  require {
    with s = it as star { if size(find star in sky where mag more [s.mag, s.mag]) = 0 { rate 1; } }
    decline;
  }
  do { say "none is brighter"; }
}"""
NONE_AS_BRIGHT = NONE_BRIGHTER.replace("more [s.mag, s.mag]", "within [s.mag + 1, s.mag + 1]")
ALL = """source count on star {
  when create star; rate 1;
  require { if size(find star in sky) = 0 { rate 1; } decline; }
  do { say "there is none"; }
}"""
FIRST = """source next on focus {
  when quiescence; rate 1;
  require { if 0 < size(find star in sky where open within [1, 1]) { rate 1; } decline; }
  do {
    let none = true;
    for s in find star in sky where open within [1, 1] { if none { none = false; set s.open = 0; } }
  }
}"""

HABITS = [
    ("loaded alone", IDLE),
    ("each makes a source say a line", SAY),
    ("a reaction that asks for its own unit", OWN),
    ("`size(find ..) = 0` in `require`, by a test that half of them pass", NONE_BRIGHTER),
    ("the same, by a test that one passes", NONE_AS_BRIGHT),
    ("the same, without a test", ALL),
    ("the first that is open, by a loop over all that are", FIRST),
]


def stars(source, count):
    """An input with so many stars, each brighter than those before it."""
    units = [{"name": "s%d" % i, "class": "star", "slots": {"mag": i}} for i in range(count)]
    spaces = [["s%d" % i, "sky"] for i in range(count)]
    document = json.dumps({"units": units, "spaces": spaces})
    return "\n".join(["%schema", json.dumps(SCHEMA), "%units", document, "%sources", source]) + "\n"


def listed(count):
    """An input with so many units of one class, beside 256 sources that each name 250 others."""
    return "".join(inputs.listed(lambda number: "c%d" % number, count))


def seconds(program, text, runs):
    """The least time of some runs."""
    with tempfile.NamedTemporaryFile("w") as file:
        file.write(text)
        file.flush()
        return min(once(program, file.name) for _ in range(runs))


def once(program, path):
    with open(path, "rb") as stdin:
        begun = time.perf_counter()
        status = subprocess.run([program], stdin=stdin, stdout=subprocess.DEVNULL).returncode
        took = time.perf_counter() - begun
    if status:
        sys.exit("the program ended with status %d" % status)
    return took


def main():
    parser = argparse.ArgumentParser(description=__doc__, formatter_class=argparse.RawDescriptionHelpFormatter)
    parser.add_argument("program")
    parser.add_argument("--runs", type=int, default=3)
    words = parser.parse_args()
    print("| Habit | " + " | ".join("%s units" % format(it, ",") for it in COUNTS) + " |")
    print("|---|" + "---|" * len(COUNTS))
    rows = [(title, lambda count, source=source: stars(source, count)) for title, source in HABITS]
    rows.append(("units of one class beside 256 sources that each name 250 others", listed))
    for title, text in rows:
        took = [seconds(words.program, text(it), words.runs) for it in COUNTS]
        print("| %s | " % title + " | ".join("%.2f" % it for it in took) + " |", flush=True)


if __name__ == "__main__":
    main()
