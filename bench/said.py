#!/usr/bin/env python3
"""What an execution that says long texts holds: one activation says a text of 65,535 bytes for each unit of a space.

    bench/said.py crates/bb/out/bb

The input has 65 KB and a line for each unit, the trace 65 KB for each. The lines of one execution are written once it
has ended, so they are held till then.
"""

import json
import os
import subprocess
import sys
import time

SCHEMA = {"classes": [{"name": "note"}, {"name": "bell"}], "spaces": [{"name": "desk", "classes": ["note"], "dims": []}]}
SAY = 'source ring on bell { when create bell; rate 1; do { for n in find note in desk { say "%s"; } } }'


def said(count):
    notes = ["n%d" % i for i in range(count)]
    units = [{"name": it, "class": "note"} for it in notes] + [{"name": "bell", "class": "bell"}]
    text = json.dumps({"units": units, "spaces": [[it, "desk"] for it in notes]})
    return "\n".join(["%schema", json.dumps(SCHEMA), "%units", text, "%sources", SAY % ("a" * 65_535)]) + "\n"


def main():
    if len(sys.argv) != 2:
        sys.exit(__doc__)
    print("| Lines | Input, MB | Trace, MB | Seconds | Memory, MB |\n|---|---|---|---|---|")
    for count in [500, 1_000, 2_000, 3_855]:
        text = said(count).encode()
        begun = time.perf_counter()
        child = subprocess.Popen([sys.argv[1]], stdin=subprocess.PIPE, stdout=subprocess.PIPE)
        child.stdin.write(text)
        child.stdin.close()
        told = 0
        while piece := child.stdout.read(1 << 20):
            told += len(piece)
        _, _, used = os.wait4(child.pid, 0)
        child.returncode = 0
        took = time.perf_counter() - begun
        print("| %d | %.1f | %.0f | %.2f | %d |" % (count, len(text) / 1e6, told / 1e6, took, used.ru_maxrss / 1024))


if __name__ == "__main__":
    main()
