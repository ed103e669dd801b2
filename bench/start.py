#!/usr/bin/env python3
"""Runs the program on its smallest example again and again, beside `true`, and prints what one run takes and how large
what is built is.

    bench/start.py crates/bb/out/bb [--runs N]

The figures are the medians of the runs, which begin one after the other in turn. The library for C is told of where
it is built.
"""

import argparse
import shutil
import statistics
import subprocess
import time
from pathlib import Path

ROOT = Path(__file__).resolve().parent.parent
LIBRARY = ROOT / "crates/bb_c/out/libbb_c.a"


def took(words, given):
    """The milliseconds of one run."""
    begun = time.perf_counter()
    subprocess.run(words, input=given, stdout=subprocess.DEVNULL, check=True)
    return 1000 * (time.perf_counter() - begun)


def main():
    parser = argparse.ArgumentParser(description=__doc__, formatter_class=argparse.RawDescriptionHelpFormatter)
    parser.add_argument("program", help="the built program, crates/bb/out/bb")
    parser.add_argument("--runs", type=int, default=300)
    options = parser.parse_args()
    hello = (ROOT / "examples/hello.bb").read_bytes()
    turns = [(took([options.program], hello), took([shutil.which("true")], hello)) for _ in range(options.runs)]
    ours, least = (statistics.median(it) for it in zip(*turns))
    print("| | Milliseconds | MB |\n|---|---|---|")
    print(f"| `bb < examples/hello.bb` | {ours:.2f} | {Path(options.program).stat().st_size / 1e6:.1f} |")
    print(f"| `true` | {least:.2f} | |")
    if LIBRARY.is_file():
        print(f"| `libbb_c.a` | | {LIBRARY.stat().st_size / 1e6:.1f} |")


if __name__ == "__main__":
    main()
