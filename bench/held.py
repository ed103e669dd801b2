#!/usr/bin/env python3
"""Has a host in C hold a run of a chain, in moves of growing size, and prints what each took.

    bench/held.py crates/bb_c/out/libbb_c.a [--cycles N] [--runs N]

The host reads the trace whenever a thousand cycles were made. `whole` is one call of `bb_serve`, into room for all. Figures
are the fastest of some runs of the host, by its own clock: the input is read and compiled in each.
"""

import argparse
import os
import subprocess
import sys
import tempfile
from pathlib import Path

from rivals import chain

ROOT = Path(__file__).resolve().parent.parent
HOST = r"""
#include "bb.h"
#include <stdio.h>
#include <stdlib.h>
#include <string.h>
#include <time.h>

static uint8_t room[1 << 20];

static double seconds(void)
{
    struct timespec now;
    clock_gettime(CLOCK_PROCESS_CPUTIME_ID, &now);
    return (double)now.tv_sec + (double)now.tv_nsec / 1e9;
}

static size_t read_all(bb_run *run)
{
    size_t len, all = 0;
    while (bb_read(run, room, sizeof room, &len) == BB_OK && len > 0)
        all += len;
    return all;
}

/* Moves of so many cycles each; turns for 0. */
static size_t held(const uint8_t *input, size_t len, uint32_t size)
{
    bb_run run = BB_RUN_NONE;
    uint8_t stands = bb_open(&run, input, len, BB_S(""), 0);
    size_t told = 0;
    while (stands == BB_GOING) {
        for (uint32_t made = 0; made < 1000 && stands == BB_GOING; made += size == 0 ? 1 : size)
            stands = size == 0 ? bb_turn(&run) : bb_advance(&run, size);
        told += read_all(&run);
    }
    bb_finish(&run);
    told += read_all(&run);
    bb_close(&run);
    return told;
}

static size_t whole(const uint8_t *input, size_t len)
{
    size_t size = (size_t)1 << 30, told;
    uint8_t *output = malloc(size);
    bb_serve(input, len, BB_RUN, UINT32_MAX, 0, output, size, &told);
    free(output);
    return told;
}

int main(int count, char **words)
{
    static uint8_t input[1 << 16];
    size_t len = fread(input, 1, sizeof input, stdin);
    double begun = seconds();
    size_t told = count > 1 ? held(input, len, (uint32_t)atoi(words[1])) : whole(input, len);
    printf("%f %zu\n", seconds() - begun, told);
}
"""


def built(library, folder):
    kit = Path(subprocess.run(["rt", "doc"], check=True, capture_output=True, text=True).stdout.strip()).parent
    (folder / "host.c").write_text(HOST)
    words = ["-std=gnu99", "-O2", f"-I{ROOT / 'crates/bb_c/include'}", folder / "host.c", library, *kit.glob("c/lib*_c.a")]
    subprocess.run([os.environ.get("CC", "cc"), *words, "-o", folder / "host"], check=True)
    return folder / "host"


def fastest(words, text, runs):
    """The seconds of the fastest of some runs, and the bytes that it told."""
    told = [subprocess.run(words, input=text, capture_output=True, text=True, check=True).stdout.split() for _ in range(runs)]
    return min((float(took), int(size)) for took, size in told)


def main():
    parser = argparse.ArgumentParser(description=__doc__, formatter_class=argparse.RawDescriptionHelpFormatter)
    parser.add_argument("library", help="the built library, crates/bb_c/out/libbb_c.a")
    parser.add_argument("--cycles", type=int, default=1_000_000)
    parser.add_argument("--runs", type=int, default=3, help="the fastest of so many runs counts")
    given = parser.parse_args()
    text = chain(given.cycles)
    print("| Moves | Seconds | Microseconds a cycle |\n|---|---|---|")
    sizes = set()
    with tempfile.TemporaryDirectory() as room:
        host = built(Path(given.library).resolve(), Path(room))
        for title, words in [("whole", []), ("turns", ["0"]), ("1", ["1"]), ("10", ["10"]), ("1,000", ["1000"])]:
            took, size = fastest([host, *words], text, given.runs)
            sizes.add(size)
            print(f"| {title} | {took:.2f} | {took / given.cycles * 1e6:.2f} |", flush=True)
    if len(sizes) > 1:
        sys.exit(f"bench/held.py: traces of {sorted(sizes)} bytes")


if __name__ == "__main__":
    main()
