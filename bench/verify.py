#!/usr/bin/env python3
"""Has the program decode and verify as many sources of some kinds as an input may have, and prints what that costs, as
the tables of docs/contributors/PERFORMANCE.md.

    bench/verify.py crates/bb/out/bb crates/bbasm/out/bbasm [--runs N]

Nothing triggers the sources, so a run reads its input, decodes and verifies all codes, and ends. A run whose last line is
wrong ends once all codes are decoded, since the bundle is read before a code is verified. The fastest of the runs counts.
Where wasm-validate is there (Debian's package wabt), it validates modules of 256 functions of as many ops of WebAssembly:
the same arithmetic op for op, and the nearest that WebAssembly has to the branches and loops.
"""

import argparse
import os
import shutil
import subprocess
import tempfile
import time
from typing import NamedTuple

SOURCES = 256
OPS = 4096
INPUT_LIMIT = 16 << 20

# Class 1 is word, slot 4 its number, and space 0 the board.
SCHEMA = (
    '{"classes":[{"name":"word","slots":[{"name":"at","kind":"int"}]}],'
    '"spaces":[{"name":"board","classes":["word"],"dims":[{"name":"at","kind":"ordered"}]}]}'
)
HEAD = f'%schema\n{SCHEMA}\n%units\n{{"units":[]}}\n%bundle\n'
# No line of a bundle.
WRONG = "wrong\n"

# ---- codes, in the text form


def arithmetic():
    """Local 1 is added to itself again and again."""
    turns = (OPS - 4) // 4
    return ["locals 2", "PushInt 1; Store 1", *["Load 1; Load 1; Add; Store 1"] * turns, "Load 1; Done"]


def branches():
    """A truth value and a branch to the next place, again and again, with a frame at each place."""
    pairs = OPS // 2 - 1
    turns = [
        f"frame {at} Any; PushBool true; frame {at + 1} Any / Bool; Unless {at + 2}" for at in range(0, 2 * pairs, 2)
    ]
    return [*turns, f"frame {OPS - 2} Any; Jump {OPS - 1}", f"frame {OPS - 1} Any; Done"]


def loops():
    """1,024 loops, one after another, over what a query finds."""
    turns = 1024
    heads = [
        f"frame {at} Any Seq:1; loop {at}-{at + 3}; Next 1 {at + 3}; Pop; Back {at}" for at in range(2, 2 + 3 * turns, 3)
    ]
    behind = 2 + 3 * turns
    rest = ["PushInt 1; Pop"] * ((OPS - 2 - behind) // 2)
    tail = [f"frame {behind} Any Seq:1", *rest, "Done", f"frame {OPS - 1} Any Any; Done"]
    return ["locals 2", "query 1 0 where all", "Find 0; Store 1", *heads, *tail]


def numbers():
    """3,855 numbers, said by sixteens."""
    turns = (OPS - 1) // 17
    rest = OPS - 1 - 17 * turns
    return [*["PushInt 1; " * 16 + "Say 16"] * turns, *["PushInt 1"] * rest, "Done"]


def texts():
    """1,024 texts of 64 bytes."""
    return ['text "%s"' % ("a" * 64)] * 1024 + ["Done"]


def queries():
    """256 queries, each with a pattern of 64 nodes: an `and` of 63 tests."""
    tests = ", ".join(["within 0 0"] * 63)
    return [f"query 1 0 interval where and({tests})"] * 256 + ["Done"]


class Source(NamedTuple):
    """A code as a bundle has it, and how often an input has room for it."""

    title: str
    hex: str
    number: int

    def bundle(self):
        return "".join(f"source s{i} word 0\nwhen create word\ndo {self.hex}\n" for i in range(self.number))


def source(assembler, make):
    """The source of a code, whose hex the assembler writes."""
    text = "\n".join(make()) + "\n"
    ran = subprocess.run([assembler, "hex"], input=text, capture_output=True, text=True)
    if ran.returncode != 0:
        raise SystemExit(f"{make.__name__}: {ran.stderr}")
    one = Source(make.__name__, ran.stdout.strip(), 1)
    # The name of a source has two digits more at most.
    room = (INPUT_LIMIT - len(HEAD + WRONG)) // (len(one.bundle()) + 2)
    return one._replace(number=min(SOURCES, room))


# ---- WebAssembly


def leb(n):
    out = b""
    while n > 127:
        out += bytes([n & 127 | 128])
        n >>= 7
    return out + bytes([n])


def section(kind, items):
    body = leb(len(items)) + b"".join(items)
    return bytes([kind]) + leb(len(body)) + body


def module(ops):
    """Functions with an i64 as local 0, each of these ops."""
    body = b"\x01\x01\x7e" + b"".join(ops) + b"\x0b"
    functions = [leb(len(body)) + body] * SOURCES
    return b"\0asm\1\0\0\0" + section(1, [b"\x60\0\0"]) + section(3, [b"\0"] * SOURCES) + section(10, functions)


WASM = {
    "arithmetic": [b"\x42\x01", b"\x21\x00"] + [b"\x20\x00", b"\x20\x00", b"\x7c", b"\x21\x00"] * ((OPS - 4) // 4) + [b"\x01"],
    "branches": [b"\x02\x40", b"\x41\x01", b"\x0d\x00", b"\x0b"] * ((OPS - 1) // 4),
    "loops": [b"\x03\x40", b"\x41\x00", b"\x0d\x00", b"\x0b"] * 1024,
}


# ---- runs


class End(NamedTuple):
    """How a run has to end: its status, and how its answer begins."""

    status: int
    answer: bytes


ACCEPTED = End(0, b"quiescence\n")
REFUSED = End(2, b"refused bundle ")
VALID = End(0, b"")


def measured(command, runs, wanted, stdin=None):
    """The seconds of the fastest run, and the megabytes that it needed."""
    best, memory = None, 0
    for _ in range(runs):
        with open(stdin or os.devnull, "rb") as text:
            began = time.perf_counter()
            child = subprocess.Popen(command, stdin=text, stdout=subprocess.PIPE, stderr=subprocess.PIPE)
            answer = child.stdout.read()
            _, status, used = os.wait4(child.pid, 0)
            took = time.perf_counter() - began
        status = os.waitstatus_to_exitcode(status)
        if status != wanted.status or not answer.startswith(wanted.answer):
            raise SystemExit(f"{command}: status {status}: {answer[:200].decode()}")
        best = took if best is None else min(best, took)
        memory = max(memory, used.ru_maxrss)
    return best, memory / 1024


class Program(NamedTuple):
    """The program, and how it is measured."""

    path: str
    runs: int
    folder: str

    def takes(self, title, text, wanted):
        """The seconds and the megabytes of an input."""
        path = os.path.join(self.folder, title)
        with open(path, "w") as out:
            out.write(text)
        return measured([self.path], self.runs, wanted, path)

    def verifies(self, it):
        """The seconds and the megabytes of the sources of a code."""
        return self.takes(it.title, HEAD + it.bundle(), ACCEPTED)

    def decodes(self, it):
        """The same until all of them are decoded."""
        return self.takes(it.title, HEAD + it.bundle() + WRONG, REFUSED)


def line(title, tool, ops, took, memory):
    print(f"| {title} | {tool} | {ops:,} | {took:.2f} | {ops / took / 1e6:.1f} | {memory:.0f} |", flush=True)


def verifying(program, sources):
    """Prints the table of verifying, beside WebAssembly, and gives the seconds of the program by title."""
    seconds = {}
    print("| Codes of | Program | Ops | Seconds | Million ops a second | MB |")
    print("|---|---|---|---|---|---|")
    for it in sources:
        seconds[it.title], memory = program.verifies(it)
        line(it.title, "bb", it.number * OPS, seconds[it.title], memory)
        if shutil.which("wasm-validate"):
            path = os.path.join(program.folder, it.title + ".wasm")
            with open(path, "wb") as out:
                out.write(module(WASM[it.title]))
            ops = SOURCES * (len(WASM[it.title]) + 1)
            line(it.title, "wasm-validate", ops, *measured(["wasm-validate", path], program.runs, VALID))
    return seconds


def decoding(program, sources, seconds):
    """Prints the table of decoding: what the whole run takes, and what it takes until all codes are decoded."""
    print("| Codes of | Bytes of a code | Sources | Hex, MB | Seconds | until decoded | MB a second until then |")
    print("|---|---|---|---|---|---|---|")
    for it in sources:
        took = seconds.get(it.title) or program.verifies(it)[0]
        decoded, _ = program.decodes(it)
        megabytes = it.number * len(it.hex) / 1e6
        cells = [it.title, f"{len(it.hex) // 2:,}", it.number, f"{megabytes:.1f}", f"{took:.2f}", f"{decoded:.2f}"]
        print("| " + " | ".join(map(str, cells)) + f" | {megabytes / decoded:.0f} |", flush=True)


def main():
    parser = argparse.ArgumentParser(description=__doc__, formatter_class=argparse.RawDescriptionHelpFormatter)
    parser.add_argument("program", help="the built program, crates/bb/out/bb")
    parser.add_argument("assembler", help="the program that writes the hex of codes, crates/bbasm/out/bbasm")
    parser.add_argument("--runs", type=int, default=5, help="runs of each input, of which the fastest counts")
    asked = parser.parse_args()
    compared = [source(asked.assembler, make) for make in (arithmetic, branches, loops)]
    others = [source(asked.assembler, make) for make in (numbers, texts, queries)]
    with tempfile.TemporaryDirectory() as folder:
        program = Program(asked.program, asked.runs, folder)
        seconds = verifying(program, compared)
        print()
        decoding(program, compared + others, seconds)


if __name__ == "__main__":
    main()
