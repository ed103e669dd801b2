"""A program that is linked once more, from its object and with refuse.c before the C library, and runs once for each thing
that can be refused to it: a request for memory, a write or a read."""

import os
import subprocess
from collections import Counter
from concurrent.futures import ThreadPoolExecutor
from pathlib import Path

from wrong import Wrong

HERE = Path(__file__).resolve().parent
WRAPPED = ",".join(f"--wrap={it}" for it in ("malloc", "realloc", "read", "write"))
SECONDS = 60
REFUSED, MEMORY, FAILED = 2, 5, 6
# The status of a host whose own request was refused.
HOST_FAILED = 1
UNREAD = b"refused input read\n"
# The statuses of a test: it passed, or it returned its error. One whose assertion does not hold is aborted.
PASSED, RETURNED = 0, 101

# Tests that say what holds whatever request is refused.
TESTS = {
    "bb_board_tests": ["refused::no_change_after_a_refused_one", "natives::each_is_closed_once_in_order"],
    "bb_rules_tests": ["agenda::no_change_after_a_refused_one"],
    "bb_shell_tests": ["refused::a_run_closes_all_whatever_memory_there_is"],
}


class Linked:
    """A program over refuse.c, of its object, or of its source and what that is to be linked with."""

    def __init__(self, made, room, *others):
        if not made.is_file():
            raise Wrong(f"{made} is not there, which a build leaves")
        kit = Path(subprocess.run(["rt", "doc"], check=True, capture_output=True, text=True).stdout.strip()).parent
        self.program = Path(room) / made.stem
        words = [os.environ.get("CC", "cc"), "-O1", f"-Wl,{WRAPPED}", "-o", self.program, made, HERE / "refuse.c", *others]
        subprocess.run([*words, kit / "c/libos_c.a", kit / "c/liblibc_c.a"], check=True)

    def run(self, words, given, **refused):
        env = {**os.environ, **{name: str(it) for name, it in refused.items()}}
        return subprocess.run([self.program, *words], input=given, capture_output=True, env=env, timeout=SECONDS)

    def requests(self, words, given):
        """How many requests for memory there are where none is refused."""
        told = self.program.with_suffix(".count")
        self.run(words, given, COUNTED=told)
        return int(told.read_text())


def tried(call, numbers):
    """How often each sort of end comes of a call for each of these numbers."""
    with ThreadPoolExecutor(os.cpu_count()) as pool:
        return Counter(pool.map(call, numbers))


def wrong(row, what, ran):
    return Wrong(f"{row.name}, {what}: status {ran.returncode}, {ran.stdout[-80:]!r}, {ran.stderr[-80:]!r}")


def try_memory(bb, row):
    """Each request for memory is refused, alone and with all behind it. A run ends for want of it, with whole pieces of its trace, or as it would have:
    a document that the quick reader gives up is read by the other, a list that was to grow by a guess grows by what it
    needs, and of a refusal or a check less is said."""

    def end_of(number, **how):
        ran = bb.run(row.words, row.input, REFUSED=number, **how)
        if ran.returncode == MEMORY and ran.stdout in row.fronts:
            return "for want of memory"
        if ran.returncode == row.status and ran.stdout == row.whole:
            return "as it would have"
        raise wrong(row, f"request {number} for memory refused {how}", ran)

    def ends(number):
        end_of(number, LASTING=1)
        return end_of(number)

    return tried(ends, range(1, bb.requests(row.words, row.input) + 1))


def try_room(bb, row):
    """Each write is refused, behind each byte: by an error, and byte by byte by taking none. What was taken is the front."""
    whole = row.whole

    def ends(count):
        for how in {}, {"EMPTY": 1, "STEP": 1}:
            ran = bb.run(row.words, row.input, ROOM=count, **how)
            due = (FAILED, whole[:count]) if count < len(whole) else (row.status, whole)
            if (ran.returncode, ran.stdout) != due:
                raise wrong(row, f"room for {count} bytes {how}", ran)
        return "failed" if count < len(whole) else "whole"

    return tried(ends, range(len(whole) + 1))


def try_reads(bb, row):
    """Each read is refused, behind each byte of the input and at its end; and the input is read byte by byte."""

    def ends(count):
        for how in {}, {"STEP": 1}:
            ran = bb.run(row.words, row.input, GIVEN=count, **how)
            if (ran.returncode, ran.stdout) != (REFUSED, UNREAD):
                raise wrong(row, f"a read refused behind {count} bytes {how}", ran)
        return "refused"

    ran = bb.run(row.words, row.input, STEP=1)
    if (ran.returncode, ran.stdout) != (row.status, row.whole):
        raise wrong(row, "byte by byte", ran)
    return tried(ends, range(len(row.input) + 1))


def try_program(crates, room, rows):
    bb = Linked(crates / "bb/out/bb.o", room)
    for row in rows:
        ran = bb.run(row.words, row.input)
        if (ran.returncode, ran.stdout) != (row.status, row.whole):
            raise wrong(row, "nothing refused", ran)
        yield f"{row.name}: memory", try_memory(bb, row)
        yield f"{row.name}: room", try_room(bb, row)
        yield f"{row.name}: reads", try_reads(bb, row)


# The hosts in C that hold a run, each with its input and what happens outside.
HOSTS = {"press": ("press.bb", "c/press.jobs"), "scale": ("c/scale.bb", "c/scale.parcels")}


def try_host(crates, room, name):
    """Each request of a host in C that holds a run is refused, alone and with all behind it. It tells the decisions that
    the run came to, and ends for want of memory, or as it would have."""
    examples = crates.parent / "examples"
    include = f"-I{crates / 'bb_c/include'}"
    host = Linked(examples / f"c/{name}.c", room, include, crates / "bb_c/out/libbb_c.a")
    example, news = HOSTS[name]
    words, given = [examples / example], (examples / news).read_bytes()
    whole = host.run(words, given)
    if whole.returncode != 0 or not whole.stdout:
        raise Wrong(f"{name}, nothing refused: status {whole.returncode}, {whole.stderr!r}")

    def end_of(number, **how):
        ran = host.run(words, given, REFUSED=number, **how)
        if ran.returncode == 0 and ran.stdout == whole.stdout:
            return "as it would have"
        if ran.returncode == MEMORY and whole.stdout.startswith(ran.stdout):
            return "for want of memory"
        if ran.returncode == HOST_FAILED and not ran.stdout:
            return "before the run"
        raise Wrong(f"{name}, request {number} for memory refused {how}: status {ran.returncode}, {ran.stdout[-80:]!r}")

    def ends(number):
        end_of(number, LASTING=1)
        return end_of(number)

    return tried(ends, range(1, host.requests(words, given) + 1))


def try_test(program, test):
    """Each request of a test is refused: the test passes, or returns that memory ran out."""

    def ends(number):
        ran = program.run([test], b"", REFUSED=number)
        if ran.returncode == PASSED:
            return "passed"
        if number and ran.returncode == RETURNED and (b"Alloc" in ran.stderr or b"Memory" in ran.stderr):
            return "for want of memory"
        raise Wrong(f"{test}, request {number} for memory refused: {(ran.stdout + ran.stderr).decode()}")

    ends(0)
    return tried(ends, range(1, program.requests([test], b"") + 1))


def try_tests(crates, room):
    for crate, tests in TESTS.items():
        program = Linked(crates / crate / f"out/{crate}_tests.o", room)
        for test in tests:
            yield f"{crate}, {test}: memory", try_test(program, test)
