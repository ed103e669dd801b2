"""Tests of pages with two runs side by side. `tools/test_see` runs them."""

import tempfile
from pathlib import Path

from trying import data_of, see, shown, trace_of

END = "end steps 3 found 0 budget 3"
FRONT = ["create 1 note", "trigger 1 hail unit 1 rating 100", "cycle 1 act 1 hail unit 1 rating 100", "set 1.score"]
FRONT += [END, "trigger 2 hail unit 1 rating 5"]
ONE = ["trigger 3 hush unit 1 rating 7", "cycle 2 act 3 hush unit 1 rating 7", END, "finish limit"]
OTHER = ["trigger 3 hush unit 1 rating 2", "cycle 2 act 2 hail unit 1 rating 5", END, "finish limit"]


def beside(one, other, *words):
    """What `tools/see` answers to two traces, in files of these names."""
    with tempfile.TemporaryDirectory() as folder:
        files = {Path(folder, name): lines for name, lines in {"one.trace": one, "other.trace": other}.items()}
        for file, lines in files.items():
            file.write_bytes(lines if isinstance(lines, bytes) else trace_of(lines))
        one, other = files
        return see(b"", one, "--beside", other, *words)


class BesideTests:
    """Each method is a test, which fails by an `AssertionError`."""

    def the_page_shows_where_two_runs_part(self):
        page = beside([*FRONT, *ONE], [*FRONT, *OTHER]).stdout
        both, next_both, plain = shown(page, "beside-parting", "beside-cycle-2", "cycle-2")
        assert both["notices"] == "This is one.trace, beside other.trace. Their traces part at line 7, in cycle 1."
        assert both["details"].startswith("Where the runs partcycle 1Lines 1 to 6 are the same. Line 7 is the first")
        same, apart = "6trigger 2 hail unit 1 rating 5", "7trigger 3 hush unit 1 rating "
        assert f"{same}{same}{apart}7{apart}2" in both["details"]
        assert "Cycleone.traceother.trace1hail #1, 100hail #1, 1002hush #1, 7hail #1, 5" in both["details"]
        line = "8cycle 2 act "
        assert f"{line}3 hush unit 1 rating 7{line}2 hail unit 1 rating 59{END}9{END}" in next_both["details"]
        assert "In other.tracehail #1, 5 Side by side" in plain["details"]

    def equal_traces_part_nowhere(self):
        page = beside([*FRONT, *ONE], [*FRONT, *ONE]).stdout
        start = shown(page, "cycle-1")[0]
        assert start["notices"] == "one.trace and other.trace have the same trace."
        assert "In other.traceThe same lines." in start["details"]
        assert data_of(page.decode())["parting"] == 0

    def a_trace_that_ends_before_parts_behind_its_end(self):
        for one, other in ((FRONT, [*FRONT, *ONE]), ([*FRONT, *ONE], FRONT)):
            page = beside(one, other).stdout
            assert data_of(page.decode())["parting"] == 7
            details = shown(page, "beside-parting")[0]["details"]
            short = "one.trace" if one is FRONT else "other.trace"
            assert f"Line 7 is the first that differs. {short} ends there." in details

    def a_line_that_is_cut_parts_from_a_whole_one(self):
        page = beside(trace_of([*FRONT, *ONE])[:-1], [*FRONT, *ONE]).stdout
        assert data_of(page.decode())["parting"] == len(FRONT) + len(ONE)

    def each_run_has_its_own_floor_and_input(self):
        low = ["create 1 note", "trigger 1 hail unit 1 rating -3", "cycle 1 act 1 hail unit 1 rating -3", END]
        assert beside(FRONT, low, "--floor=0").returncode == 2
        assert beside(FRONT, low, "--floor=0", "--beside-floor=-3").returncode == 0

    def what_is_wrong_with_the_other_trace_is_told_with_its_name(self):
        answer = beside(FRONT, [*FRONT, "set 2.score"])
        assert answer.stderr == b"see: 'other.trace': line 7: unit 2 is not there\n", answer.stderr
        assert (answer.returncode, answer.stdout) == (2, b"")

    def a_trace_that_can_not_be_read_is_told_in_one_line(self):
        for words in (["gone"], ["--beside", "gone"]):
            answer = see(trace_of(FRONT), *words)
            assert answer.stderr == b"see: 'gone' can't be read: No such file or directory\n", answer.stderr
            assert (answer.returncode, answer.stdout) == (2, b"")
