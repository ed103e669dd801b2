"""Tests of replays, and of what pages show of values. `tools/test_see` runs them, most over a run that stands in for
one of the library: some lines for each move, and what slots hold after it."""

import json
import os
import re
import sys
import tempfile
from types import SimpleNamespace

import page
import replay
import run as runs
from gap import Gap
from replay import VARIABLE, Replay
from trying import TOOLS, Skipped, data_of, input_of, refusal_of, run_of, see, shown, trace_of

sys.path.append(str(TOOLS.parent / "bindings/python"))
import railcitron  # noqa: E402

EXAMPLES = TOOLS.parent / "examples"
LIBRARY = os.environ.get(VARIABLE)
END = "end steps 3 found 0 budget 3"
DO = "do { with n = it as note { set n.score = 7; set n.score = 12; } }"
HAIL = f"source hail on note {{ when create note; rate 10; {DO} }}"
INPUT = f"""%schema
{{"classes": [{{"name": "note", "slots": [{{"name": "score", "kind": "int"}}, {{"name": "text", "kind": "text"}}]}}]}}
%units
{{"units": [{{"name": "n", "class": "note"}}]}}
%sources
{HAIL}
"""
START = ["create 1 note", "enter 1 board", "trigger 1 hail unit 1 rating 10"]
CYCLE = ["cycle 1 act 1 hail unit 1 rating 10", "set 1.score", "set 1.score", END]
QUIET, FINISH = ["quiescence"], ["finish quiescence"]
WHOLE = [*START, *CYCLE, *QUIET, *FINISH]
HELD = {(1, "score"): 5, (1, "text"): "</script><b>x"}
MOVES = [(START, HELD), (CYCLE, {**HELD, (1, "score"): 12}), (QUIET, {**HELD, (1, "score"): 12}), (FINISH, {})]


class Stand:
    """A run that is held: each move has its lines, what slots hold after it, and perhaps what it raises."""

    def __init__(self, moves=MOVES, **classes):
        self.moves = list(moves)
        self.told, self.held, *_ = self.moves.pop(0)
        classes = {"note": ["score", "text"], **classes}
        self.schema = SimpleNamespace(classes={name: SimpleNamespace(slots=it) for name, it in classes.items()})
        self.is_closed = False

    def turn(self):
        if not self.moves:
            return False
        self.told, self.held, *faults = self.moves.pop(0)
        for fault in faults:
            raise fault
        return True

    def lines(self):
        told, self.told = self.told, []
        return iter(told)

    def finish(self):
        return "".join(f"{it}\n" for it in self.moves.pop(0)[0])

    def get(self, unit, slot):
        return self.held[unit, slot]

    def close(self):
        self.is_closed = True


def replayed(lines=WHOLE, moves=MOVES, given=INPUT, seconds=60.0, floor=None, **classes):
    """The run of a trace, with a stand-in for its replay."""
    stand = Stand(moves, **classes)
    run = run_of(lines, input_of(given), floor, Replay(lambda: stand, seconds=seconds))
    assert stand.is_closed == (run.until > 0 and seconds > 0)
    return run


def page_of(run):
    return page.page_of(run).encode()


class ValueTests:
    """Each method is a test, which fails by an `AssertionError`."""

    def values_are_those_at_the_end_of_their_step(self):
        run = replayed()
        assert [it.values for it in run.steps] == [
            {(1, "score"): "5", (1, "text"): '"</script><b>x"'},
            {(1, "score"): "12"},
            {},
        ]
        assert (run.until, run.why) == (0, "")

    def a_value_is_as_a_trace_says_it(self):
        values = {-7: "-7", True: "true", "a\n\"é": '"a\\n\\"é"', railcitron.Interval(-1, 4): "[-1,4]"}
        for value, text in [*values.items(), (railcitron.Label("colour", "red"), "red"), (1, "1"), (False, "false")]:
            assert replay.text_of(value) == text, text
        assert len(replay.text_of("x" * 60_000)) == replay.VALUE_LIMIT + 1

    def a_unit_that_its_step_deletes_has_no_value(self):
        lines = [*CYCLE[:2], "leave 1 board", "delete 1", END]
        run = replayed([*START, *lines], [MOVES[0], (lines, {})])
        assert (run.steps[1].values, run.until) == ({}, 0)

    def a_trace_that_is_not_that_of_the_replay_is_refused_by_its_line(self):
        lines = {
            5: [*START, CYCLE[0], "set 1.text", *CYCLE[2:]],
            6: [*START, *CYCLE[:2], END],
            8: [*START, *CYCLE, *FINISH],
        }
        has = {5: "'set 1.score'", 6: "'set 1.score'", 8: None}
        for line, all in lines.items():
            said = refusal_of(all, input_of(INPUT), replay=Replay(lambda: Stand()))
            assert said and said.startswith(f"line {line}: "), said
            if has[line]:
                tail = "so the input, the floor or the library is not that of this trace"
                assert said == f"line {line}: the replay has {has[line]}, {tail}", said
        said = refusal_of(WHOLE, input_of(INPUT), replay=Replay(lambda: Stand(MOVES[:2])))
        assert said.startswith("line 8: the replay has no more lines, "), said

    def an_input_that_the_library_refuses_is_refused(self):
        def opened():
            raise railcitron.Refused("refused rule hail 2", "why")

        said = refusal_of(WHOLE, input_of(INPUT), replay=Replay(opened))
        assert said.startswith("line 1: the library refuses the input: 'refused rule hail 2', so the input"), said

    def a_replay_stops_where_it_has_no_values(self):
        due = (CYCLE[:1], {}, railcitron.Due(1, "hail"))
        memory = ([], {}, railcitron.OutOfMemory("x"))
        low = [*START[:2], "trigger 1 hail unit 1 rating -5", "cycle 1 act 1 hail unit 1 rating -5", *CYCLE[1:]]
        post = ["post", "create 2 note", "end post 1"]
        stops = {
            "post": (replayed([*START, *post]), 4, replay.POSTED),
            "native": (replayed(WHOLE, [MOVES[0], due]), 4, replay.NATIVE),
            "memory": (replayed(WHOLE, [MOVES[0], memory]), 4, replay.MEMORY),
            "time": (replayed(seconds=-1.0), 1, replay.TIME),
            "floor": (replayed(low, [(low[:3], HELD), ([*QUIET], {})]), 4, replay.FLOOR),
            "cut": (replayed(WHOLE[:5]), 4, replay.CUT),
        }
        for name, (run, line, why) in stops.items():
            assert (run.until, run.why) == (line, why), (name, run.until, run.why)
            assert not any(it.values for it in run.steps if it.first >= line), name

    def a_step_with_too_many_values_stops_the_replay(self):
        limit = replay.STEP_LIMIT
        replay.STEP_LIMIT = 40
        try:
            run = replayed()
        finally:
            replay.STEP_LIMIT = limit
        assert (run.until, run.why) == (1, replay.SIZE)

    def a_run_that_is_full_ends_its_replay(self):
        lines = [*CYCLE[:2], "finish full"]
        moves = [MOVES[0], (CYCLE[:2], {**HELD, (1, "score"): 6}, railcitron.Full("x")), (["finish full"], {})]
        run = replayed([*START, *lines], moves)
        assert (run.finish, run.steps[1].values, run.until) == ("full", {(1, "score"): "6"}, 0)

    def what_a_host_closes_is_no_line_of_the_replay(self):
        assert replayed([*WHOLE, "closed tally 0"]).until == 0

    # Foci

    def foci_that_code_sets_are_known_by_a_replay(self):
        tests = sys.modules["__main__"]
        lines, given = tests.POSTED, tests.POSTED_INPUT
        slots = dict(zip(["source", "area", "weight", "active"], ["", "", 12, True]))
        two = {(2, slot): it for slot, it in slots.items()}
        three = {**two, **{(3, slot): it for slot, it in {**slots, "weight": 18}.items()}}
        cuts = [lines[:4], lines[4:8], lines[8:12], lines[12:15], lines[15:16], lines[16:]]
        moves = list(zip(cuts, [{}, two, three, three, three, {}]))
        run = replayed(lines, moves, given, focus=list(slots), note=[])
        second, third = (it["details"] for it in shown(page_of(run), "cycle-2", "cycle-3"))
        assert "Foci weighed its source up by 30: +12 by focus 2, +18 by focus 3." in third
        assert "work #1 n719lower" not in second and "3work #1 n719rated lower, 19" in second

    # The page

    def the_page_has_the_values_and_the_blackboard(self):
        page = page_of(replayed())
        assert b"</script><b>" not in page
        start, cycle, unit = shown(page, "start", "cycle-1", "unit-1")
        held = '#1 n notescore {} · text "</script><b>x" · in board'
        assert "The blackboard at its end1UnitHolds" + held.format(5) in start["details"]
        assert "The blackboard at its end1UnitHolds" + held.format(12) in cycle["details"]
        assert "5set 1.score n6set 1.score = 12 n" in cycle["details"] and "5set 1.score n" in cycle["lines"]
        assert "What its slots held at the end of cycle 12SlotValueSincescore12cycle 1text" in unit["details"]
        assert "Which values did its slots get?1InSlotBeforeAt its endcycle 1score512" in unit["details"]
        assert cycle["notices"] == ""

    def the_page_says_from_where_on_it_has_no_values(self):
        lines = [*START, *CYCLE, "post", "set 1.score", "end post 1", *QUIET, *FINISH]
        cycle, post = shown(page_of(replayed(lines)), "cycle-1", "post-1")
        why = f"What slots held is shown up to line 8: {replay.POSTED}"
        assert cycle["notices"] == why and why not in cycle["details"] and why in post["details"]
        assert "score ? · text ?" in post["details"] and "score 12" not in post["details"]

    def the_page_without_a_replay_says_what_it_lacks(self):
        words = {"no input": ([], replay.NO_INPUT), "no replay": (["--no-replay"], replay.NOT_ASKED)}
        for name, (given, why) in words.items():
            cycle, unit = shown(see(trace_of(WHOLE), *given).stdout, "cycle-1", "unit-1")
            assert f"#1 notein boardWhat slots held is not shown: {why}" in cycle["details"], name
            assert f"What slots held is not shown: {why}" in unit["details"] and cycle["notices"] == "", name

    def the_page_without_a_library_says_so(self):
        cycle = shown(see(trace_of(WHOLE), given=INPUT).stdout, "cycle-1")[0]
        assert f"What slots held is not shown: {replay.NO_LIBRARY}" in cycle["details"]

    def a_library_that_is_none_is_refused_in_one_line(self):
        with tempfile.NamedTemporaryFile(suffix=".so") as file:
            for name in (file.name, f"{file.name}.gone"):
                answer = see(trace_of(WHOLE), "--library", name, given=INPUT)
                assert answer.stderr.startswith(b"see: library: ") and name.encode() in answer.stderr
                assert (answer.returncode, answer.stdout, answer.stderr.count(b"\n")) == (2, b"", 1)

    # What was said

    def the_page_lists_what_was_said(self):
        lines = [*START, CYCLE[0], 'say "a" #1', END, "post", 'say "b"', "end post 1", *QUIET, *FINISH]
        addresses = "said-all", "said-source-hail", "said-class-note", "said-unit-1", "said-unit-2", "source-hail"
        all, source, of, unit, other, panel = shown(see(trace_of(lines), given=INPUT).stdout, *addresses)
        one = 'cycle 1hail #1 n5 say "a" #1'
        assert f"What was said2InBy, onLine{one}" in all["details"] and 'the host8 say "b"' in all["details"]
        for name, its in {"Saidby hail": source, "Saidon units of class note": of, "Saidon unit 1 n": unit}.items():
            assert its["details"].startswith(name) and f"What was said1InBy, onLine{one}" in its["details"], name
        assert "What was said0Nothing." in other["details"]
        assert "What it said: 1 line" in panel["details"]

    # What is not kept

    def what_dropped_steps_left_is_that_of_units_that_are_there(self):
        gap = Gap()
        gap.fold(["link 1.next 2", "link 2.last 1", "link 1.next 3", "enter 3 board"], {(1, "a"): "1", (2, "a"): "2"})
        gap.fold(["unlink 1.next 2", "unlink 2.last 1", "link 1.next 2", "delete 3", 'say "delete 1"'], {(1, "a"): "4"})
        assert gap.values == {(1, "a"): "4", (2, "a"): "2"}
        assert list(gap.moves.items()) == [((2, "last", "1"), False), ((1, "next", "2"), True)]
        gap.fold(["delete 1", "delete 2"], {})
        assert not gap.values and not gap.moves and not gap.keys

    def the_page_of_a_long_run_goes_on_behind_what_it_leaves_out(self):
        moves = [(["create 1 note", "create 2 note", "trigger 1 hail unit 1 rating 1"], {**HELD, (2, "score"): 0})]
        for it in range(1, 41):
            change = {3: ["enter 2 board"], 20: ["link 1.next 2", "link 2.last 1", "leave 2 board"]}.get(it, [])
            lines = [f"cycle {it} act {it} hail unit 1 rating 1", *change, "set 1.score", END]
            held = {**HELD, (1, "score"): it, (2, "score"): 0, (2, "text"): ""}
            moves.append(([*lines, f"trigger {it + 1} hail unit 1 rating 1"], held))
        moves.append((["finish limit"], {}))
        given = INPUT.replace("}]}\n%sources", '}, {"name": "m", "class": "note"}]}\n%sources')
        limit, runs.ENDS_LIMIT = runs.ENDS_LIMIT, 1_500
        try:
            run = replayed([line for lines, _ in moves for line in lines], moves, given)
        finally:
            runs.ENDS_LIMIT = limit
        assert run.kept.dropped_cycles > 20
        first = next(it for it in run.steps[::-1] if it.kind == "gap")
        after = run.steps[run.steps.index(first) + 1].cycle
        assert 3 < after - run.kept.dropped_cycles < 20 < after < 40
        before, behind, source = shown(page_of(run), "cycle-3", f"cycle-{after}", "source-hail")
        assert 'score 3 · text "</script><b>x"#2 m notescore 0 · in board' in before["details"]
        assert f'score {after} · text "</script><b>x" · next → #2#2 m notescore 0 · last → #1' in behind["details"]
        assert f"This page does not keep {run.kept.dropped_cycles} cycles, so more may be there." in source["details"]

    # With the library

    def replays_of_the_examples_are_their_traces(self):
        library = self._library()
        for trace in sorted(EXAMPLES.glob("*.trace")):
            given = trace.with_suffix(".bb")
            answer = see(trace.read_bytes(), "--input", given, "--library", library)
            assert (answer.returncode, answer.stderr) == (0, b""), (trace, answer.stderr)
            board = data_of(answer.stdout.decode())["board"]
            assert (board["until"], board["why"]) == (0, ""), trace
            last = {}
            values = iter(board["values"])
            for _, unit, slot, text in zip(values, values, values, values):
                last[unit, board["slots"][slot]] = board["texts"][text]
            units, numbers = self._document(given, library)
            held = [(number, *it) for number, unit in zip(numbers, units) for it in unit.get("slots", {}).items()]
            for number, slot, value in held:
                text = last[number, slot]
                assert text == value if text[0].isalpha() and type(value) is str else json.loads(text) == value, trace

    def a_page_of_the_library_says_what_its_trace_says(self):
        words = ["--input", EXAMPLES / "jobshop.bb", "--library", self._library()]
        page = see((EXAMPLES / "jobshop.trace").read_bytes(), *words)
        did, details = shown(page.stdout, "cycle-20")[0]["details"].split("The blackboard at its end")
        assert 'say "plate" "is late by" 1' in did
        due = int(re.search(r'name "plate" · due (\d+)', details)[1])
        end = int(re.search(r"plate 2 step.*?span \[\d+,(\d+)\]", details)[1])
        assert end - due == 1

    def _document(self, given, library):
        """The units that there are at the end of a run, as the library writes them, and their numbers."""
        with railcitron.Run(given.read_bytes(), library=library) as run:
            while run.turn():
                pass
            return json.loads(run.document())["units"], list(run)

    def _library(self):
        if not LIBRARY:
            raise Skipped(f"no library: {VARIABLE} names none")
        return LIBRARY
