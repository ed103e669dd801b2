"""The package over the library itself.

    RAILCITRON_LIBRARY=libbb.so python3 bindings/python/tests/test_library.py
"""

import ctypes
import signal
import sys
import unittest
from concurrent.futures import ThreadPoolExecutor
from pathlib import Path

sys.dont_write_bytecode = True
sys.path.insert(0, str(Path(__file__).resolve().parent.parent))
import railcitron  # noqa: E402
from railcitron import Interval, Label, notes  # noqa: E402

SCHEMA = """%schema
{"labels": [{"name": "hue", "values": ["red", "blue"]}],
 "classes": [{"name": "note",
              "slots": [{"name": "text", "kind": "text"}, {"name": "count", "kind": "int"}, {"name": "hue", "kind": "label", "of": "hue"},
                        {"name": "span", "kind": "interval"}, {"name": "seen", "kind": "bool"}],
              "links": [{"name": "next", "to": "note", "many": true, "inverse": "last"}, {"name": "last", "to": "note", "many": true, "inverse": "next"}]}],
 "spaces": [{"name": "wall", "classes": ["note"], "dims": []}]}
"""
HAIL = "%sources\nsource hail on note { when create note; rate 100; do { say it; } }\n"
DATA = f"{SCHEMA}{HAIL}".encode()


class Library(unittest.TestCase):
    def test_every_ask(self):
        with railcitron.Run(DATA) as run:
            with run.post() as asks:
                one, two = asks.new("note"), asks.new("note")
                asks.set(one, "text", "ü")
                asks.set(one, "count", -(1 << 63))
                asks.set(one, "hue", Label("hue", "blue"))
                asks.set(one, "span", Interval(-1, 1))
                asks.set(one, "seen", True)
                asks.link(one, "next", two)
                asks.unlink(one, "next", two)
                asks.enter(one, "wall")
                asks.leave(one, "wall")
                asks.delete(two)
                asks.say("“said”")
                asks.set(9, "count", 1)
            self.assertEqual((one, two, run.next), (1, 2, 3))
            self.assertEqual((len(asks), asks.refused), (14, [(14, 1)]))
            told = run.read().splitlines()
            self.assertEqual(told[:3], ["post", "create 1 note", "create 2 note"])
            self.assertEqual(told[told.index("end post 14") - 2 :][:3], ['say "“said”"', "refused ask 14 1", "end post 14"])
            self.assertTrue(run.turn())
            self.assertFalse(run.advance(10))
            self.assertIn("say #1\n", run.read())
            self.assertEqual(run.finish(), "finish quiescence\n")
            self.assertEqual(run.ending, "quiescence")
            self.assertRaises(railcitron.Misuse, run.turn)

    def test_asks_that_are_refused(self):
        with railcitron.Run(DATA) as run:
            with run.post() as asks:
                one = asks.new("note")
                for ask, *passed in (
                    (asks.new, "nope"),
                    (asks.set, one, "nope", 1),
                    (asks.link, one, "text", one),
                    (asks.enter, one, "nope"),
                    (asks.set, one, "hue", "green"),
                ):
                    self.assertRaises(railcitron.Refused, ask, *passed)
                self.assertRaises(TypeError, asks.set, one, "count", "1")
                asks.set(one, "text", 65535 * "a")
                asks.say(65536 * "a")
                asks.link(one, "next", 7)
                asks.enter(one, "wall")
            self.assertEqual([tuple(it) for it in asks.refused], [(3, 3), (4, 1)])
            self.assertEqual(run.get(one, "text"), 65535 * "a")
            with run.post() as asks:
                asks.leave(one, "wall")
            self.assertEqual(asks.refused, [])
            lines = list(run.lines())
            self.assertEqual([it for it in lines if it.startswith("refused")], ["refused ask 3 3", "refused ask 4 1"])
            self.assertIn("end post 5", lines)

    def test_a_label_that_is_read_is_written(self):
        with railcitron.Run(DATA) as run:
            with run.post() as asks:
                one, two = asks.new("note"), asks.new("note")
                asks.set(one, "hue", "blue")
            with run.post() as asks:
                asks.set(two, "hue", run.get(one, "hue"))
            hue = run.get(two, "hue")
            self.assertEqual((hue, hue.set, asks.refused), ("blue", "hue", []))

    def test_slots_of_one_name(self):
        data = """%schema
{"labels": [{"name": "hue", "values": ["red"]}, {"name": "mood", "values": ["red", "sad"]}],
 "classes": [{"name": "a", "slots": [{"name": "it", "kind": "int"}, {"name": "of", "kind": "label", "of": "hue"}]},
             {"name": "b", "slots": [{"name": "it", "kind": "text"}, {"name": "of", "kind": "label", "of": "mood"}]},
             {"name": "c", "slots": [{"name": "it", "kind": "interval"}]},
             {"name": "d", "slots": [{"name": "it", "kind": "bool"}]}, {"name": "e"}]}
%sources
"""
        with railcitron.Run(data) as run:
            with run.post() as asks:
                units = [asks.new(it) for it in "abcde"]
                for unit, value in zip(units, (7, "seven", Interval(7, 8), True)):
                    asks.set(unit, "it", value)
            for order in (units[:4], units[3::-1], units[:4]):
                read = {it: run.get(it, "it") for it in order}
                self.assertEqual((read, type(read[4])), ({1: 7, 2: "seven", 3: Interval(7, 8), 4: True}, bool))
                self.assertEqual([run.get(it, "of").set for it in (1, 2, 1)], ["hue", "mood", "hue"])
                self.assertRaises(KeyError, run.get, 5, "it")
                self.assertRaises(KeyError, run.get, 6, "it")

    def test_notes(self):
        with railcitron.Run(DATA) as run:
            with run.post() as asks:
                asks.new("note")
                asks.delete(9)
                asks.say('po"sters \\ \u2028 \x01')
            told = [notes.Posting(), notes.Created(1, "note"), notes.AskRefused(2, 1), notes.Said(('po"sters \\ \u2028 \x01',))]
            self.assertEqual([*run.notes()], [*told, notes.Posted(3), notes.Triggered(1, "hail", 1, 100)])
            self.assertFalse(run.advance(9))
            chosen, said, executed, rest = run.notes()
            self.assertEqual((chosen, said, rest), (notes.Chosen(1, 1, "hail", 1, 100), notes.Said((notes.Unit(1),)), notes.Quiescence()))
            self.assertIsInstance(executed, notes.Executed)
            run.finish()

    def test_units(self):
        data = DATA.replace(b'"classes": [{', b'"classes": [{"name": "top"}, {"name": "low", "parent": "top"}, {')
        with railcitron.Run(data) as run:
            with run.post() as asks:
                made = [asks.new(it) for it in ("note", "low", "top", "focus", "note")]
            with run.post() as asks:
                asks.delete(made[0])
            self.assertEqual((list(run), made), ([2, 3, 4, 5], [1, 2, 3, 4, 5]))
            self.assertEqual([it in run for it in (0, 1, 2, 6)], [False, False, True, False])

    def test_many_units_and_a_long_text(self):
        """What has no room in the buffers that a run keeps."""
        with railcitron.Run(DATA) as run:
            with run.post() as asks:
                units = [asks.new("note") for _ in range(3000)]
                for unit in units[::100]:
                    asks.set(unit, "text", 65000 * "b")
            self.assertEqual((run.units("note"), list(run)), (units, units))
            self.assertEqual(run.get(units[100], "text"), 65000 * "b")
            self.assertGreater(len(run.document()), 30 * 65000)
            told = run.read()
            self.assertEqual([told.count(it) for it in ("create ", "set ", "trigger ")], [3000, 30, 3000])

    def test_no_post_while_a_native_is_due(self):
        sources = "%sources\nsource count on note { when create note; rate 50; native; }\n"
        with railcitron.Run((SCHEMA + sources).encode(), natives=["count"]) as run:
            with run.post() as asks:
                asks.new("note")
            self.assertRaises(railcitron.Due, run.turn)
            with self.assertRaises(railcitron.Due), run.post() as asks:
                self.fail("a block that can't be posted was entered")
            self.assertRaises(railcitron.Due, run.finish)
            with run.answer() as asks:
                asks.set(1, "count", 7)
            self.assertRaises(railcitron.Misuse, run.answer)
            with run.post() as asks:
                asks.set(1, "seen", True)
            self.assertEqual((run.get(1, "count"), run.get(1, "seen")), (7, True))

    def test_asks_stay_where_they_are_not_taken(self):
        """The calls of the library alone: a post while a native is due, and an answer while none is."""
        sources = "%sources\nsource count on note { when create note; rate 50; native; }\n"
        with railcitron.Run(SCHEMA + sources, natives=["count"]) as run:
            self.assertEqual(run._call("bb_ask_new", b"note", 4), 0)
            self.assertEqual([run._call(it) for it in ("bb_answer", "bb_post")], [9, 3])
            self.assertEqual(run.units("note"), [1])
            self.assertRaises(railcitron.Due, run.turn)
            self.assertEqual(run._call("bb_ask_int", 1, b"count", 5, 7), 0)
            self.assertEqual((run.read().count("\n"), run._call("bb_post"), run.read(), run.get(1, "count")), (5, 9, "", 0))
            self.assertEqual((run._call("bb_answer"), run.get(1, "count"), run.due), (3, 7, None))
            self.assertEqual([run._call(it) for it in ("bb_answer", "bb_finish", "bb_answer", "bb_post")], [9, 0, 9, 9])

    def test_a_run_that_is_full(self):
        with railcitron.Run(DATA) as run:
            with self.assertRaises(railcitron.Full), run.post() as asks:
                for _ in range(65537):
                    asks.new("note")
            self.assertRaises(railcitron.Full, run.post)
            self.assertEqual((run.finish()[-12:], run.ending), ("finish full\n", "full"))

    def test_looks(self):
        with railcitron.Run(DATA) as run:
            with run.post() as asks:
                one, *others = (asks.new("note") for _ in range(21))
                asks.set(one, "text", 300 * "ü")
                asks.set(one, "count", -(1 << 63))
                asks.set(one, "hue", Label("hue", "blue"))
                asks.set(one, "span", Interval(-1, 1))
                asks.set(one, "seen", True)
                for other in reversed(others):
                    asks.link(one, "next", other)
            held = [run.get(one, slot) for slot in ("text", "count", "hue", "span", "seen")]
            self.assertEqual(held, [300 * "ü", -(1 << 63), "blue", Interval(-1, 1), True])
            self.assertEqual([run.get(2, slot) for slot in ("text", "count", "hue", "seen")], ["", 0, "red", False])
            self.assertEqual((run.links(one, "next"), run.links(2, "last"), run.links(one, "count")), (others[::-1], [one], []))
            self.assertEqual((run.class_of(one), run.class_of(22), run.class_of(0)), ("note", None, None))
            self.assertEqual((run.units("note"), run.units("focus")), ([one, *others], []))
            self.assertRaises(KeyError, run.units, "job")
            for unit, slot in ((22, "count"), (one, "size"), (one, "next")):
                self.assertRaises(KeyError, run.get, unit, slot)
            self.assertRaises(KeyError, run.links, one, "size")
            run.finish()
            self.assertIsNone(run.class_of(one))
            self.assertRaises(KeyError, run.get, one, "count")
        self.assertRaises(railcitron.Misuse, run.get, one, "count")

    def test_the_agenda(self):
        """What waits by two sources, one of them rated below the floor until a focus comes."""
        sources = """%sources
source hail on note { when create note; rate 100; do { say "hail"; } }
source tidy on note { when create note; rate 10; do { with n = it as note { leave n wall; } } }
"""
        with railcitron.Run(SCHEMA + sources, floor=50) as run:
            self.assertEqual((run.pending(), run.choice), ([], None))
            with run.post() as asks:
                one, two = asks.new("note"), asks.new("note")
                asks.enter(two, "wall")
                asks.enter(one, "wall")
            wanted = [(1, "hail", 1, 100, 100), (2, "tidy", 1, 10, 10), (3, "hail", 2, 100, 100), (4, "tidy", 2, 10, 10)]
            self.assertEqual(([tuple(it) for it in run.pending()], run.choice), (wanted, wanted[0]))
            self.assertEqual((run.members("wall"), run.members("wall")), ([1, 2], [1, 2]))
            self.assertRaises(KeyError, run.members, "nowhere")
            self.assertTrue(run.turn())
            self.assertEqual(([it.number for it in run.pending()], run.choice), ([2, 3, 4], wanted[2]))
            with run.post() as asks:
                focus = asks.new("focus")
                asks.set(focus, "source", "tidy")
                asks.set(focus, "weight", 1000)
                asks.set(focus, "active", True)
            self.assertEqual([(it.number, it.base, it.rating) for it in run.pending()], [(2, 10, 1010), (3, 100, 100), (4, 10, 1010)])
            self.assertEqual(run.choice, (2, "tidy", 1, 10, 1010))
            self.assertTrue(run.turn())
            self.assertEqual(run.members("wall"), [2])
            with run.post() as asks:
                asks.delete(focus)
            self.assertTrue(run.turn())
            self.assertEqual(([tuple(it) for it in run.pending()], run.choice), ([wanted[3]], None))
            run.finish()
            self.assertIsNone(run.choice)
            self.assertRaises(railcitron.Misuse, run.pending)

    def test_kinds_of_slots(self):
        with railcitron.Run(DATA) as run:
            with run.post() as asks:
                asks.new("note")

            def kind(unit, slot):
                told = ctypes.create_string_buffer(1)
                return run._call("bb_kind", unit, slot, len(slot), told), told.raw[0]

            slots = [b"count", b"text", b"seen", b"hue", b"span", b"next"]
            self.assertEqual([kind(1, it) for it in slots], [(0, it) for it in range(6)])
            self.assertEqual([kind(1, b"size"), kind(2, b"count"), kind(1, b"\xff")], [(1, 0), (1, 0), (2, 0)])

    def test_where_it_came_back_shows_nowhere(self):
        notes = ",".join(f'{{"name":"n{it}","class":"note"}}' for it in range(20))
        data = f'{SCHEMA}%units\n{{"units":[{notes}]}}\n{HAIL}'.encode()

        def trace(cycles):
            with railcitron.Run(data) as run:
                told = run.read()
                while run.advance(cycles):
                    told += run.read()
                return told + run.finish()

        self.assertEqual({trace(it) for it in (1, 3, 7, 1000)}, {trace(2)})

    def test_slices_of_cycles_show_nowhere(self):
        """Each note makes another, by a source or by a native, until there are enough."""
        grow = "when create note; rate 5; do { new made: note; } "
        by_source = f"{SCHEMA}%sources\nsource grow on note {{ {grow}}}\n"
        by_native = f"{SCHEMA}%sources\nsource grow on note {{ when create note; rate 5; native; }}\n"

        def told(data, cycles, natives=()):
            with railcitron.Run(data, natives=natives) as run:
                with run.post() as asks:
                    asks.new("note")
                for it in cycles:
                    self.assertTrue(run.advance(it))
                self.assertEqual(run.made, sum(cycles))
                return run.read()

        for data, natives in ((by_source, ()), (by_native, {"grow": lambda unit, asks: asks.new("note")})):
            whole = told(data, [5000], natives)
            self.assertEqual(whole, told(data, 50 * [100], natives))
            self.assertEqual((whole.count("\ncycle "), whole.count("\nquiescence\n")), (5000, 0))

    def test_a_signal_is_heard(self):
        class Stop(Exception):
            pass

        def stop(*_):
            raise Stop

        data = f"{SCHEMA}%sources\nsource grow on note {{ when create note; rate 5; do {{ new made: note; }} }}\n"
        with railcitron.Run(data) as run:
            with run.post() as asks:
                asks.new("note")
            before = signal.signal(signal.SIGALRM, stop)
            try:
                signal.setitimer(signal.ITIMER_REAL, 0.002)
                run.advance(65000)
                self.fail("no signal was heard")
            except Stop:
                made = run.made
            finally:
                signal.setitimer(signal.ITIMER_REAL, 0)
                signal.signal(signal.SIGALRM, before)
            self.assertLess(made, 65000)
            self.assertTrue(run.advance(1))
            self.assertEqual(run.made, made + 1)

    def test_natives(self):
        sources = "%sources\nsource count on note { when create note; rate 50; native; }\nsource later on note { when create note; rate 9; native; }\n"
        for natives, name in ((["count"], "later"), (["later"], "count"), ([], "count")):
            with self.assertRaises(railcitron.Refused) as caught:
                railcitron.Run((SCHEMA + sources).encode(), natives=natives)
            self.assertEqual(caught.exception.line, f"refused rule {name} 8")
            self.assertEqual(caught.exception.message, f"input: error[rule 8]: source {name}: there is no native of this name")
        with railcitron.Run(SCHEMA + sources, natives={"count": None, "later": None}) as run:

            @run.native("count")
            def count(unit, asks):
                asks.set(unit, "count", run.get(unit, "count") + 1)
                if unit < 3:
                    asks.new("note")

            with run.post() as asks:
                asks.new("note")
            with self.assertRaises(railcitron.Due) as caught:
                run.advance(100)
            self.assertEqual((caught.exception.unit, caught.exception.name, run.made), (1, "later", 4))
            self.assertEqual([run.get(it, "count") for it in run.units("note")], [1, 1, 1])
            self.assertRaises(railcitron.Due, run.turn)
            self.assertRaises(railcitron.Due, run.finish)
            with self.assertRaises(ZeroDivisionError), run.answer() as asks:
                asks.delete(1)
                raise ZeroDivisionError
            with run.answer() as asks:
                asks.delete(1)
            self.assertEqual((run.due, run.units("note")), (None, [2, 3]))
            run.native("later")(lambda unit, asks: None)
            self.assertFalse(run.advance(2))
            self.assertEqual(run.made, 6)
            told = run.read() + run.finish()
            self.assertEqual((told.count("end native 0\n"), told.count("end native 1\n"), told.count("end native 2\n")), (2, 2, 2))

    def test_why_an_input_is_refused(self):
        text = 'source hail on note { when create note; rate 9; do { set it.cuont = "ü"; } }'
        line, column = SCHEMA.count("\n") + 2, 1 + text.index("set it.")
        word = 1 + text.index("cuont")
        at = f"\n  | source hail, line 1 of %sources\n  | {text}\n  | {(word - 1) * ' '}^"
        for data, refusal, begins, ends in (
            (b"%schema\n{", "schema 1", "input:2:2: error[schema 1]: it is not JSON\n", "\n  | line 1 of %schema\n  | {\n  |  ^"),
            (b"\xff", "input utf8", "input: error[input utf8]: it is not UTF-8", "UTF-8"),
            (f"{SCHEMA}%sources\n{text}\n", f"compile hail 1:{column} 1", f"input:{line}:{word}: error[compile 1]: ", at),
        ):
            with self.assertRaises(railcitron.Refused) as caught:
                railcitron.Run(data)
            self.assertEqual(caught.exception.line, f"refused {refusal}")
            message = caught.exception.message
            self.assertEqual((message[: len(begins)], message[-len(ends) :]), (begins, ends))

    def test_costs(self):
        sources = "%sources\nsource grow on note { when create note; rate 1; do { for other in find note in wall { say other; } } }\n"
        with railcitron.Run((SCHEMA + sources).encode()) as run:
            self.assertFalse(run.creates)
            costs = [run.most_steps(it) for it in (0, 1, 2, 65536)]
            self.assertEqual(costs[2] - costs[1], costs[1] - costs[0])
            self.assertEqual(costs[3] - costs[0], 65536 * (costs[1] - costs[0]))
            self.assertEqual(run.most_steps(), run.most_steps((1 << 32) - 1))
            run.finish()
            self.assertRaises(railcitron.Misuse, run.most_steps)
        with railcitron.Run(f"{SCHEMA}%sources\nsource grow on note {{ when quiescence; rate 1; do {{ new made: note; }} }}\n".encode()) as run:
            self.assertTrue(run.creates)

    def test_a_document_is_loaded_again(self):
        with railcitron.Run(DATA) as run:
            with run.post() as asks:
                one, two, three = (asks.new("note") for _ in range(3))
                asks.set(one, "text", "ü")
                asks.set(one, "hue", Label("hue", "blue"))
                asks.set(three, "span", Interval(-1, 1))
                asks.link(three, "next", one)
                asks.enter(one, "wall")
                asks.delete(two)
            document = run.document()
        self.assertEqual(
            document,
            '{"links":[["2","next","1"]],"spaces":[["1","wall"]],"units":['
            '{"class":"note","name":"1","slots":{"hue":"blue","text":"ü"}},'
            '{"class":"note","name":"2","slots":{"span":[-1,1]}}]}',
        )
        with railcitron.Run(f"{SCHEMA}%units\n{document}\n".encode()) as run:
            self.assertEqual(run.document(), document)
            self.assertEqual(run.links(1, "last"), [2])

    def test_a_run_is_taken_up_again(self):
        """A day whose host is killed at each text that its log receives: the log gives the run after the move."""
        data = SCHEMA + """%sources
source count on note { when create note; rate 50; native; }
source hail on note { when update note.count; rate 100; do { say it; } }
source later on note { when create note; rate 10; do { with n = it as note { leave n wall; } } }
"""

        class Killed(Exception):
            pass

        def count(unit, asks):
            asks.set(unit, "count", -(1 << 63))
            if unit == 1:
                asks.new("note")

        def note(run):
            with run.post() as asks:
                it = asks.new("note")
                asks.set(it, "text", 'grün "a" \\ \n\u2028')
                asks.set(it, "hue", "blue")
                asks.set(it, "span", Interval(-1, 4))
                asks.set(it, "seen", True)
                asks.enter(it, "wall")
                asks.delete(99)

        def focus(run):
            with run.post() as asks:
                it = asks.new("focus")
                asks.set(it, "source", "later")
                asks.set(it, "weight", 1000)
                asks.link(1, "next", 2)

        day = [note, lambda run: run.turn(), lambda run: run.advance(1), focus, lambda run: run.advance(9), note, lambda run: run.advance(9)]

        def seen(run):
            return run.read(), run.next, run.made, run.due, run.pending(), run.choice, run.document()

        def lives(keep):
            with railcitron.Run(data, natives={"count": count}, keep_history=keep) as run:
                for move in day:
                    move(run)
                return seen(run), run.finish()

        whole = []
        ends = lives(whole.append)
        self.assertGreater(len(whole), len(day))
        self.assertIn('set 1 text "grün \\"a\\" \\\\ \\n\u2028"\n', whole[0])
        stands = []
        for moves in range(len(whole) + 1):
            log = []

            def keep(text):
                if len(log) == moves:
                    raise Killed
                log.append(text)

            if moves < len(whole):
                self.assertRaises(Killed, lives, keep)
            self.assertEqual(log, whole[:moves] if moves < len(whole) else [])
            with railcitron.Run.resume(data, "".join(whole[:moves]), natives=["count"], keep_history=True) as run:
                stands.append(seen(run))
                self.assertEqual(run.history(), "")
        self.assertEqual(stands[-1], ends[0])
        for past, later in zip(stands, stands[1:]):
            self.assertTrue(later[0].startswith(past[0]))
        with railcitron.Run.resume(data, "".join(whole), natives=["count"]) as run:
            run.read()
            self.assertEqual(run.finish(), ends[1])

    def test_a_run_goes_on_as_it_would_have(self):
        """Two runs, one of them taken up again in the middle, and then moved alike."""

        def told(run, notes):
            read = run.read()
            for _ in range(notes):
                with run.post() as asks:
                    asks.set(asks.new("note"), "text", "ü")
                run.advance(1)
            return read, run.read(), run.next, run.made, run.pending(), run.document()

        with railcitron.Run(DATA, keep_history=True) as run:
            past = told(run, 3)
            log = run.history()
            with railcitron.Run.resume(DATA, log, keep_history=True) as again:
                self.assertEqual(again.read(), past[0] + past[1])
                self.assertEqual(told(again, 2), told(run, 2))
                self.assertEqual(again.history(), run.history())
                self.assertEqual(again.finish(), run.finish())

    def test_a_log_that_is_cut(self):
        log = 'post\nnew note\nset 1 text "ü"\nend\nadvance 3\nturn\n'
        with railcitron.Run(DATA) as run:
            with run.post() as asks:
                asks.set(asks.new("note"), "text", "ü")
            run.advance(3)
            wanted = run.read()
        with railcitron.Run.resume(DATA, log) as run:
            self.assertEqual((run.read(), run.get(1, "text")), (wanted, "ü"))
        for cut, line in (('turn\n', 6), ("3\nturn\n", 5), ("end\nadvance 3\nturn\n", 4), ('ü"\nend\nadvance 3\nturn\n', 3)):
            with self.assertRaisesRegex(railcitron.Refused, f"line {line} "):
                railcitron.Run.resume(DATA, log.removesuffix(cut) + ("t" if cut == "turn\n" else ""))

    def test_a_name_that_a_history_can_not_tell(self):
        with railcitron.Run(DATA, keep_history=True) as run:
            with self.assertRaises(railcitron.Refused), run.post() as asks:
                asks.set(9, "no name", 1)
            with run.post() as asks:
                asks.set(9, "name", 1)
            self.assertEqual((asks.refused, run.history()), ([(1, 1)], "post\nset 9 name 1\nend\n"))

    def test_refused(self):
        with self.assertRaises(railcitron.Refused) as caught:
            railcitron.Run(b"%schema\n{")
        self.assertEqual(caught.exception.line, "refused schema 1")
        with railcitron.Run(DATA) as run:
            with self.assertRaises(railcitron.Refused), run.post() as asks:
                asks.new("note")
                asks.set(1, "hue", Label("hue", "green"))
            with self.assertRaises(railcitron.Refused), run.post() as asks:
                asks.set(1, "span", Interval(1, 0))
            with run.post():
                pass
            self.assertEqual(run.read(), "post\nend post 0\n")

    def test_runs_on_threads(self):
        def trace(_):
            with railcitron.Run(DATA) as run:
                with run.post() as asks:
                    asks.new("note")
                while run.turn():
                    pass
                return run.finish()

        with ThreadPoolExecutor(8) as pool:
            self.assertEqual(len({*pool.map(trace, range(200))}), 1)

    def test_closing_twice(self):
        run = railcitron.Run(DATA)
        run.close()
        run.close()
        self.assertRaises(railcitron.Misuse, run.read)
        self.assertEqual(run.next, 0)


if __name__ == "__main__":
    unittest.main()
