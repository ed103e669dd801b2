"""What the package does around its calls, over a library that is made up: nothing is built for it.

    python3 -m unittest discover bindings/python/tests
"""

import copy
import ctypes
import os
import pickle
import shutil
import subprocess
import sys
import tempfile
import threading
import unittest
import warnings
from pathlib import Path
from types import SimpleNamespace

sys.dont_write_bytecode = True
HOME = Path(__file__).resolve().parent.parent
sys.path.insert(0, str(HOME))
import railcitron  # noqa: E402
from railcitron import Interval, Label, _library, _schema, notes  # noqa: E402

DATA = b"""%schema
{"labels": [{"name": "state", "values": ["waiting", "done"]}, {"name": "hue", "values": ["red"]}],
 "classes": [{"name": "task",
              "slots": [{"name": "due", "kind": "int"}, {"name": "late", "kind": "bool"}, {"name": "name", "kind": "text"},
                        {"name": "state", "kind": "label", "of": "state"}, {"name": "span", "kind": "interval"}],
              "links": [{"name": "next", "to": "task", "many": true, "inverse": "last"},
                        {"name": "last", "to": "task", "many": true, "inverse": "next"}]},
             {"name": "job", "parent": "task", "slots": [{"name": "grams", "kind": "int"}]}],
 "spaces": [{"name": "tray", "classes": ["job"], "dims": []}]}
%sources
"""


class Library:
    """It answers each call with the next status that it was given for it, or 0, and notes what was passed."""

    def __init__(self, trace=(), due=(), classes=(), told=b"refused schema 1", message=b"schema: it is not JSON", **statuses):
        self.trace = list(trace)
        self.due = list(due)
        self.classes = dict(classes)
        self.told = {"bb_refusal": told, "bb_explain": message}
        self.waiting = {}
        self.line = 0
        self.statuses = {name: list(it) for name, it in statuses.items()}
        self.called = []

    def __getattr__(self, name):
        return lambda run, *passed: self.answer(name, run, passed)

    def answer(self, name, run, passed):
        self.called.append((name, *passed))
        status = (self.statuses.get(name) or [0]).pop(0)
        if name == "bb_open":
            run._obj.is_open = status in (0, 3, 4)
        if name == "bb_close":
            run._obj.is_open = 0
        return status

    def bb_read(self, run, room, size, length):
        piece = self.trace.pop(0) if self.trace else b""
        room[: len(piece)] = piece
        length._obj.value = len(piece)
        return 0

    def bb_skip(self, run):
        self.trace.clear()
        return 0 if run._obj.is_open else 9

    def bb_due(self, run, unit, name, size, length):
        if not run._obj.is_open:
            return 9
        if not self.due:
            return 1
        unit._obj.value, text = self.due[0]
        name[: len(text)] = text.encode()
        length._obj.value = len(text)
        return 0

    def bb_class(self, run, unit, room, size, length):
        if unit not in self.classes:
            return 1
        text = self.classes[unit].encode()
        room[: len(text)] = text
        length._obj.value = len(text)
        return 0

    def bb_label(self, run, unit, slot, slot_len, room, size, length):
        room[:4] = b"done"
        length._obj.value = 4
        return 0

    def bb_units(self, run, name, name_len, found, size, count):
        units = [unit for unit, it in self.classes.items() if it == name.decode()]
        found[: len(units)] = units
        count._obj.value = len(units)
        return 0

    def bb_members(self, run, name, name_len, found, size, count):
        if name != b"tray":
            return 1
        return self.bb_units(run, b"job", 3, found, size, count)

    def bb_pending(self, run, found, size, count):
        found[: len(self.waiting)] = [*self.waiting]
        count._obj.value = len(self.waiting)
        return 0

    def bb_activation(self, run, number, unit, base, rating, room, size, length):
        if number not in self.waiting:
            return 1
        source, unit._obj.value, base._obj.value, rating._obj.value = self.waiting[number]
        room[: len(source)] = source
        length._obj.value = len(source)
        return 0

    def bb_choice(self, run, number):
        if not self.waiting:
            return 1
        number._obj.value = max(self.waiting, key=lambda it: self.waiting[it][3])
        return 0

    def bb_answer(self, run):
        self.due.pop(0)
        return self.answer("bb_answer", run, ())

    def bb_history(self, run, step, cycles, room, size, length):
        if status := self.answer("bb_history", run, (step, cycles)):
            return status
        text = (b"turn\n", b"advance %d\n" % cycles, b"post\nend\n", b"answer\nend\n")[step]
        room[: len(text)] = text
        length._obj.value = len(text)
        return 0

    def bb_resume(self, run, *passed):
        status = self.answer("bb_resume", run, passed[:-1])
        passed[-1]._obj.value = self.line
        run._obj.is_open = status in (0, 3, 4, 8)
        return status

    def bb_refusal(self, *passed):
        return self.tell("bb_refusal", *passed)

    def bb_explain(self, *passed):
        return self.tell("bb_explain", *passed)

    def tell(self, name, data, size, natives, natives_len, floor, room, length, count):
        self.called.append((name, data, size, natives, natives_len, floor))
        if (text := self.told[name]) is None:
            return 5
        room[: len(text[:length])] = text[:length]
        count._obj.value = len(text)
        return 0

    def names(self):
        return [it[0] for it in self.called]


class Runs(unittest.TestCase):
    def test_moves(self):
        library = Library(bb_turn=[3, 0, 4, 5, 9], bb_advance=[3])
        with railcitron.Run(b"input", floor=-1, library=library) as run:
            self.assertTrue(run.turn())
            self.assertFalse(run.turn())
            self.assertTrue(run.advance(7))
            for fault in (railcitron.Full, railcitron.OutOfMemory, railcitron.Misuse):
                self.assertRaises(fault, run.turn)
        self.assertEqual(library.called[0], ("bb_open", b"input", 5, b"", 0, -1))
        self.assertIn(("bb_advance", 7), library.called)
        self.assertEqual(library.names()[-1], "bb_close")

    def test_refused(self):
        library = Library(bb_open=[2])
        with self.assertRaises(railcitron.Refused) as caught:
            railcitron.Run(b"input", natives=["weigh"], floor=-1, library=library)
        fault = caught.exception
        self.assertEqual((fault.line, fault.message, str(fault)), ("refused schema 1", *2 * ["schema: it is not JSON"]))
        passed = b"input", 5, b"weigh", 5, -1
        self.assertEqual(library.called, [(name, *passed) for name in ("bb_open", "bb_refusal", "bb_explain")])
        self.assertRaises(MemoryError, railcitron.Run, b"", library=Library(bb_open=[5]))

    def test_a_reason_without_memory(self):
        for told, wanted in (
            ({"message": None}, ("refused schema 1", "refused schema 1")),
            ({"told": None}, (None, "schema: it is not JSON")),
            ({"told": None, "message": None}, (None, "the input is refused, and there is no memory to say why")),
        ):
            with self.assertRaises(railcitron.Refused) as caught:
                railcitron.Run(b"", library=Library(bb_open=[2], **told))
            self.assertEqual((caught.exception.line, caught.exception.message), wanted)

    def test_a_long_reason(self):
        told, message = b"refused compile " + 5000 * b"x" + b" 1:1 1", 9000 * "ü"
        with self.assertRaises(railcitron.Refused) as caught:
            railcitron.Run(b"", library=Library(bb_open=[2], told=told, message=message.encode()))
        self.assertEqual((caught.exception.line, caught.exception.message), (told.decode(), message))

    def test_inputs(self):
        for data in ("%schema\n", b"%schema\n", bytearray(b"%schema\n"), memoryview(b"%schema\n")):
            library = Library()
            railcitron.Run(data, library=library).close()
            self.assertEqual(library.called[0][1], b"%schema\n")
        for data in (5, None, Path("input.bb"), [1]):
            with self.assertRaisesRegex(TypeError, "an input is a str, or bytes"):
                railcitron.Run(data, library=Library())

    def test_reading_in_pieces(self):
        text = 'say "grün"\n'.encode()
        with railcitron.Run(b"", library=Library([text[:8], text[8:]], bb_finish=[3])) as run:
            self.assertEqual(run.read(), 'say "grün"\n')
            self.assertEqual(run.finish(), "")
            self.assertEqual(run.ending, "limit")

    def test_what_is_skipped_is_not_read(self):
        with railcitron.Run(b"", library=Library([b"post\n"])) as run:
            run.skip()
            self.assertEqual(run.read(), "")
        with self.assertRaises(railcitron.Misuse):
            run.skip()

    def test_lines(self):
        pieces = ['say "a\u2028b\x85c"\nsay "'.encode(), b'd"\n', b"", b"post\ncut"]
        with railcitron.Run(b"", library=Library(pieces)) as run:
            self.assertEqual(list(run.lines()), ['say "a\u2028b\x85c"', 'say "d"'])
            self.assertEqual(list(run.lines()), ["post", "cut"])
            self.assertEqual(list(run.lines()), [])

    def test_threads(self):
        faults = []

        def turn():
            try:
                run.turn()
            except railcitron.Misuse as fault:
                faults.append(fault)

        with railcitron.Run(b"", library=Library()) as run:
            thread = threading.Thread(target=turn)
            thread.start()
            thread.join()
        self.assertEqual(len(faults), 1)

    def test_one_that_is_not_closed(self):
        library = Library()
        run = railcitron.Run(b"", library=library)
        with warnings.catch_warnings(record=True) as told:
            warnings.simplefilter("always")
            run.__del__()
        self.assertEqual([it.category for it in told], [ResourceWarning])
        self.assertEqual(library.names(), ["bb_open", "bb_close"])

    def test_one_that_is_not_closed_elsewhere(self):
        library = Library()
        run = railcitron.Run(b"", library=library)
        with warnings.catch_warnings(record=True) as told:
            warnings.simplefilter("always")
            thread = threading.Thread(target=run.__del__)
            thread.start()
            thread.join()
        self.assertEqual(([it.category for it in told], library.names()), ([ResourceWarning], ["bb_open"]))
        run.close()

    def test_repr(self):
        with railcitron.Run(b"", library=Library(bb_open=[3], bb_turn=[0, 4], bb_finish=[4])) as run:
            told = [repr(run)]
            run.turn()
            told.append(repr(run))
            self.assertRaises(railcitron.Full, run.turn)
            told.append(repr(run))
            run.finish()
            told.append(repr(run))
        told.append(repr(run))
        states = ["going", "at rest", "full", "finished, full", "closed"]
        self.assertEqual(told, [f"<railcitron.Run: {it}>" for it in states])

    def test_units(self):
        library = Library(classes={1: "focus", 4: "task", 2: "job", 3: "task"})
        with railcitron.Run(DATA, library=library) as run:
            self.assertEqual(list(run), [1, 3, 4])
            self.assertEqual([it in run for it in (1, 2, 5, -1, 1 << 64, "1")], [True, True, False, False, False, False])
            run.finish()
            self.assertRaises(railcitron.Misuse, iter, run)


class Agenda(unittest.TestCase):
    def test_what_waits(self):
        library = Library(classes={1: "job", 4: "task", 2: "job"})
        with railcitron.Run(DATA, library=library) as run:
            self.assertEqual((run.pending(), run.choice, run.members("tray")), ([], None, [1, 2]))
            self.assertRaises(KeyError, run.members, "tree")
            library.waiting = {3: (b"hail", 7, -5, 12), 9: (b"greet", 0, 1, 13)}
            hail, greet = railcitron.Activation(3, "hail", 7, -5, 12), railcitron.Activation(9, "greet", None, 1, 13)
            self.assertEqual((run.pending(), run.choice), ([hail, greet], greet))


class Histories(unittest.TestCase):
    def test_each_move_is_kept_before_it_is_made(self):
        library = Library(bb_open=[3], bb_turn=[3], bb_advance=[8, 0], bb_answer=[3], bb_post=[3], due=[(7, "weigh")])
        with railcitron.Run(b"", natives={"weigh": lambda unit, asks: None}, library=library, keep_history=True) as run:
            self.assertEqual(run.history(), "")
            run.turn()
            self.assertEqual((run.history(), run.history()), ("turn\n", ""))
            run.advance(7)
            with run.post() as asks:
                asks.say("")
            self.assertEqual(run.history(), "advance 7\nanswer\nend\nadvance 7\npost\nend\n")
        moves = ["bb_turn", "bb_advance", "bb_answer", "bb_advance", "bb_post"]
        told = [it for it in library.called if it[0] in ("bb_history", *moves)]
        self.assertEqual([it[0] for it in told], [name for it in moves for name in ("bb_history", it)])
        self.assertEqual([it[1:] for it in told[::2]], [(0, 0), (1, 7), (3, 0), (1, 7), (2, 0)])

    def test_what_changes_nothing_is_not_kept(self):
        library = Library(bb_open=[3], bb_turn=[0, 0], bb_advance=[0])
        with railcitron.Run(b"", library=library, keep_history=True) as run:
            run.turn(), run.turn(), run.advance(3)
            self.assertEqual(run.history(), "turn\n")

    def test_a_function_receives_them(self):
        kept, library = [], Library(bb_open=[3], bb_turn=[3])
        with railcitron.Run(DATA, library=library, keep_history=kept.append) as run:
            run.turn()
            self.assertRaises(railcitron.Misuse, run.history)
        self.assertEqual(kept, ["turn\n"])

    def test_a_function_that_raises(self):
        def keep(text):
            raise OSError("the disk is full")

        library = Library(bb_open=[3])
        with railcitron.Run(DATA, library=library, keep_history=keep) as run:
            self.assertRaises(OSError, run.turn)
            with self.assertRaises(OSError), run.post() as asks:
                asks.say("")
        self.assertFalse({"bb_turn", "bb_post"} & {*library.names()})
        self.assertEqual(library.names()[-3:], ["bb_history", "bb_discard", "bb_close"])

    def test_a_text_that_is_not_made(self):
        for status, fault in ((2, railcitron.Refused), (5, railcitron.OutOfMemory), (9, railcitron.Misuse)):
            library = Library(bb_open=[3], bb_history=[status])
            with railcitron.Run(b"", library=library, keep_history=True) as run:
                with self.assertRaises(fault), run.post():
                    pass
                self.assertEqual(run.history(), "")
            self.assertNotIn("bb_post", library.names())

    def test_a_run_that_keeps_none(self):
        library = Library(bb_open=[3])
        with railcitron.Run(b"", library=library) as run:
            run.turn()
            self.assertRaises(railcitron.Misuse, run.history)
        self.assertNotIn("bb_history", library.names())

    def test_one_that_is_taken_up_again(self):
        for history in ("post\nsay \"ü\"\nend\n", bytearray("post\nsay \"ü\"\nend\n".encode())):
            library = Library(bb_resume=[3])
            with railcitron.Run.resume("input", history, natives=["weigh"], floor=-1, library=library, keep_history=True) as run:
                self.assertEqual((repr(run), run.history()), ("<railcitron.Run: going>", ""))
                run.turn()
                self.assertEqual(run.history(), "turn\n")
            self.assertEqual(library.called[0], ("bb_resume", b"input", 5, b"weigh", 5, -1, "post\nsay \"ü\"\nend\n".encode(), 18))
            self.assertNotIn("bb_open", library.names())

    def test_a_history_that_is_none(self):
        library = Library(bb_resume=[2])
        library.line = 7
        with self.assertRaisesRegex(railcitron.Refused, "line 7") as caught:
            railcitron.Run.resume(b"", "turn\n", library=library)
        self.assertIsNone(caught.exception.line)
        self.assertNotIn("bb_refusal", library.names())
        with self.assertRaisesRegex(railcitron.Refused, "it is not JSON"):
            railcitron.Run.resume(b"", "", library=Library(bb_resume=[2]))
        self.assertRaises(MemoryError, railcitron.Run.resume, b"", "", library=Library(bb_resume=[5]))
        self.assertRaises(UnicodeDecodeError, railcitron.Run.resume, b"", b"say \"\xc3", library=Library())
        self.assertRaises(TypeError, railcitron.Run.resume, b"", ["turn"], library=Library())


class Posts(unittest.TestCase):
    def test_asks(self):
        library = Library(bb_next=[7], bb_post=[3])
        with railcitron.Run(DATA, library=library) as run, run.post() as asks:
            first, second = asks.new("job"), asks.new("job")
            asks.set(first, "due", 12)
            asks.set(first, "late", True)
            asks.set(first, "name", "ä")
            asks.set(first, "state", Label("state", "done"))
            asks.set(first, "span", Interval(-1, 4))
            asks.link(first, "next", second)
            asks.delete(second)
            asks.say("")
            self.assertEqual(len(asks), 10)
        self.assertEqual((first, second), (7, 8))
        called = [it for it in library.called if it[0].startswith("bb_ask")]
        wanted = [
            ("bb_ask_int", 7, b"due", 3, 12),
            ("bb_ask_bool", 7, b"late", 4, True),
            ("bb_ask_text", 7, b"name", 4, "ä".encode(), 2),
            ("bb_ask_label", 7, b"state", 5, b"state", 5, b"done", 4),
            ("bb_ask_interval", 7, b"span", 4, -1, 4),
            ("bb_ask_link", 7, b"next", 4, 8),
            ("bb_ask_delete", 8),
            ("bb_ask_say", b"", 0),
        ]
        self.assertEqual(called[2:], wanted)
        self.assertEqual(library.names()[-2:], ["bb_post", "bb_close"])

    def test_a_label_that_is_read_is_written(self):
        library = Library(bb_next=[9], classes={7: "job"})
        with railcitron.Run(DATA, library=library) as run:
            read = run.get(7, "state")
            self.assertEqual((read, read.set, read.label, f"{read}"), ("done", "state", "done", "done"))
            with run.post() as asks:
                asks.set(7, "state", read)
                asks.set(7, "state", "done")
                asks.set(asks.new("task"), "state", "done")
        called = [it for it in library.called if it[0] == "bb_ask_label"]
        self.assertEqual(called, [("bb_ask_label", it, b"state", 5, b"state", 5, b"done", 4) for it in (7, 7, 9)])

    def test_names_that_the_schema_lacks(self):
        library = Library(bb_next=[9], bb_ask_label=[2], bb_ask_interval=[2], classes={7: "job"})
        with railcitron.Run(DATA, library=library) as run, run.post() as asks:
            for ask, *passed in (
                (asks.new, "jop"),
                (asks.set, 7, "dew", 1),
                (asks.set, 7, "next", 1),
                (asks.set, 7, "state", Label("hue", "red")),
                (asks.set, 7, "state", "late"),
                (asks.set, 7, "span", Interval(1, 0)),
                (asks.link, 7, "due", 7),
                (asks.unlink, 7, "nest", 7),
                (asks.enter, 7, "tree"),
                (asks.leave, 7, "tree"),
            ):
                with self.assertRaises(railcitron.Refused) as caught:
                    ask(*passed)
                self.assertIsNone(caught.exception.line)
                self.assertNotIn("bb_", str(caught.exception))
            for value in ("1", True, Interval(1, 2), Label("state", "done"), 1.5, None):
                self.assertRaises(TypeError, asks.set, 7, "due", value)
            self.assertEqual(len(asks), 0)
            asks.set(8, "dew", "a unit that is not live has no class")
            self.assertEqual(asks.new("job"), 9)

    def test_those_that_are_refused(self):
        pieces = [b"create 1 job\nrefused ask 9 9\n", b"", b'post\nrefused ask 2 1\nsay "refused ask 5 5"\nrefu', b"sed ask 4 5\nend post 4\n"]
        with railcitron.Run(DATA, library=Library(pieces)) as run:
            with run.post() as asks:
                asks.say("")
            self.assertEqual(asks.refused, [(2, 1), (4, 5)])
            self.assertEqual(asks.refused[0].why, "a unit that it names is not live")
            self.assertEqual(run.read(), b"".join(pieces).decode())
            self.assertEqual(run.read(), "")

    def test_a_block_that_raises(self):
        library = Library(bb_ask_label=[2])
        with railcitron.Run(DATA, library=library) as run:
            with self.assertRaises(railcitron.Refused), run.post() as asks:
                asks.new("job")
                asks.set(1, "state", Label("state", "late"))
            self.assertRaises(railcitron.Misuse, asks.new, "job")
        self.assertNotIn("bb_post", library.names())
        self.assertEqual([it for it in library.names() if it != "bb_ask_new"][-2:], ["bb_discard", "bb_close"])

    def test_one_post_at_a_time(self):
        with railcitron.Run(b"", library=Library()) as run:
            with run.post():
                self.assertRaises(railcitron.Misuse, run.post().__enter__)
            with run.post():
                pass

    def test_no_move_in_a_block(self):
        library = Library()
        with railcitron.Run(b"", library=library) as run:
            with run.post() as asks:
                for move in (run.turn, lambda: run.advance(1), run.finish):
                    self.assertRaises(railcitron.Misuse, move)
                asks.say("kept")
        self.assertEqual(library.names()[-3:], ["bb_ask_say", "bb_post", "bb_close"])
        self.assertFalse({"bb_turn", "bb_advance", "bb_finish"} & {*library.names()})

    def test_a_run_that_can_not_be_posted_to(self):
        for given, move, fault in (
            ({"due": [(7, "weigh")]}, None, railcitron.Due),
            ({"bb_open": [4]}, None, railcitron.Full),
            ({"bb_turn": [4]}, "turn", railcitron.Full),
            ({"bb_turn": [5]}, "turn", railcitron.OutOfMemory),
            ({}, "finish", railcitron.Misuse),
            ({}, "close", railcitron.Misuse),
        ):
            library = Library(**given)
            with railcitron.Run(b"", library=library) as run:
                if move == "turn":
                    self.assertRaises(fault, run.turn)
                elif move:
                    getattr(run, move)()
                self.assertRaises(fault, run.post)
            self.assertFalse({"bb_discard", "bb_post"} & {*library.names()}, given)

    def test_asks_that_are_not_taken(self):
        library = Library(bb_post=[9, 3])
        with railcitron.Run(b"", library=library) as run:
            with self.assertRaises(railcitron.Due), run.post() as asks:
                asks.say("")
                library.due.append((7, "weigh"))
            self.assertEqual(library.names()[-2:], ["bb_post", "bb_discard"])
            self.assertEqual(repr(run), "<railcitron.Run: at rest>")
            library.due.clear()
            with run.post():
                pass

    def test_what_became_of_a_run_meanwhile(self):
        library = Library()
        with railcitron.Run(b"", library=library) as run:
            posting = run.post()
            library.due.append((7, "weigh"))
            self.assertRaises(railcitron.Due, posting.__enter__)
            answering = run.answer()
            library.due.clear()
            self.assertRaises(railcitron.Misuse, answering.__enter__)
        self.assertFalse({"bb_discard", "bb_post", "bb_answer"} & {*library.names()})

    def test_numbers_that_C_can_not_take(self):
        with railcitron.Run(DATA, library=Library(classes={1: "job"})) as run, run.post() as asks:
            self.assertRaises(OverflowError, asks.set, 1, "due", 1 << 63)
            self.assertRaises(OverflowError, asks.delete, -1)
            self.assertRaises(TypeError, asks.set, 1, "due", 1.5)
        with railcitron.Run(b"", library=Library()) as run:
            self.assertRaises(OverflowError, run.advance, 1 << 32)


class Natives(unittest.TestCase):
    def run_of(self, **given):
        self.library = Library(classes={7: "job", 8: "job"}, **given)
        return railcitron.Run(DATA, natives=["price", "weigh"], library=self.library)

    def test_names(self):
        with self.run_of() as run:
            self.assertRaises(railcitron.Misuse, run.native, "prices")
        self.assertEqual(self.library.called[0], ("bb_open", DATA, len(DATA), b"price\nweigh", 11, 0))

    def test_names_that_are_none(self):
        for natives in ("weigh", b"weigh", [5], {"weigh": 5}, 5):
            self.assertRaises(TypeError, railcitron.Run, b"", natives=natives, library=Library())
        for name in ("", "weigh\nprice", "Weigh", "1"):
            self.assertRaises(ValueError, railcitron.Run, b"", natives=[name], library=Library())

    def test_functions_by_their_names(self):
        acted = []
        library = Library(due=[(7, "weigh"), (8, "price")], bb_turn=[8, 8])
        natives = {"price": None, "weigh": lambda unit, asks: acted.append(unit)}
        with railcitron.Run(DATA, natives=natives, library=library) as run:
            self.assertTrue(run.turn())
            self.assertRaises(railcitron.Due, run.turn)
        self.assertEqual((acted, library.called[0][3:5]), ([7], (b"price\nweigh", 11)))
        self.assertIsNone(natives["price"])

    def test_a_function_answers(self):
        with self.run_of(due=[(7, "weigh")], bb_turn=[8, 0], bb_answer=[3]) as run:

            @run.native("weigh")
            def weigh(unit, asks):
                asks.set(unit, "grams", 12)

            self.assertTrue(run.turn())
            self.assertIsNone(run.due)
            self.assertFalse(run.turn())
        self.assertIn(("bb_ask_int", 7, b"grams", 5, 12), self.library.called)
        self.assertEqual(self.library.names()[-4:], ["bb_ask_int", "bb_answer", "bb_turn", "bb_close"])

    def test_the_cycles_that_are_left(self):
        due = [(7, "weigh"), (8, "weigh")]
        with self.run_of(due=due, bb_made=[2, 3, 5], bb_advance=[8, 8, 0], bb_answer=[3, 3]) as run:
            run.native("weigh")(lambda unit, asks: None)
            self.assertFalse(run.advance(4))
        called = [it for it in self.library.called if it[0] == "bb_advance"]
        self.assertEqual(called, [("bb_advance", 4), ("bb_advance", 3), ("bb_advance", 1)])

    def test_cycles_are_made_in_slices(self):
        for statuses, made, wanted in (
            ([3, 3, 3], [5, 1029, 2053], [1024, 1024, 452]),
            ([3, 0], [5, 1029], [1024, 1024]),
            ([3, 8, 3, 3], [5, 1029, 1100, 2124], [1024, 1024, 1024, 381]),
            ([8, 3], [0, 2500], [1024, 0]),
        ):
            due = [(7, "weigh")] if 8 in statuses else []
            with self.run_of(due=due, bb_made=made, bb_advance=statuses, bb_answer=[3]) as run:
                run.native("weigh")(lambda unit, asks: None)
                self.assertEqual(run.advance(2500), statuses[-1] == 3)
            self.assertEqual([it[1] for it in self.library.called if it[0] == "bb_advance"], wanted)

    def test_none_is_given(self):
        with self.run_of(due=[(7, "price")], bb_turn=[8], bb_finish=[8, 0], bb_answer=[3]) as run:
            with self.assertRaises(railcitron.Due) as caught:
                run.turn()
            self.assertEqual((caught.exception.unit, caught.exception.name), (7, "price"))
            self.assertRaises(railcitron.Due, run.finish)
            with run.answer():
                pass
            self.assertRaises(railcitron.Misuse, run.answer)
            self.assertEqual(run.finish(), "")

    def test_a_function_that_raises(self):
        with self.run_of(due=[(7, "price")], bb_turn=[8]) as run:

            @run.native("price")
            def price(unit, asks):
                asks.delete(unit)
                raise ZeroDivisionError

            self.assertRaises(ZeroDivisionError, run.turn)
            self.assertEqual(run.due, (7, "price"))
        self.assertEqual(self.library.names()[-2:], ["bb_discard", "bb_close"])

    def test_a_function_that_moves(self):
        with self.run_of(due=[(7, "price")], bb_turn=[8]) as run:
            run.native("price")(lambda unit, asks: run.turn())
            self.assertRaises(railcitron.Misuse, run.turn)
            self.assertEqual((run.due, self.library.names().count("bb_turn")), ((7, "price"), 1))


class Values(unittest.TestCase):
    def test_what_is_pickled(self):
        faults = [railcitron.Due(7, "weigh"), railcitron.Refused("refused schema 1", "it is not JSON"), railcitron.Refused(None, "why"), railcitron.Full("full")]
        for fault in faults:
            for it in (pickle.loads(pickle.dumps(fault)), copy.copy(fault)):
                self.assertEqual((type(it), str(it), it.__dict__), (type(fault), str(fault), fault.__dict__))
        for value in (Label("hue", "red"), Interval(1, 2), railcitron.RefusedAsk(1, 2)):
            it = pickle.loads(pickle.dumps(value))
            self.assertEqual((it, type(it), repr(it)), (value, type(value), repr(value)))

    def test_labels(self):
        label = Label("hue", "red")
        self.assertEqual((label, hash(label), repr(label)), ("red", hash("red"), "Label('hue', 'red')"))
        match label:
            case Label(names, name):
                self.assertEqual((names, name, type(name)), ("hue", "red", str))


class Notes(unittest.TestCase):
    LINES = {
        "create 12 job": notes.Created(12, "job"),
        "set 1.name": notes.Set(1, "name"),
        "link 1.next 2": notes.Linked(1, "next", 2),
        "unlink 1.next 2": notes.Unlinked(1, "next", 2),
        "enter 1 tray": notes.Entered(1, "tray"),
        "leave 1 tray": notes.Left(1, "tray"),
        "delete 1": notes.Deleted(1),
        "trigger 3 begin unit 1 rating -5": notes.Triggered(3, "begin", 1, -5),
        "decline begin unit 1": notes.Declined("begin", 1),
        "obviate 3": notes.Obviated(3),
        "retrigger 3 -5": notes.Retriggered(3, -5),
        "cycle 7 act 3 begin unit 1 rating 10": notes.Chosen(7, 3, "begin", 1, 10),
        "invalid 3": notes.Invalid(3),
        "say": notes.Said(()),
        'say -7 true [-1,2] #4 blue "a \\"b\\" \\\\ \\n #5"': notes.Said((-7, True, Interval(-1, 2), notes.Unit(4), notes.Name("blue"), 'a "b" \\ \n #5')),
        "end steps 5 found 2 budget 9": notes.Executed(5, 2, 9),
        "end native 2": notes.Answered(2),
        "refused ask 2 6": notes.AskRefused(2, 6),
        "post": notes.Posting(),
        "end post 2": notes.Posted(2),
        "quiescence": notes.Quiescence(),
        "finish limit": notes.Finished("limit"),
        "closed tally -1": notes.Closed("tally", -1),
    }

    def test_lines(self):
        for line, note in self.LINES.items():
            self.assertEqual((notes.parse(line), str(note)), (note, line))
        kinds = {type(it) for it in self.LINES.values()}
        self.assertEqual(kinds, {*notes.Note.__subclasses__()} - {notes.Other})

    def test_values(self):
        values = notes.parse('say 1 true blue "blue" #1').values
        self.assertEqual([type(it) for it in values], [int, bool, notes.Name, str, notes.Unit])

    def test_lines_of_no_trace(self):
        lines = ["", "begin", "create 1", "create 1 job ", "create job 1", "post 1", "say  1", 'say "a', 'say "a"b', "say A", "says 1", "end", "set 1name"]
        for line in lines:
            self.assertEqual((notes.parse(line), str(notes.parse(line))), (notes.Other(line), line))

    def test_traces_of_examples(self):
        traces = sorted((HOME.parent.parent / "examples").glob("*.trace"))
        self.assertGreater(len(traces), 5)
        for line in (line for it in traces for line in it.read_text().split("\n")[:-1]):
            self.assertEqual(str(notes.parse(line)), line)
            self.assertNotIsInstance(notes.parse(line), notes.Other)

    def test_a_line_that_is_cut(self):
        with railcitron.Run(b"", library=Library([b"post\nset 1.na", b"", b"me\nend ", b""])) as run:
            self.assertEqual([*run.notes()], [notes.Posting()])
            self.assertEqual([*run.notes()], [notes.Set(1, "name")])
            self.assertEqual([*run.notes()], [])
            self.assertEqual(run.read(), "end ")


class Schemas(unittest.TestCase):
    def test_sections(self):
        for data, section in (
            (b"%schema\n{}\n%units\n{}\n", b"{}\n"),
            (b"%schema\r\n{\n}\r\n%sources\r\n", b"{\n}\r\n"),
            (b"%schema\n{}", b"{}"),
            (b'%schema\n{"a":"%units "}\n%unitsx\n%bundle', b'{"a":"%units "}\n%unitsx\n'),
        ):
            self.assertEqual(_schema.section_of(data), section)

    def test_classes(self):
        schema = _schema.Schema(_schema.section_of(DATA))
        self.assertEqual((schema.tops(), [*schema.classes]), (["focus", "task"], ["focus", "task", "job"]))
        self.assertEqual([*schema.classes["job"].slots], ["due", "late", "name", "state", "span", "grams"])
        self.assertEqual(schema.classes["job"].links, {"next", "last"})
        self.assertEqual([*schema.classes["focus"].slots], ["source", "area", "weight", "active"])


class Calls(unittest.TestCase):
    def test_handle(self):
        self.assertEqual((_library.Handle().at, _library.Handle().is_open), (None, 0))

    def test_a_version(self):
        def library(version, *lacks):
            return SimpleNamespace(**{name: lambda: version for name in _library.CALLS if name not in lacks})

        self.assertEqual(_library.with_types(library(4), "libbb.so").bb_post.argtypes, [ctypes.POINTER(_library.Handle)])
        for it, told in (
            (library(3, "bb_history"), "libbb.so has version 3 of the calls, and this package needs version 4"),
            (library(5), "libbb.so has version 5 of the calls, and this package needs version 4"),
            (library(4, "bb_creates"), "libbb.so has version 4 of the calls, as this package, but not bb_creates"),
            (library(4, "bb_version"), "libbb.so has calls of another kind, but not bb_version"),
        ):
            with self.assertRaises(OSError) as caught:
                _library.with_types(it, "libbb.so")
            self.assertIn(told, str(caught.exception))

    def test_a_library_that_is_missing(self):
        with tempfile.TemporaryDirectory() as room:
            with self.assertRaisesRegex(FileNotFoundError, f"{room}/libbb.so.*RAILCITRON_LIBRARY"):
                railcitron.load(Path(room, "libbb.so"))
            Path(room, "libbb.so").write_text("no library")
            with self.assertRaisesRegex(OSError, "can't be loaded.*RAILCITRON_LIBRARY"):
                railcitron.load(Path(room, "libbb.so"))

    def test_one_that_was_installed_from_its_source(self):
        words = [sys.executable, "-B", "-c", "import railcitron; railcitron.Run('')"]
        env = {name: it for name, it in os.environ.items() if name not in ("RAILCITRON_LIBRARY", "PYTHONPATH")}
        with tempfile.TemporaryDirectory() as room:
            shutil.copytree(HOME / "railcitron", Path(room, "railcitron"), ignore=shutil.ignore_patterns("*.so", "__pycache__"))
            ran = subprocess.run(words, cwd=room, env=env, capture_output=True, text=True)
        self.assertRegex(ran.stderr, "FileNotFoundError: .*installed from its source.*wheel of a release.*RAILCITRON_LIBRARY")

    def test_types_are_told(self):
        self.assertTrue(Path(railcitron.__file__).with_name("py.typed").exists())
        self.assertRegex(railcitron.__version__, r"^\d+\.\d+\.\d+$")
        self.assertEqual(ctypes.sizeof(_library.Handle), 16)


if __name__ == "__main__":
    unittest.main()
