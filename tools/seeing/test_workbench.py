"""Tests of what `tools/workbench` serves, over a script that stands in for the program. `tools/test_see` runs them."""

import json
import os
import re
import sys
import tempfile
import time
from contextlib import contextmanager
from pathlib import Path

import workplace
from faults import Fault, faults_of
from test_follow import served, told
from trying import TOOLS, tool
from workplace import Workplace

REFUSALS = TOOLS.parent / "docs/users/REFUSALS.md"
TRACE = ["create 1 note", "finish limit"]

# Reads an input as the program does, and tells on standard error what the text after `%tell` is; `%hang` never ends.
STAND = r"""
import sys, time
text = sys.stdin.buffer.read().decode()
for part in text.split("%tell ")[1:]:
    sys.stderr.write(part)
if "%refuse" in text:
    print("refused schema 2")
    sys.exit(2)
if "check" in sys.argv:
    time.sleep(60 if "%slow" in text else 0)
    print("checked", len(text))
    sys.exit(0)
print("create 1 note", flush=True)
while "%hang" in text:
    time.sleep(0.05)
while "%flood" in text:
    print("set 1.score")
print("finish limit" if sys.argv[1:] == ["--limit", "7"] else "quiescence\nfinish quiescence", flush=True)
sys.exit(3)
"""

# What the program says, and what it means.
TOLD = {
    "a line and a column": (
        'input:7:12: error[compile 1]: "hello" is no name here; in scope: it\n'
        "  | source hail, line 4 of %sources\n  |   do { say hello; }\n  |            ^\n",
        [("error", 7, 12, "compile 1", 3)],
    ),
    "a line": ("input:23: error[bundle 1]: it is no line\n", [("error", 23, 0, "bundle 1", 0)]),
    "no place": (
        'input: error[schema 5]: a name is used\n  | class "line 9 of the input": column 3\n',
        [("error", 0, 0, "schema 5", 1)],
    ),
    "many": (
        "input:7:1: error[lang 2]: one\ninput:9:2: error[lang 2]: two\n  | a\ninput:3:4: warning[sets]: three\n"
        "input:5:6: note[search]: four\n",
        [("error", 7, 1, "lang 2", 0), ("error", 9, 2, "lang 2", 1), ("warning", 3, 4, "sets", 0)]
        + [("note", 5, 6, "search", 0)],
    ),
    "nothing": ("", []),
    "what is no message": ("Segmentation fault\n  | x\n", []),
}


@contextmanager
def at_work(file=None):
    """A workbench of a file, and what posts to it and gets from it."""
    with tempfile.TemporaryDirectory() as folder:
        script = Path(folder, "bb.py")
        script.write_text(STAND)
        work = Workplace("<p>", [sys.executable, str(script)], file and Path(folder, file))
        with served(work) as (server, ask):

            def post(where, **asked):
                status, body, _ = ask(f"/{server.token}/{where}", "POST", json.dumps(asked))
                return json.loads(body) if status == 200 else (status, body.decode())

            def get(path):
                return ask(f"/{server.token}/{path}")

            try:
                yield Path(folder), post, get
            finally:
                work.close()


def until(held, seconds=60):
    """What holds sooner or later."""
    last = time.monotonic() + seconds
    while time.monotonic() < last:
        if found := held():
            return found
        time.sleep(0.02)
    raise AssertionError("it does not come to that")


def ended(get):
    """How a run has ended."""
    return until(lambda: (state := json.loads(get("state")[1]))["status"] is not None and state)


def read_to_end(get):
    """What the page of the first run is told, once that has ended and its trace is read."""
    return until(lambda: (found := told(get("runs/1/run?known=")[1])) and not found[0]["isOn"] and found)


class WorkbenchTests:
    """Each method is a test, which fails by an `AssertionError`."""

    def messages_are_read(self):
        for name, (text, expected) in TOLD.items():
            its = [(it.kind, it.line, it.column, it.number, len(it.notes)) for it in faults_of(text)]
            assert its == expected, f"{name}: {its}"

    def the_message_of_the_page_of_refusals_is_read(self):
        block = re.search(r"(?s)```\nrefused compile hail 4:8 1\n(.*?)```", REFUSALS.read_text())[1]
        [fault] = faults_of(block)
        assert isinstance(fault, Fault) and (fault.kind, fault.line) == ("error", 7)
        assert '"hello" is no name here' in fault.text and fault.column in (8, 12)

    def a_check_tells_faults_and_costs(self):
        with at_work() as (_, post, _):
            found = post("check", text="%schema")
            assert (found["state"], found["faults"], found["costs"]) == ("accepted", [], "checked 7\n")
            found = post("check", text="%refuse %tell input:2: error[schema 1]: it is not JSON\n  | line 1 of %schema\n")
            assert (found["state"], found["costs"], found["faults"][0]["line"]) == ("refused", "", 2)

    def a_check_that_takes_too_long_is_killed(self):
        limit, workplace.CHECK_SECONDS = workplace.CHECK_SECONDS, 0.2
        try:
            with at_work() as (_, post, _):
                began = time.monotonic()
                assert post("check", text="%slow")["state"] == "slow"
                assert time.monotonic() - began < 50
        finally:
            workplace.CHECK_SECONDS = limit

    def a_run_is_followed_to_its_end(self):
        with at_work() as (_, post, get):
            assert post("run", text="", cycles=7, seconds=10) == {"page": "runs/1/"}
            state = ended(get)
            assert (state["status"], state["why"], state["refused"], state["faults"]) == (3, "", "", [])
            assert get("runs/1/")[1].startswith(b"<!doctype html>")
            assert read_to_end(get)[1] == TRACE
            assert post("run", text="", cycles=8, seconds=10) == {"page": "runs/2/"}
            ended(get)
            until(lambda: told(get("runs/2/run?known=")[1])[1][-1:] == ["finish quiescence"])
            assert get("runs/1/")[0] == get("runs/1/run?known=")[0] == get("runs/3/")[0] == 404

    def a_run_beyond_its_seconds_is_killed(self):
        with at_work() as (_, post, get):
            post("run", text="%hang", cycles=7, seconds=0.5)
            state = ended(get)
            assert state["why"] == "It ran longer than 0.5 s." and state["status"] < 0
            assert read_to_end(get)[1] in ([], TRACE[:1])

    def a_run_that_floods_is_killed(self):
        limit, workplace.TRACE_LIMIT = workplace.TRACE_LIMIT, 1 << 20
        try:
            with at_work() as (_, post, get):
                post("run", text="%flood", cycles=7, seconds=60)
                assert ended(get)["why"] == "Its trace had more than 1 MiB."
        finally:
            workplace.TRACE_LIMIT = limit

    def a_run_can_be_stopped_and_another_ends_it(self):
        with at_work() as (_, post, get):
            post("run", text="%hang", cycles=7, seconds=60)
            assert json.loads(get("state")[1])["status"] is None
            until(lambda: told(get("runs/1/run?known=")[1])[1] == TRACE[:1])
            assert told(get("runs/1/run?known=")[1])[0]["isOn"]
            assert post("stop") == {} and ended(get)["why"] == "It was stopped."
            assert read_to_end(get)[1] == TRACE[:1]
            post("run", text="%hang", cycles=7, seconds=60)
            post("run", text="", cycles=7, seconds=60)
            assert ended(get)["why"] == ""

    def a_refused_input_has_no_run(self):
        with at_work() as (_, post, get):
            post("run", text="%refuse %tell input: error[schema 2]: no\n", cycles=7, seconds=10)
            state = ended(get)
            assert (state["status"], state["refused"]) == (2, "refused schema 2")
            assert state["faults"][0]["text"] == "no"

    def what_is_no_bound_is_refused(self):
        with at_work() as (_, post, get):
            for cycles, seconds in ((-1, 1), (1 << 32, 1), ("7", 1), (7, 0), (7, 601), (7, "1"), (True, 1), (7, None)):
                assert post("run", text="", cycles=cycles, seconds=seconds)[0] == 400, (cycles, seconds)
            assert post("run", text=1, cycles=7, seconds=1)[0] == post("check")[0] == 400
            assert get("state")[1] == b"{}"

    # Files

    def a_file_is_opened_as_it_is(self):
        with at_work("a.bb") as (folder, _, get):
            file = json.loads(get("file")[1])
            assert file == {"path": str(folder.resolve() / "a.bb"), "text": "", "digest": ""}
            Path(folder, "a.bb").write_bytes("%schema\r\n\u00e9".encode())
            assert json.loads(get("file")[1])["text"] == "%schema\r\n\u00e9"
            Path(folder, "a.bb").write_bytes(b"\xff")
            assert get("file")[0] == 400

    def a_file_is_written_when_it_is_saved_and_else_never(self):
        with at_work("a.bb") as (folder, post, get):
            file = Path(folder, "a.bb")
            file.write_text("one")
            file.chmod(0o640)
            known = json.loads(get("file")[1])["digest"]
            before = file.stat()
            post("check", text="two")
            post("run", text="two", cycles=7, seconds=10)
            ended(get)
            assert file.read_text() == "one" and file.stat().st_mtime_ns == before.st_mtime_ns
            saved = post("save", path=str(file), text="two", known=known)
            assert saved["path"] == str(file.resolve()) and file.read_text() == "two"
            assert file.stat().st_mode == before.st_mode
            assert sorted(it.name for it in folder.iterdir()) == ["a.bb", "bb.py"]

    def a_file_with_another_text_is_kept_until_the_user_is_sure(self):
        with at_work("a.bb") as (folder, post, get):
            file = Path(folder, "a.bb")
            file.write_text("one")
            known = json.loads(get("file")[1])["digest"]
            file.write_text("changed elsewhere")
            asked = {"path": str(file), "text": "two", "known": known}
            assert post("save", **asked) == {"path": str(file.resolve()), "isOther": True}
            assert file.read_text() == "changed elsewhere"
            assert "digest" in post("save", **asked, isSure=True) and file.read_text() == "two"

    def a_link_is_written_through(self):
        with at_work() as (folder, post, _):
            Path(folder, "a.bb").write_text("one")
            Path(folder, "link.bb").symlink_to("a.bb")
            post("save", path=str(folder / "link.bb"), text="two", known="", isSure=True)
            assert Path(folder, "link.bb").is_symlink() and Path(folder, "a.bb").read_text() == "two"

    def what_can_not_be_saved_is_told(self):
        with at_work() as (folder, post, _):
            for path in ("", "a\0b", None, str(folder)):
                assert post("save", path=path, text="")[0] == 400, path
            status, why = post("save", path=str(folder / "gone/a.bb"), text="")
            assert status == 409 and why.startswith("No such file or directory: ")
            if os.getuid():
                assert post("save", path="/a.bb", text="")[0] == 409

    def the_page_of_the_workbench_has_its_own_scripts_alone(self):
        page = tool("workbench").page()
        policy = page.split('Content-Security-Policy" content="')[1].split('"')[0]
        assert "default-src 'none'" in policy and "unsafe" not in policy and page.count("<script") == 1
        assert not re.search(r"(?:src|href)=\"(?!data:,)|@import|url\(|{{", page)
