"""Tests of checks: programs that stand in for `bb` write what the tests want, hang, fail, or are not there."""

import os
import tempfile
import time
from pathlib import Path

from client import PATIENCE, URI, Client, place, span
from inputs import GARDEN

# Reads the input, and writes what is in the files beside it.
PROGRAM = """\
#!/bin/sh
cd "$(dirname "$0")"
echo "$1" >>asked
cat >input
cat said >&2
cat output
exit "$(cat status)"
"""
SLOW = """\
#!/bin/sh
cd "$(dirname "$0")"
cat >/dev/null
sleep 600 &
echo $! >>started
wait
"""
SAID = 'input:31:12: error[compile 1]: "tasks" is no name here; in scope: task\n  | source want, line 11 of %sources\n  | x\n  |   ^\n'
FAULT = "      link here.jobs tasks;\n"
TEXT = GARDEN.replace("      link here.jobs task;\n", FAULT)


def put(path, text):
    path.write_text(text)
    path.chmod(0o755)
    return path


def stand_in(room, said="", output="checked 0\n", status=0):
    """A program that writes this, by a folder of its own."""
    for name, text in (("said", said), ("output", output), ("status", str(status))):
        (room / name).write_text(text)
    return str(put(room / "bb", PROGRAM))


def room():
    return tempfile.TemporaryDirectory(prefix="railcitron-server-")


def is_alive(number):
    """Whether a process is there, and is no zombie."""
    try:
        return Path(f"/proc/{number}/stat").read_text().rpartition(")")[2].split()[0] != "Z"
    except OSError:
        return False


def want(is_so):
    """That something comes to be so."""
    until = time.monotonic() + PATIENCE
    while not is_so():
        assert time.monotonic() < until, "it did not come to be so"
        time.sleep(0.01)


def want_ended(started):
    """That all ended which a slow program started."""
    want(lambda: not any(is_alive(int(it)) for it in started.read_text().split()))


class Checks:
    def a_fault_is_at_its_word(self):
        """The word at the place, the sentence, and the number."""
        line = TEXT[: TEXT.index(FAULT)].count("\n") + 1
        column = FAULT.index("jobs") + 1
        with room() as at:
            told = SAID.replace(":31:12:", f":{line}:{column}:")
            program = stand_in(Path(at), told, "refused compile want 11:17 1\n", 2)
            with Client(program=program) as client:
                client.open(TEXT)
                found = client.faults()
                wanted = {"range": span(TEXT, "link here.<<jobs>> tasks"), "severity": 1, "source": "bb", "code": "compile 1"}
                assert found == [{**wanted, "message": '"tasks" is no name here; in scope: task'}], found
            assert (Path(at) / "asked").read_text() == "check\n"
            assert (Path(at) / "input").read_text() == TEXT

    def columns_are_characters(self):
        """Behind two clefs a column of the program has two units more."""
        text = '%schema\n{}\n%sources\nsource s on focus { when quiescence; rate 1; do { say "𝄞𝄞", hello; } }\n'
        column = text.splitlines()[3].index("hello") + 1
        with room() as at, Client(program=stand_in(Path(at), f"input:4:{column}: error[compile 1]: x\n", "refused compile s 1:1 1\n", 2)) as client:
            client.open(text)
            start = column - 1 + 2
            assert client.faults()[0]["range"] == {"start": {"line": 3, "character": start}, "end": {"line": 3, "character": start + 5}}

    def faults_go_when_they_are_mended(self):
        with room() as at:
            program = stand_in(Path(at), SAID, "refused compile want 1:1 1\n", 2)
            with Client(options={"program": program}) as client:
                client.open(TEXT)
                assert len(client.faults()) == 1
                stand_in(Path(at))
                client.change(2, {"text": GARDEN})
                assert client.faults(2) == []
                stand_in(Path(at), "input: warning[find]: source want: x\n")
                client.tell("textDocument/didSave", textDocument={"uri": URI})
                found = client.faults(2)
                assert [(it["severity"], it["range"]) for it in found] == [(2, span(GARDEN, "source <<want>> on"))], found
                client.close()
                assert client.notice("textDocument/publishDiagnostics") == {"uri": URI, "diagnostics": []}

    def costs_are_told(self):
        """Costs are informations, and what parts cost is told by their words."""
        said = "input: note[cost]: source want, obviate: an event asks it once for each pending activation of the source\n"
        with room() as at, Client(program=stand_in(Path(at), said, "want obviate ops 4 budget 4 5\nchecked 1\n")) as client:
            client.open(GARDEN)
            found = client.faults()
            assert [(it["severity"], it["range"]) for it in found] == [(3, span(GARDEN, "<<obviate>> on"))], found
            told = client.at("hover", place(GARDEN, "obv^iate on"))["contents"]["value"]
            assert told.endswith("obviate of want: 4 ops, budget 4 if what it finds is empty, 5 if it is one unit"), told

    def a_missing_program_is_told_once(self):
        with room() as at:
            environment = {**os.environ, "PATH": at}
            for words, name in (({"program": f"{at}/none"}, f"{at}/none"), ({"environment": environment}, "bb")):
                with Client(**words) as client:
                    client.open(TEXT)
                    assert client.faults() == []
                    told = client.notice("window/showMessage")
                    assert told == {"type": 2, "message": f"{name} is not found, so faults are not shown"}, told
                    client.change(2, {"text": GARDEN})
                    assert client.faults(2) == []
                    client.quiet("window/showMessage", 0.3)
                    assert client.at("hover", place(GARDEN, "here.wa^ter +"))

    def the_program_on_the_path(self):
        """`railcitron` comes before `bb`, which others have too; an option comes before all."""
        with room() as at:
            rooms = [Path(at, it) for it in ("one", "two")]
            for number, folder in enumerate(rooms, 1):
                folder.mkdir()
                stand_in(folder, f"input: warning[find]: source want: {number}\n")
            (rooms[0] / "bb").rename(rooms[0] / "railcitron")
            environment = {**os.environ, "PATH": f"{rooms[1]}:{rooms[0]}:{os.environ['PATH']}"}
            for words, wanted in (({}, "1"), ({"options": {"program": str(rooms[1] / "bb")}}, "2"), ({"program": str(rooms[1] / "bb"), "options": {"program": "none"}}, "2")):
                with Client(environment=environment, **words) as client:
                    client.open(GARDEN)
                    assert client.faults()[0]["message"] == wanted

    def another_program_is_told_once(self):
        """A program of the same name that is not ours, and one whose memory ran out."""
        for output, status, why in (("", 1, "it ended with status 1"), ("hello\n", 0, "it ended with status 0"), ("", 5, "its memory ran out")):
            with room() as at:
                program = stand_in(Path(at), "input: error[lang 1]: x\n", output, status)
                with Client(program=program) as client:
                    client.open(GARDEN)
                    assert client.faults() == []
                    told = client.notice("window/showMessage")["message"]
                    assert told == f"{program} check tells no faults: {why}", told

    def a_program_that_can_not_be_run(self):
        with room() as at:
            program = put(Path(at, "bb"), "\0")
            with Client(program=str(program)) as client:
                client.open(GARDEN)
                assert client.faults() == []
                assert "can't be run" in client.notice("window/showMessage")["message"]

    def a_slow_program_is_ended(self):
        """What it started is ended too, and the client hears that faults are not known."""
        with room() as at:
            program = str(put(Path(at, "bb"), SLOW))
            with Client("--seconds", "0.5", program=program) as client:
                client.open(GARDEN)
                found = client.faults()
                assert [(it["severity"], it["message"]) for it in found] == [(3, "bb check was ended after 0.5 s, so faults are not known")], found
                want_ended(Path(at, "started"))

    def a_change_ends_the_check_of_what_was_before(self):
        """While it runs requests are answered; only the newest text is told of; the end of the server ends it too."""
        with room() as at:
            program = str(put(Path(at, "bb"), SLOW))
            started = Path(at, "started")
            with Client(options={"program": program, "seconds": 60}) as client:
                client.open(GARDEN)
                want(lambda: started.exists() and started.read_text().strip())
                assert client.at("hover", place(GARDEN, "here.wa^ter +"))
                stand_in(Path(at), "input: warning[find]: source want: x\n")
                client.change(2, {"text": GARDEN})
                assert len(client.faults(2)) == 1
                want_ended(started)
                put(Path(at, "bb"), SLOW)
                started.write_text("")
                client.change(3, {"text": GARDEN})
                want(lambda: started.read_text().strip())
            want_ended(started)
