"""Judges what the program makes of an input: what no run may do, as docs/users/formats has it."""

import re
import subprocess
import tempfile
from pathlib import Path

from forms import FORMS
from given import NoInput, given_of
from reader import NoTrace, read

LIMIT = 300
SECONDS = 60
STATUSES = {0: b"finish quiescence", 3: b"finish limit", 4: b"finish full"}
REFUSED = 2
MEMORY = 5
NAME = r"[a-z][a-z0-9_]{0,30}"
PART = r"(?:require|obviate|retrigger|revalidate|do)"
PLACE = r"[1-9]\d*:[1-9]\d*"
REFUSAL = re.compile(
    rf"refused (?:input (?:read|limit|utf8|sections)|(?:schema|units) [1-8]|lang {PLACE} [1-5]|compile {NAME} {PLACE} [1-8]"
    rf"|bundle [1-9]\d* (?:[12]|code [1-7])|verify {NAME} {PART} \d+ (?:[1-9]|1[0-3])|rule {NAME} [125678])"
)
CHECKED = re.compile(rb"([a-z][a-z0-9_]*) (require|obviate|retrigger|revalidate|do) ops \d+ budget (\d+) (\d+)")
NATIVE = re.compile(rb"(?:tally|reaper) native")
CYCLE = re.compile(rb"cycle \d+ act \d+ ([a-z][a-z0-9_]*) unit \d+ rating -?\d+")
END = re.compile(rb"end steps (\d+) found (\d+) budget (\d+)")
HEADER = re.compile(rb"(?m)^%(schema|units|sources|bundle)\r?(?:\n|\Z)")


class Wrong(Exception):
    """What was done that may not be, under the name of the rule."""

    def __init__(self, rule, why):
        super().__init__(f"{rule}: {why}")
        self.rule = rule


class Answer:
    """What the program did: its status, and what it wrote."""

    def __init__(self, status, out, error):
        self.status, self.out, self.error = status, out, error
        self.lines = out.split(b"\n")[:-1]

    def is_refused(self):
        return self.status == REFUSED


class Judge:
    def __init__(self, program):
        self.program = program

    def answer(self, text, *words):
        """The answer to an input. It may not take long, nor end by a signal."""
        try:
            ran = subprocess.run([self.program, *words], input=text, capture_output=True, timeout=SECONDS)
        except subprocess.TimeoutExpired:
            raise Wrong("lasts", f"no answer in {SECONDS} seconds to {words}") from None
        if ran.returncode < 0:
            raise Wrong("crashes", f"signal {-ran.returncode} at {words}")
        return Answer(ran.returncode, ran.stdout, ran.stderr)

    def judge(self, text):
        """Raises what is wrong with the answers to an input, and tells the status of its run."""
        run = self.answer(text, "run", f"--limit={LIMIT}")
        lines_are_due(run)
        if self.answer(text, "run", f"--limit={LIMIT}").out != run.out:
            raise Wrong("again", "a second run differs")
        check = self.answer(text, "check")
        agree(run, check)
        check_is_due(check)
        if not run.is_refused():
            ends_keep_budgets(run, check)
            self.is_seen(text, run)
            self.means_its_bundle(text, run)
        return run.status

    def is_seen(self, text, run):
        """`tools/see` takes the trace, with its input."""
        with tempfile.NamedTemporaryFile(suffix=".bb") as file:
            file.write(text)
            file.flush()
            try:
                read(run.out.splitlines(keepends=True), given_of(Path(file.name)), 0)
            except (NoTrace, NoInput) as refused:
                raise Wrong("seen", str(refused)) from None

    def as_bundle(self, text):
        """An input with the bundle of its texts in place of these, if it is not refused."""
        compiled = self.answer(text, "compile")
        if compiled.status != 0:
            return text
        sections = sections_of(text)
        bundle = compiled.out + b"\n" + sections.get("bundle", b"")
        parts = [(it, sections[it]) for it in ("schema", "units") if it in sections] + [("bundle", bundle)]
        return b"".join(b"%%%s\n%s\n" % (name.encode(), part) for name, part in parts)

    def means_its_bundle(self, text, run):
        """The bundle of the texts, before that of the input, runs as the texts do."""
        if self.answer(text, "compile").status != 0:
            raise Wrong("compiles", "a refusal where a run is not refused")
        if self.answer(self.as_bundle(text), "run", f"--limit={LIMIT}").out != run.out:
            raise Wrong("compiled", "the compiled bundle runs otherwise than its text")


def sections_of(text):
    """The sections of an input that is not refused, by name."""
    pieces = HEADER.split(text)[1:]
    return {name.decode(): body for name, body in zip(pieces[::2], pieces[1::2])}


def lines_are_due(run):
    """The lines are those of a trace, or one line of a refusal, and the status is theirs."""
    if run.out and not run.out.endswith(b"\n"):
        raise Wrong("lines", "the last line has no end")
    if run.is_refused():
        if len(run.lines) != 1 or not REFUSAL.fullmatch(run.lines[0].decode(errors="replace")):
            raise Wrong("lines", f"status {REFUSED} with {run.lines[:2]}")
        if not run.error:
            raise Wrong("lines", "a refusal without a sentence")
        return
    if run.status not in STATUSES:
        raise Wrong("status", f"status {run.status}")
    for line in run.lines:
        text = line.decode()
        form = FORMS.get(text.split(" ")[0])
        if not form or not form.fullmatch(text):
            raise Wrong("lines", f"no line of a trace: {text[:200]}")
    if STATUSES[run.status] not in run.lines:
        raise Wrong("status", f"status {run.status} without {STATUSES[run.status].decode()}")


def agree(run, check):
    """A check refuses what a run refuses, in the same line, but for first units; and nothing else."""
    if run.is_refused():
        if run.lines[0].startswith(b"refused units"):
            return
        if not check.is_refused() or check.out != run.out:
            raise Wrong("agree", f"a run gives {run.out[:100]!r}, a check {check.out[:100]!r}")
    elif check.status != 0:
        raise Wrong("agree", f"a check of what runs has status {check.status}: {check.out[:100]!r}")


def check_is_due(check):
    """The lines of a check are one for each part, and one that counts the sources."""
    if check.status != 0:
        return
    *parts, last = check.lines
    sources = {it.split(b" ")[0] for it in parts}
    if not all(CHECKED.fullmatch(it) or NATIVE.fullmatch(it) for it in parts) or not re.fullmatch(rb"checked \d+", last):
        raise Wrong("check", f"no lines of a check: {check.lines[-3:]}")
    if int(last.split(b" ")[1]) < len(sources):
        raise Wrong("check", f"{last.decode()} of {len(sources)}")


def ends_keep_budgets(run, check):
    """Each end is within its budget, which is that of the check where nothing or one unit was found."""
    told = {m[1]: {0: int(m[3]), 1: int(m[4])} for m in map(CHECKED.fullmatch, check.lines) if m and m[2] == b"do"}
    source = b""
    for line in run.lines:
        if chosen := CYCLE.fullmatch(line):
            source = chosen[1]
        elif ended := END.fullmatch(line):
            steps, found, budget = map(int, ended.groups())
            if steps > budget or told[source].get(found, budget) != budget:
                raise Wrong("budget", f"{line.decode()} of {source.decode()}, checked {told[source]}")
