"""Some cases for want of a built program: the kit compiles `bb` and `bb_cases` with checks, unproved, and runs them.

The kit needs seconds for each input, so it runs one or two of each file; of `bb_cases` it runs the files with small cases.
`./test` calls this.
"""

import re
import subprocess
import tempfile
from pathlib import Path

from faults import Fault, LeftOut
from programs import Programs, Served
from running import Suite

# How many inputs are run, and how long they may be: the kit takes no large output.
MOST, LONGEST = 40, 20_000
# Files whose cases take bb_cases a tenth of a second at most, and those of inputs whose texts are large. With its checks the
# program takes a hundred times as long.
FILES = "shared runner moves moves_refused natives schemas codes examples executions fused loops owning".split()
FILES += "spaces_and_queries stuck bytes documents limits_of_documents".split()
LARGE = re.compile(r"limits|outputs|said")
SECONDS = "600"
OUTPUT = re.compile(rb"^== (c\d{3})\n", re.M)
ENDED = re.compile(rb"case=(c\d{3}) (?:run=ended status=(\d+))?")
COUNTS = re.compile(r"^(\d+) hold\n(\d+) do not hold\n(\d+) wrong, as marked\n\Z", re.M)


class Kit(Programs):
    """`bb` by the kit: it is asked for all inputs first, runs some of them, and then answers for these."""

    def __init__(self):
        super().__init__(None, None)
        self.asked, self.answers = [], {}

    def serve(self, words, given, room=None, step=None):
        asked = (tuple(words), given)
        if room is None and step is None and asked in self.answers:
            return self.answers[asked]
        if room is None and step is None and len(given) <= LONGEST:
            self.asked.append(asked)
        raise LeftOut("the kit runs a few inputs alone")

    def choose(self, run_file, files):
        """The inputs that are to be run: one from the middle of each file, and then others, until there are enough."""
        middle, others = [], []
        for file in files:
            self.asked = []
            if not LARGE.search(file.name):
                run_file(file)
            middle += self.asked[len(self.asked) // 2 :][:1]
            others += self.asked[len(self.asked) // 4 :][:1]
        return [*dict.fromkeys(middle + others)][:MOST]

    def run(self, crates, chosen):
        """Has the kit run inputs."""
        with tempfile.TemporaryDirectory() as room:
            for at, (words, given) in enumerate(chosen):
                Path(room, f"c{at:03}").write_bytes(given)
                if words:
                    Path(room, f"c{at:03}.args").write_text("".join(it + "\n" for it in words))
            ran = tried(["--seconds", "60", "--cases", room], crates / "bb")
        names = {f"c{at:03}".encode(): it for at, it in enumerate(chosen)}
        self.answers = {names[name]: served for name, served in served_by(ran)}
        if len(self.answers) < len(chosen):
            raise Fault(f"the kit ran {len(self.answers)} of {len(chosen)} inputs: {last_lines(ran)}")


def tried(words, folder):
    """What `rt try` says with these words in the folder of a crate."""
    return subprocess.run(["rt", "try", *words], cwd=folder, stdin=subprocess.DEVNULL, capture_output=True)


def served_by(ran):
    """For each input that the kit ran its name and what came of it; a status below nought if that was no end."""
    _, *pieces = OUTPUT.split(ran.stdout)
    outputs = dict(zip(pieces[::2], pieces[1::2]))
    said = b""
    for line in ran.stderr.splitlines(keepends=True):
        if ended := ENDED.match(line):
            status = int(ended[2]) if ended[2] else -1
            yield ended[1], Served(status, outputs.get(ended[1], b""), said)
            said = b""
        else:
            said += line


def last_lines(ran):
    return " / ".join(ran.stderr.decode(errors="replace").splitlines()[-3:])


def try_inputs(crates):
    """What there is to say of some inputs that the kit runs, and how many passed and failed."""
    kit = Kit()
    suite = Suite(kit)
    data = crates / "bb_cases/data"
    suite.share(data / "shared.case")
    files = sorted(it for it in data.glob("*.case") if it.name != "shared.case")
    chosen = kit.choose(lambda file: suite.run_file(file, 0, 1), files)
    try:
        kit.run(crates, chosen)
    except Fault as fault:
        return f"bb by the kit: {fault}\n", 0, 1
    reports = [suite.run_file(file, 0, 1) for file in files]
    lines = "".join(f"{line}\n" for report in reports for _, _, line in report.lines)
    return lines, sum(it.passed for it in reports), sum(it.failed for it in reports)


def try_bb_cases(crates):
    """What bb_cases says of some files, by the kit, and how many cases passed and failed."""
    ran = tried(["--seconds", SECONDS, "--", *(f"data/{it}.case" for it in FILES)], crates / "bb_cases")
    told = ran.stdout.decode(errors="replace")
    counts = COUNTS.search(told)
    if not counts:
        return f"bb_cases by the kit: {last_lines(ran)}\n", 0, 1
    held, failed, wrong = map(int, counts.groups())
    return told[: counts.start()] if failed else "", held + wrong, failed
