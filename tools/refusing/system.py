"""What the system does to the built program: outputs that are not there, readers that go, inputs that can't be read or have
no end."""

import os
import subprocess
import tempfile

from wrong import Wrong

SECONDS = 60
REFUSED, FAILED = 2, 6
UNREAD = b"refused input read\n"
TOO_LONG = b"refused input limit\n"
LONGEST = 1 << 24
BLOCK = 1 << 16
QUIET = b"quiescence\nfinish quiescence\nclosed tally 0\nclosed reaper 0\n"
# A source that is triggered again and again, whose trace no pipe holds.
RESTLESS = b"%schema\n{}\n%sources\nsource idle on focus { when quiescence; rate 1; do { } }\n"


def run(program, row, **how):
    how = {"stdin": subprocess.PIPE, "stdout": subprocess.PIPE, "stderr": subprocess.PIPE, **how}
    with subprocess.Popen([program, *row.words], **how) as ran:
        out = ran.communicate(row.input if how["stdin"] == subprocess.PIPE else None, timeout=SECONDS)[0]
        return ran.returncode, out


def closing(file):
    """What the program does before it begins: it has no such file."""
    return lambda: os.close(file)


def due(what, given, wanted):
    if given != wanted:
        raise Wrong(f"{what}: {given}, and {wanted} is due")


def try_errors(program, rows):
    """Standard error takes nothing, or there is none, and no standard output either: `.ci/program` has full ones."""
    for row in rows:
        with open("/dev/full", "wb") as full:
            due(f"{row.name}, no room to say why", run(program, row, stderr=full), (row.status, row.whole))
        due(f"{row.name}, no standard error", run(program, row, preexec_fn=closing(2)), (row.status, row.whole))
        due(f"{row.name}, no output", run(program, row, stdout=None, preexec_fn=closing(1)), (FAILED, None))


def try_leaving(program):
    """A reader takes the first bytes of a long trace, and goes."""
    how = {"stdin": subprocess.PIPE, "stdout": subprocess.PIPE, "stderr": subprocess.DEVNULL}
    with subprocess.Popen([program], **how) as ran:
        ran.stdin.write(RESTLESS)
        ran.stdin.close()
        due("the first bytes of a trace", ran.stdout.read(11), b"quiescence\n")
        ran.stdout.close()
        due("a reader that goes", ran.wait(SECONDS), FAILED)


def try_unreadable(program, row):
    """Standard input is a folder, or is not there."""
    folder = os.open("/", os.O_RDONLY)
    due("a folder as input", run(program, row, stdin=folder), (REFUSED, UNREAD))
    os.close(folder)
    due("no input", run(program, row, stdin=None, preexec_fn=closing(0)), (REFUSED, UNREAD))


def answer_to_endless(program, block):
    """The answer to an input without an end, and whether it came before twice as much as may be was given."""
    with subprocess.Popen([program], stdin=subprocess.PIPE, stdout=subprocess.PIPE, stderr=subprocess.DEVNULL) as ran:
        given = 0
        try:
            while given < 2 * LONGEST:
                given += os.write(ran.stdin.fileno(), block)
        except BrokenPipeError:
            pass
        ran.stdin.close()
        out = ran.stdout.read()
        return ran.wait(SECONDS), out, given < 2 * LONGEST


def answer_to_file(program, text):
    with tempfile.TemporaryFile() as file:
        file.write(text)
        file.seek(0)
        ran = subprocess.run([program], stdin=file, capture_output=True, timeout=SECONDS)
        return ran.returncode, ran.stdout


def try_long(program):
    """Inputs of one byte too many, or without an end, of text or not; and the longest that is none of them."""
    for block in b" " * BLOCK, b"\xff" * BLOCK, "é".encode() * (BLOCK // 2), b"%schema\n" * (BLOCK // 8):
        due(f"{block[:2]} without an end", answer_to_endless(program, block), (REFUSED, TOO_LONG, True))
    with open("/dev/zero", "rb") as zeros:
        ran = subprocess.run([program], stdin=zeros, capture_output=True, timeout=SECONDS)
        due("/dev/zero", (ran.returncode, ran.stdout), (REFUSED, TOO_LONG))
    head = b"%schema\n{}"
    for fill in b" ", b"\xff":
        text = head + fill * (LONGEST + 1 - len(head))
        due(f"{fill} up to one byte too many", answer_to_file(program, text), (REFUSED, TOO_LONG))
    due("the longest input", answer_to_file(program, head + b" " * (LONGEST - len(head))), (0, QUIET))
    due("the longest that is no text", answer_to_file(program, b"\xff" * LONGEST), (REFUSED, b"refused input utf8\n"))


def try_program(program, rows):
    try_errors(program, rows)
    try_leaving(program)
    try_unreadable(program, rows[0])
    try_long(program)
