"""A program whose standard output takes little: so many bytes and then no more, or so many at a time.

The first is a limit of file sizes. For the second the program is traced, and each of its writes is made shorter before the
system sees it: so the built program itself is what is tried, and nothing is linked for it as tools/refuse does.
"""

import ctypes
import os
import resource
import signal
import subprocess
import tempfile

from faults import Fault

LIBRARY = ctypes.CDLL(None, use_errno=True)
LIBRARY.ptrace.restype = ctypes.c_long
LIBRARY.ptrace.argtypes = [ctypes.c_long, ctypes.c_long, ctypes.c_void_p, ctypes.c_void_p]

# Requests of ptrace, and where x86-64 has the number of a call and two of its arguments.
TRACED, PEEK, POKE, GO_ON, OPTIONS = 0, 3, 6, 24, 0x4200
TELL_CALLS = 1
CALL, FILE, LENGTH = 15 * 8, 14 * 8, 12 * 8
WRITE, STANDARD_OUTPUT = 1, 1
AT_CALL = signal.SIGTRAP | 0x80

UNTRACED = "the system lets no program be traced, so no output takes little at a time"
UNCUT = "the program wrote by another call than that which is made shorter"


def trace(request, process, place=None, word=None):
    """A request of ptrace, whose answer is no error."""
    ctypes.set_errno(0)
    answer = LIBRARY.ptrace(request, process, place, word)
    if answer == -1 and ctypes.get_errno():
        raise Fault(UNTRACED)
    return answer


def begin(room, is_traced):
    """What the program does before it begins."""

    def do():
        signal.signal(signal.SIGXFSZ, signal.SIG_IGN)
        if room is not None:
            resource.setrlimit(resource.RLIMIT_FSIZE, (room, resource.RLIM_INFINITY))
        if is_traced:
            LIBRARY.ptrace(TRACED, 0, None, None)

    return do


def shorten(process, step):
    """Makes a write to standard output that begins no longer than a step, and returns whether there is one."""
    if trace(PEEK, process, CALL) != WRITE or trace(PEEK, process, FILE) != STANDARD_OUTPUT:
        return False
    trace(POKE, process, LENGTH, min(step, trace(PEEK, process, LENGTH)))
    return True


def follow(process, step):
    """Follows a program to its end, and returns its status and how many writes it made to standard output."""
    writes, begins = 0, True
    _, status = os.waitpid(process, 0)
    if not os.WIFSTOPPED(status):
        raise Fault(UNTRACED)
    trace(OPTIONS, process, None, TELL_CALLS)
    sent = 0
    while os.WIFSTOPPED(status):
        trace(GO_ON, process, None, sent)
        _, status = os.waitpid(process, 0)
        sent = 0
        if os.WIFSTOPPED(status) and os.WSTOPSIG(status) == AT_CALL:
            writes += begins and shorten(process, step)
            begins = not begins
        elif os.WIFSTOPPED(status):
            sent = os.WSTOPSIG(status)
    return os.waitstatus_to_exitcode(status), writes


def run(words, given, room, step):
    """Runs a program, and returns its status and what its output took."""
    with tempfile.TemporaryFile() as source, tempfile.TemporaryFile() as output:
        source.write(given)
        source.seek(0)
        how = {"stdin": source, "stdout": output, "stderr": subprocess.DEVNULL, "restore_signals": False}
        ran = subprocess.Popen(words, preexec_fn=begin(room, step is not None), **how)
        if step is None:
            status, writes = ran.wait(), None
        else:
            status, writes = follow(ran.pid, step)
            ran.returncode = status
        output.seek(0)
        taken = output.read()
    if step is not None and len(taken) > writes * step:
        raise Fault(UNCUT)
    return status, taken
