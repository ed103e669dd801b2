"""A run of the blackboard shell Railcitron that Python holds.

    with railcitron.Run(data) as run:                the run of an input
        with run.post() as asks:                     what happened outside: posted when the block has ended,
            job = asks.new("job")                    and forgotten where it raises
            asks.set(job, "due", 12)
        while run.turn():                            a cycle at a time, until it rests
            print(run.read(), end="")
        print(run.finish(), end="")

A source with `native` acts by a function of this host, which asks:

    def weigh(unit, asks):
        asks.set(unit, "grams", scale())

    with railcitron.Run(data, natives={"weigh": weigh}) as run:
        ...

The library is that of crates/bb_c, as a shared one: `load` finds it. A run stays on the thread that opened it, and in its
process; runs on several threads go on at once. Each call's documentation has what it raises. If a move raises
`OutOfMemory`, the run can only be read and closed.
"""

from . import notes
from ._asks import Asks, RefusedAsk
from ._faults import Due, Fault, Full, Misuse, OutOfMemory, Refused
from ._library import load
from ._looks import Ending
from ._run import Native, Run
from ._schema import Schema
from ._values import Activation, Interval, Label, Value

__version__ = "0.9.0"

__all__ = [
    "Activation",
    "Asks",
    "Due",
    "Ending",
    "Fault",
    "Full",
    "Interval",
    "Label",
    "Misuse",
    "Native",
    "OutOfMemory",
    "Refused",
    "RefusedAsk",
    "Run",
    "Schema",
    "Value",
    "load",
    "notes",
]
