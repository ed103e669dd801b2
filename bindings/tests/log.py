# What a block of Python on the pages for hosts that keep a log leaves to its reader: the package, and a native.
from pathlib import Path

import railcitron


def price(job: int, asks: railcitron.Asks) -> None:
    asks.set(job, "price", 12)


