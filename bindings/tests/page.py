# What a block of Python on the pages for hosts leaves to its reader: the package, and the jobs that come.
from pathlib import Path

import railcitron


def jobs() -> list[int]:
    return [4, 10]


