#!/usr/bin/env python3
"""A host in Python whose sources act by a native of the host: what examples/c/scale.c is in C.

    scale.py examples/c/scale.bb < examples/c/scale.parcels

Parcels come on its standard input, a line each: NAME GRAMS. It posts each as it comes, weighs it where the native `weigh`
is due, and tells on which belt it goes; at the end it writes the blackboard, as a document of initial units.
"""

from __future__ import annotations

import sys
from pathlib import Path

if (HOME := Path(__file__).resolve().parent.parent).joinpath("railcitron").is_dir():
    sys.path.insert(0, str(HOME))
import railcitron  # noqa: E402


def main() -> None:
    scale: dict[int, int] = {}

    def weigh(unit: int, asks: railcitron.Asks) -> None:
        asks.set(unit, "grams", scale[unit])

    with railcitron.Run(Path(sys.argv[1]).read_bytes(), natives={"weigh": weigh}) as run:
        while run.turn():
            pass
        for line in sys.stdin:
            name, grams = line.split()
            with run.post() as asks:
                parcel = asks.new("parcel")
                asks.set(parcel, "name", name)
            scale[parcel] = int(grams)
            while run.turn():
                pass
            run.read()
            print("{}: {}, {} g".format(*(run.get(parcel, slot) for slot in ("name", "belt", "grams"))))
        print(run.document())
        run.finish()


if __name__ == "__main__":
    main()
