"""What an installed package has to do: it loads the library that it was installed with, and runs an input.

    ENVIRONMENT/bin/python bindings/python/tests/installed.py examples/hello.bb
"""

import sys
from pathlib import Path

import railcitron

HOME = Path(railcitron.__file__).resolve().parent
assert HOME.is_relative_to(sys.prefix), f"{HOME} is not where the package was installed"
assert HOME.joinpath("py.typed").exists() and HOME.joinpath("libbb.so").exists()
with railcitron.Run(Path(sys.argv[1]).read_bytes()) as run:
    while run.turn():
        pass
    told = run.read() + run.finish()
assert 'say "hello"\n' in told and told.endswith("quiescence\nfinish quiescence\n"), told
