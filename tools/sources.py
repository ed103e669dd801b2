"""The crates of this workspace as text: `tools/times` counts them, `tools/release` makes a digest of them.

Run as a program it prints the digest of the checkout's sources, by which `tools/launch.sh` knows a release of them.
"""

import hashlib
import os
import re
from glob import glob
from pathlib import Path

# A literal is one piece, so that no brace and no `//` in it is taken for code.
LITERAL = r"""
    \bb?r(?P<hashes>\#*)".*?"(?P=hashes)
  | (?:\bb)?"(?:\\.|[^"\\])*"
  | '(?:\\.[^'\n]*|[^\\'\n])'
"""
LITERAL_OR_COMMENT = re.compile(rf"(?P<literal>{LITERAL}) | //[^\n]* | /\*.*?\*/", re.X | re.S)
TEST_MODULE = re.compile(r"#\[cfg\(test\)\]\s*(?:pub(?:\([^)]*\))?\s+)?mod\s+(\w+)\s*;")


def crates_of(text):
    """What each crate of a crates.txt uses, and the words behind its name, by name."""
    crates = {}
    for line in text.splitlines():
        head, colon, uses = line.partition("#")[0].partition(":")
        if colon:
            name, *words = head.split()
            crates[name] = uses.split(), words
    return crates


def digest_of(checkout):
    """The digest of all that the programs of a checkout are made of: `crates.txt`, and the files of `src/`, `specs/` and `proofs/`."""
    top = str(checkout)
    folders = [f"{it}/{part}" for it in glob(f"{top}/crates/*") for part in ("src", "specs", "proofs")]
    files = [f"{at}/{name}" for folder in folders for at, _, names in os.walk(folder) for name in names]
    whole = hashlib.sha256()
    for path in sorted([f"{top}/crates.txt", *files]):
        with open(path, "rb") as file:
            data = file.read()
        whole.update(f"{path.removeprefix(top)}\0{len(data)}\0".encode() + data)
    return whole.hexdigest()


def bare(text):
    """A source without its comments. Each literal stands on one line."""
    return LITERAL_OR_COMMENT.sub(lambda it: (it["literal"] or "").replace("\n", "\\n"), text)


def parted(sources):
    """The sources of a crate, texts by their paths in src/, without its test modules, and those modules.

    A test module is one that `#[cfg(test)] mod NAME;` declares, or that lies in such a one.
    """
    tests = []
    for path, text in sources.items():
        if "cfg(test)" not in text:
            continue
        folder = "" if path in ("lib.rt", "main.rt") else f"{path.removesuffix('.rt')}/"
        tests += [folder + it[1] for it in TEST_MODULE.finditer(bare(text))]
    of_tests = {path for path in sources if any(path == f"{it}.rt" or path.startswith(f"{it}/") for it in tests)}
    return (
        {path: text for path, text in sources.items() if path not in of_tests},
        {path: text for path, text in sources.items() if path in of_tests},
    )


if __name__ == "__main__":
    print(digest_of(Path(__file__).resolve().parent.parent))
