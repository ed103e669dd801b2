"""What the files of this folder share: commands, the kit, and facts about programs and libraries."""

import os
import re
import shutil
import subprocess
import sys
from pathlib import Path

ROOT = Path(__file__).resolve().parent.parent.parent
TARGET = "x86_64-linux"
CC = os.environ.get("CC", "cc")
PROGRAMS = ("bb", "bbasm", "bb_cases")
RIGHTS = "No licence has been chosen yet: all rights are reserved until one is."


class Failed(Exception):
    """Why no release is made, as a sentence."""


def say(text):
    print(f"release: {text}", file=sys.stderr, flush=True)


def run(*words, **how):
    ran = subprocess.run([str(it) for it in words], **how)
    if ran.returncode != 0:
        raise Failed(f"{words[0]} has status {ran.returncode}")
    return ran


def output_of(*words, **how):
    return run(*words, stdout=subprocess.PIPE, text=True, stdin=subprocess.DEVNULL, **how).stdout


def kit():
    """The folder of the kit, whose C is linked behind what it compiled."""
    found = shutil.which("rt")
    if not found:
        raise Failed("there is no rt, the kit's command, on the PATH")
    return Path(found).resolve().parent.parent


def version_of(program):
    """What a program prints for `--version`, and the number in it."""
    line = output_of(program, "--version").strip()
    number = re.match(r"bb (\d+\.\d+\.\d+) ", line)
    if not number:
        raise Failed(f"the program says {line!r} of its version")
    return line, number[1]


def version_of_calls(header):
    """The version of the library's calls, which the header has."""
    return re.search(r"^#define BB_VERSION (\d+)$", header.read_text(), re.M)[1]


def calls_of(header):
    """The names of the library's calls."""
    return re.findall(r"^\w+ (bb_\w+)\([^()]*\);", header.read_text(), re.M)


def is_elf(file):
    with open(file, "rb") as it:
        return it.read(4) == b"\x7fELF"


def is_static(program):
    with open(program, "rb") as file:
        return b"ld-linux" not in file.read(1 << 16)


def glibc_of(files):
    """The least version of the C library that these need, as a pair."""
    found = (2, 17)
    for it in filter(is_elf, files):
        needed = re.findall(r"GLIBC_(\d+)\.(\d+)", output_of("objdump", "-T", it, stderr=subprocess.DEVNULL))
        found = max([found, *((int(major), int(minor)) for major, minor in needed)])
    return found


def files_of(folder):
    """The files in a folder and those below it, links to files too."""
    return sorted(it for it in folder.rglob("*") if it.is_file() or it.is_symlink())
