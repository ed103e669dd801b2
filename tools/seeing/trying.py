"""What tests of `tools/see` need: how it is called, and what its pages show."""

import base64
import json
import os
import re
import shutil
import subprocess
import tempfile
import zlib
from importlib.machinery import SourceFileLoader
from importlib.util import module_from_spec, spec_from_loader
from pathlib import Path

from given import given_of
from reader import NoTrace, read
from replay import VARIABLE

TOOLS = Path(__file__).resolve().parent.parent

# Without a library, unless one is named.
PLAIN = {name: it for name, it in os.environ.items() if name != VARIABLE}


class Skipped(Exception):
    """Why a test can't be tried here."""


def trace_of(lines):
    return "".join(f"{line}\n" for line in lines).encode()


def input_of(text):
    """What a text gives as the input in a file."""
    with tempfile.NamedTemporaryFile(suffix=".bb") as file:
        file.write(text.encode() if isinstance(text, str) else text)
        file.flush()
        return given_of(Path(file.name))


def run_of(lines, given=None, floor=None, replay=None):
    return read(trace_of(lines).splitlines(keepends=True), given, floor, replay)


def refusal_of(lines, given=None, floor=None, replay=None):
    """What is said of a trace that has to be refused."""
    try:
        run_of(lines, given, floor, replay)
    except NoTrace as fault:
        return str(fault)
    return None


def see(trace, *words, given=None):
    """What `tools/see` answers to a trace, with an input that is in a file of its own."""
    if given is None:
        return subprocess.run([TOOLS / "see", *words], input=trace, capture_output=True, env=PLAIN)
    with tempfile.NamedTemporaryFile(suffix=".bb") as file:
        file.write(given.encode())
        file.flush()
        return see(trace, "--input", file.name, *words)


def shown(page, *addresses):
    """What a page shows at some addresses, as seeing/without_browser.js has it."""
    if not shutil.which("node"):
        raise Skipped("no node")
    script = TOOLS / "seeing/without_browser.js"
    answer = subprocess.run(["node", script, *addresses], input=page, capture_output=True)
    assert answer.returncode == 0, answer.stderr.decode()
    return json.loads(answer.stdout)


def in_browser():
    """The module `tools/see_in_browser`."""
    return tool("see_in_browser")


def tool(name):
    """The module of a tool."""
    loader = SourceFileLoader(name, str(TOOLS / name))
    module = module_from_spec(spec_from_loader(loader.name, loader))
    loader.exec_module(module)
    return module


def data_of(page):
    """What a page has of its run, with its lines as `text`."""
    block = re.search(r'<script type="text/plain" id="run">(.*?)</script>', page, re.S)[1]
    told, _, text = zlib.decompress(base64.b64decode(block)).decode().partition("\n")
    return {**json.loads(told), "text": text}
