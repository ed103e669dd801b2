"""Tries a release as who takes it would: `tools/release` calls `try_all` once it is made.

The archive is unpacked and the Debian package too, each into an empty root (roots.py), where `./test` has to pass. Without a
root, as where the system allows none, they run in an empty environment, and it says so.
"""

import json
import os
import re
import shutil
import subprocess
import sys
import tarfile
import tempfile
import time
import zipfile
from pathlib import Path

from common import CC, Failed, calls_of, files_of, is_static, output_of, run, say
from roots import ENVIRONMENT, Root

COUNTS = re.compile(r"^(\d+) passed, (\d+) failed\n\Z", re.M)
SECONDS = 600
DEBIAN = Path("usr/share/railcitron")


class Place:
    """Where a release runs: an empty root, or the folder itself with an empty environment."""

    def __init__(self, room):
        room.mkdir()
        root = Root(room / "root")
        self.root = root if root.words else None
        self.folder = root.folder if root.words else room
        if not self.root:
            say("no root can be made here: the release runs in an empty environment")

    def run(self, *words, **how):
        """Runs a program of this folder, named by its path in it."""
        program, *others = words
        if self.root:
            return self.root.run(f"/{program}", *others, **how)
        words = [*(it.replace("PATH=", f"PATH={Path(sys.executable).parent}:") for it in ENVIRONMENT), self.folder / program]
        return subprocess.run([*words, *others], **how)

    def add_needed(self, *programs):
        """What the programs load comes along: a C library, if they are not linked without one."""
        if self.root:
            self.root.put_libraries_of(*(it for it in programs if not is_static(it)))


def try_sums(folder):
    ran = subprocess.run(["sha256sum", "--quiet", "-c", "SHA256SUMS"], cwd=folder, capture_output=True, text=True)
    if ran.returncode != 0:
        raise Failed(f"sha256sum says {ran.stdout}{ran.stderr}")
    listed = (folder / "SHA256SUMS").read_text().count("\n")
    files = [it for it in files_of(folder) if it != folder / "SHA256SUMS" and folder / "packages" not in it.parents]
    if listed != len(files):
        raise Failed(f"{len(files)} files have {listed} sums")


def try_tests(place, at, name):
    """Its own test passes, by its own programs."""
    began = time.monotonic()
    ran = place.run(f"{at}/test", capture_output=True, text=True, timeout=SECONDS)
    counts = COUNTS.search(ran.stdout)
    if ran.returncode != 0 or not counts or counts[2] != "0":
        raise Failed(f"the tests of {name} have status {ran.returncode}:\n{ran.stdout[-2000:]}{ran.stderr[-2000:]}")
    where = "an empty root" if place.root else "an empty environment"
    say(f"{name}: {counts[1]} tests pass in {where}, in {time.monotonic() - began:.0f} s")


def try_examples(place, folder, program):
    """Each example comes to its end, also those without a trace, which `./test` leaves out."""
    for it in sorted((folder / "examples").glob("*.bb")):
        with open(it, "rb") as text:
            ran = place.run(program, stdin=text, capture_output=True, timeout=SECONDS)
        if ran.returncode not in (0, 3, 4) or b"\nfinish " not in ran.stdout:
            raise Failed(f"{it.name} has status {ran.returncode}")


def try_archive(folder, room):
    """What comes out of the archive is the folder, and works in an empty root."""
    place = Place(room / "archive")
    archive = next((folder / "packages").glob("*.tar.gz"))
    with tarfile.open(archive) as packed:
        packed.extractall(place.folder, filter="data") if hasattr(tarfile, "data_filter") else packed.extractall(place.folder)
    name = archive.name.removesuffix(".tar.gz")
    unpacked = place.folder / name
    try_sums(unpacked)
    place.add_needed(*(unpacked / "bin").iterdir())
    try_tests(place, name, archive.name)
    try_examples(place, unpacked, f"{name}/bin/bb")
    return place, name


def try_debian(folder, room):
    """The package unpacks to programs that run, as bb and as railcitron, with their man pages."""
    package = next((folder / "packages").glob("*.deb"), None)
    if not package:
        return
    place = Place(room / "debian")
    run("dpkg-deb", "--extract", package, place.folder)
    run("dpkg-deb", "--control", package, room / "control")
    with open(room / "control/md5sums") as sums:
        run("md5sum", "--quiet", "-c", "-", cwd=place.folder, stdin=sums)
    place.add_needed(*(place.folder / "usr/bin").iterdir(), *(place.folder / "usr/lib/railcitron").glob("bb_cases"))
    try_tests(place, DEBIAN, package.name)
    told = [place.run(f"usr/bin/{it}", "--version", capture_output=True).stdout for it in ("bb", "railcitron")]
    if told != 2 * [(folder / "VERSION").read_bytes().splitlines(keepends=True)[0]]:
        raise Failed(f"bb and railcitron of the package have versions {told}")
    try_lintian(package)


def try_lintian(package):
    if not shutil.which("lintian"):
        return say("lintian is not installed here, so it does not judge the package")
    ran = subprocess.run(["lintian", "--fail-on", "error", "--allow-root", package], capture_output=True, text=True)
    print(ran.stdout, end="", file=sys.stderr)
    if ran.returncode != 0:
        raise Failed(f"lintian has status {ran.returncode}: {ran.stderr[-2000:]}")
    say("lintian finds no error")


# ---- hosts


def built_host(folder, room, name):
    host = room / name
    words = ["-std=c99", "-O2", f"-I{folder / 'include'}", folder / f"examples/c/{name}.c", folder / "lib/libbb.a"]
    run(CC, *words, "-o", host)
    return host


def try_hosts(folder, room):
    """The hosts in C and Python write what the program writes, but for its natives. Those that hold a run tell the same."""
    if not (folder / "lib").exists():
        return
    example = folder / "examples/hello.bb"
    hosts = [[sys.executable, "-B", folder / "python/host.py", folder / "lib/libbb.so"]]
    if (folder / "lib/libbb.a").exists():
        hosts.append([built_host(folder, room, "host")])
    wanted = re.sub(r"(?m)^closed .*\n", "", output_with(example, folder / "bin/bb"))
    for words in hosts:
        if output_with(example, *words) != wanted:
            raise Failed(f"{words[-1]} tells something else")
    try_held(folder, room, "press", folder / "examples/press.bb", folder / "examples/c/press.jobs")
    try_held(folder, room, "scale", folder / "examples/c/scale.bb", folder / "examples/c/scale.parcels")
    say(f"{'hosts in C and Python' if len(hosts) == 2 else 'hosts in Python'} tell what the program tells")


def output_with(given, *words, **how):
    with open(given, "rb") as file:
        return run(*words, stdin=file, stdout=subprocess.PIPE, text=True, **how).stdout


def try_held(folder, room, name, example, news):
    """The hosts of a name, which hold a run, tell the same in C and Python."""
    library = {**os.environ, "RAILCITRON_LIBRARY": str(folder / "lib/libbb.so")}
    hosts = [[sys.executable, "-B", folder / f"python/examples/{name}.py"]]
    if (folder / "lib/libbb.a").exists():
        hosts.append([built_host(folder, room, name)])
    told = {output_with(news, *words, example, env=library) for words in hosts}
    if len(told) != 1 or not all(told):
        raise Failed(f"the hosts {name} tell different things: {told}")


def try_exports(folder):
    """The shared library exports the calls of the header, and nothing else."""
    library = folder / "lib/libbb.so"
    if not (folder / "lib/libbb.a").exists():
        return
    told = output_of("nm", "-D", "--defined-only", library)
    found = {line.split()[2].partition("@")[0] for line in told.splitlines()}
    if found != {*calls_of(folder / "include/bb.h")}:
        raise Failed(f"libbb.so exports {sorted(found)}")


def try_wheel(folder, place, name):
    """The wheel, unpacked where pip would put it, runs a scheduler by the library that it brings, in the empty root."""
    wheel = next((folder / "python").glob("*.whl"), None)
    if not wheel:
        return
    site = place.folder / name / "site"
    with zipfile.ZipFile(wheel) as packed:
        packed.extractall(site)
    place.add_needed(site / "railcitron/libbb.so")
    at = f"/{name}" if place.root else str(place.folder / name)
    script = f"import sys; sys.path.insert(0, '{at}/site'); import railcitron as it; print(it.__file__); "
    script += f"run = it.Run(open('{at}/examples/hello.bb', 'rb').read()); run.advance(9); print(run.read() + run.finish(), end='')"
    python = "usr/bin/python3" if place.root else sys.executable
    told = place.run(python, "-c", script, capture_output=True, text=True)
    trace = re.sub(r"(?m)^closed .*\n", "", output_with(folder / "examples/hello.bb", folder / "bin/bb"))
    if told.stdout != f"{at}/site/railcitron/__init__.py\n{trace}":
        raise Failed(f"the wheel tells {told.stdout!r} {told.stderr[-1000:]}")
    try_pip(folder, wheel)
    say(f"{wheel.name} runs an example")


def try_pip(folder, wheel):
    """pip, where it is here, installs the wheel, which pins no network."""
    with tempfile.TemporaryDirectory() as room:
        pip = [sys.executable, "-m", "pip"]
        if subprocess.run([*pip, "--version"], capture_output=True).returncode != 0:
            return say("there is no pip here, so the wheel was unpacked and not installed")
        run(*pip, "install", "--quiet", "--no-index", "--no-deps", "--no-compile", "--target", room, wheel)
        if not Path(room, "railcitron/libbb.so").exists():
            raise Failed("pip installs the wheel without its library")


# ---- editors and pages


def try_server(folder):
    """The language server says what it does, and ends."""
    begin = {"jsonrpc": "2.0", "id": 1, "method": "initialize", "params": {"capabilities": {}}}
    messages = [json.dumps(it) for it in (begin, {"jsonrpc": "2.0", "id": 2, "method": "shutdown"}, {"jsonrpc": "2.0", "method": "exit"})]
    given = "".join(f"Content-Length: {len(it)}\r\n\r\n{it}" for it in messages)
    told = run(folder / "editors/server/railcitron-server", input=given, text=True, stdout=subprocess.PIPE).stdout
    if '"hoverProvider":true' not in told:
        raise Failed(f"the language server says {told!r}")


def try_messages(folder):
    """A message of the program is explained, and becomes a line of JSON."""
    given = (folder / "examples/hello.bb").read_text().replace("say ", "say nothing_here, ", 1)
    told = subprocess.run([folder / "bin/bb", "check"], input=given, text=True, capture_output=True).stderr
    entry = run(folder / "tools/explain", input=told, text=True, stdout=subprocess.PIPE).stdout
    line = run(folder / "tools/messages", input=told, text=True, stdout=subprocess.PIPE).stdout
    if not entry.startswith("compile 1\n") or json.loads(line)["code"] != "compile 1":
        raise Failed(f"the program writes {told!r}, of which tools/explain says {entry!r} and tools/messages {line!r}")


def try_pages(folder):
    """The viewer makes a page, and the man pages are in order for groff."""
    with open(folder / "examples/desk.trace") as trace:
        page = run(folder / "tools/see", "--input", folder / "examples/desk.bb", stdin=trace, stdout=subprocess.PIPE).stdout
    if not page.lstrip().lower().startswith(b"<!doctype html"):
        raise Failed("tools/see makes no page")
    if not shutil.which("groff"):
        return say("groff is not installed here, so it does not judge the man pages")
    for it in sorted((folder / "share/man").rglob("*.[15]")):
        warned = run("groff", "-man", "-ww", "-z", it, stderr=subprocess.PIPE, text=True).stderr
        if warned:
            raise Failed(f"groff says of {it.name}: {warned}")


def try_all(folder):
    with tempfile.TemporaryDirectory(prefix="railcitron-try-") as name:
        room = Path(name)
        try_sums(folder)
        place, name = try_archive(folder, room)
        try_wheel(folder, place, name)
        try_debian(folder, room)
        try_hosts(folder, room)
        try_exports(folder)
        try_server(folder)
        try_messages(folder)
        try_pages(folder)
        try_sums(folder)
