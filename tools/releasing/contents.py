"""Fills the folder of a release: programs, library, pages, cases, and what tells of them. `tools/release` calls `fill`."""

import hashlib
import os
import re
import shutil
import subprocess

from common import CC, PROGRAMS, RIGHTS, ROOT, TARGET, Failed, files_of, kit, output_of, run, say
from common import version_of, version_of_calls
from wheel import put_wheel

# What is copied as it is: where it goes, and the path in the checkout. `test` finds cases and tools at the same places.
COPIED = {
    ".": ["README.md", "CHANGELOG.md", "CONTRIBUTING.md", "SECURITY.md", "docs", "test"],
    ".ci": [".ci/program", ".ci/count_cases"],
    "crates/bb_cases": ["crates/bb_cases/data", "crates/bb_cases/stdout"],
    "examples": ["examples"],
    "editors": ["editors"],
    "tools": ["tools/see", "tools/seeing", "tools/workbench", "tools/explain", "tools/messages", "tools/cases", "tools/casing"],
    "include": ["crates/bb_c/include/bb.h"],
    "python": ["examples/c/host.py", "bindings/python/pyproject.toml", "bindings/python/README.md", "bindings/python/railcitron"],
    "python/examples": [f"bindings/python/examples/{it}.py" for it in ("press", "scale", "day")],
    "share/man/man1": ["tools/releasing/man/bbasm.1", "tools/releasing/man/railcitron-server.1"],
    "share/man/man5": ["tools/releasing/man/railcitron-input.5", "tools/releasing/man/railcitron-trace.5"],
    "share/bash-completion/completions": ["tools/releasing/completion/bb", "tools/releasing/completion/bbasm"],
    "share/zsh/site-functions": ["tools/releasing/completion/_bb"],
}
COPIED["share/man/man1"] += ["tools/releasing/man/railcitron-explain.1", "tools/releasing/man/railcitron-messages.1"]
COPIED["share/man/man5"] += ["tools/releasing/man/railcitron-moves.5", "tools/releasing/man/railcitron-code.5"]
# Checks and builds need a checkout.
LEFT_OUT = shutil.ignore_patterns("__pycache__", "*.pyc", "check", "try", "tests")

START = f"""\
# Railcitron, a release

For users of a release: the contents of this folder. README.md and docs/ are those of the checkout that it was made from, so
`./bb` there is `bin/bb` here, and what they say of `./build` and `rt` needs that checkout. docs/users/INSTALL.md tells how
to install it.

    bin/bb < examples/hello.bb                                              runs an input
    ./test                                                                  runs the cases by these programs, in ten seconds
    bin/bb < examples/desk.bb | tools/see --input examples/desk.bb > run.html    makes a page of a run (Python 3.10)
    tools/workbench examples/hello.bb                                       a page to write inputs in
    tools/explain compile 3                                                 what the pages say of a message
    bin/bb check < examples/hello.bb 2>&1 >costs | tools/messages           messages as lines of JSON
    man -l share/man/man1/bb.1                                              the words of the program; man5 has the formats
    cc -Iinclude examples/c/host.c lib/libbb.a -o host                      a host in C
    python3 python/host.py lib/libbb.so < examples/hello.bb                 a host in Python
    pip install python/railcitron-*.whl                                     the package for hosts in Python
    RAILCITRON_LIBRARY=lib/libbb.so python3 python/examples/press.py examples/press.bb < examples/c/press.jobs
                                                                            one that holds its run
    sha256sum -c SHA256SUMS                                                 whether all is unchanged

VERSION has the program's version, the commit, the kit in whose logic its proofs hold, and the digest of the sources. In a
checkout with the same sources `./bb`, `./bbasm` and `./test` use the programs of this folder, if it is release/ at the top
or RAILCITRON_RELEASE names it. editors/ has files for vim and for editors that read TextMate grammars, and a language server
(docs/users/EDITORS.md); share/ the completion for bash and zsh; examples/many/one runs one of many inputs
(docs/users/MANY_RUNS.md), with `BB=bin/bb`.

{RIGHTS}
"""


class Made:
    """What a release is made of: the checkout, and the programs and the library that were built from it."""

    def __init__(self, checkout, programs=None):
        self.checkout, self.programs = checkout, programs

    def built(self, crate, name):
        """A file that a build of a crate left, or None."""
        folder = self.programs or self.checkout / "crates" / crate / "out"
        return folder / name if (folder / name).is_file() else None

    def is_stale(self, name):
        """Whether a source of a program is newer than its mark, which lists the crates that it is made of. Programs in a folder
        are those of the checkout: who names the folder says so."""
        if self.programs:
            return False
        mark = self.checkout / "crates" / name / "out/built"
        if not mark.exists():
            return True
        then = mark.stat().st_mtime
        crates = [self.checkout / "crates" / it for it in mark.read_text().split()]
        parts = [crate / part for crate in crates for part in ("src", "specs", "proofs")]
        parts = [it for it in [*parts, self.checkout / "crates.txt"] if it.exists()]
        return any(it.stat().st_mtime > then for part in parts for it in [part, *part.rglob("*")])


def put_programs(made, folder):
    """The programs: each static if its object can be linked so, else as it was built."""
    (folder / "bin").mkdir()
    for name in PROGRAMS:
        program, object_file = made.built(name, name), made.built(name, f"{name}.o")
        if not program:
            if name == "bb":
                raise Failed("bb is not built")
            say(f"{name} is not built, and left out")
            continue
        if made.is_stale(name):
            say(f"a source of {name} is newer than its build")
        into = folder / "bin" / name
        words = [CC, "-static", "-s", "-o", into, object_file, *sorted((kit() / "c").glob("lib*_c.a"))]
        linked = object_file and subprocess.run([str(it) for it in words], stderr=subprocess.DEVNULL)
        if not linked or linked.returncode != 0:
            shutil.copy2(program, into)
            into.chmod(0o755)
            say(f"{name} needs the C library, as it is not linked without")


def put_library(made, folder):
    """The archive with the kit's C in it, so that a host links one file, and a shared library for Python, which exports the
    calls of the header and nothing else. A shared one that is there already is taken."""
    archive, shared = made.built("bb_c", "libbb_c.a"), made.built("bb_c", "libbb.so")
    header, lib = folder / "include/bb.h", folder / "lib"
    if not archive and not shared:
        return say("the library is not built, and left out: `./build bb_c` makes it")
    lib.mkdir()
    if archive:
        parts = [archive, *sorted((kit() / "c").glob("lib*_c.a"))]
        script = [f"create {lib / 'libbb.a'}", *(f"addlib {it}" for it in parts), "save", "end", ""]
        run("ar", "-M", input="\n".join(script), text=True)
        run(ROOT / "bindings/shared", lib, lib / "libbb.a", "--header", header)
    else:
        say("libbb_c.a is not built, so there is no library for hosts in C that are linked without the shared one")
        named = f"libbb.so.{version_of_calls(header)}"
        shutil.copy2(shared, lib / named)
        (lib / "libbb.so").symlink_to(named)


def put_pages(checkout, folder):
    for place, paths in COPIED.items():
        for path in paths:
            source, into = checkout / path, folder / place
            if source.is_dir():
                target = into if place == path else into / source.name
                shutil.copytree(source, target, ignore=LEFT_OUT, dirs_exist_ok=True)
            else:
                into.mkdir(parents=True, exist_ok=True)
                shutil.copy2(source, into / source.name)
    (folder / "START.md").write_text(START)


def put_man_page(folder):
    with open(folder / "share/man/man1/bb.1", "w") as page:
        run(ROOT / "tools/man", folder / "bin/bb", stdout=page)


def sources_line(made, folder, digest):
    """The digest of the sources, if all programs are made of these: `tools/launch.sh` takes a release by it."""
    is_known = not any(made.is_stale(it.name) for it in (folder / "bin").iterdir())
    return f"sources {digest}" if is_known else "sources not known: one is newer than its program"


def check_numbers(checkout, number):
    """The number of the program is that of the change log, and of the packages for Python and for editors."""
    first = re.search(r"^## (\S+), (.*)$", (checkout / "CHANGELOG.md").read_text(), re.M)
    others = {
        "CHANGELOG.md": first and first[1],
        "bindings/python/pyproject.toml": re.search(r'^version = "(.*)"$', (checkout / "bindings/python/pyproject.toml").read_text(), re.M)[1],
        "editors/vscode/package.json": re.search(r'"version": "(.*)"', (checkout / "editors/vscode/package.json").read_text())[1],
    }
    for path, found in others.items():
        if found != number:
            raise Failed(f"the program has version {number}, and {path} has {found}")
    if not re.fullmatch(r"\d{4}-\d\d-\d\d", first[2]):
        say(f"CHANGELOG.md says of version {number}: {first[2]}")


def put_version(made, folder, digest):
    """Which program this is: its version, the commit, the kit whose logic its proofs hold in, and of which sources."""
    commit = output_of("git", "-C", made.checkout, "rev-parse", "HEAD").strip()
    changed = output_of("git", "-C", made.checkout, "status", "--porcelain", "-uno")
    line, number = version_of(folder / "bin/bb")
    made_by = (kit() / "KIT-ID").read_text().strip()
    logic = made_by.split()[-1]
    if f"logic {logic}" not in line:
        raise Failed(f"the program says {line!r}, and the kit's logic is {logic}")
    check_numbers(made.checkout, number)
    commit += " and changes" if changed else ""
    lines = [line, f"commit {commit}", made_by, TARGET, sources_line(made, folder, digest), RIGHTS, ""]
    (folder / "VERSION").write_text("\n".join(lines))
    return number


def put_sums(folder):
    """A line for each file, as `sha256sum` writes it."""
    files = [it for it in files_of(folder) if it.name != "SHA256SUMS"]
    sums = (f"{hashlib.sha256(it.read_bytes()).hexdigest()}  {it.relative_to(folder)}\n" for it in files)
    (folder / "SHA256SUMS").write_text("".join(sums))


def put_modes(folder):
    """Modes that do not depend on who made it."""
    for at, _, names in os.walk(folder):
        os.chmod(at, 0o755)
        for it in (os.path.join(at, name) for name in names):
            if not os.path.islink(it):
                os.chmod(it, 0o755 if os.access(it, os.X_OK) else 0o644)


def fill(made, folder, digest):
    """Makes the folder, and returns the version."""
    folder.mkdir(parents=True)
    put_pages(made.checkout, folder)
    put_programs(made, folder)
    put_library(made, folder)
    put_man_page(folder)
    number = put_version(made, folder, digest)
    put_wheel(made.checkout / "bindings/python", folder, number)
    put_modes(folder)
    put_sums(folder)
    return number
