"""The packages of a release: an archive of the folder, and a package for Debian. `tools/release` calls `put_packages`.

The same folder gives the same bytes: times are those of the commit, and owners are root.
"""

import gzip
import hashlib
import io
import os
import shutil
import tarfile
import tempfile
import time
from email.utils import formatdate
from pathlib import Path

from common import TARGET, Failed, files_of, glibc_of, is_elf, is_static, output_of, run, say

NAME = "railcitron"
DEBIAN = "amd64"
REVISION = "1"

ABOUT = """\
Description: blackboard shell with verified knowledge sources
 Runs knowledge sources that strangers wrote over a blackboard of units: each
 code is verified before the run, and the trace of what happened is proved to
 match definitions written to be read.
 .
 The package has the programs bb and bbasm, bb also as railcitron, the library
 for hosts in C, pages, examples, and the cases with the program that runs them.
"""
COPYRIGHT = """\
Copyright {year} {authors}

{rights}
"""
# Why lintian need not complain: the program needs nothing, so that it runs in an empty root.
STATIC = "railcitron: statically-linked-binary [{}]\n"

# Where the Debian package has what the folder has. Programs and libraries are put apart.
PLACES = {
    "include": "usr/include/railcitron",
    "share/man": "usr/share/man",
    "share/bash-completion": "usr/share/bash-completion",
    "share/zsh/site-functions": "usr/share/zsh/vendor-completions",
    "docs": "usr/share/doc/railcitron/docs",
    "examples": "usr/share/doc/railcitron/examples",
    "README.md": "usr/share/doc/railcitron/README.md",
    "SECURITY.md": "usr/share/doc/railcitron/SECURITY.md",
    "CONTRIBUTING.md": "usr/share/doc/railcitron/CONTRIBUTING.md",
    "CHANGELOG.md": "usr/share/doc/railcitron/CHANGELOG.md",
    "VERSION": "usr/share/railcitron/VERSION",
    "test": "usr/share/railcitron/test",
    ".ci": "usr/share/railcitron/.ci",
    "crates": "usr/share/railcitron/crates",
    "tools": "usr/share/railcitron/tools",
    "editors": "usr/share/railcitron/editors",
}
# Links, so that bb has its other name, and tests and tools find programs, examples and pages where they look.
LINKS = {
    "usr/bin/railcitron": "bb",
    "usr/bin/railcitron-server": "../share/railcitron/editors/server/railcitron-server",
    "usr/bin/railcitron-explain": "../share/railcitron/tools/explain",
    "usr/bin/railcitron-messages": "../share/railcitron/tools/messages",
    "usr/share/man/man1/railcitron.1": "bb.1",
    "usr/share/bash-completion/completions/railcitron": "bb",
    "usr/share/railcitron/docs": "../doc/railcitron/docs",
    "usr/share/railcitron/examples": "../doc/railcitron/examples",
    "usr/share/railcitron/bin/bb": "../../../bin/bb",
    "usr/share/railcitron/bin/bbasm": "../../../bin/bbasm",
    "usr/share/railcitron/bin/bb_cases": "../../../lib/railcitron/bb_cases",
}


class Commit:
    """Who made the commit of a checkout, and when."""

    def __init__(self, checkout):
        told = output_of("git", "-C", checkout, "log", "-1", "--format=%an%n%ae%n%ct").splitlines()
        self.author, self.mail, self.time = told[0], told[1], int(told[2])

    def year(self):
        return time.gmtime(self.time).tm_year

    def maintainer(self):
        return f"{self.author} <{self.mail}>"


# ---- the archive


def put_archive(folder, into, number, commit):
    """All of the folder but its packages, below a folder of the archive's name."""
    name = f"{NAME}-{number}-{TARGET}"

    def plain(entry):
        entry.uid = entry.gid = 0
        entry.uname = entry.gname = "root"
        entry.mtime = commit.time
        return entry

    whole = io.BytesIO()
    with tarfile.open(fileobj=whole, mode="w", format=tarfile.PAX_FORMAT) as archive:
        for it in files_of(folder):
            if folder / "packages" not in it.parents:
                archive.add(it, f"{name}/{it.relative_to(folder)}", recursive=False, filter=plain)
    with open(into / f"{name}.tar.gz", "wb") as file, gzip.GzipFile("", "wb", 9, file, commit.time) as packed:
        packed.write(whole.getvalue())


# ---- the package for Debian


def zipped(file):
    """Replaces a file by one that gzip packed, without a name or a time."""
    packed = gzip.compress(file.read_bytes(), 9, mtime=0)
    file.with_name(f"{file.name}.gz").write_bytes(packed)
    file.unlink()


def put_tree(folder, tree):
    for place, into in PLACES.items():
        source, target = folder / place, tree / into
        target.parent.mkdir(parents=True, exist_ok=True)
        if source.is_dir():
            shutil.copytree(source, target, symlinks=True, ignore=shutil.ignore_patterns("__pycache__"))
        elif source.exists():
            shutil.copy2(source, target)


def put_binaries(folder, tree):
    """Programs and libraries, without symbols that only serve those who debug."""
    places = {"bb": "usr/bin", "bbasm": "usr/bin", "bb_cases": "usr/lib/railcitron"}
    for it in [*sorted((folder / "bin").iterdir()), *sorted((folder / "lib").glob("*"))]:
        into = tree / places.get(it.name, "usr/lib/railcitron") / it.name
        into.parent.mkdir(parents=True, exist_ok=True)
        if it.is_symlink():
            into.symlink_to(os.readlink(it))
            continue
        shutil.copy2(it, into)
        with open(it, "rb") as file:
            begin = file.read(8)
        if begin == b"!<arch>\n":
            run("strip", "--strip-debug", "--enable-deterministic-archives", into)
        elif begin.startswith(b"\x7fELF"):
            run("strip", "--strip-unneeded", "--remove-section=.comment", "--remove-section=.note", into)
        if ".so" in it.name:
            into.chmod(0o644)


def put_links(tree):
    for name, target in LINKS.items():
        at = tree / name
        at.parent.mkdir(parents=True, exist_ok=True)
        if (at.parent / target).exists():
            at.symlink_to(target)


def put_documents(tree, version, commit, rights):
    """What Debian wants of each package, and pages packed as Debian has them."""
    documents = tree / "usr/share/doc/railcitron"
    (documents / "copyright").write_text(COPYRIGHT.format(year=commit.year(), authors=commit.author, rights=rights))
    shutil.copy2(documents / "CHANGELOG.md", documents / "changelog")
    text = f"{NAME} ({version}) unstable; urgency=medium\n\n  * This version: changelog.gz has what changed.\n\n"
    (documents / "changelog.Debian").write_text(f"{text} -- {commit.maintainer()}  {formatdate(commit.time)}\n")
    for it in (documents / "changelog", documents / "changelog.Debian", *(tree / "usr/share/man").rglob("*.[15]")):
        if it.is_symlink():
            target = os.readlink(it)
            it.unlink()
            it.with_name(f"{it.name}.gz").symlink_to(f"{target}.gz")
        else:
            zipped(it)
    static = [it for it in programs_of(tree) if is_static(it)]
    if static:
        overrides = tree / "usr/share/lintian/overrides/railcitron"
        overrides.parent.mkdir(parents=True)
        overrides.write_text("".join(STATIC.format(it.relative_to(tree)) for it in static))


def programs_of(tree):
    found = [*(tree / "usr/bin").iterdir(), *(tree / "usr/lib/railcitron").glob("bb_cases")]
    return [it for it in sorted(found) if not it.is_symlink() and is_elf(it)]


def put_control(tree, version, commit):
    """What dpkg knows of the package, and the sums of its files."""
    files = [it for it in files_of(tree) if not it.is_symlink()]
    binaries = [it for it in [*programs_of(tree), *(tree / "usr/lib/railcitron").glob("*.so.*")] if not is_static(it)]
    needs = ["libc6 (>= {}.{})".format(*glibc_of(binaries))] if binaries else []
    heads = {
        "Package": NAME,
        "Version": version,
        "Section": "interpreters",
        "Priority": "optional",
        "Architecture": DEBIAN,
        "Maintainer": commit.maintainer(),
        "Installed-Size": str(sum(it.stat().st_size for it in files) // 1024 + 1),
        **({"Depends": ", ".join(needs)} if needs else {}),
        "Recommends": "python3 (>= 3.10)",
    }
    control = tree / "DEBIAN"
    control.mkdir()
    (control / "control").write_text("".join(f"{name}: {value}\n" for name, value in heads.items()) + ABOUT)
    sums = (f"{hashlib.md5(it.read_bytes()).hexdigest()}  {it.relative_to(tree)}\n" for it in files)
    (control / "md5sums").write_text("".join(sums))


def put_debian(folder, into, number, commit):
    if not shutil.which("dpkg-deb"):
        return say("there is no dpkg-deb, and so no package for Debian")
    version = f"{number}-{REVISION}"
    rights = (folder / "VERSION").read_text().splitlines()[-1]
    with tempfile.TemporaryDirectory(prefix="railcitron-deb-") as room:
        tree = Path(room, "tree")
        put_tree(folder, tree)
        put_binaries(folder, tree)
        put_links(tree)
        put_documents(tree, version, commit, rights)
        put_control(tree, version, commit)
        for it in [*tree.rglob("*"), tree]:
            if it.is_dir():
                it.chmod(0o755)
            os.utime(it, (commit.time, commit.time), follow_symlinks=False)
        words = ["dpkg-deb", "--root-owner-group", "-Zxz", "--build", tree, into / f"{NAME}_{version}_{DEBIAN}.deb"]
        run(*words, env={**os.environ, "SOURCE_DATE_EPOCH": str(commit.time)}, stdout=-3)


def put_packages(folder, number, checkout):
    """The folder `packages`, with sums of its own."""
    into, commit = folder / "packages", Commit(checkout)
    into.mkdir()
    put_archive(folder, into, number, commit)
    put_debian(folder, into, number, commit)
    for it in sorted((folder / "python").glob("*.whl")):
        shutil.copy2(it, into / it.name)
    sums = (f"{hashlib.sha256(it.read_bytes()).hexdigest()}  {it.name}\n" for it in files_of(into))
    (into / "SHA256SUMS").write_text("".join(sums))
    if not any(into.glob("*.tar.gz")):
        raise Failed("there is no archive")
