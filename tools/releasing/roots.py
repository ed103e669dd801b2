"""An empty root: a folder in which a program sees what was put there and nothing else, no kit among it.

What Python needs is copied there from this machine, as nothing else is sure to be here: the interpreter, its own modules,
`env`, and the libraries that these load. The network is cut off where the system lets us.
"""

import os
import re
import shutil
import subprocess
import sys
import sysconfig
from pathlib import Path

from common import output_of

# Modules of Python that no test needs, most of them large.
LEFT_OUT = "__pycache__ *.pyc test tests idlelib tkinter turtledemo ensurepip lib2to3 site-packages dist-packages config-* pydoc_data"
ENVIRONMENT = ["env", "-i", "PATH=/usr/bin:/bin", "HOME=/tmp", "TMPDIR=/tmp", "LANG=C.UTF-8", "PYTHONDONTWRITEBYTECODE=1"]
DEVICES = {"null": (1, 3), "full": (1, 7), "urandom": (1, 9)}
SYSTEM = "/usr/sbin:/usr/bin:/sbin:/bin"
# Files in the root are owned by who made it, so a name space of users serves those who are not root.
BOUND = f'PATH={SYSTEM}; for it in {" ".join(DEVICES)}; do mount --bind "/dev/$it" "$0/dev/$it" || exit; done; exec chroot "$0" "$@"'


def needed_by(files):
    """The libraries that these load, and what loads them."""
    told = subprocess.run(["ldd", *map(str, files)], capture_output=True, text=True).stdout
    return {Path(it) for it in re.findall(r"(/\S+) \(0x", told)}


class Root:
    """A folder, and the words that run a command in it; these are none where this machine allows no root."""

    def __init__(self, folder):
        self.folder = folder
        for it in ("dev/shm", "tmp", "usr/bin", "proc"):
            (folder / it).mkdir(parents=True)
        (folder / "tmp").chmod(0o1777)
        (folder / "dev/shm").chmod(0o1777)
        python = Path(os.path.realpath(sys.executable))
        modules = {Path(sysconfig.get_path(it)).resolve() for it in ("stdlib", "platstdlib")}
        env = Path(shutil.which("env", path=SYSTEM)).resolve()
        for it in modules:
            shutil.copytree(it, self.at(it), symlinks=True, ignore=shutil.ignore_patterns(*LEFT_OUT.split()), dirs_exist_ok=True)
        self.put(python, env, *(it for folder in modules for it in folder.glob("lib-dynload/*.so")))
        self.link("usr/bin/python3", python)
        self.link("usr/bin/env", env)
        self.words = self.found_words()

    def at(self, path):
        """Where a path of the machine is here."""
        return self.folder / path.relative_to("/")

    def put(self, *files):
        """Copies files with the libraries that they need, at their own paths."""
        for it in {*files, *needed_by(files)}:
            if not self.at(it).exists():
                self.at(it).parent.mkdir(parents=True, exist_ok=True)
                shutil.copy2(it, self.at(it))

    def put_libraries_of(self, *files):
        """Copies the libraries that programs in the root need."""
        self.put(*needed_by(files))

    def link(self, name, target):
        if not os.path.lexists(self.folder / name):
            (self.folder / name).symlink_to(target)

    def ways(self):
        """The words before a command, each with what makes the devices for it."""
        names = ["--mount", "--net"] if os.geteuid() == 0 else ["--map-root-user", "--mount", "--net"]
        yield ["unshare", *names, "sh", "-c", BOUND, str(self.folder)], Path.touch
        yield ["chroot", str(self.folder)], make_device

    def found_words(self):
        for words, device in self.ways():
            tool = shutil.which(words[0], path=SYSTEM)
            try:
                for it in DEVICES:
                    device(self.folder / "dev" / it)
                words = [tool, *words[1:], *ENVIRONMENT]
                if tool and output_of(*words, "python3", "-c", "print(7)", stderr=subprocess.DEVNULL) == "7\n":
                    return words
            except Exception:
                continue
        return None

    def run(self, *words, **how):
        return subprocess.run([*self.words, *words], **how)


def make_device(path):
    path.unlink(missing_ok=True)
    os.mknod(path, 0o020666, os.makedev(*DEVICES[path.name]))
    path.chmod(0o666)
