"""Makes the wheel of the package for hosts in Python, with the shared library in it, as pip installs it.

A wheel is an archive whose last file has the sums of the others. This one needs no tool but Python, and the same files give
the same bytes.
"""

import base64
import hashlib
import re
import zipfile

from common import RIGHTS, glibc_of, say

# The first time that such an archive can hold.
TIME = (1980, 1, 1, 0, 0, 0)


def field(text, name):
    return re.search(rf'^{name} = "(.*)"$', text, re.M)[1]


def metadata_of(package, number):
    text = (package / "pyproject.toml").read_text()
    heads = {
        "Metadata-Version": "2.1",
        "Name": field(text, "name"),
        "Version": number,
        "Summary": field(text, "description"),
        "License": RIGHTS,
        "Requires-Python": field(text, "requires-python"),
        "Description-Content-Type": "text/markdown",
    }
    lines = "".join(f"{name}: {value}\n" for name, value in heads.items())
    return f"{lines}\n{(package / 'README.md').read_text()}"


def files_of_package(package, library):
    """The files of the package, by their names in the wheel."""
    found = {}
    for it in sorted((package / "railcitron").rglob("*")):
        if it.is_file() and it.suffix in (".py", ".pyi", ".typed"):
            found[it.relative_to(package).as_posix()] = it.read_bytes()
    found["railcitron/libbb.so"] = library.read_bytes()
    return found


def record_of(files):
    def line(name, data):
        digest = base64.urlsafe_b64encode(hashlib.sha256(data).digest()).rstrip(b"=").decode()
        return f"{name},sha256={digest},{len(data)}\n"

    return "".join(line(*it) for it in files.items())


def put_wheel(package, folder, number):
    """The wheel for this system and C libraries from the one that the library needs."""
    library = folder / "lib/libbb.so"
    if not library.exists():
        return say("there is no wheel, as the shared library is not built")
    tag = "py3-none-manylinux_{}_{}_x86_64".format(*glibc_of([library]))
    about = f"railcitron-{number}.dist-info"
    files = files_of_package(package, library)
    files[f"{about}/METADATA"] = metadata_of(package, number).encode()
    files[f"{about}/WHEEL"] = f"Wheel-Version: 1.0\nGenerator: tools/release\nRoot-Is-Purelib: false\nTag: {tag}\n".encode()
    files[f"{about}/RECORD"] = f"{record_of(files)}{about}/RECORD,,\n".encode()
    with zipfile.ZipFile(folder / f"python/railcitron-{number}-{tag}.whl", "w", zipfile.ZIP_DEFLATED) as wheel:
        for name, data in files.items():
            entry = zipfile.ZipInfo(name, TIME)
            entry.external_attr = 0o100644 << 16
            entry.compress_type = zipfile.ZIP_DEFLATED
            wheel.writestr(entry, data)
