"""The Python wheels: the module with the shared library in it."""

import base64
import os
import re

from common import OWNER, SUMMARY, VERSION, copy, digest, files, glibc, read, stage, write, zipped

#: The newest glibc whose functions the Linux wheel may need; its tag names it.
GLIBC = (2, 17)
METADATA = f"""Metadata-Version: 2.1
Name: pattern
Version: {VERSION}
Summary: {SUMMARY}
Author: {OWNER}
License-File: COPYRIGHT
Requires-Python: >=3.8
Description-Content-Type: text/plain

"""


def build(library, name, tag):
    """The wheel of a platform: a package of the module's file and the library beside it."""
    folder = stage("wheel-" + tag)
    about = f"pattern-{VERSION}.dist-info"
    copy("python/pattern.py", folder, "pattern", "__init__.py")
    write("", folder, "pattern", "py.typed")
    copy(library, folder, "pattern", name, mode=0o755)
    write(METADATA + re.match('"""(.*?)"""', read("python", "pattern.py"), re.DOTALL)[1], folder, about, "METADATA")
    write(f"Wheel-Version: 1.0\nGenerator: pattern {VERSION}\nRoot-Is-Purelib: false\nTag: py3-none-{tag}\n", folder, about, "WHEEL")
    write(read("COPYRIGHT"), folder, about, "COPYRIGHT")
    lines = []
    for path in files(folder):
        short = base64.urlsafe_b64encode(digest(path).digest()).rstrip(b"=").decode()
        lines.append(f"{os.path.relpath(path, folder)},sha256={short},{os.path.getsize(path)}\n")
    write("".join(lines) + f"{about}/RECORD,,\n", folder, about, "RECORD")
    zipped(folder, f"pattern-{VERSION}-py3-none-{tag}.whl", under="")


def wheels(shared, dll):
    """The wheels for Linux and Windows."""
    glibc(shared, GLIBC)
    build(shared, f"libpattern.so.{VERSION.split('.')[0]}", "manylinux_{}_{}_x86_64".format(*GLIBC))
    build(dll, "pattern.dll", "win_amd64")
