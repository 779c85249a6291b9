"""What the packages share: paths, the version, the words, and archives whose bytes depend on their contents and the commit's time alone."""

import gzip
import hashlib
import os
import re
import shutil
import subprocess
import sys
import tarfile
import time
import zipfile

sys.path.append(os.path.join(os.path.dirname(os.path.dirname(os.path.abspath(__file__))), "book"))
from markdown import Renderer

ROOT = os.path.dirname(os.path.dirname(os.path.abspath(__file__)))
OUT = os.path.join(ROOT, "target", "dist")
STAGE = os.path.join(OUT, "stage")
TARGETS = os.path.join(ROOT, "target", "targets")
SUMMARY = "A geometric constraint engine for flat patterns, in which every answer is proved"
OWNER = "Wesamiloon"
MAINTAINER = "Wesamiloon maintainers <maintainers@users.noreply.wesamiloon.example>"


def root(*parts):
    """A path of the repository."""
    return os.path.join(ROOT, *parts)


def read(*parts):
    """A file of the repository as text."""
    with open(root(*parts), encoding="utf-8") as file:
        return file.read()


def run(*command, **options):
    """Runs a command, which must succeed: what it prints."""
    return subprocess.run(command, check=True, stdout=subprocess.PIPE, text=True, **{"cwd": ROOT, **options}).stdout


#: The version, from its one place.
VERSION = re.search(r'#define PATTERN_VERSION +"(.*)"', read("include", "pattern_text.h"))[1]
#: The time of the commit.
TIME = int(run("git", "log", "-1", "--format=%ct"))


def stage(name):
    """An empty folder to gather a package in."""
    folder = os.path.join(STAGE, name)
    shutil.rmtree(folder, ignore_errors=True)
    os.makedirs(folder)
    return folder


def copy(source, *to, mode=0o644):
    """Copies a file, by its path or its name in the repository."""
    target = os.path.join(*to)
    os.makedirs(os.path.dirname(target), exist_ok=True)
    shutil.copyfile(root(source), target)
    os.chmod(target, mode)


def write(text, *to):
    """Writes a text, in which the version is put."""
    target = os.path.join(*to)
    os.makedirs(os.path.dirname(target), exist_ok=True)
    with open(target, "w", encoding="utf-8", newline="\n") as file:
        file.write(text.replace("@VERSION@", VERSION))
    os.chmod(target, 0o644)


def examples(*to):
    """The sheets in text."""
    for name in sorted(os.listdir(root("examples", "text"))):
        copy(f"examples/text/{name}", *to, name)


def guide(*to):
    """The guide as a page with its pictures; links within the repository lead to the examples, or nowhere."""
    def link(target, label):
        target = target.replace("../examples/text", "examples")
        return f'<a href="{target}">{label}</a>' if target.startswith(("examples", "#", "http")) else label
    text = read("docs", "GUIDE.md")
    page = read("packages", "guide.html").replace("@TITLE@", text.splitlines()[0].lstrip("# "))
    write(page.replace("@BODY@", Renderer(link=link).render(text)), *to, "guide.html")
    for name in sorted(set(re.findall(r"\]\(((?:pictures|page)/[\w./-]+\.(?:svg|png))\)", text))):
        copy(f"docs/{name}", *to, name)


def glibc(path, most):
    """Sees to it that a compiled file needs no newer glibc than is said of it."""
    needed = max((int(major), int(minor)) for major, minor in re.findall(r"GLIBC_(\d+)\.(\d+)", run("objdump", "-T", path)))
    if needed > most:
        sys.exit("packages: {} needs glibc {}.{}, and {}.{} is promised".format(os.path.basename(path), *needed, *most))


def files(folder):
    """The files and links below a folder, by name."""
    found = [os.path.join(at, name) for at, folders, names in os.walk(folder) for name in names + folders]
    return sorted(path for path in found if os.path.islink(path) or not os.path.isdir(path))


def tarball(folder, name):
    """Packs a folder under its own name."""
    def plain(info):
        info.uid, info.gid, info.uname, info.gname, info.mtime = 0, 0, "root", "root", TIME
        info.mode = 0o755 if info.mode & 0o100 else 0o644
        return info
    with open(os.path.join(OUT, name), "wb") as out, gzip.GzipFile("", "wb", 9, out, TIME) as packed:
        with tarfile.open(fileobj=packed, mode="w", format=tarfile.GNU_FORMAT) as archive:
            for path in files(folder):
                archive.add(path, os.path.relpath(path, os.path.dirname(folder)), filter=plain)


def zipped(folder, name, under=None):
    """Zips a folder under its own name, or what is in it."""
    with zipfile.ZipFile(os.path.join(OUT, name), "w", zipfile.ZIP_DEFLATED) as archive:
        for path in files(folder):
            inside = os.path.relpath(path, os.path.dirname(folder) if under is None else folder)
            info = zipfile.ZipInfo(inside, time.gmtime(TIME)[:6])
            info.compress_type = zipfile.ZIP_DEFLATED
            info.external_attr = (0o100755 if os.access(path, os.X_OK) else 0o100644) << 16
            with open(path, "rb") as file:
                archive.writestr(info, file.read())


def digest(path):
    """The SHA-256 sum of a file."""
    with open(path, "rb") as file:
        return hashlib.sha256(file.read())


def sums(folder, name="SHA256SUMS"):
    """Writes the sums of a folder's files, as sha256sum checks them."""
    paths = [path for path in files(folder) if os.path.basename(path) != name]
    write("".join(f"{digest(path).hexdigest()}  {os.path.relpath(path, folder)}\n" for path in paths), folder, name)
