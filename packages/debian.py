"""The Debian packages: libpattern1, libpattern-dev and pattern."""

import gzip
import os
import time

from common import MAINTAINER, OUT, TIME, VERSION, copy, examples, files, guide, read, run, stage, write

MAJOR = VERSION.split(".")[0]
LIB = "usr/lib/x86_64-linux-gnu"
LIBRARY = f"libpattern{MAJOR}"
ABOUT = """ Sheets are patterns of points, lines and circles with distances, angles and
 contacts, as glazing works draw them. The engine says whether a sheet is
 fully dimensioned, plans its construction and names what is missing or too
 many. Verdicts, plans and reports are proved against their definitions.
"""


def pressed(text, *to):
    """Writes a text compressed."""
    target = os.path.join(*to)
    os.makedirs(os.path.dirname(target), exist_ok=True)
    with open(target, "wb") as out, gzip.GzipFile("", "wb", 9, out, 0) as packed:
        packed.write(text.replace("@VERSION@", VERSION).encode())
    os.chmod(target, 0o644)


def needs(*paths):
    """What compiled files need of other packages."""
    folder = stage("needs")
    write("Source: pattern\n\nPackage: pattern\nArchitecture: any\n", folder, "debian", "control")
    printed = run("dpkg-shlibdeps", "-O", "--warnings=0", *("-e" + path for path in paths), cwd=folder)
    return printed.strip().split("=", 1)[1]


def finish(folder, name, section, depends, what):
    """Adds what every package has, and builds it."""
    doc = os.path.join(folder, "usr/share/doc", name)
    stamp = time.strftime("%a, %d %b %Y %H:%M:%S +0000", time.gmtime(TIME))
    pressed(f"pattern ({VERSION}) unstable; urgency=medium\n\n  * Release {VERSION}.\n\n -- {MAINTAINER}  {stamp}\n", doc, "changelog.gz")
    write(read("COPYRIGHT"), doc, "copyright")
    size = sum(os.lstat(path).st_size for path in files(folder)) // 1024 + 1
    control = {
        "Package": name, "Source": "pattern", "Version": VERSION, "Architecture": "amd64", "Maintainer": MAINTAINER, "Installed-Size": size,
        "Section": section, "Priority": "optional", "Depends": depends, "Description": f"geometric constraint engine for flat patterns - {what}",
    }
    if name == LIBRARY:
        control["Multi-Arch"] = "same"
    if name == "pattern":
        control["Source"] = ""
    lines = [f"{key}: {value}\n" for key, value in control.items() if value != ""]
    lines.sort(key=lambda line: line.startswith("Description"))
    write("".join(lines) + ABOUT, folder, "DEBIAN", "control")
    listed = [path for path in files(folder) if not os.path.islink(path) and "/DEBIAN/" not in path]
    write("".join(f"{run('md5sum', path).split()[0]}  {os.path.relpath(path, folder)}\n" for path in listed), folder, "DEBIAN", "md5sums")
    environment = {**os.environ, "SOURCE_DATE_EPOCH": str(TIME)}
    run("dpkg-deb", "--root-owner-group", "-Zxz", "--build", folder, os.path.join(OUT, f"{name}_{VERSION}_amd64.deb"), env=environment)


def library(installed):
    """The shared library."""
    folder = stage(LIBRARY)
    name = f"libpattern.so.{VERSION}"
    copy(os.path.join(installed, "lib", name), folder, LIB, name)
    run("strip", "--strip-unneeded", os.path.join(folder, LIB, name))
    os.symlink(name, os.path.join(folder, LIB, f"libpattern.so.{MAJOR}"))
    write(f"libpattern {MAJOR} {LIBRARY} (>= {VERSION})\n", folder, "DEBIAN", "shlibs")
    names = sorted(set(run("sh", "-c", "targets/names").split()))
    lines = "".join(f" {function}@Base {VERSION}\n" for function in names)
    write(f"libpattern.so.{MAJOR} {LIBRARY} #MINVER#\n{lines}", folder, "DEBIAN", "symbols")
    write("activate-noawait ldconfig\n", folder, "DEBIAN", "triggers")
    finish(folder, LIBRARY, "libs", needs(os.path.join(folder, LIB, name)), "library")


def development(installed):
    """Headers, static library, and what pkg-config reads."""
    folder = stage("libpattern-dev")
    for name in ("pattern.h", "pattern_text.h"):
        copy(os.path.join(installed, "include", name), folder, "usr/include", name)
    copy(os.path.join(installed, "lib/libpattern.a"), folder, LIB, "libpattern.a")
    run("strip", "--strip-debug", os.path.join(folder, LIB, "libpattern.a"))
    os.symlink(f"libpattern.so.{MAJOR}", os.path.join(folder, LIB, "libpattern.so"))
    template = read("c", "pattern.pc.in").replace("@PREFIX@", "/usr").replace("${prefix}/lib", "${prefix}/" + LIB[4:])
    write(template, folder, LIB, "pkgconfig/pattern.pc")
    for name in ("Makefile", "facts.c"):
        copy(f"examples/pkg-config/{name}", folder, "usr/share/doc/libpattern-dev/examples", name)
    finish(folder, "libpattern-dev", "libdevel", f"{LIBRARY} (= {VERSION})", "development files")


def command(installed):
    """The command, its man page, completion, guide and examples."""
    folder = stage("pattern")
    os.makedirs(os.path.join(folder, "DEBIAN"))
    copy(os.path.join(installed, "bin/pattern"), folder, "usr/bin/pattern", mode=0o755)
    run("strip", os.path.join(folder, "usr/bin/pattern"))
    pressed(read("man", "pattern.1"), folder, "usr/share/man/man1/pattern.1.gz")
    for source, to in (("bash-completion/completions/pattern",) * 2, ("fish/vendor_completions.d/pattern.fish",) * 2,
                       ("zsh/site-functions/_pattern", "zsh/vendor-completions/_pattern")):
        copy(os.path.join(installed, "share", source), folder, "usr/share", to)
    guide(folder, "usr/share/doc/pattern")
    examples(folder, "usr/share/doc/pattern/examples")
    finish(folder, "pattern", "science", needs(os.path.join(folder, "usr/bin/pattern")), "command")


def build(installed):
    """All three, from what `make install` installed."""
    library(installed)
    development(installed)
    command(installed)
