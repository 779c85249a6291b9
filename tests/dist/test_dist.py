"""Each package, installed into an empty root, folder or environment, and tried there."""

import os
import re
import resource
import shutil
import subprocess
import sys
import tempfile
import time
import unittest

ROOT = os.path.abspath(os.path.join(os.path.dirname(__file__), "..", ".."))
DIST = os.path.join(ROOT, "target", "dist")
EXAMPLE = os.path.join(ROOT, "tests", "programs", "report", "example.sheet")
with open(os.path.join(ROOT, "include", "pattern_text.h")) as header:
    VERSION = re.search(r'#define PATTERN_VERSION +"(.*)"', header.read())[1]
NAME = "pattern-" + VERSION
NAMES = [
    "SHA256SUMS", f"libpattern-dev_{VERSION}_amd64.deb", f"libpattern1_{VERSION}_amd64.deb", f"{NAME}-javascript.tgz",
    f"{NAME}-py3-none-manylinux_2_17_x86_64.whl", f"{NAME}-py3-none-win_amd64.whl", f"{NAME}-source.tar.gz", f"{NAME}-x86_64-linux.tar.gz",
    f"{NAME}-x86_64-windows.zip", f"{NAME}.crate", f"{NAME}.html", f"pattern_{VERSION}_amd64.deb",
]
#: The verdict of some examples, as docs/GUIDE.md tells them.
VERDICTS = {"braced": "over", "frame": "under", "gable": "well", "hipped": "angle", "lattice": "stuck", "light": "well", "open": "well",
            "rails": "well", "triangle": "angle"}
#: What a machine has that has neither the kit nor anything of this repository.
BARE = {"PATH": "/usr/bin:/bin:/usr/sbin:/sbin", "HOME": "/nonexistent", "LANG": "C.UTF-8"}
WINE = {**BARE, "WINEPREFIX": os.path.join(ROOT, "target", "targets", "wine"), "WINEDEBUG": "-all",
        "WINEDLLOVERRIDES": "mscoree=;mshtml=;winemenubuilder.exe="}
#: Debian's Rust.
RUST = {**BARE, "RUSTC": "/usr/bin/rustc", "RUSTDOC": "/usr/bin/rustdoc", "CARGO_NET_OFFLINE": "true"}


def path(name):
    """A package."""
    return os.path.join(DIST, name)


def run(*command, status=0, **options):
    """Runs a command, which must end with a status: what it prints."""
    done = subprocess.run(command, stdout=subprocess.PIPE, stderr=subprocess.STDOUT, text=True, **{"env": BARE, **options})
    if done.returncode != status:
        raise AssertionError(f"{' '.join(command)}: status {done.returncode}\n{done.stdout}")
    return done.stdout


def wine(*command, **options):
    """What a Windows program prints on standard output."""
    return subprocess.run(["wine", *command], stdout=subprocess.PIPE, stderr=subprocess.DEVNULL, text=True, env=WINE, **options).stdout


def verdicts(printed):
    """The verdicts that `pattern check` printed, by the names of the files."""
    return {os.path.basename(name.replace("\\", "/")): verdict for name, verdict in re.findall(r"^(\S+)\.txt: (\w+)", printed, re.MULTILINE)}


class Dist(unittest.TestCase):
    """A test has an empty folder of its own."""

    def setUp(self):
        self.folder = tempfile.mkdtemp()
        self.addCleanup(shutil.rmtree, self.folder)

    def at(self, *parts):
        return os.path.join(self.folder, *parts)

    def unpacked(self, name):
        run("tar", "-xf", path(name), "-C", self.folder)
        return self.folder

    def put(self, name, text):
        os.makedirs(os.path.dirname(self.at(name)), exist_ok=True)
        with open(self.at(name), "w") as file:
            file.write(text)

    def text(self, *parts):
        """A file as text."""
        with open(self.at(*parts)) as file:
            return file.read()

    def owned(self, folder, name):
        """The copyright line stands in a file."""
        self.assertRegex(self.text(folder, name), r"^Copyright \d{4} Wesamiloon\.")

    def judged(self, printed, names):
        """Every example has a verdict, and those that are known have theirs."""
        found = verdicts(printed)
        self.assertEqual(sorted(name + ".txt" for name in found), sorted(map(os.path.basename, names)))
        self.assertEqual({name: found[name] for name in VERDICTS}, VERDICTS)

    def guided(self, folder):
        """The guide is there, and every picture of it."""
        pictures = re.findall('<img src="([^"]*)"', self.text(folder, "guide.html"))
        self.assertGreaterEqual(len(pictures), 9)
        for name in pictures:
            with open(self.at(folder, name), "rb") as file:
                picture = file.read()
            self.assertTrue(b"<svg" in picture if name.endswith(".svg") else picture.startswith(b"\x89PNG"), name)

    def sketched(self, *page):
        """The sketch page is there, the one of the release, and asks nothing of others."""
        self.assertEqual(self.text(*page), self.text(path(f"{NAME}.html")))
        self.assertIn("default-src 'none'", self.text(*page))

    def compiled(self, compiler, flags, program):
        """The C program of examples/pkg-config, compiled."""
        source = os.path.join(ROOT, "examples", "pkg-config", "facts.c")
        run(compiler, "-std=c11", "-Wall", "-Wextra", "-Werror", source, *flags, "-o", self.at(program))

    def facts(self, printed):
        """What that program prints of the example sheet."""
        self.assertTrue(printed.startswith("element 0 is a point") and printed.strip().endswith(f"well, says version {VERSION}"), printed)

    def test_all_are_there_and_their_sums(self):
        self.assertEqual(sorted(os.listdir(DIST)), NAMES)
        run("sha256sum", "--check", "--strict", "SHA256SUMS", cwd=DIST)

    def test_linux(self):
        here = os.path.join(self.unpacked(f"{NAME}-x86_64-linux.tar.gz"), f"{NAME}-x86_64-linux")
        self.owned(here, "COPYRIGHT")
        self.guided(os.path.join(here, "share/pattern"))
        self.sketched(here, "share/pattern/pattern.html")
        sheets = os.path.join(here, "share/pattern/examples")
        names = [os.path.join(sheets, name) for name in sorted(os.listdir(sheets))]
        self.judged(run(os.path.join(here, "bin/pattern"), "check", *names, status=1), names)
        self.assertEqual(run(os.path.join(here, "bin/pattern"), "--version"), f"pattern {VERSION}\n")
        flags = run("pkg-config", "--cflags", "--libs", "pattern", env={**BARE, "PKG_CONFIG_PATH": os.path.join(here, "lib/pkgconfig")}).split()
        self.compiled("cc", flags, "facts")
        self.facts(run(self.at("facts"), EXAMPLE, env={**BARE, "LD_LIBRARY_PATH": os.path.join(here, "lib")}))
        code = f"import pattern; print(pattern.version(), pattern.verdict(open({EXAMPLE!r}, 'rb').read()).name)"
        printed = run(sys.executable, "-Bc", code, env={**BARE, "PYTHONPATH": os.path.join(here, "share/pattern")})
        self.assertEqual(printed, f"{VERSION} WELL\n")

    def test_debian(self):
        packages = [path(name) for name in NAMES if name.endswith(".deb")]
        self.assertEqual(run("lintian", "--allow-root", "--fail-on", "error,warning", *packages), "")
        admin = self.at("var/lib/dpkg")
        for folder in ("info", "updates", "triggers"):
            os.makedirs(os.path.join(admin, folder))
        open(os.path.join(admin, "status"), "w").close()
        # of what they need only libc6 and libgcc-s1 are not in the root
        words = ("dpkg", "--root=" + self.folder, "--force-not-root", "--force-script-chrootless", "--log=/dev/null", "--no-triggers")
        printed = run(*words, "--force-depends", "--install", *packages)
        unmet = {name for name in re.findall(r"depends on (\S+)", printed)}
        self.assertLessEqual(unmet, {"libc6", "libgcc-s1"})
        for package in ("libpattern1", "libpattern-dev", "pattern"):
            self.assertIn("install ok", run("dpkg-query", "--admindir=" + admin, "-W", "-f=${Status} ${Version}", package))
            self.owned(self.at("usr/share/doc", package), "copyright")
        self.guided(self.at("usr/share/doc/pattern"))
        sheets = self.at("usr/share/doc/pattern/examples")
        names = [os.path.join(sheets, name) for name in sorted(os.listdir(sheets))]
        self.judged(run(self.at("usr/bin/pattern"), "check", *names, status=1), names)
        self.assertIn(f"pattern {VERSION}", run("man", "--pager=cat", self.at("usr/share/man/man1/pattern.1.gz")))
        libraries = self.at("usr/lib/x86_64-linux-gnu")
        config = {**BARE, "PKG_CONFIG_SYSROOT_DIR": self.folder, "PKG_CONFIG_LIBDIR": os.path.join(libraries, "pkgconfig"),
                  "PKG_CONFIG_ALLOW_SYSTEM_CFLAGS": "1", "PKG_CONFIG_ALLOW_SYSTEM_LIBS": "1"}
        self.compiled("cc", run("pkg-config", "--cflags", "--libs", "pattern", env=config).split(), "facts")
        self.facts(run(self.at("facts"), EXAMPLE, env={**BARE, "LD_LIBRARY_PATH": libraries}))
        run(*words, "--purge", "libpattern-dev", "libpattern1", "pattern")
        self.assertFalse(os.path.exists(self.at("usr")))

    def test_wheel_of_linux(self):
        run(sys.executable, "-m", "venv", self.at("venv"), env=os.environ)
        python = self.at("venv", "bin", "python")
        run(python, "-m", "pip", "install", "--no-index", "--disable-pip-version-check", path(f"{NAME}-py3-none-manylinux_2_17_x86_64.whl"))
        os.makedirs(self.at("copy", "python"))
        shutil.copy(os.path.join(ROOT, "python", "test_pattern.py"), self.at("copy", "python"))
        for name in ("tests", "examples", "include", "rust"):
            os.symlink(os.path.join(ROOT, name), self.at("copy", name))
        printed = run(python, "-B", self.at("copy", "python", "test_pattern.py"))
        self.assertIn("\nOK\n", printed)
        where = run(python, "-c", "import pattern; print(pattern.__file__, pattern.version(), pattern._library._name)")
        self.assertTrue(where.startswith(self.at("venv")) and os.path.dirname(where.split()[0]) == os.path.dirname(where.split()[2]), where)
        listed = run(python, "-m", "pip", "--disable-pip-version-check", "show", "--files", "pattern")
        self.assertIn(f"Version: {VERSION}\n", listed)
        self.assertIn("COPYRIGHT", listed)

    def test_wheel_of_windows(self):
        """No Python for Windows is to be had without a network: pip unpacks the wheel, and its library is called under wine."""
        words = ("--no-index", "--no-compile", "--disable-pip-version-check", "--platform", "win_amd64", "--only-binary=:all:",
                 "--target", self.at("site"))
        run(sys.executable, "-m", "pip", "install", *words, path(f"{NAME}-py3-none-win_amd64.whl"), env=os.environ)
        self.assertEqual(sorted(os.listdir(self.at("site", "pattern"))), ["__init__.py", "pattern.dll", "py.typed"])
        self.owned(self.at("site", f"{NAME}.dist-info"), "COPYRIGHT")
        self.put("load.c", """#include <stdio.h>
            #include <windows.h>
            int main(int count, char **words)
            {
                HMODULE library = LoadLibraryA(words[count - 1]);
                if (!library)
                    return 1;
                const char *(*version)(void) = (const char *(*)(void))(void *)GetProcAddress(library, "pattern_version");
                int (*verdict)(const void *, size_t) = (int (*)(const void *, size_t))(void *)GetProcAddress(library, "pattern_verdict");
                printf("%s %d", version(), verdict("PF01\\x02\\0\\0", 7));
            }""")
        run("x86_64-w64-mingw32-gcc", self.at("load.c"), "-o", self.at("load.exe"))
        self.assertEqual(wine(self.at("load.exe"), "site\\pattern\\pattern.dll", cwd=self.folder), f"{VERSION} 4")

    def test_windows(self):
        run("python3", "-m", "zipfile", "-e", path(f"{NAME}-x86_64-windows.zip"), self.folder, env=os.environ)
        here = self.at(f"{NAME}-x86_64-windows")
        self.owned(here, "COPYRIGHT.txt")
        self.guided(here)
        self.sketched(here, "pattern.html")
        printed = wine("pattern.exe", "check", "examples\\*.txt", cwd=here)
        names = sorted(os.listdir(os.path.join(here, "examples")))
        self.judged(printed, names)
        native = os.path.join(ROOT, "target", "cargo", "release", "pattern")
        wanted = run(native, "check", *("examples/" + name for name in names), cwd=here, status=1)
        self.assertEqual(printed.replace("\r", "").replace("examples\\", "examples/"), wanted)
        self.assertEqual(wine("pattern.exe", "--version", cwd=here).strip(), f"pattern {VERSION}")
        self.compiled("x86_64-w64-mingw32-gcc", ["-I" + os.path.join(here, "include"), "-L" + here, "-lpattern"], "facts.exe")
        shutil.copy(os.path.join(here, "pattern.dll"), self.folder)
        shutil.copy(EXAMPLE, self.at("example.sheet"))
        self.facts(wine("facts.exe", "example.sheet", cwd=self.folder))

    def test_crate(self):
        self.owned(self.unpacked(f"{NAME}.crate"), f"{NAME}/COPYRIGHT")
        self.assertIn(f'version = "{VERSION}"', self.text(NAME, "Cargo.toml"))
        self.put("user/Cargo.toml", f"""[package]
            name = "user"
            version = "0.0.0"
            edition = "2021"
            [lib]
            crate-type = ["cdylib"]
            path = "lib.rs"
            [[bin]]
            name = "user"
            path = "main.rs"
            [dependencies]
            pattern = {{ path = "../{NAME}" }}
            """)
        self.put("user/main.rs", 'fn main() { println!("{:?}", pattern::verdict(b"PF01\\x02\\0\\0")); }')
        self.put("user/lib.rs", '#[no_mangle] pub extern "C" fn under() -> i32 { pattern::verdict(b"PF01\\x02\\0\\0").map_or(-1, |v| v as i32) }')
        cargo = {**RUST, "CARGO_TARGET_DIR": self.at("target")}
        self.assertRegex(run("/usr/bin/cargo", "test", "--quiet", "--doc", cwd=self.at(NAME), env=cargo), r"ok\. \d\d passed; 0 failed")
        self.assertEqual(run("/usr/bin/cargo", "run", "--quiet", "--bin", "user", cwd=self.at("user"), env=cargo), "Ok(Under)\n")
        run("/usr/bin/cargo", "build", "--quiet", "--bin", "user", "--target", "x86_64-pc-windows-gnu", cwd=self.at("user"), env=cargo)
        self.assertEqual(wine("user.exe", cwd=self.at("target/x86_64-pc-windows-gnu/debug")).strip(), "Ok(Under)")
        run("/usr/bin/cargo", "build", "--quiet", "--lib", "--target", "wasm32-unknown-unknown", cwd=self.at("user"), env=cargo)
        code = "WebAssembly.instantiate(require('fs').readFileSync('user.wasm')).then(w => console.log(w.instance.exports.under()))"
        self.assertEqual(run("node", "-e", code, cwd=self.at("target/wasm32-unknown-unknown/debug")), "4\n")

    def test_javascript(self):
        os.makedirs(self.at("node_modules"))
        self.unpacked(f"{NAME}-javascript.tgz")
        self.owned(self.at("package"), "COPYRIGHT")
        os.rename(self.at("package"), self.at("node_modules", "pattern"))
        self.put("try.mjs", f"""import * as pattern from 'pattern';
            import {{ readFileSync }} from 'node:fs';
            const sheet = readFileSync({EXAMPLE!r});
            console.log(pattern.version(), pattern.report(sheet).split('\\n')[0]);""")
        self.assertEqual(run("node", "try.mjs", cwd=self.folder), f"{VERSION} verdict well\n")
        self.assertIn(f'"version": "{VERSION}"', self.text("node_modules", "pattern", "package.json"))

    def test_source(self):
        """Two commands, without the kit, by Debian's Rust; the time is told. Objects that were changed or are missing are told too."""
        start, before = time.monotonic(), resource.getrusage(resource.RUSAGE_CHILDREN)
        run("tar", "-xf", path(f"{NAME}-source.tar.gz"), cwd=self.folder)
        printed = run("make", "-C", f"{NAME}-source", "try", cwd=self.folder)
        after = resource.getrusage(resource.RUSAGE_CHILDREN)
        cpu = after.ru_utime + after.ru_stime - before.ru_utime - before.ru_stime
        print(f"dist: from the source archive to a verdict: {time.monotonic() - start:.0f} s, {cpu:.0f} s of a core")
        self.assertIn("gable.txt: well", printed)
        here = self.at(f"{NAME}-source")
        self.owned(here, "COPYRIGHT")
        origin = self.text(here, "objects", "ORIGIN")
        self.assertRegex(origin, r"^module [0-9a-f]{64}\nkit rattle-kit\S* logic [0-9a-f]+\ncommit [0-9a-f]{40}\n$")
        self.assertIn(origin, printed)
        run("make", "-C", here, "install", "DESTDIR=" + self.at("root"), "PREFIX=/usr")
        self.assertEqual(run(self.at("root/usr/bin/pattern"), "--version"), f"pattern {VERSION}\n")
        for name in ("aarch64-linux", "x86_64-linux", "x86_64-windows", "wasm32"):
            self.assertEqual(len(run("ar", "t", os.path.join(here, "objects", name, "libpattern_c.a")).split()), 1)

        changed = os.path.join(here, "objects", "x86_64-linux", "libpattern_c.a")
        with open(changed, "r+b") as file:
            file.seek(50_000)
            byte = file.read(1)
            file.seek(50_000)
            file.write(bytes([byte[0] ^ 1]))
        self.assertIn("x86_64-linux/libpattern_c.a: FAILED", run("make", "-C", here, status=2))
        shutil.rmtree(os.path.join(here, "objects"))
        shutil.rmtree(os.path.join(here, "target"))
        self.assertIn("the Rattle kit is missing (no command rt), and no proved objects", run("make", "-C", here, status=2))
        told = run("make", "-C", here, status=2, env={**BARE, "CARGO": "/nonexistent/cargo"})
        self.assertIn("cargo with Rust 1.63 or newer is missing", told)


if __name__ == "__main__":
    unittest.main()
