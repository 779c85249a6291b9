"""The installed library: an empty prefix, pkg-config, C and C++, the shared and the static library, the Python module, the man page."""

import os
import re
import shutil
import subprocess
import sys
import tempfile
import unittest

ROOT = os.path.abspath(os.path.join(os.path.dirname(__file__), "..", ".."))
FILES = """
bin/pattern include/pattern.h include/pattern_text.h lib/libpattern.a lib/libpattern.so lib/libpattern.so.1 lib/libpattern.so.1.0.0
lib/pkgconfig/pattern.pc share/bash-completion/completions/pattern share/fish/vendor_completions.d/pattern.fish share/man/man1/pattern.1
share/pattern/pattern.py share/pattern/pattern.schema.json share/pattern/rust/Cargo.toml share/pattern/rust/build.rs
share/pattern/rust/src/answer.rs share/pattern/rust/src/c.rs share/pattern/rust/src/facts.rs share/pattern/rust/src/lib.rs
share/pattern/rust/src/limits.rs share/pattern/rust/src/plan.rs share/pattern/rust/src/report.rs share/pattern/rust/src/rule.rs
share/pattern/rust/src/rules.h share/pattern/rust/src/sheet.rs share/pattern/rust/src/sketch.rs share/pattern/rust/src/verdict.rs
share/zsh/site-functions/_pattern
""".split()
EXAMPLE = os.path.join(ROOT, "tests", "programs", "report", "example.sheet")


def run(*command, **options):
    """Runs a command, which must succeed: what it prints."""
    return subprocess.run(command, check=True, capture_output=True, **options).stdout.decode()


class Install(unittest.TestCase):
    """One installation, looked at from all sides."""

    @classmethod
    def setUpClass(cls):
        cls.prefix = tempfile.mkdtemp()
        run("make", "--quiet", "install", "PREFIX=" + cls.prefix, cwd=ROOT)
        folder = os.path.join(cls.prefix, "lib", "pkgconfig")
        cls.environment = {**os.environ, "PKG_CONFIG_PATH": folder, "LD_LIBRARY_PATH": os.path.join(cls.prefix, "lib")}

    @classmethod
    def tearDownClass(cls):
        shutil.rmtree(cls.prefix)

    def installed(self):
        found = [os.path.join(folder, name) for folder, _, names in os.walk(self.prefix) for name in names]
        return sorted(os.path.relpath(path, self.prefix) for path in found)

    def path(self, name):
        return os.path.join(self.prefix, name)

    def test_files(self):
        self.assertEqual(self.installed(), FILES)
        self.assertTrue(os.access(self.path("bin/pattern"), os.X_OK))
        names = run("readelf", "-d", self.path("lib/libpattern.so"))
        self.assertIn("Library soname: [libpattern.so.1]", names)

    def test_the_versions_are_one(self):
        version = run("pkg-config", "--modversion", "pattern", env=self.environment).strip()
        self.assertEqual(run(self.path("bin/pattern"), "--version"), f"pattern {version}\n")
        with open(self.path("include/pattern_text.h")) as file:
            header = file.read()
        parts = [f"#define PATTERN_VERSION_{name} {part}\n" for name, part in zip(("MAJOR", "MINOR", "PATCH"), version.split("."))]
        for line in [f'#define PATTERN_VERSION       "{version}"\n', *parts]:
            self.assertIn(line, header)

    def test_every_function_of_the_headers_is_in_both_libraries(self):
        declared = set()
        for name in ("pattern.h", "pattern_text.h"):
            with open(self.path("include/" + name)) as file:
                declared |= set(re.findall(r"^(?:int32_t|uint64_t|const char) \*?(pattern_\w+)\(", file.read(), re.MULTILINE))
        self.assertGreaterEqual(len(declared), 28)
        for arguments in (["-D", self.path("lib/libpattern.so")], [self.path("lib/libpattern.a")]):
            lines = [line.split() for line in run("nm", "-g", *arguments).splitlines()]
            defined = {words[2] for words in lines if len(words) == 3 and words[1] == "T"}
            self.assertEqual(defined, declared)

    def test_pkg_config(self):
        with tempfile.TemporaryDirectory() as folder:
            for name in ("Makefile", "facts.c", "edit.c"):
                shutil.copy(os.path.join(ROOT, "examples", "pkg-config", name), folder)
            run("make", "--quiet", "-C", folder, env=self.environment)
            facts = os.path.join(folder, "facts")
            self.assertIn("libpattern.so.1", run("readelf", "-d", facts))
            wanted = run(facts, EXAMPLE, env=self.environment)
            self.assertTrue(wanted.startswith("element 0 is a point\n") and wanted.endswith("well, says version 1.0.0\n"), wanted)
            self.assertIn("constraint 4 holds 2 and 3 by 300\n", wanted)
            light = os.path.join(folder, "light.sheet")
            run(self.path("bin/pattern"), "make", os.path.join(ROOT, "examples", "text", "light.txt"), "-o", light)
            printed = run(facts, light, env=self.environment)
            self.assertIn("element 3 is a circle of radius 2500\n", printed)
            self.assertIn("constraint 4 holds 1 and 3 by their other contact\n", printed)
            edit, rails = os.path.join(folder, "edit"), os.path.join(ROOT, "examples", "text", "triangle.txt")
            lines, turned, added = (os.path.join(folder, name) for name in ("lines.sheet", "turned.sheet", "added.sheet"))
            with open(rails) as file:
                two = "".join(line for line in file if not line.startswith("angle a c"))
            with open(os.path.join(folder, "lines.txt"), "w") as file:
                file.write(two)
            run(self.path("bin/pattern"), "make", os.path.join(folder, "lines.txt"), "-o", lines)
            self.assertEqual(run(edit, lines, "2", "0", "12000", turned, env=self.environment), "angle\n")
            run("sh", "-c", '"$0" add "$1" "angle L2 L0 120" -o "$2"; [ $? = 1 ]', self.path("bin/pattern"), lines, added)
            with open(turned, "rb") as one, open(added, "rb") as other:
                self.assertEqual(one.read(), other.read())
            source, static = os.path.join(folder, "facts.c"), self.path("lib/libpattern.a")
            run("cc", "-std=c11", "-I" + self.path("include"), source, static, "-o", facts)
            self.assertEqual(run(facts, EXAMPLE), wanted)

    def test_cpp(self):
        source = os.path.join(ROOT, "tests", "tools", "header.cc")
        flags = run("pkg-config", "--cflags", "--libs", "pattern", env=self.environment).split()
        strict = ["-Wall", "-Wextra", "-Wpedantic", "-Werror"]
        with tempfile.TemporaryDirectory() as folder:
            program = os.path.join(folder, "header")
            for compiler in ("g++", "clang++"):
                for standard in ("c++11", "c++20"):
                    run(compiler, "-std=" + standard, *strict, source, *flags, "-o", program)
                    run(program, env=self.environment)

    def test_reading_under_the_sanitizers(self):
        sources = [os.path.join(ROOT, "tests", "tools", "read.c"), os.path.join(ROOT, "c", "pattern_text.c")]
        proved = os.path.join(ROOT, "target", "staticlib", "libpattern_c.a")
        flags = ["-std=c11", "-g", "-O1", "-Wall", "-Wextra", "-Wpedantic", "-Werror", "-fsanitize=address,undefined", "-fno-sanitize-recover=all"]
        with tempfile.TemporaryDirectory() as folder:
            program = os.path.join(folder, "read")
            run("cc", *flags, "-I" + self.path("include"), *sources, proved, "-o", program)
            run(program)

    def test_rust(self):
        """The wrapper links the installed library: from where it is installed itself, and from a copy by pkg-config and by PATTERN_LIB_DIR."""
        program = "fn main() { println!(\"{:?}\", pattern::verdict(&std::fs::read(std::env::args().nth(1).unwrap()).unwrap())) }\n"
        plain = {name: value for name, value in os.environ.items() if name not in ("PATTERN_LIB_DIR", "PKG_CONFIG_PATH")}
        with tempfile.TemporaryDirectory() as folder:
            copy = os.path.join(folder, "copy")
            shutil.copytree(self.path("share/pattern/rust"), copy)
            found = [
                (self.path("share/pattern/rust"), {}),
                (copy, {"PKG_CONFIG_PATH": self.path("lib/pkgconfig")}),
                (copy, {"PATTERN_LIB_DIR": self.path("lib")}),
            ]
            for place, (wrapper, more) in enumerate(found):
                project = os.path.join(folder, str(place))
                os.makedirs(os.path.join(project, "src"))
                with open(os.path.join(project, "Cargo.toml"), "w") as file:
                    file.write(f'[package]\nname = "it"\nversion = "0.1.0"\nedition = "2021"\n[dependencies]\npattern = {{ path = "{wrapper}" }}\n')
                with open(os.path.join(project, "src", "main.rs"), "w") as file:
                    file.write(program)
                environment = {**plain, **more, "CARGO_TARGET_DIR": os.path.join(folder, "target", str(place))}
                self.assertEqual(run("cargo", "run", "--offline", "--quiet", "--", EXAMPLE, cwd=project, env=environment), "Ok(Well)\n")

    def test_python(self):
        code = "import pattern; print(pattern.version(), pattern.verdict(open(%r, 'rb').read()).name)" % EXAMPLE
        environment = {"PATH": os.environ["PATH"], "PYTHONPATH": self.path("share/pattern"), "PYTHONDONTWRITEBYTECODE": "1"}
        self.assertEqual(run(sys.executable, "-c", code, env=environment), "1.0.0 WELL\n")

    def test_the_man_page_names_every_command_and_option(self):
        with open(self.path("share/man/man1/pattern.1")) as file:
            page = file.read().replace("\\-", "-")
        command = self.path("bin/pattern")
        names = [line.split()[0] for line in run(command, "--help").splitlines() if re.match("  [a-z]", line)]
        for name in names:
            self.assertIn(f".B {name}", page)
            for line in run(command, name, "--help").splitlines():
                for word in line.split() if line.startswith("  -") else []:
                    if word.startswith("--"):
                        self.assertIn(word, page)

    def test_uninstall(self):
        with tempfile.TemporaryDirectory() as folder:
            for target in ("install", "uninstall"):
                run("make", "--quiet", target, "DESTDIR=" + folder, "PREFIX=/opt/it", cwd=ROOT)
                left = [name for _, _, names in os.walk(folder) for name in names]
                self.assertEqual(len(left), len(FILES) if target == "install" else 0)


if __name__ == "__main__":
    unittest.main()
