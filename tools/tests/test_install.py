"""c/install on a small repository whose crates are made up: what it makes again, where it puts it, and what the shared
library looks like. The kit is a script that compiles two calls and counts how often it made an archive of them."""

import os
import re
import shutil
import stat
import subprocess
import tempfile
import unittest
from pathlib import Path

from tools.command import TOP

KIT = """#!/bin/sh
case $1:$(basename "$PWD") in
version:*) cat "$KIT_VERSION" ;;
lib:evaporation_c)
    echo archive >> "$KIT_RUNS"
    mkdir -p out
    gcc -c -fPIC -o out/calls.o src/calls.c
    rm -f out/libevaporation_c.a
    ar rc out/libevaporation_c.a out/calls.o ;;
lib:*) echo "rt: $(basename "$PWD") is built" ;;
esac
"""
CALLS = "int helper(void) { return 1; }\nint evp_one(void) { return helper(); }\nint evp_two(void) { return 2; }\n"
FORMS = "int evp_two(void);\nint evp_two_to(void) { return evp_two(); }\n"
NEWER = "EVP_1.0 {\n    global: evp_one;\n    local: *;\n};\nEVP_1.1 {\n    global: evp_two;\n} EVP_1.0;\n"
CRATES = "# The crates\n\n# Some: of them\nnumbers:\nsheet: numbers\nreport: sheet\nevaporation_c staticlib: sheet\n"
OLDER = "EVP_1.0 {\n    global: evp_*;\n    local: *;\n};\n"
VERSION = subprocess.run(["bash", TOP / "c/version"], capture_output=True, text=True, check=True).stdout.strip()
LIBRARY = "libevaporation.so." + VERSION


@unittest.skipUnless(all(map(shutil.which, ("gcc", "ar", "nm", "readelf"))), "gcc or binutils are not installed")
class InstallTest(unittest.TestCase):
    """A repository with three crates under the library, and one that it does not need."""

    def setUp(self):
        folder = tempfile.TemporaryDirectory(prefix="an installation ")
        self.addCleanup(folder.cleanup)
        self.top = Path(folder.name, "repository")
        self.prefix = Path(folder.name, "prefix")
        self.runs, self.version = Path(folder.name, "runs"), Path(folder.name, "version")
        shutil.copytree(TOP / "c", self.top / "c")
        shutil.copytree(TOP / "include", self.top / "include")
        self.put("c/exports.map", OLDER)
        self.put("c/pointer_forms.c", FORMS)
        self.put("crates.txt", CRATES)
        for name in ("numbers", "sheet", "report"):
            self.put("crates/%s/src/lib.rt" % name, name)
        self.put("crates/evaporation_c/src/calls.c", CALLS)
        self.put("../bin/rt", KIT).chmod(0o755)
        self.runs.write_text("")
        self.version.write_text("a kit\n")

    def put(self, name: str, text: str) -> Path:
        path = self.top / name
        path.parent.mkdir(parents=True, exist_ok=True)
        path.write_text(text, encoding="utf-8")
        return path

    def install(self, **more: str) -> subprocess.CompletedProcess:
        path = "%s:%s" % (self.top.parent / "bin", os.environ["PATH"])
        words = {"PATH": path, "KIT_RUNS": str(self.runs), "KIT_VERSION": str(self.version), **more}
        return subprocess.run(["bash", self.top / "c/install", self.prefix], capture_output=True, text=True,
                              env={**os.environ, **words})

    def assert_made(self, times: int, **more: str):
        """Installs, and the kit has made the library so many times since the start."""
        run = self.install(**more)
        self.assertEqual(run.returncode, 0, run.stderr)
        self.assertEqual(len(self.runs.read_text().split()), times, run.stderr)

    def exports(self, library: Path) -> set[str]:
        listed = subprocess.run(["nm", "-D", "--defined-only", library], capture_output=True, text=True, check=True)
        return {line.split(maxsplit=1)[1] for line in listed.stdout.splitlines()}

    def test_unchanged_files_make_nothing(self):
        self.assert_made(1)
        before = (self.top / "target/lib" / LIBRARY).stat().st_mtime_ns
        for path in sorted(self.top.rglob("*")):
            if not {"target", "out"} & set(path.parts):
                os.utime(path)  # touched, with the same bytes
        self.put("crates/report/src/lib.rt", "a crate that the library does not need")
        self.put("crates/sheet/must-fail/one.edit", "an edit")
        self.put("README.md", "a document")
        self.assert_made(1)
        self.assertEqual((self.top / "target/lib" / LIBRARY).stat().st_mtime_ns, before)
        self.assertEqual([path for path in self.top.rglob("*") if path.is_symlink()], [])

    def test_changed_crate_is_made_again(self):
        self.assert_made(1)
        self.put("crates/numbers/src/lib.rt", "another")
        self.assert_made(2)
        self.put("crates/sheet/proofs/more.antt", "a new file")
        self.assert_made(3)
        self.version.write_text("another kit\n")
        self.assert_made(4)
        self.assert_made(4)

    def test_link_alone(self):
        """A changed map of the exports is linked again, and nothing is proved."""
        self.assert_made(1)
        self.put("c/exports.map", NEWER)
        self.assert_made(1)
        self.assertEqual(self.exports(self.prefix / "lib" / LIBRARY),
                         {"A EVP_1.0", "A EVP_1.1", "T evp_one@@EVP_1.0", "T evp_two@@EVP_1.1"})
        self.assertNotIn("linked again", self.install().stderr)

    def test_pointer_forms_alone(self):
        """Changed pointer forms are put into both libraries, and nothing is proved."""
        self.assert_made(1)
        self.put("c/exports.map", OLDER)
        self.put("c/pointer_forms.c", FORMS.replace("evp_two_to", "evp_other_to"))
        self.assert_made(1)
        self.assertIn("T evp_other_to@@EVP_1.0", self.exports(self.prefix / "lib" / LIBRARY))
        library = self.prefix / "lib/libevaporation.a"
        listed = subprocess.run(["nm", library], capture_output=True, text=True, check=True)
        self.assertEqual(set(re.findall(r" T (evp_\w+)", listed.stdout)), {"evp_one", "evp_two", "evp_other_to"})

    def test_library(self):
        """Version nodes, links, mode, and no table of symbols."""
        self.assert_made(1)
        lib = self.prefix / "lib"
        self.assertEqual(self.exports(lib / LIBRARY), {
            "A EVP_1.0", "T evp_one@@EVP_1.0", "T evp_two@@EVP_1.0", "T evp_two_to@@EVP_1.0"})
        self.assertEqual(os.readlink(lib / "libevaporation.so"), "libevaporation.so.1")
        self.assertEqual(os.readlink(lib / "libevaporation.so.1"), LIBRARY)
        self.assertEqual(stat.S_IMODE((lib / LIBRARY).stat().st_mode), 0o644)
        listed = subprocess.run(["readelf", "-SW", lib / LIBRARY], capture_output=True, text=True, check=True)
        self.assertNotIn(".symtab", listed.stdout)

    def test_older_library_is_refused_before_main(self):
        """A program that needs a call of EVP_1.1 does not start with a library that has EVP_1.0 alone."""
        self.assert_made(1)
        old = self.top.parent / "old"
        shutil.copytree(self.prefix / "lib", old, symlinks=True)
        self.put("c/exports.map", NEWER)
        self.assert_made(1)
        source = self.put("main.c", '#include <stdio.h>\nint evp_two(void);\n'
                                    'int main(void) { puts("main"); return evp_two() != 2; }\n')
        program = self.top.parent / "program"
        subprocess.run(["gcc", "-o", program, source, "-L%s" % (self.prefix / "lib"), "-levaporation"], check=True)

        def started(folder: Path) -> subprocess.CompletedProcess:
            return subprocess.run([program], capture_output=True, text=True,
                                  env={**os.environ, "LD_LIBRARY_PATH": str(folder)})
        self.assertEqual((started(self.prefix / "lib").returncode, started(self.prefix / "lib").stdout), (0, "main\n"))
        refused = started(old)
        self.assertEqual(refused.stdout, "")
        self.assertIn("version `EVP_1.1' not found", refused.stderr)

    def test_folder_of_libraries(self):
        multiarch = "lib/x86_64-linux-gnu"
        self.assert_made(1, LIBDIR=multiarch)
        self.assertTrue((self.prefix / multiarch / LIBRARY).is_file())
        self.assertFalse((self.prefix / "lib" / LIBRARY).exists())
        text = (self.prefix / multiarch / "pkgconfig/evaporation.pc").read_text()
        self.assertIn("prefix=${pcfiledir}/../../..\nlibdir=${prefix}/%s\n" % multiarch, text)
        for wrong in ("/lib", "../lib", "lib/../x"):
            run = self.install(LIBDIR=wrong)
            self.assertEqual((run.returncode, run.stdout), (2, ""), wrong)
            self.assertIn("usage: bash c/put", run.stderr)

    def test_prefix_that_a_package_names(self):
        self.assert_made(1)
        subprocess.run(["bash", self.top / "c/put", self.prefix, "lib", "/usr"], check=True)
        text = (self.prefix / "lib/pkgconfig/evaporation.pc").read_text()
        self.assertTrue(text.startswith("prefix=/usr\nlibdir=${prefix}/lib\n"), text)


if __name__ == "__main__":
    unittest.main()
