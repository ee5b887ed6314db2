"""What a command does not do unasked: follow links out of a folder, and install packages."""

import os
import subprocess
import unittest

from support import TEXT, TOP, DeskTestCase, run

HEADER = "sheet,row,mechanism,mass,unit\n"


class LinkTest(DeskTestCase):
    def test_links(self):
        """A link that leads out of a folder of sheets is not read; one within it is, and so is a linked folder."""
        secret = self.put_sheet("secret.evp", TEXT)
        north = self.put_sheet("sheets/north.evp", TEXT)
        (self.folder / "sheets/out.evp").symlink_to(secret)
        (self.folder / "sheets/within.evp").symlink_to("north.evp")
        (self.folder / "linked").symlink_to(north.parent)
        filed = self.put("filed.csv", HEADER + "out.evp,total,,1,kg\nwithin.evp,total,,1,kg\nnorth.evp,total,,1,kg\n")
        for folder in ("sheets", "linked"):
            found = run("mark", self.folder / folder, "--filed", filed, "-o", self.folder / "marks.csv", "--force")
            self.assert_plain(found, 2)
            self.assertIn("out.evp: a link that leads out of the folder, and is not followed", found.err)
            lines = (self.folder / "marks.csv").read_text().splitlines()
            self.assertEqual(lines[1].split(","), [
                "out.evp", "total", "", "1", "kg", "unreadable", "", "", "",
                '"a link that leads out of the folder', ' and is not followed"', ""])
            self.assertEqual([line.split(",")[5] for line in lines[2:]], ["low", "low"])


class InstallTest(DeskTestCase):
    """With a folder of programs in which apt-get only writes down that it was called."""

    def setUp(self):
        super().setUp()
        for name in ("apt-get", "dpkg-query"):
            program = self.put("bin/" + name, '#!/bin/sh\necho %s "$@" >> "%s"\n' % (name, self.folder / "called"))
            program.chmod(0o755)

    def bash(self, *words: str, **more: str) -> tuple[int, str, bool]:
        """The exit status, the last line that is said, and whether anything was installed."""
        environment = {name: value for name, value in os.environ.items() if name not in ("CI", "EVP_INSTALL")}
        environment |= {"PATH": "%s:%s" % (self.folder / "bin", os.environ["PATH"]), **more}
        found = subprocess.run(["bash", *words], cwd=TOP, env=environment, capture_output=True, text=True)
        called = self.folder / "called"
        installed = called.exists() and " install " in called.read_text()
        called.unlink(missing_ok=True)
        return found.returncode, (found.stderr.splitlines() or [""])[-1], installed

    def test_need(self):
        self.assertEqual(self.bash("c/need", "sh", "no-such-command=a-package", "no-other"),
                         (1, "missing: sudo apt-get install a-package no-other", False))
        self.assertEqual(self.bash("c/need", "sh"), (0, "", False))
        for more in ({"CI": "true"}, {"EVP_INSTALL": "1"}):
            self.assertTrue(self.bash("c/need", "no-such-command=a-package", **more)[2])

    def test_pages(self):
        status, said, installed = self.bash(".ci/install", "pages")
        self.assertEqual((status, said, installed), (
            1, "missing: sudo apt install python3-flask python3-jinja2 python3-waitress python3-openpyxl python3-odf",
            False))
        if os.getuid() == 0:
            self.assertTrue(self.bash(".ci/install", "pages", "--install")[2])
            self.assertTrue(self.bash(".ci/install", "pages", EVP_INSTALL="1")[2])

    def test_hosts(self):
        status, said, installed = self.bash(".ci/install", "hosts")
        self.assertEqual((status, installed), (1, False))
        self.assertRegex(said, "^missing: sudo apt install gfortran .*libjna-java .*r-base-core$")


if __name__ == "__main__":
    unittest.main()
