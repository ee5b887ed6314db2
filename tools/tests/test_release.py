"""What release/make takes for proved, and what not, in a clone whose programs and libraries are made up."""

import shutil
import subprocess
import tempfile
import unittest
from pathlib import Path

from tools.command import TOP

OK = "rt: ok; handles allowed: none; must-fail edits: 9 refused, 0 bad; done in this run: 1 of the 3 proofs\n"
MADE = ("bin/report", "bin/species", "bin/pool", "lib/libevaporation.a", "lib/libevaporation.so.1")


def is_repository() -> bool:
    """Whether git reads a commit here."""
    words = ["git", "-C", str(TOP), "rev-parse", "--verify", "HEAD"]
    return shutil.which("git") is not None and subprocess.run(words, capture_output=True).returncode == 0


@unittest.skipUnless(shutil.which("rt") and is_repository(), "no kit, or no repository that git reads")
class ReleaseTest(unittest.TestCase):
    """A gate that has passed on a clone, and then something else."""

    @classmethod
    def setUpClass(cls):
        folder = tempfile.TemporaryDirectory(prefix="a release ")
        cls.addClassCleanup(folder.cleanup)
        cls.top = Path(folder.name, "repository")
        kept = ("README.md", "release")
        cls.git(TOP, "clone", "--quiet", "--depth", "1", "--no-checkout", TOP.as_uri(), str(cls.top))
        cls.git(cls.top, "reset", "--quiet", "--", *kept)
        for name in kept:  # as they are, committed or not
            (shutil.copytree if (TOP / name).is_dir() else shutil.copy)(TOP / name, cls.top / name)
        cls.git(cls.top, "add", "--", *kept)
        cls.commit("some files, as they are")
        cls.git(cls.top, "tag", "start")

    def setUp(self):
        self.git(self.top, "reset", "--quiet", "--hard", "start")
        shutil.rmtree(self.top / "target", ignore_errors=True)
        for name in MADE:
            path = self.top / "target" / name
            path.parent.mkdir(parents=True, exist_ok=True)
            path.write_text(name)

    @staticmethod
    def git(folder: Path, *words: str):
        subprocess.run(["git", "-C", str(folder), *words], check=True, capture_output=True)

    @classmethod
    def commit(cls, message: str):
        cls.git(cls.top, "-c", "user.name=a", "-c", "user.email=a@b", "commit", "--quiet", "--allow-empty",
                "--message", message)

    def bash(self, *words: str | Path) -> subprocess.CompletedProcess:
        return subprocess.run(["bash", *map(str, words)], cwd=self.top, capture_output=True, text=True)

    def begin(self):
        """A gate starts, and builds."""
        self.logs = self.top.parent / "logs"
        self.logs.mkdir(exist_ok=True)
        self.bash("release/seal", "begin", self.logs)
        for name in MADE:
            self.bash("release/seal", "built", self.logs, "target/" + name)

    def end(self, last: str = "235 passed, 0 failed", ok: str = OK) -> subprocess.CompletedProcess:
        (self.logs / "rt-ci.log").write_text("rt: something\n%s%s\n" % (ok, last))
        return self.bash("release/seal", "end", self.logs)

    def seal(self, last: str = "235 passed, 0 failed") -> subprocess.CompletedProcess:
        self.begin()
        return self.end(last)

    def assert_refused(self, why: str):
        run = self.bash("release/make", self.top.parent / "made")
        self.assertEqual((run.returncode, run.stderr), (1, "release/make: not proved: %s\n" % why))
        self.assertFalse((self.top.parent / "made").exists())

    def test_no_gate(self):
        self.assert_refused("there is no target/gate/proved: the gate, bash .ci/run, writes it")

    def test_gate_that_fails(self):
        self.assertEqual(self.seal("234 passed, 1 failed").returncode, 1)
        self.assert_refused("there is no target/gate/proved: the gate, bash .ci/run, writes it")

    def test_gate_that_passes(self):
        self.assertEqual(self.seal().returncode, 0)
        run = self.bash("-c", 'set -eu; . <(sed -n "/^doubt()/,/^}/p" release/make); doubt')
        self.assertEqual((run.returncode, run.stdout, run.stderr), (0, "", ""))

    def test_gate_whose_rt_ci_is_not_ok(self):
        for ok, why in (("", "rt ci has not said that it is ok"),
                        (OK.replace("9 refused, 0", "8 refused, 1"), "must-fail edits are bad: " + OK.replace(
                            "9 refused, 0", "8 refused, 1").strip())):
            self.begin()
            self.assertEqual(self.end(ok=ok).stderr, "release/seal: nothing is sealed: %s\n" % why)

    def test_gate_that_runs_again(self):
        self.seal()
        self.begin()
        self.assert_refused("the gate's last line is not 'N passed, 0 failed'")

    def test_another_commit(self):
        self.seal()
        self.commit("later")
        self.assert_refused("the gate has run on another commit")

    def test_files_changed_since(self):
        self.seal()
        (self.top / "README.md").write_text("another\n")
        self.assert_refused("files differ from the commit")

    def test_files_changed_before(self):
        (self.top / "README.md").write_text("another\n")
        self.seal()
        self.git(self.top, "checkout", "README.md")
        self.assert_refused("the gate has run on files that differ from the commit")

    def assert_not_sealed(self, why: str):
        found = self.end()
        self.assertEqual((found.returncode, found.stderr), (1, "release/seal: nothing is sealed: %s\n" % why))
        self.assertFalse((self.top / "target/gate/proved").exists())

    def test_commit_while_the_gate_runs(self):
        self.begin()
        self.commit("meanwhile")
        self.assert_not_sealed("the commit or a tracked file changed while the gate ran")

    def test_file_changed_while_the_gate_runs(self):
        self.begin()
        (self.top / "README.md").write_text("another\n")
        self.assert_not_sealed("the commit or a tracked file changed while the gate ran")

    def test_program_changed_while_the_gate_runs(self):
        self.begin()
        (self.top / "target/bin/pool").write_text("another")
        self.assert_not_sealed("target/ has other programs or libraries than were built")

    def test_program_that_was_not_built(self):
        self.begin()
        built = self.logs / "built"
        built.write_text("".join(line for line in built.read_text().splitlines(True) if "bin/pool" not in line))
        self.assert_not_sealed("target/bin/pool was not written down when it was built")

    def test_file_that_git_takes_for_unchanged(self):
        for flag in ("--assume-unchanged", "--skip-worktree"):
            self.seal()
            self.git(self.top, "update-index", flag, "README.md")
            (self.top / "README.md").write_text("another\n")
            self.assert_refused("files differ from the commit")
            self.git(self.top, "update-index", "--no-" + flag[2:], "README.md")
            self.git(self.top, "reset", "--quiet", "--hard", "start")

    def test_file_that_is_tracked_and_in_no_commit(self):
        self.seal()
        (self.top / "release/more").write_text("more\n")
        self.git(self.top, "add", "release/more")
        self.assert_refused("files differ from the commit")

    def test_program_of_another_time(self):
        self.seal()
        (self.top / "target/bin/pool").write_text("another")
        self.assert_refused("target/ has other programs or libraries than the gate has made")

    def test_seal_that_was_written_by_hand(self):
        self.seal()
        path = self.top / "target/gate/proved"
        path.write_text(path.read_text().replace("0 failed", "10 failed"))
        self.assert_refused("the gate's last line is not 'N passed, 0 failed'")
