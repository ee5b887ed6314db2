"""The check of the names in the documents."""

import tempfile
import unittest
from pathlib import Path
from unittest import mock

from tools.check import names
from tools.command import TOP


class NamesTest(unittest.TestCase):
    """What is told of a page, in a repository of its own."""

    FILES = {
        "crates/a/src/lib.rt": "pub const MOST: u64 = 3;\npub fn read(s: &[u8]) -> u64\n",
        "crates/a/specs/Limits.antt": "abbrev pub most : ℕ\nmost = 3\npub ◌≤ᶠ◌ : ℕ\n  pub trips-minutes : ℕ\n",
        "crates/a/proofs/Laws.antt": "pub reads : ℕ\n", "docs/A.md": "# A page\n\n## What it's for\n",
    }

    def setUp(self):
        folder = tempfile.TemporaryDirectory()
        self.addCleanup(folder.cleanup)
        self.top = Path(folder.name)
        for name, text in self.FILES.items():
            (self.top / name).parent.mkdir(parents=True, exist_ok=True)
            (self.top / name).write_text(text, encoding="utf-8")
        self.enterContext(mock.patch.object(names, "TOP", self.top))

    def told(self, text: str) -> list[str]:
        page = self.top / "docs" / "B.md"
        page.write_text(text, encoding="utf-8")
        return [*names.link_faults(page), *names.path_faults(names.words_of(page)), *names.function_faults(page),
                *names.law_faults(names.words_of(page))]

    def test_good(self):
        for text in (
            "`read` and `MOST` in crates/a/src/lib.rt, `most` in\ncrates/a/specs/Limits.antt.",
            "`trips-minutes` in crates/a/specs/Limits.antt",
            "crates/NAME/src/none.rt and crates/*/none and crates/../x.rt",
            "`reads` in a/proofs/Laws", "[a](A.md), [b](A.md#what-its-for), [c](https://example.org/x)",
        ):
            with self.subTest(text=text):
                self.assertEqual(self.told(text), [])

    def test_faults(self):
        for text, fault in (
            ("`reed` in crates/a/src/lib.rt", "crates/a/src/lib.rt has no reed"),
            ("`rea` in crates/a/src/lib.rt", "crates/a/src/lib.rt has no rea"),
            ("`mos` in crates/a/specs/Limits.antt", "crates/a/specs/Limits.antt has no mos"),
            ("see crates/a/src/none.rt", "there is no crates/a/src/none.rt"),
            ("`none` in a/proofs/Laws", "crates/a/proofs/Laws.antt has no none"),
            ("[a](C.md)", "a link to C.md, which is not there"),
            ("[a](A.md#gone)", "a link to A.md, and no heading there is #gone"),
        ):
            with self.subTest(text=text):
                self.assertEqual(self.told(text), [fault])

    def test_unknown(self):
        known = names.source_names()
        self.assertLessEqual({"read", "trips-minutes", "MOST", "Limits", "crates"}, known)
        self.assertEqual(list(names.unknown_faults("`read`, `trips-minutes`, `a / b`, `ff`, `--help`", known)), [])
        self.assertEqual(list(names.unknown_faults("`reads` and `trips`", known)), ["no source file has trips"])

    def test_tables(self):
        good = "| File | Definition |\n|---|---|\n| a: Limits | `most` `≤ᶠ` |\n| | `trips-minutes` |\n"
        self.assertEqual(list(names.spec_faults(good)), [])
        for old, new, fault in (
            ("`most`", "`mist`", "crates/a/specs/Limits.antt has no mist"),
            ("`trips-minutes`", "`trips`", "crates/a/specs/Limits.antt has no trips"),
            ("a: Limits", "a: Gone", "there is no crates/a/specs/Gone.antt"),
        ):
            self.assertIn(fault, list(names.spec_faults(good.replace(old, new))))
        self.assertEqual(list(names.unread_faults(good)), [])
        left_out = good.replace("a: Limits", "a: Gone")
        self.assertEqual(list(names.unread_faults(left_out)), ["nothing is said of a: Limits"])


class ReadmeTest(unittest.TestCase):
    """README.md stays short."""

    def test_size(self):
        self.assertLessEqual(len((TOP / "README.md").read_bytes()), 4 * 1024)


if __name__ == "__main__":
    unittest.main()
