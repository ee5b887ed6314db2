"""Lines that are too long, and how Markdown is wrapped."""

import unittest

from tools.check import lines

LONG = " ".join(["word"] * 40)
TEXT = """\
# %(long)s

%(long)s

| %(long)s |
|---|

    %(long)s

- %(long)s
  %(long)s

  %(long)s

      %(long)s

```console
%(long)s
```

https://example.org/%(link)s
""" % {"long": LONG, "link": "x" * 130}


class LinesTest(unittest.TestCase):
    """Which lines are told, and what becomes of them."""

    def test_told(self):
        """The paragraph, the two lines of the item and its second paragraph."""
        self.assertEqual(list(lines.long_lines(TEXT, ".md")), [3, 10, 11, 13])
        self.assertEqual(len(list(lines.long_lines(TEXT, ".py"))), 10, "elsewhere every long line is told")

    def test_rattle(self):
        text = "\n".join("x" * length for length in (120, 121, 150, 151))
        self.assertEqual(list(lines.long_lines(text, ".sh")), [2, 3, 4])
        self.assertEqual(list(lines.long_lines(text, ".rt")), [4])
        self.assertEqual(list(lines.long_lines(text, ".antt")), [4])
        tactic = "#[tactic(%s)]" % ("x" * 150)
        self.assertEqual(list(lines.long_lines(tactic, ".rt")), [], "rt fmt puts it on one line")
        self.assertEqual(list(lines.long_lines(tactic, ".antt")), [1])

    def test_wrapped(self):
        made = lines.rewrapped(TEXT)
        self.assertEqual(list(lines.long_lines(made, ".md")), [])
        self.assertEqual(made.split(), TEXT.split(), "no word is lost")
        self.assertEqual(lines.rewrapped(made), made)
        for kept in ("# " + LONG, "| %s |" % LONG, "    " + LONG, "      " + LONG):
            self.assertIn("\n%s\n" % kept, "\n" + made)

    def test_short_blocks_stay(self):
        text = "One line.\nAnother, not filled.\n\n- an item\n- one\n  more\n\n1. a list\n"
        self.assertEqual(lines.rewrapped(text), text)

    def test_item(self):
        made = lines.rewrapped("- " + LONG + "\n").splitlines()
        self.assertEqual([line[:3] for line in made], ["- w", "  w"])

    def test_no_line_becomes_an_item(self):
        """A sign or a number that would start an item stays behind a word."""
        for sign in ("+", "-", "*", "12.", "#4", "|"):
            text = " ".join(["a" * 116, "b", sign, "26 words"]) + " " + LONG + "\n"
            for line in lines.rewrapped(text).splitlines():
                self.assertFalse(line.startswith(sign), line)

    def test_code_stays_whole(self):
        text = "a" * 100 + " `python3 -m tools.check lines --wrap` and more\n"
        self.assertEqual(lines.rewrapped(text).splitlines()[1], "`python3 -m tools.check lines --wrap` and more")
