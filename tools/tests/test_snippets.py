"""What the check of docs/LIBRARY.md sees."""

import unittest

from tools.check import snippets
from tools.command import TOP

FIRST = (TOP / "examples/first.py").read_text(encoding="utf-8")
PAGE = "Before.\n\n<!-- examples/first.py -->\n```python\n%s```\n\nBehind `evp_report` and `evp_text()`.\n" % FIRST
HEADER = """
enum evp_number { EVP_ACCEPTED = 0, EVP_REFUSED_LENGTH = 7 };
struct evp_check evp_report(const uint8_t *sheet, size_t sheet_bytes); /* as evp_other() */
static inline const char *evp_text(uint64_t number) {
    switch (number) {
    case 0: return evp_inner(0);
    }
}
static inline const char *evp_number_text(uint64_t number) {
    switch (number) {
    case EVP_REFUSED_LENGTH: return "the length "
        "is wrong";
    }
}
"""


CALL = """## The calls

### `evp_report`

```c
struct evp_check evp_report(const uint8_t *sheet, size_t sheet_bytes);
```

- **Takes** a sheet.
- **Answers** a number.
- **Promises** much.
- **Costs** little.

## Behind
"""


class SnippetsTest(unittest.TestCase):
    """A document that shows or names what is not there."""

    def test_same(self):
        self.assertEqual(list(snippets.snippet_faults(PAGE)), [])
        self.assertEqual(snippets.written(PAGE, HEADER), PAGE)

    def test_calls(self):
        declared = HEADER.replace("; /* as evp_other() */", ";")
        self.assertEqual(list(snippets.call_faults(CALL, declared)), [])
        self.assertEqual(list(snippets.snippet_faults(PAGE + CALL)), [])
        self.assertEqual(len(list(snippets.call_faults(PAGE, declared))), 1)
        for old, new in (("size_t sheet_bytes", "size_t bytes"), ("- **Costs** little.\n", "")):
            self.assertEqual(len(list(snippets.call_faults(CALL.replace(old, new), declared))), 1, old)
        stale = CALL.replace("size_t sheet_bytes", "size_t bytes")
        self.assertEqual(snippets.written(stale, declared), CALL)

    def test_lines_of_code(self):
        self.assertEqual(snippets.code_lines("/* a */\n#include <a.h>\n\nint main(void) {\n    return 0; // b\n}\n"), 2)
        self.assertEqual(snippets.code_lines("import a\nfrom b import c\n\nfor d in e:\n    f(d)\n"), 2)
        self.assertEqual(snippets.code_lines("//! a\nuse b;\nfn c() {\n    d(\n    );\n}\n"), 2)

    def test_stale(self):
        stale = PAGE.replace("import sys", "import os")
        self.assertEqual(len(list(snippets.snippet_faults(stale))), 1)
        self.assertEqual(snippets.written(stale, HEADER), PAGE)

    def test_no_such_file(self):
        self.assertEqual(len(list(snippets.snippet_faults(PAGE.replace("first.py", "last.py")))), 1)

    def test_block_that_no_test_runs(self):
        self.assertEqual(len(list(snippets.snippet_faults(PAGE + "\n```c\nint x;\n```\n"))), 1)
        self.assertEqual(list(snippets.snippet_faults(PAGE + "\n```console\n$ ls\n```\n")), [])

    def test_names(self):
        declared = snippets.header_functions(HEADER)
        self.assertEqual(declared, {"evp_report", "evp_text", "evp_number_text"})
        self.assertEqual(list(snippets.name_faults(PAGE, declared - {"evp_number_text"})), [])
        self.assertEqual(len(list(snippets.name_faults(PAGE, declared))), 1)
        self.assertEqual(len(list(snippets.name_faults(PAGE, {"evp_report"}))), 1)

    def test_refusals(self):
        texts = snippets.header_texts(HEADER)
        self.assertEqual(texts, {7: "the length is wrong"})
        self.assertEqual(list(snippets.refusal_faults("    refused 7 at 0: the length is wrong\n", texts)), [])
        self.assertEqual(len(list(snippets.refusal_faults("`refused 7 at 0: too long`", texts))), 1)
