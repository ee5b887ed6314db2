"""The pointer forms that are written from the header: what they are, and that every one is exported and tested."""

import re
import unittest

from tools.check import header
from tools.command import TOP
from tools.make import pointers
from tools.make.error import MakeError

HEADER = """
struct evp_check { uint64_t number; uint64_t place; };
struct evp_cell { uint64_t kind; double low, high; };
struct evp_check evp_report(const uint8_t *sheet, size_t sheet_bytes, uint64_t *words, size_t words_count);
struct evp_cell evp_add(struct evp_cell a, struct evp_cell b);
uint64_t evp_version(void);
/* Pointer forms: old ones. */
uint64_t evp_old_to(void);
/* End of the pointer forms. */
"""
REPORT = """
uint64_t evp_report_to(const uint8_t *sheet, size_t sheet_bytes, uint64_t *words, size_t words_count, uint64_t *place) {
    const struct evp_check answer = evp_report(sheet, sheet_bytes, words, words_count);
    if (place != NULL)
        *place = answer.place;
    return answer.number;
}
"""
ADD = """
uint64_t evp_add_to(const struct evp_cell *a, const struct evp_cell *b, struct evp_cell *answer) {
    const struct evp_cell found = evp_add(*a, *b);
    if (answer != NULL)
        *answer = found;
    return found.kind;
}
"""


def declared_forms() -> set[str]:
    section = header.FORMS.findall((TOP / header.HEADER).read_text(encoding="ascii"))
    return set(re.findall(r"^\w+ (evp_\w+_to)\(", section[0], re.M))


class PointersTest(unittest.TestCase):
    def test_definitions(self):
        made = pointers.file_made(header.header_source(HEADER))
        self.assertEqual(made, pointers.BEGIN + REPORT + ADD + pointers.TEXT_BODY)

    def test_section(self):
        """The section of the forms is written again, and nothing else changes."""
        made = pointers.header_made(HEADER, header.header_source(HEADER))
        self.assertEqual(header.FORMS.sub("", made), header.FORMS.sub("", HEADER))
        self.assertNotIn("evp_old_to", made)
        self.assertIn("\n%s);\n" % ADD.strip().split(") {")[0], made)
        self.assertEqual(pointers.header_made(made, header.header_source(made)), made)
        with self.assertRaises(MakeError):
            pointers.header_made(header.FORMS.sub("", HEADER), header.header_source(HEADER))

    def test_call_without_a_form(self):
        """Of a struct that is taken where none is answered, it says that it has no form."""
        text = HEADER.replace("uint64_t evp_version(void)", "uint64_t evp_version(struct evp_cell of)")
        with self.assertRaisesRegex(MakeError, "evp_version"):
            pointers.file_made(header.header_source(text))

    def test_exported_and_tested(self):
        """Every form is named in the map of the exports, and compared by c/pointer_test.c."""
        forms = declared_forms()
        self.assertGreater(len(forms), 20)
        exported = set(re.findall(r"\b(evp_\w+_to);", (TOP / "c/exports.map").read_text(encoding="utf-8")))
        self.assertEqual(exported, forms)
        test = (TOP / "c/pointer_test.c").read_text(encoding="utf-8")
        compared = set(re.findall(r"\b(?:CHECK|WHOLE)\((evp_\w+),", test)) | set(re.findall(r'seen\("(evp_\w+)"', test))
        self.assertEqual({name + "_to" for name in compared}, forms)


if __name__ == "__main__":
    unittest.main()
