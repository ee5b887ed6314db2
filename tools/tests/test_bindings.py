"""What the check of the binding for Rust sees."""

import unittest

from tools.check import bindings, header

HEADER = """
struct evp_check {
    uint64_t number; /* 0 where it is accepted */
    uint64_t place;
};
struct evp_row {
    uint64_t count;
    uint64_t words[6];
    double share;
};
struct evp_check evp_report(const uint8_t *sheet, size_t sheet_bytes, uint64_t *words, size_t words_count);
struct evp_row evp_read(const uint64_t *words, size_t words_count, uint64_t row);
"""
RUST = """
#[repr(C)]
pub struct Check {
    pub number: u64, // 0 where it is accepted
    pub place: u64,
}

#[repr(C)]
pub struct Row {
    pub count: u64,
    pub words: [u64; 6],
    pub share: f64,
}

extern "C" {
    pub fn evp_report(sheet: *const u8, sheet_bytes: usize, words: *mut u64, words_count: usize) -> Check;
    pub fn evp_read(
        words: *const u64,
        words_count: usize,
        row: u64,
    ) -> Row;
}
"""


class BindingsTest(unittest.TestCase):
    """A binding that does not declare what the header does."""

    def faults(self, rust: str = RUST) -> list[str]:
        return list(header.faults(bindings.rust_source(rust), header.header_source(HEADER)))

    def changed(self, old: str, new: str) -> list[str]:
        self.assertEqual(RUST.count(old), 1, old)
        return self.faults(RUST.replace(old, new))

    def test_same(self):
        self.assertEqual(self.faults(), [])

    def test_pointer_that_is_written(self):
        self.assertEqual(len(self.changed("sheet: *const u8", "sheet: *mut u8")), 1)

    def test_pointer_to_another_type(self):
        self.assertEqual(len(self.changed("words: *mut u64", "words: *mut u8")), 1)

    def test_parameters_exchanged(self):
        self.assertEqual(len(self.changed("words_count: usize,\n        row: u64,",
                                          "row: u64,\n        words_count: usize,")), 4)

    def test_member_of_another_type(self):
        self.assertEqual(len(self.changed("share: f64", "share: u64")), 1)

    def test_members_exchanged(self):
        self.assertEqual(len(self.changed("pub number: u64, // 0 where it is accepted\n    pub place: u64,",
                                          "pub place: u64,\n    pub number: u64,")), 1)

    def test_array_of_another_length(self):
        self.assertEqual(len(self.changed("[u64; 6]", "[u64; 5]")), 1)

    def test_call_left_out(self):
        self.assertEqual(self.changed("pub fn evp_report", "fn evp_report"), ["evp_report is in the header alone"])

    def test_version(self):
        text = "#define EVP_LIBRARY_MAJOR 2\n#define EVP_LIBRARY_MINOR 10\n#define EVP_LIBRARY_PATCH 3\n"
        self.assertEqual(bindings.version_in(text), "2.10.3")
