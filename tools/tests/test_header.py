"""What the check of the header sees."""

import unittest

from tools.check import header

CRATE = """
#[repr(C)]
pub struct Span {
    pub low: u64,
    pub high: u64,
}

#[repr(C)]
#[derive(Drop)]
pub struct Words {
    pub town: bool, // in town
    pub soak: Span,
    pub share: f64,
    pub parts: [u64; 3],
}

#[unsafe(no_mangle)]
pub extern "C" fn evp_a(sheet: &[u8], words: &mut [u64], row: u64, town: bool) -> Words
    ensures { result ≡ evp_b(x: u64) }
{
    ..
}

#[unsafe(no_mangle)]
pub extern "C" fn evp_b(
    of: Words,
) -> usize
{ .. }
"""
HEADER = """
#define EVP_A(x) \\
    ((x) + 1)
/* The words. */
struct evp_words {
    bool town; /* in town */
    uint64_t soak_low, soak_high;
    double share;
    uint64_t parts[3];
};
struct evp_words evp_a(const uint8_t *sheet, size_t sheet_bytes, uint64_t *words, size_t words_count,
                       uint64_t row, bool town);
size_t evp_b(struct evp_words of);
"""


class HeaderTest(unittest.TestCase):
    """A header that is not that of the crate."""

    def faults(self, found: str = HEADER) -> list[str]:
        return list(header.faults(header.crate_source(CRATE, CRATE), header.header_source(found)))

    def changed(self, old: str, new: str) -> list[str]:
        self.assertEqual(HEADER.count(old), 1, old)
        return self.faults(HEADER.replace(old, new))

    def test_same(self):
        self.assertEqual(self.faults(), [])

    def test_exchanged_parameters(self):
        found = self.changed("uint64_t row, bool town", "bool town, uint64_t row")
        self.assertIn("evp_a, parameter 5: row in the crate, town in the header", found)
        self.assertIn("evp_a, parameter 5: uint64_t in the crate, bool in the header", found)

    def test_exchanged_parameters_of_one_type(self):
        """Told apart by their names alone."""
        crate = 'pub extern "C" fn evp_c(season: u64, row: u64) -> u64'
        for text, faults in (
            ("uint64_t evp_c(uint64_t season, uint64_t row);", 0),
            ("uint64_t evp_c(uint64_t row, uint64_t season);", 2),
        ):
            found = list(header.faults(header.crate_source(crate, crate), header.header_source(text)))
            self.assertEqual(len(found), faults, found)

    def test_no_parameters(self):
        crate = 'pub extern "C" fn evp_c() -> u64'
        for text, faults in (("uint64_t evp_c(void);", 0), ("uint64_t evp_c(uint64_t row);", 1)):
            found = list(header.faults(header.crate_source(crate, crate), header.header_source(text)))
            self.assertEqual(len(found), faults, found)

    def test_inline(self):
        """A function that the header itself has is none of the crate, and neither is what it calls."""
        inline = "static inline const char *evp_d(uint64_t x) {\n    return evp_e(x);\n}\n"
        self.assertEqual(self.faults(HEADER + inline), [])
        self.assertEqual(len(self.faults(HEADER + "uint64_t evp_d(uint64_t x);\n")), 1)

    def test_numbers_in_their_order(self):
        asked = header.numbers_asked("demand 1 0 A next -- demand 9 0 B\n    demand 7 0 C next\n    demand 2 8 D\n")
        self.assertEqual(asked, (1, 7, 2))
        crate = header.crate_source(CRATE, CRATE)._replace(numbers=asked)
        for numbers, faults in (("EVP_C = 1, EVP_D = 7, EVP_E = 2, EVP_F = 3", 0), ("EVP_C = 1, EVP_D = 7", 1),
                                ("EVP_C = 1, EVP_E = 2, EVP_D = 7", 1)):
            enum = "enum evp_number {\n    EVP_ACCEPTED = 0,\n    %s\n};\n" % numbers
            self.assertEqual(len(list(header.faults(crate, header.header_source(HEADER + enum)))), faults, numbers)

    def test_length_by_its_name(self):
        named = "#define EVP_PARTS 3\n" + HEADER.replace("parts[3]", "parts[EVP_PARTS]")
        self.assertEqual(self.faults(named), [])
        self.assertEqual(len(self.faults(named.replace("EVP_PARTS 3", "EVP_PARTS 4"))), 2)

    def test_exchanged_slices(self):
        self.assertTrue(self.changed("const uint8_t *sheet, size_t sheet_bytes, uint64_t *words, size_t words_count",
                                     "uint64_t *words, size_t words_count, const uint8_t *sheet, size_t sheet_bytes"))
        self.assertTrue(self.changed("size_t words_count", "size_t sheet_count"))

    def test_exchanged_fields(self):
        found = self.changed("soak_low, soak_high", "soak_high, soak_low")
        self.assertIn("evp_a, what it answers: struct evp_words is not Words: "
                      "uint64_t high_soak at byte 8 in the header, uint64_t low_soak at byte 8 in the crate", found)

    def test_other_types(self):
        for old, new in (
            ("uint64_t row", "uint32_t row"), ("const uint8_t *sheet", "uint8_t *sheet"),
            ("double share", "uint64_t share"),
            ("parts[3]", "parts[4]"), ("size_t evp_b", "uint64_t evp_b"), ("bool town; ", "uint64_t town; "),
            ("size_t evp_b(struct evp_words of)", "size_t evp_b(uint64_t of)"),
        ):
            with self.subTest(new=new):
                self.assertTrue(self.changed(old, new))

    def test_missing(self):
        self.assertEqual(self.changed("size_t evp_b(struct evp_words of);", ""), ["evp_b is in the crate alone"])
        self.assertEqual(self.faults(HEADER + "size_t evp_d(bool x);"), ["evp_d is in the header alone"])
        self.assertTrue(self.changed("uint64_t row, ", ""))

    def test_two_structs_for_one(self):
        two = HEADER[HEADER.index("struct evp_words {"):HEADER.index("struct evp_words evp_a")].replace(
            "evp_words", "evp_other")
        found = self.faults(HEADER.replace("size_t evp_b(struct evp_words of)",
                                           two + "size_t evp_b(struct evp_other of)"))
        self.assertEqual(found, ["Words is evp_other and evp_words"])

    def test_struct_that_is_not_used(self):
        self.assertEqual(self.faults(HEADER + "struct evp_more { uint64_t x; };"),
                         ["struct evp_more is used by no function"])

    def test_names(self):
        """A refusal, another number and a call cannot be taken for one another."""
        refusals = "enum evp_number { EVP_ACCEPTED = 0, EVP_REFUSED_ROOM = 22, EVP_REFUSED_A = 23 };\n"
        kinds = "enum evp_kind { EVP_CELL_NONE = 3, EVP_CELL_BAND = 2 };\n"
        self.assertEqual(list(header.name_faults(refusals + kinds)), [])
        for old, new, fault in (
            ("EVP_REFUSED_A =", "EVP_MARK =", "enum evp_number: not every refusal is named EVP_REFUSED_.."),
            ("EVP_CELL_BAND", "EVP_BAND", "enum evp_kind: its names do not share one word behind EVP_"),
            ("EVP_CELL", "EVP_REFUSED", "enum evp_kind: its names do not share one word behind EVP_"),
            ("};\nenum", "};\nuint64_t evp_cell_none(void);\nenum",
             "EVP_CELL_NONE and evp_cell_none differ by their case alone"),
        ):
            with self.subTest(new=new):
                self.assertIn(fault, ", ".join(header.name_faults((refusals + kinds).replace(old, new))))


class ExportsTest(unittest.TestCase):
    """A static library over a library."""

    CALLED = """
// The sum.
#[unsafe(no_mangle)]
pub extern "C" fn evp_sum(
    a: u64,
    words: &mut [u64],
) -> EvpSum
    requires { a < 9 } // few
    ensures { Sum a words.new result }
{
    if a < 1 {
        return none();
    }
    some(a, words)
}

fn none() -> EvpSum {
    EvpSum { number: 0 }
}
"""
    EXPORT = """
#[unsafe(no_mangle)]
pub extern "C" fn evp_sum(a: u64, words: &mut [u64]) -> EvpSum
    requires { a < 9 }
    ensures { Sum a words.new result }
{
    evaporation::sums::evp_sum(a, words)
}
"""

    def faults(self, export: str) -> list[str]:
        called = header.exports_of(self.CALLED, "evaporation::sums")
        return list(header.export_faults(header.exports_of(export), called))

    def test_the_same(self):
        self.assertEqual(self.faults(self.EXPORT), [])

    def test_another(self):
        for old, new in (("a < 9", "a < 8"), ("Sum a", "Sum 0"), ("    requires { a < 9 }\n", ""),
                         ("-> EvpSum", "-> u64"), ("fn evp_sum", "fn evp_add"), ("(a, words)", "(words, a)"),
                         ("sums::evp_sum(", "sums::evp_add("), ("    evap", "    other();\n    evap"),
                         ("#[unsafe(no_mangle)]\n", "")):
            with self.subTest(new=new):
                self.assertEqual(self.EXPORT.count(old), 1, old)
                self.assertNotEqual(self.faults(self.EXPORT.replace(old, new)), [])

    def test_those_of_the_crates(self):
        self.assertEqual(list(header.own_export_faults()), [])
