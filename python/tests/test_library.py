"""The calls in Python: against the header, against the second reckoning, and against what the programs print."""

import random
import re
import subprocess
import unittest
from collections.abc import Iterator
from ctypes import POINTER, c_char_p, c_uint8, c_uint64, sizeof

from support import GRID_TEXT, LIBRARY, TEXT, TOP, DeskTestCase, sample, samples

from evp import explain, layout, library, sheet
from evp.library import Band, Cell, Filed, Kind, Masses, MissingCall, Number, Outcome, Refusal, Travel, Unit
from tools import reckoning
from tools.check import header
from tools.reckoning import cells as second_cells
from tools.reckoning import marking
from tools.reckoning import pool as second_pool
from tools.reckoning import species as second_species

HEADER = (TOP / "include" / "evaporation.h").read_text(encoding="utf-8")
STRUCTS = {
    "evp_check": library._Check, "evp_factor_band": library._FactorBand, "evp_pool_check": library._PoolCheck,
    "evp_factor_bands": library._FactorBands, "evp_text_check": library._TextCheck,
    "evp_composition": library._Composition, "evp_row_words": library._RowWords, "evp_travel": library._Travel,
    "evp_cell": library._Cell, "evp_row_cells": library._RowCells, "evp_cell_sum": library._CellSum,
    "evp_row": library._Row,
    "evp_totals": library._Totals, "evp_filed": library._Filed, "evp_verdict": library._Verdict,
    "evp_finding": library._Finding,
}


class HeaderTest(unittest.TestCase):
    """What library.py says against include/evaporation.h."""

    def test_numbers(self):
        body = re.search(r"enum evp_number \{(.*?)\};", HEADER, re.S)[1]
        found = {name: int(number) for name, number in re.findall(r"EVP_(?:REFUSED_)?(\w+) = (\d+)", body)}
        self.assertEqual(found, {number.name: number.value for number in Number})

    def test_calls(self):
        """Those that the header has itself are no calls."""
        text = re.sub(r"/\*.*?\*/|^static inline .*?^\}$", "", header.FORMS.sub("", HEADER), flags=re.S | re.M)
        self.assertEqual(set(re.findall(r"\b(evp_\w+)\(", text)), set(library.CALLS))

    def test_types(self):
        """What each call takes and answers; a size_t is a number of 64 bits here."""
        names = {c_char_p: "uint8_t *", POINTER(c_uint8): "uint8_t *", POINTER(c_uint64): "uint64_t *",
                 c_uint64: "uint64_t"}
        functions = header.header_source(HEADER).functions
        for call, (answer, *taken) in library.CALLS.items():
            declared = [member.type for member in functions[call].parameters]
            plain = [kind.removeprefix("const ").replace("size_t", "uint64_t")
                     for kind in (functions[call].answer, *declared)]
            self.assertEqual([names.get(kind, kind.__name__) for kind in (answer, *taken)], plain, call)
            for kind, written in zip(taken, declared):
                if kind is c_char_p:  # bytes, which nobody may change
                    self.assertTrue(written.startswith("const "), call)

    def test_texts(self):
        """The header, the binding and the desk say the same, the desk of what a call refuses besides a sheet."""
        body = re.search(r"evp_number_text\(.*?^\}", HEADER, re.S | re.M)[0]
        found = dict(re.findall(r'case EVP_(?:REFUSED_)?(\w+):\s+return "(.*?)";', body))
        self.assertEqual(found, {number.name: number.text for number in Number})
        for number, text in explain.CALLS.items():
            if number not in (5, 26):  # which the desk says of a pool
                self.assertEqual(found[Number(number).name], text)

    def test_sizes(self):
        for name, value in (("SHEET_BYTES", library.SHEET_BYTES), ("WORDS", library.REPORT_WORDS),
                            ("TEXT_BYTES", library.TEXT_BYTES), ("LISTS_END", layout.LISTS_END),
                            ("GRID_END", layout.GRID_END)):
            self.assertIn("#define EVP_%s %d\n" % (name, value), HEADER)

    def test_species(self):
        body = re.search(r"evp_species_names\[.*?\{(.*?)\};", HEADER, re.S)[1]
        self.assertEqual(tuple(re.findall(r'"(.*?)"', body)), library.SPECIES)

    def test_members(self):
        for name, struct in STRUCTS.items():
            body = re.sub(r"/\*.*?\*/", "", re.search(r"struct %s \{(.*?)\};" % name, HEADER, re.S)[1], flags=re.S)
            words = [word.split()[-1] for line in body.split(";") for word in line.split(",") if word.strip()]
            members = [re.sub(r"\W.*", "", word) for word in words]
            self.assertEqual(members, [field[0] for field in struct._fields_], name)
        self.assertEqual(sizeof(library._Travel), 48)


class DocumentTest(unittest.TestCase):
    """What docs/LIBRARY.md tells of the calls."""
    text = (TOP / "docs" / "LIBRARY.md").read_text(encoding="utf-8")

    def test_refusal_in_words(self):
        cut = sample("table-3-5-day")[:-1]
        self.assertIn("\n    %s\n" % explain.explain(LIBRARY, cut).text, self.text)

    def test_stack(self):
        """Of each call and of all, as c/stack.c has measured them; another compiler or C library may take a little more
        or less."""
        measured = TOP / "target" / "c" / "stack.txt"
        if not measured.exists():
            self.skipTest("no %s; bash c/run leaves it" % measured)
        lines = re.findall(r"^version \d (\w+) +(\d+) bytes", measured.read_text(encoding="ascii"), re.M)
        taken = {name: max(int(size) for other, size in lines if other == name) for name, _ in lines}
        self.assertEqual(set(taken), set(library.CALLS))
        own = taken["evp_library_version"]  # the thread's: the call itself takes next to nothing
        sections = re.findall(r"^### (`evp_.*)\n(?:.*\n)*?- \*\*Costs\*\* .*?(\d+) kB of stack", self.text, re.M)
        told = {name: int(size) for names, size in sections for name in re.findall(r"`(\w+)`", names)}
        for name, size in taken.items():
            self.assertAlmostEqual(told[name], max(1, -(-(size - own) // 1000)), delta=1, msg=name)
        most, others = max(taken.values()), max(size for size in taken.values() if size < 50_000)
        for where, words in ((self.text, r"Measured are ([\d,]+) bytes.*?and ([\d,]+) for all others"),
                             (HEADER, r"measured are at most ([\d,]+),.*?at most ([\d,]+) for all others")):
            found = [int(figure.replace(",", "")) for figure in re.search(words, where, re.S).groups()]
            for figure, size in zip(found, (most, others)):
                self.assertAlmostEqual(figure, size, delta=1000)


class ReportTest(unittest.TestCase):
    """The report of every sample."""

    def test_text(self):
        for path in samples():
            printed = path.with_suffix(".report").read_text(encoding="ascii")
            self.assertEqual(LIBRARY.text(path.read_bytes()), printed, path)

    def test_report(self):
        for path in samples():
            lines = [line.split() for line in path.with_suffix(".report").read_text(encoding="ascii").splitlines()]
            report = LIBRARY.report(path.read_bytes())
            found = [word for masses in (*report.rows, report.cars, report.light, report.two, report.all)
                     for band in masses for word in band]
            expected = [int(word) for line in lines[1:-1] for word in line[-6:]]
            self.assertEqual((found, report.total), (expected, Band(*map(int, lines[-1][1:]))))

    def test_words(self):
        for path in samples():
            data = path.read_bytes()
            self.assertEqual(len(LIBRARY.words(data)), 6 * layout.row_count(data) + library.LAST_WORDS)

    def test_version(self):
        found = re.findall(r"#define EVP_LIBRARY_(?:MAJOR|MINOR|PATCH) (\d+)\n", HEADER)
        self.assertEqual(LIBRARY.version(), tuple(map(int, found)))

    def test_exact_masses(self):
        data = sample("table-3-5")
        second, report = reckoning.read(data), LIBRARY.report(data)
        for i, masses in enumerate(report.rows):
            for band, exact in zip(masses, reckoning.masses(second, i)):
                self.assertTrue(band.low <= 1000 * exact <= band.high)

    def test_refusals(self):
        """Damaged sheets, as the second reckoning has them."""
        draw = random.Random(30)
        for _ in range(300):
            data = bytearray(sample(draw.choice(("region", "survey", "odometer"))))
            data[draw.choice((draw.randrange(8), draw.randrange(len(data))))] = draw.randrange(256)
            data = bytes(data)
            expected, found = reckoning.check(data), LIBRARY.check(data)
            self.assertEqual(expected, found and (found.number, found.place))
            if expected:
                with self.assertRaises(Refusal) as caught:
                    LIBRARY.report(data)
                self.assertEqual(str(caught.exception), "refused %d at %d" % expected)
                self.assertEqual(caught.exception.text, Number(expected[0]).text)
                self.assertEqual(LIBRARY.text(data), "refused %d at %d\n" % expected)

    def test_factor(self):
        data = sample("table-3-5")
        for k in range(1, 8):
            band, exact = LIBRARY.factor(data, 0, 0, k), 10 ** 6 * reckoning.factor(reckoning.read(data), 0, 0, k)
            self.assertTrue(band.low <= exact <= band.high <= band.low + 10)
        with self.assertRaises(Refusal) as caught:
            LIBRARY.factor(data, 9, 0, 1)
        self.assertEqual(caught.exception.number, Number.ABSENT)


class BulkTest(unittest.TestCase):
    """The calls that answer for a whole row or sheet: all factors, and the report of each season."""

    def test_as_the_factor_call(self):
        for path in samples():
            data = path.read_bytes()
            factors = LIBRARY.factors(data)
            self.assertEqual((len(factors), {len(rows) for rows in factors}), (data[5], {layout.row_count(data)}))
            for season, rows in enumerate(factors):
                for row, found in enumerate(rows):
                    one = [LIBRARY.factor(data, season, row, k) for k in range(1, library.FACTORS + 1)]
                    self.assertEqual((found, LIBRARY.row_factors(data, season, row)), (one, one), path)

    def test_exact_factors(self):
        data = sample("odometer")
        second = reckoning.read(data)
        for season, rows in enumerate(LIBRARY.factors(data)):
            for row in (0, len(rows) - 1):
                for k, band in enumerate(rows[row], 1):
                    exact = 10 ** 6 * reckoning.factor(second, season, row, k)
                    self.assertTrue(band.low <= exact <= band.high <= band.low + 10)

    def test_exact_seasons(self):
        """Each row's exact masses of a season alone lie in that season's bands."""
        data = sample("odometer")
        second = reckoning.read(data)
        reports = LIBRARY.report_seasons(data)
        self.assertEqual(len(reports), len(second.seasons))
        for season, report in zip(second.seasons, reports):
            alone = second._replace(seasons=(season,))
            for row in (0, len(report.rows) - 1):
                for band, exact in zip(report.rows[row], reckoning.masses(alone, row)):
                    self.assertTrue(band.low <= 1000 * exact <= band.high)

    def test_year_within_its_seasons(self):
        for path in samples():
            data = path.read_bytes()
            year, seasons = LIBRARY.report(data), LIBRARY.report_seasons(data)
            pairs = [(year.total, [season.total for season in seasons])]
            pairs += [(band, [season.rows[row][m] for season in seasons])
                      for row, masses in enumerate(year.rows) for m, band in enumerate(masses)]
            for band, parts in pairs:
                self.assertTrue(sum(part.low for part in parts) <= band.low, path)
                self.assertTrue(band.high <= sum(part.high for part in parts), path)
            if len(seasons) == 1:
                self.assertEqual(seasons, [year])

    def test_refusals(self):
        data = sample("region")
        for call in (LIBRARY.factors, LIBRARY.report_seasons, lambda cut: LIBRARY.row_factors(cut, 0, 0)):
            for cut in (b"", data[:7], data[:-1]):
                with self.assertRaises(Refusal) as caught:
                    call(cut)
                self.assertEqual(str(caught.exception), str(LIBRARY.check(cut)))
        for season, row in ((data[5], 0), (0, layout.row_count(data))):
            with self.assertRaises(Refusal) as caught:
                LIBRARY.row_factors(data, season, row)
            self.assertEqual((caught.exception.number, caught.exception.place), (Number.ABSENT, 0))


PROGRAMS = TOP / "target" / "bin"


def damaged(data: bytes, draw: random.Random) -> Iterator[bytes]:
    """A sheet cut, longer, with a byte changed in its head, and with three changed anywhere."""
    yield data[:draw.randrange(len(data))]
    yield data + data[:1 + draw.randrange(40)]
    for places in ([draw.randrange(8)], draw.sample(range(len(data)), 3), draw.sample(range(len(data)), 3)):
        changed = bytearray(data)
        for at in places:
            changed[at] = draw.randrange(256)
        yield bytes(changed)


@unittest.skipUnless((PROGRAMS / "report").exists() and (PROGRAMS / "species").exists(), "no programs in target/bin")
class ProgramsTest(unittest.TestCase):
    """What the programs print, made of what the calls answer."""

    def printed(self, name: str, data: bytes) -> str:
        run = subprocess.run([PROGRAMS / name], input=data, capture_output=True)
        self.assertIn(run.returncode, (0, 1), run.stderr)  # an answer or a refusal
        return run.stdout.decode("ascii")

    def species(self, data: bytes) -> str:
        try:
            found = LIBRARY.species_of(data)
        except Refusal as refusal:
            return "%s\n" % refusal
        lines = ["EVP %d total %d" % (layout.version_of(data), found.total)]
        lines += ["%s %d" % pair for pair in zip(library.SPECIES, found.milligrams)]
        return "\n".join(lines) + "\n"

    def expect(self, data: bytes):
        self.assertEqual(LIBRARY.text(data), self.printed("report", data))
        self.assertEqual(self.species(data), self.printed("species", data))

    def test_samples(self):
        for path in samples():
            self.expect(path.read_bytes())

    def test_damaged_samples(self):
        draw, refused = random.Random(32), 0
        for path in samples():
            for data in damaged(path.read_bytes(), draw):
                self.expect(data)
                refused += LIBRARY.check(data) is not None
        self.assertGreaterEqual(refused, 20)


class OtherCallsTest(unittest.TestCase):
    """Species, cells, ledgers, pools, marks."""

    def test_species(self):
        for total in (0, 1, 10_001, 589_571_589_654, 2 ** 64 - 1):
            self.assertEqual(LIBRARY.species(total), second_species.split(total))
        for total in (-1, 2 ** 64):
            with self.assertRaises(OverflowError):
                LIBRARY.species(total)

    def test_species_of_a_sheet(self):
        for path in samples():
            data = path.read_bytes()
            found, high = LIBRARY.species_of(data), LIBRARY.report(data).total.high
            self.assertEqual(found, (high, second_species.split(high)))
        with self.assertRaises(Refusal) as caught:
            LIBRARY.species_of(data[:-1])
        self.assertEqual((caught.exception.number, caught.exception.place), (Number.LENGTH, 0))

    def test_cells(self):
        travel = Travel(True, 40, 35, 25, 60, 100)
        for masses in LIBRARY.report(sample("survey")).rows:
            words = second_cells.Words(*(word for band in masses for word in band))
            _, _, expected = second_cells.cells_of_row(second_cells.Row(words, second_cells.Travel(*travel)))
            bits = second_cells.bits_of
            found = LIBRARY.cells_of_row(masses, travel)
            self.assertEqual([(cell.kind, bits(int(cell.low)), bits(int(cell.high))) for cell in found],
                             [tuple(cell) for cell in expected])
        for wrong in (travel._replace(rural_speed=0), travel._replace(town=2), travel._replace(town=2 ** 64 - 1)):
            with self.assertRaises(Refusal) as caught:
                LIBRARY.cells_of_row(masses, wrong)
            self.assertEqual(caught.exception.number, Number.TRAVEL)
        with self.assertRaises(Refusal) as caught:
            LIBRARY.cells_of_row(Masses(Band(2, 1), Band(0, 0), Band(0, 0)), travel)
        self.assertEqual(caught.exception.number, Number.CELL)

    def test_sums_of_cells(self):
        sum_of = LIBRARY.add_cells(Cell(Kind.EXACT, 3.0, 3.0), Cell(Kind.BAND, 4.0, 6.0))
        self.assertEqual(sum_of, Cell(Kind.BAND, 7.0, 9.0))
        self.assertEqual(LIBRARY.add_cells(Cell(Kind.EMPTY, 0.0, 0.0), sum_of), sum_of)

    def test_no_number_is_cut_off(self):
        """As ctypes would do with one of more than 64 bits."""
        band, travel = Band(2 ** 64, 2 ** 64 + 5), Travel(True, 1, 1, 1, 1, 1)
        for call, *given in ((LIBRARY.cells_of_row, Masses(band, band, band), travel),
                             (LIBRARY.cells_of_row, Masses(*[Band(0, 1)] * 3), travel._replace(town=2 ** 64)),
                             (LIBRARY.add_cells, Cell(2 ** 64, 0.0, 0.0), Cell(Kind.EMPTY, 0.0, 0.0)),
                             (LIBRARY.factor, sample("table-3-5"), 2 ** 64, 0, 1),
                             (LIBRARY.mark, Filed(1, 0, Unit.MG), band),
                             (LIBRARY.mark, Filed(1, 0, Unit.MG), Band(-1, 1)),
                             (LIBRARY.mark, Filed(1, 2 ** 64, Unit.MG), Band(0, 1)),
                             (LIBRARY.mark, Filed(-1, 0, Unit.MG), Band(0, 1))):
            with self.assertRaises(OverflowError):
                call(*given)

    def test_ledger(self):
        ledger = LIBRARY.ledger(sample("region"))
        ledger.arrive(23, 12)
        ledger.depart(0, 400)
        self.assertEqual(ledger.report, LIBRARY.report(ledger.sheet))
        self.assertEqual([layout.row(ledger.sheet, i)["vehicles"] for i in (0, 23)], [18_000, 12])
        with self.assertRaises(Refusal) as caught:
            ledger.depart(23, 13)
        self.assertEqual(caught.exception.number, Number.COUNT)
        with self.assertRaises(Refusal):
            LIBRARY.ledger(b"EVP")

    def test_shared_ledger(self):
        shared = LIBRARY.shared_ledger(sample("region"), bytes([1, 2] * 12))
        shared.arrive(1, 0, 5)
        self.assertEqual(shared.row(1, 0), (18_405, LIBRARY.report(shared.sheet).rows[0]))
        self.assertEqual(shared.totals(0).total, LIBRARY.report(shared.sheet).total)
        for call, *given in ((shared.arrive, 1, 1, 5), (shared.depart, 0, 0, 1), (shared.row, 2, 0),
            (shared.totals, 1)):
            with self.assertRaises(Refusal) as caught:
                call(*given)
            self.assertEqual(caught.exception.number, Number.RIGHT)
        with self.assertRaises(Refusal) as caught:
            LIBRARY.shared_ledger(sample("region"), bytes(24))
        self.assertEqual(caught.exception.number, Number.SHARE)

    def test_pool(self):
        first, second = (sheet.write(text + "version 4") for text in (GRID_TEXT, GRID_TEXT.replace("18400", "200")))
        self.assertEqual(LIBRARY.pool(first, second), second_pool.pooled(first, second))
        with self.assertRaises(Refusal) as caught:
            LIBRARY.pool(first, sheet.write(TEXT))
        self.assertEqual((caught.exception.number, caught.exception.place, caught.exception.sheet), (3, 3, 2))

    def test_mark(self):
        """The definition's examples: 2.834 t stands for 2.8335 t to 2.8345 t, both included."""
        filed = Filed(2834, 3, Unit.T)
        for low, high, outcome, off in (
            (2_834_491_356, 2_834_497_572, Outcome.AGREES, 0), (2_833_500_000, 2_834_500_000, Outcome.AGREES, 0),
            (2_834_491_356, 2_834_500_001, Outcome.FITS, 0), (2_834_500_001, 2_834_500_002, Outcome.LOW, 1),
            (2_833_499_990, 2_833_499_999, Outcome.HIGH, 1), (0, 0, Outcome.HIGH, 2_833_500_000),
        ):
            self.assertEqual(LIBRARY.mark(filed, Band(low, high)), (outcome, off))
        self.assertEqual(LIBRARY.mark(Filed(0, 0, Unit.KG), Band(0, 500_000)).outcome, Outcome.AGREES)
        self.assertEqual(LIBRARY.mark(Filed(5, 1, Unit.MG), Band(1, 1)), (Outcome.LOW, 0))
        for filed in (Filed(10 ** 9, 0, Unit.T), Filed(1, 7, Unit.MG), Filed(2 ** 64 - 1, 6, Unit.MG)):
            self.assertEqual(LIBRARY.mark(filed, Band(0, 1)).outcome, Outcome.UNREADABLE)

    def test_a_number_of_a_later_library(self):
        later = Refusal(33, 7)
        self.assertEqual((later.number, str(later), later.text),
                         (33, "refused 33 at 7", "a number of a later library"))
        self.assertNotIn(33, list(Number))

    def test_a_call_that_is_not_there(self):
        with self.assertRaisesRegex(MissingCall, "evp_none"):
            library._absent("evp_none")()

    def test_table_of_classes(self):
        """The names of canisters and tanks are those of the second reckoning."""
        self.assertEqual([(number, tank, canisters) for number, (_, tank, canisters) in layout.CLASSES.items()],
                         [(number, tank, canisters) for number, _, tank, canisters in reckoning.CLASS_TABLE])


class MarkTest(unittest.TestCase):
    """The verdict against the second reckoning."""

    def test_mark(self):
        draw = random.Random(31)
        for _ in range(4000):
            low = draw.randrange(10 ** draw.randrange(1, 14))
            band = Band(low, low + draw.randrange(10 ** draw.randrange(1, 7)))
            filed = Filed(draw.randrange(10 ** draw.randrange(1, 19)), draw.randrange(17), draw.choice(list(Unit)))
            expected = tuple(marking.mark(tuple(filed), tuple(band)))
            self.assertEqual(tuple(LIBRARY.mark(filed, band)), expected, (filed, band))

    def test_too_large_for_the_call(self):
        with self.assertRaises(OverflowError):
            LIBRARY.mark(Filed(2 ** 64, 0, Unit.T), Band(0, 0))


class BytesTest(unittest.TestCase):
    """What stands for a sheet."""

    def test_empty(self):
        self.assertEqual((LIBRARY.check(b"").number, LIBRARY.text(b"")), (1, "refused 1 at 0\n"))

    def test_other_bytes(self):
        data = sample("table-3-5")
        for other in (bytearray(data), memoryview(data)):
            self.assertEqual(LIBRARY.report(other), LIBRARY.report(data))


if __name__ == "__main__":
    unittest.main()
