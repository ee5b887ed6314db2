"""The check that docs/PROMISES.md points to what is there, and that this says what the page says."""

import tempfile
import unittest
from pathlib import Path
from unittest import mock

from tools.check import contracts, promises, statements

CRATE = {
    "crates/low/specs/Band.antt": """\
-- A record and two theorems over it. Definitions only.
pub record Band (s : List ℕ) : Type 0 where
  pub above : s ≡ s
  pub narrow : s ≡ s

abbrev pub BandTheorem : Type 0
BandTheorem = (s : List ℕ) → 0 < length s
    → Band s

module _ (s : List ℕ) where
  pub record Inner : Type 0 where
    pub band : Band s
""",
    "crates/low/specs/Call.antt": """\
use Rattle.low.specs.Band.{Band, Inner}

pub record LowCall (s : List ℕ) : Type 0 where
  pub promise : Inner s
""",
    "crates/high/specs/Band.antt": """\
abbrev pub BandTheorem : Type 0
BandTheorem = Unit
""",
    "crates/low/proofs/Band.antt": """\
use Rattle.low.specs.Band.{Band, BandTheorem}

-- the theorem itself
pub band-holds : BandTheorem
band-holds s h = record { above = refl; narrow = refl }

-- with a condition of its own
pub band-if : Enclosed → BandTheorem
band-if e = band-holds

-- and one that is written out over two lines
pub band-written : (s : List ℕ)
    → Band s
band-written s = record { above = refl; narrow = refl }

module _ (e : Enclosed) where
  pub band-within : BandTheorem
  band-within = band-holds
""",
    "crates/high/proofs/Other.antt": """\
use Rattle.high.specs.Band.{BandTheorem}

pub other : BandTheorem
other = unit
""",
    "crates/low/src/lib.rt": """\
ghost use Rattle.low.specs.Band.{Band};
ghost use Rattle.low.specs.Call.{LowCall};

pub fn good(s: &[u8]) -> bool
    ensures { (result ≡ true) × Band s.now }
{
    true
}

pub fn call(s: &[u8]) -> bool
    ensures { LowCall s.now }
{
    true
}

pub fn guarded(s: &[u8]) -> bool
    requires { 0 < length s.now }
    ensures { Band s.now }
{
    true
}

pub fn perhaps(s: &[u8]) -> bool
    ensures { result ≡ true → Band s.now }
{
    true
}

pub fn answered(s: &[u8]) -> Result<bool, Error>
    ensures ok { OnOk result (Band s.now) }
{
    Ok(true)
}

pub fn both(s: &[u8]) -> bool
    ensures band { Band s.now }
    ensures call { result ≡ true → LowCall s.now }
{
    true
}

pub fn silent(s: &[u8]) -> bool {
    true
}
""",
}


class InSmallCrates(unittest.TestCase):
    """Lines over two crates of a few lines."""

    def setUp(self):
        folder = tempfile.TemporaryDirectory()
        self.addCleanup(folder.cleanup)
        top = Path(folder.name)
        for name, text in CRATE.items():
            (top / name).parent.mkdir(parents=True, exist_ok=True)
            (top / name).write_text(text, encoding="utf-8")
        for module in (promises, statements):
            patch = mock.patch.object(module, "TOP", top)
            patch.start()
            self.addCleanup(patch.stop)

    def faults(self, said: str, holds: str) -> list[str]:
        return [*promises.spec_faults(said), *promises.proof_faults(said, holds, {})]

    def test_a_law_of_the_theorem(self):
        self.assertEqual(self.faults("`BandTheorem` in low: Band", "`band-holds` in low/proofs/Band"), [])

    def test_a_law_with_a_condition(self):
        """It proves the theorem only where the enclosure holds, which is what the theorem is about."""
        found = self.faults("`BandTheorem` in low: Band", "`band-if` in low/proofs/Band")
        self.assertEqual(found[0], "band-if in crates/low/proofs/Band.antt is of the type Enclosed → BandTheorem, "
                                   "and not of a definition alone")
        self.assertIn("BandTheorem in low: Band is stated by no law and no contract of the line", found)

    def test_a_law_in_a_module_with_parameters(self):
        found = self.faults("`BandTheorem` in low: Band", "`band-within` in low/proofs/Band")
        self.assertIn("and not of a definition alone", found[0])

    def test_a_law_that_is_written_out(self):
        found = self.faults("`Band` in low: Band", "`band-written` in low/proofs/Band")
        self.assertIn("is of the type (s : List ℕ) → Band s, and not", found[0])

    def test_a_theorem_of_the_same_name_in_another_crate(self):
        found = self.faults("`BandTheorem` in low: Band", "`other` in high/proofs/Other")
        self.assertEqual(found, ["other states no definition that the line names",
                                 "BandTheorem in low: Band is stated by no law and no contract of the line"])

    def test_one_law_for_two_theorems(self):
        found = self.faults("`BandTheorem` in low: Band; `BandTheorem` in high: Band", "`other` in high/proofs/Other")
        self.assertEqual(found, ["BandTheorem in low: Band is stated by no law and no contract of the line"])

    def test_several_laws(self):
        self.assertEqual(self.faults("`BandTheorem` in low: Band; `BandTheorem` in high: Band",
                                     "`other` in high/proofs/Other; `band-holds` in low/proofs/Band"), [])
        found = self.faults("`BandTheorem` in low: Band", "`band-holds` and `band-if` in low/proofs/Band")
        self.assertEqual(len(found), 1)

    def test_a_contract_that_cites_the_record(self):
        self.assertEqual(
            self.faults("`Band` (`narrow`) in low: Band", "contract of `good` in crates/low/src/lib.rt"), [])

    def test_a_contract_that_leads_to_the_record(self):
        line, contract = "`Band` in low: Band", "contract of `call` in crates/low/src/lib.rt"
        self.assertEqual(self.faults(line, contract + ", through `LowCall` and `Inner`"), [])
        for through in ("", ", through `LowCall`", ", through `Inner`"):
            self.assertEqual(self.faults(line, contract + through), [
                "call states no definition that the line names",
                "Band in low: Band is stated by no law and no contract of the line"])

    def test_a_contract_without_it(self):
        found = self.faults("`Band` in low: Band", "contracts of `good` and `silent` in crates/low/src/lib.rt")
        self.assertEqual(found, ["silent states no definition that the line names"])

    def test_a_contract_with_a_condition(self):
        line, contract = "`Band` in low: Band", "contract of `guarded` in crates/low/src/lib.rt"
        self.assertEqual(self.faults(line, contract + ", which requires `0 < length s.now`"), [])
        self.assertEqual(self.faults(line, contract), [
            "the contract requires, and the line does not say so: 0 < length s.now"])
        self.assertEqual(self.faults(line, "contract of `good` in crates/low/src/lib.rt, which requires `0 < 1`"), [
            "no function of the line requires 0 < 1"])
        found = self.faults(line, "contract of `perhaps` in crates/low/src/lib.rt")
        self.assertEqual(found, ["perhaps ensures something conditional: result ≡ true → Band s.now"])
        found = self.faults(line, "contract of `answered` in crates/low/src/lib.rt")
        self.assertEqual(found, ["answered ensures something conditional: OnOk result (Band s.now)"])

    def test_a_clause_with_a_condition(self):
        """It counts for nothing beside one without."""
        contract = "contract of `both` in crates/low/src/lib.rt"
        self.assertEqual(self.faults("`Band` in low: Band", contract), [])
        self.assertEqual(self.faults("`LowCall` in low: Call", contract), [
            "both states no definition that the line names",
            "LowCall in low: Call is stated by no law and no contract of the line"])

    def test_a_field_of_another_record(self):
        found = self.faults("`Inner` (`narrow`) in low: Band", "contract of `call` in crates/low/src/lib.rt, through "
                            "`LowCall`")
        self.assertEqual(found, ["Inner of crates/low/specs/Band.antt has no narrow"])

    def test_names_that_prove_nothing(self):
        law = "`band-holds` in low/proofs/Band"
        self.assertEqual(self.faults("`BandTheorem` in low: Band, with `Enclosed`", law),
                         ["Enclosed is named without a file"])
        self.assertEqual(self.faults("`BandTheorem` in low: Band", law + "; and `band-if` besides"),
                         ["band-if is neither a law nor a contract"])
        self.assertEqual(self.faults("`BandTheorem` in low: Band", law + "; `python3 -m tools.check bounds` looks"), [])
        self.assertIn("neither a law nor a contract is named", self.faults("`BandTheorem` in low: Band", "it holds"))


class OfTheProject(unittest.TestCase):
    def test_the_page_has_lines(self):
        self.assertGreater(len(list(promises.rows())), 60)

    def test_the_page(self):
        self.assertEqual(promises.faults(), [])

    def test_edits(self):
        self.assertGreater(len(list(promises.rows("No delivery"))), 5)
        self.assertEqual(list(promises.edit_faults("masses: band_from_zero, one_fixed_figure; sheet: equal_loads")), [])
        self.assertEqual(list(promises.edit_faults("masses: band_from_zero, two")), ["crates/masses has no edit two"])

    def test_a_name_that_the_file_has(self):
        self.assertEqual(list(promises.spec_faults("`ReportCall` (`says`) in inventory: ReportCall")), [])

    def test_a_name_that_the_file_has_not(self):
        found = list(promises.spec_faults("`ReportCalls` in inventory: ReportCall"))
        self.assertEqual(found, ["crates/inventory/specs/ReportCall.antt has no ReportCalls"])

    def test_a_file_that_is_not_there(self):
        self.assertEqual(list(promises.spec_faults("`X` in inventory: Nothing")),
                         ["there is no crates/inventory/specs/Nothing.antt"])

    def test_a_law(self):
        laws = "`Laws` in bounds: Laws"
        self.assertEqual(list(promises.proof_faults(laws, "`laws` in bounds/proofs/Laws", {})), [])
        self.assertIn("crates/bounds/proofs/Laws.antt has no law lows",
                      list(promises.proof_faults(laws, "`lows` in bounds/proofs/Laws", {})))

    def test_the_law_that_assumes_the_enclosure(self):
        """Request One's line named it once: it has the enclosure of the factors among its conditions."""
        law = "`mass-band` in masses/proofs/MassWidth"
        found = list(promises.proof_faults("`MassBand` in masses: Figures", law, {}))
        self.assertIn("mass-band in crates/masses/proofs/MassWidth.antt is of the type", found[0])
        self.assertIn("Enclosed", found[0])

    def test_a_contract(self):
        known, call = {}, "`ReportCall` in inventory: ReportCall"
        good = "contract of `report` in crates/inventory/src/lib.rt"
        self.assertEqual(list(promises.proof_faults(call, good, known)), [])
        self.assertEqual(list(promises.proof_faults(call, "contract of `report`", known)), [])
        self.assertIn("crates/inventory/src/lib.rt has no function reports", list(
            promises.proof_faults(call, "contract of `reports` in crates/inventory/src/lib.rt", known)))
        self.assertIn("no line before says where factor is", list(
            promises.proof_faults(call, "contract of `factor`", known)))

    def test_the_calls_of_the_library(self):
        page = (statements.TOP / contracts.PAGE).read_text(encoding="utf-8")
        self.assertGreater(len(list(contracts.sections(page))), 15)
        self.assertEqual(contracts.faults(), [])

    def test_the_contract_of_a_call(self):
        self.assertEqual(list(contracts.contract_faults(["evp_pool"], "so many bytes. Contract `PoolNumbers`.")), [])
        self.assertEqual(list(contracts.contract_faults(["evp_pool"], "Contract `PoolTheorem`.")), [
            "evp_pool ensures none of the contracts of its section", "no call of the section ensures PoolTheorem"])
        self.assertEqual(list(contracts.contract_faults(["evp_pool"], "it pools.")), [
            "evp_pool ensures none of the contracts of its section"])

    def test_a_theorem_of_several_calls(self):
        theorem = "theorem `PoolCallsTheorem` in boundary_courses: PooledCalls"
        self.assertEqual(list(contracts.theorem_faults(theorem)), [])
        self.assertEqual(list(contracts.theorem_faults(theorem.replace("boundary_courses", "boundary"))), [
            "crates/boundary/specs/PooledCalls.antt has no PoolCallsTheorem"])
        self.assertEqual(list(contracts.theorem_faults("theorem `ChangeNumbers` in boundary: Change")), [
            "no law of crates/boundary/proofs has the type ChangeNumbers"])
        self.assertEqual(list(contracts.theorem_faults("law `in-no-order` in map_cells/proofs/AnyOrder")), [
            "crates/map_cells/proofs/AnyOrder.antt has no law in-no-order"])

    def test_the_law_of_a_read(self):
        path = Path("crates/report/proofs/main/Proof.antt")
        for line, wrong in (("use Rattle.program.specs.Reads.{Taken, counted}", 0),
                            ("use Rattle.program.specs.Reads.{Taken, taken}", 1),
                            ("use Rattle.program.specs.Reads", 1),
                            ("use Rattle.program.specs.Reads as reads", 1),
                            ("-- Rattle.program.specs.Reads has taken", 0)):
            self.assertEqual(len(list(promises.reads_faults(path, line))), wrong, line)
        self.assertEqual(list(promises.taken_faults()), [])


if __name__ == "__main__":
    unittest.main()
