"""The check of what a reader must believe: reading definitions, what they rest on, and the page that names them."""

import tempfile
import unittest
from collections.abc import Iterator
from contextlib import contextmanager
from pathlib import Path
from unittest import mock

from tools.check import believe
from tools.check import definitions as reader
from tools.check.definitions import Key
from tools.command import TOP

TEXT = """-- A file of definitions.
use Rattle.std.specs.Prelude.{ℕ}
use Rattle.numbers.specs.Fraction.{Fraction, ◌+ᶠ◌, whole}

pub data Kind : Type 0 where
  small large : Kind

module _ (n : ℕ) where
  -- a comment
  unfoldable pub load : Kind → ℕ → ℕ
  load small m = n
  load large m =
      hours m

  pub record Held (x : Fraction) : Type 0 where
    pub up : ℕ  -- the first
    pub same : x +ᶠ whole up ≡ x

abbrev pub hours : ℕ → ℕ
hours m = m
"""

OWN = reader.Scope({name: Key("c", "F", name) for name in ("hours", "vp", "load", "◌next◌")},
                   {name: Key("c", "F", "Kind") for name in ("small", "large")})


@contextmanager
def tree(files: dict[str, str]) -> Iterator[None]:
    """The reader over these files of definitions in place of those of the repository."""
    with tempfile.TemporaryDirectory() as folder, mock.patch.object(reader, "CRATES", Path(folder)):
        for name, text in files.items():
            path = Path(folder) / (name + ".antt")
            path.parent.mkdir(parents=True)
            path.write_text(text, encoding="utf-8")
        forget()
        try:
            yield
        finally:
            forget()


def forget() -> None:
    """What was read before is read again."""
    reader.definitions.cache_clear()
    reader.declared.cache_clear()
    reader.exported.cache_clear()
    reader.scopes.cache_clear()
    reader.graph.cache_clear()
    reader.contracts.cache_clear()


def named(text: str, hidden: tuple[str, ...] = ()) -> set[str]:
    scope = reader.scope_of(TEXT, OWN)
    return {key.name for key in reader.references(text, scope, hidden)}


def used(text: str) -> set[str]:
    """What the last definition of a text names."""
    *_, each = reader.read_specs("c", "F", text)
    return {key.name for key in reader.uses(each, reader.scope_of(TEXT, OWN))}


class Reading(unittest.TestCase):
    def test_definitions_have_their_lines_without_comments(self):
        found = list(reader.read_specs("c", "F", TEXT))
        self.assertEqual([(each.key.name, len(each.lines)) for each in found],
                         [("Kind", 2), ("load", 4), ("Held", 3), ("hours", 2)])
        self.assertEqual(found[0].makes, ("small", "large"))
        self.assertEqual([each.around for each in found], ["", "(n : ℕ)", "(n : ℕ)", ""])

    def test_an_operator_and_a_constructor_are_names(self):
        self.assertEqual(named("small next whole 1 +ᶠ x"), {"Kind", "◌next◌", "whole", "◌+ᶠ◌"})

    def test_a_field_is_no_name(self):
        self.assertEqual(named("season.vp"), set())
        self.assertEqual(named("(f season).vp"), set())
        self.assertEqual(named("record { vp = 1; hours = 2 }"), set())
        self.assertEqual(named("season.vp + vp"), {"vp"})

    def test_what_a_field_is_taken_of_is_a_name(self):
        self.assertEqual(named("hours.vp"), {"hours"})
        self.assertEqual(named("hours.vp", ("hours",)), set())
        self.assertEqual(named("(load small).vp"), {"load", "Kind"})

    def test_a_variable_hides_a_definition(self):
        self.assertEqual(named("(hours : ℕ) → hours ≡ vp"), {"vp"})
        self.assertEqual(named("λ hours. hours"), set())
        self.assertEqual(named("elim c [ hours ↦ hours | large ↦ vp ]"), {"vp", "Kind"})
        self.assertEqual(named("hours", ("hours",)), set())

    def test_the_value_of_a_let_may_name_its_own_name(self):
        self.assertEqual(named("let vp = hours in vp"), {"hours"})
        self.assertEqual(named("let vp = vp n in vp"), {"vp"})
        self.assertEqual(named("let hours = inner hours in hours"), {"hours"})

    def test_a_pattern_hides_and_a_constructor_does_not(self):
        self.assertEqual(used("abbrev pub f : ℕ\nf hours = hours\n"), set())
        self.assertEqual(used("abbrev pub f : ℕ\nf small = vp\n"), {"vp", "Kind"})

    def test_a_record_is_what_its_fields_name(self):
        text = "pub record R (vp : ℕ) : Type 0 where\n  pub hours : Fraction\n  pub b : load hours vp\n"
        self.assertEqual(used(text), {"Fraction", "load"})

    def test_a_name_of_two_crates_is_two_definitions(self):
        with tree({"a/specs/One": "abbrev pub total : ℕ\ntotal = 1\n",
                   "b/specs/Two": "abbrev pub total : ℕ\ntotal = 2\n",
                   "c/specs/Use": "use Rattle.a.specs.One.{total}\nabbrev pub f : ℕ\nf = total\n",
                   "d/specs/Use": "use Rattle.b.specs.Two.{total}\nabbrev pub f : ℕ\nf = total\n"}):
            graph = reader.graph()
        self.assertEqual(graph[Key("c", "Use", "f")], {Key("a", "One", "total")})
        self.assertEqual(graph[Key("d", "Use", "f")], {Key("b", "Two", "total")})

    def test_a_name_that_is_passed_on_is_the_first_one(self):
        with tree({"a/specs/One": "pub data Kind : Type 0 where\n  small : Kind\n",
                   "b/specs/Two": "pub use Rattle.a.specs.One.{Kind, small}\n",
                   "c/specs/Use": "use Rattle.b.specs.Two.{Kind, small}\nabbrev pub f : Kind\nf = small\n",
                   "d/specs/Use": "use Rattle.b.specs.Two.{small}\nabbrev pub f : ℕ\nf small = 1\nf large = large\n"}):
            graph = reader.graph()
        self.assertEqual(graph[Key("c", "Use", "f")], {Key("a", "One", "Kind")})
        self.assertEqual(graph[Key("d", "Use", "f")], {Key("a", "One", "Kind")})

    def test_another_name_for_a_module_is_followed(self):
        self.assertIn(Key("exact", "Canister", "escape"), reader.graph()[Key("exact", "Factors", "row_escape")])

    def test_a_name_that_is_not_found_is_reported(self):
        text = ("use Rattle.exact.specs.Day.{temperature, dew}\nuse Rattle.io.specs.Counts.{Counts}\n"
                "pub use Rattle.exact.specs.Day.{w,\n")
        self.assertEqual(list(reader.unresolved(text)), ["pub use Rattle.exact.specs.Day.{w,", "dew of exact: Day"])

    def test_a_type_that_the_code_declares_is_followed(self):
        self.assertIn(Key("exact", reader.DECLARED, "Canister"), reader.graph()[Key("exact", reader.DECLARED, "Row")])
        self.assertIn(Key("findings", reader.DECLARED, "Site"), reader.declared())

    def test_a_contract_has_what_it_requires_and_ensures(self):
        code = ('ghost use Rattle.sheet.specs.Bytes.{rows_of};\nghost use Rattle.sheet.specs.Sheet.{sheet_check};\n'
                'pub fn f(s: &[u8]) -> u64\n    requires { sheet_check s.now ≡ Pass }\n'
                '    ensures { result ≡ rows_of s.now }\n{\n    1\n}\n\npub fn g() -> u64 {\n    0\n}\n')
        with tempfile.TemporaryDirectory() as folder:
            path = Path(folder) / "lib.rt"
            path.write_text(code, encoding="utf-8")
            first, second = reader.read_contracts(path)
        self.assertEqual((first.name, first.requires, {key.name for key in first.needs}), ("f", True, {"sheet_check"}))
        self.assertEqual({key.name for key in first.ensures}, {"rows_of"})
        self.assertEqual((second.name, second.requires), ("g", False))

    def test_a_contract_may_have_several_clauses(self):
        head = ("(s: &[u8])\n    requires few { length s.now < 9 }\n    requires more { a s.now }\n"
                "    ensures { (x : ℕ) →\n        b {x} }\n    ensures* kept { c }\n")
        self.assertEqual(reader.clauses(head), [
            ("requires", "length s.now < 9"), ("requires", "a s.now"), ("ensures", "(x : ℕ) → b {x}"),
            ("ensures", "c")])


class Closure(unittest.TestCase):
    def test_it_follows_names_and_ends_where_it_is_reported(self):
        a, b, c = (Key("c", "F", name) for name in "abc")
        edges = {a: [b], b: [c]}
        self.assertEqual(reader.closure([a], edges), {a, b, c})
        self.assertEqual(reader.closure([a], edges, [b]), {a, b})

    def test_no_demand_rests_on_the_method(self):
        crates = {key.crate for key in believe.demanded()}
        below = {"numbers", "bounds", "refusals", "exact", "sheet"}
        self.assertEqual(crates, below | {"masses", "report_words", "inventory"})
        bounds = {key.file for key in believe.demanded() if key.crate == "bounds"}
        self.assertEqual(bounds, {"Series", "Weights"})

    def test_a_demand_has_what_it_speaks_of(self):
        names = {which: {key.name for key in believe.demanded(which)} for which in believe.DEMANDS}
        self.assertLessEqual({"row_demands", "trips_limit", "vehicles_before", "Check"}, names["1"])
        self.assertLessEqual({"factor", "starting_load", "S", "power2_5", "Row"}, names["2"])
        self.assertLessEqual({"mass", "blend", "two_wheeler", "category_word"}, names["3"])
        self.assertNotIn("mass", names["1"] | names["2"])

    def test_a_root_that_moved_to_another_crate_is_reported(self):
        with self.assertRaises(believe.Missing):
            believe.find("sheet", "ReportPromise")


class Page(unittest.TestCase):
    def setUp(self):
        self.text = (TOP / believe.READING).read_text(encoding="utf-8")

    def test_the_page_names_everything(self):
        self.assertEqual([*believe.naming_faults(self.text), *believe.promise_faults(self.text),
                          *believe.limit_faults(self.text), *believe.count_faults(self.text)], [])

    def test_a_name_that_is_left_out_is_found(self):
        found = list(believe.naming_faults(self.text.replace("`T1` `T2`", "`T1`")))
        self.assertEqual(found, ["T2 of exact: Factors is not named in a table"])

    def test_a_name_in_the_row_of_another_file_is_none(self):
        self.assertEqual(believe.named("| exact: Day | `vp` | x |\n| | `hours` | y |\n\n| | `T1` | z |\n"),
                         {("exact", "Day", "vp"), ("exact", "Day", "hours")})

    def test_a_row_that_has_another_file_is_found(self):
        found = list(believe.naming_faults(self.text.replace("| exact: Factors |", "| exact: Masses |")))
        self.assertIn("T1 of exact: Factors is not named in a table", found)

    def test_a_name_in_the_part_on_the_method_is_none(self):
        kept, aside = believe.parts("# A\n## 1. Numbers\nx\n## 5. What need not be believed\ny\n## More\nz\n")
        self.assertEqual((kept, aside), ("# A\n## 1. Numbers\nx\n## More\nz\n", "## 5. What need not be believed\ny\n"))

    def test_a_definition_to_believe_is_none_of_the_method(self):
        row = "| exact: Factors | the start's temperature, `T1` | a law |\n"
        found = list(believe.naming_faults(self.text.replace("| sheet: Range |", row + "| sheet: Range |")))
        self.assertEqual(found, ["T1 of exact: Factors is to be believed, and the part on the method names it"])

    def test_a_statement_that_the_page_leaves_out_is_found(self):
        found = list(believe.promise_faults(self.text.replace("`FourthTheorem`", "")))
        self.assertEqual(found, ["FourthTheorem of inventory: NextVersion is named in docs/PROMISES.md and not here"])

    def test_a_requires_that_a_function_does_not_have_is_found(self):
        self.assertEqual(list(believe.requires_faults(self.text)), [])
        head = "## 5. What need not be believed\n\n| row_factors: Season | `RowReady` `SeasonReady` | %s |\n"
        self.assertEqual(list(believe.requires_faults(head % "a `requires` of `units`, met in `row_figures`")), [])
        self.assertEqual(list(believe.requires_faults(head % "`SeasonReady`: in the `requires` of `units`")),
                         ["units does not require SeasonReady"])

    def test_a_wrong_limit_is_found(self):
        found = list(believe.limit_faults(self.text.replace("| `trips_limit` | 1,200 |", "| `trips_limit` | 2,000 |")))
        self.assertEqual(found, ["trips_limit is 1200, and the page says 2,000"])

    def test_a_wrong_count_is_found(self):
        faults = list(believe.count_faults(self.text.replace("| all three | | ", "| all three | | 1")))
        self.assertEqual(len(faults), 1)
        self.assertEqual(len(list(believe.count_faults(""))), 4)


class Listing(unittest.TestCase):
    def test_a_definition_is_listed_once(self):
        lines = [line for line in believe.listing() if line.startswith("  ") and "declared in" not in line]
        listed = [(line.split(" (")[0].strip(), name) for line in lines for name in line.split("): ")[1].split()]
        self.assertEqual(len(listed), len(set(listed)))
        self.assertIn(("exact: Factors", "T1"), listed)
        self.assertNotIn(("factors: Units", "factor_units"), listed)

    def test_what_a_request_needs_comes_after_what_the_demands_rest_on(self):
        lines = list(believe.listing())
        beside = next(number for number, line in enumerate(lines) if line.startswith("beside these"))
        self.assertTrue(any("GridTheorem" in line for line in lines[beside:]))
        self.assertFalse(any("Theorem" in line for line in lines[:beside]))

    def test_a_file_that_mixes_is_listed_with_both_kinds(self):
        self.assertEqual(len([line for line in believe.mixture() if ": to believe (" in line]), len(believe.MIXED))


class Files(unittest.TestCase):
    def test_every_public_call_is_without_requires(self):
        self.assertEqual(list(believe.call_faults()), [])
        self.assertIn(("crates/inventory/src/lib.rt", "report"), believe.public_calls())
        self.assertIn(("crates/evaporation/src/map.rt", "evp_add_cells"), believe.public_calls())

    def test_a_public_call_with_requires_is_found(self):
        file = "crates/sheet/src/lib.rt"
        known = [reader.Contract(TOP / file, "f", True, frozenset(), frozenset())]
        with mock.patch.object(believe, "contracts", return_value=known), \
                mock.patch.object(believe, "public_calls", return_value={(file, "f"), (file, "g")}):
            self.assertEqual(list(believe.call_faults()), ["%s: the public call f has a `requires`" % file,
                                                           "%s has no contract of g" % file])

    def test_a_first_line_marks_a_file(self):
        self.assertTrue(believe.is_marked("-- Need not be believed: the computed mean.\nuse x\n"))
        self.assertTrue(believe.is_marked("-- For proofs; nothing here has to be believed.\n"))
        self.assertFalse(believe.is_marked("-- The computed mean.\n-- Need not be believed.\n"))

    def test_an_exception_that_is_not_needed_is_reported(self):
        self.assertEqual(list(believe.against(["a"], ["a"], "is wrong", "LIST")), [])
        self.assertEqual(list(believe.against(["a"], [], "is wrong", "LIST")), ["a is wrong"])
        self.assertEqual(list(believe.against([], ["a"], "is wrong", "LIST")),
                         ["a needs no exception: take it out of LIST in tools/check/believe.py"])

    def test_method_and_statement_are_kept_apart(self):
        files = believe.files()
        self.assertEqual(files["factors", "Units"].believed + files["factors", "Units"].stated, [])
        self.assertIn("MassesTheorem", files["masses", "AnyCounts"].stated)
        self.assertIn("temperature", files["exact", "Day"].believed)

    def test_a_definition_for_proofs_alone_is_found(self):
        alone = set(believe.proofs_alone())
        self.assertIn("text: Decimal Numeral", alone)
        self.assertNotIn("parking: Grid CellsInRange", alone)


if __name__ == "__main__":
    unittest.main()
