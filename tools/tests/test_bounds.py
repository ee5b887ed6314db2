"""The check that the crates above bounds cite its stated bounds alone."""

import unittest

from tools.check import bounds

SERIES = "use Rattle.bounds.specs.Series.{E, cut_root}\n"


class Bounds(unittest.TestCase):
    def test_what_is_passed_on_is_listed(self):
        text = ("pub use Rattle.bounds.proofs.Exponential.{E-cong, E-mono}\n"
                "use Rattle.bounds.proofs.Within.{widen}\n")
        self.assertEqual(bounds.listed(text), {"E-cong", "E-mono"})

    def test_a_field_has_its_law(self):
        text = "  same = E-cong;\n  positive = λ n x. above-0 (E-positive n x);\n"
        self.assertLessEqual({"E-cong", "E-positive"}, bounds.fields(text))

    def test_a_private_module_is_not_public(self):
        self.assertEqual(bounds.public("mod Root\npub mod Within\n"), {"Within"})

    def test_the_calculus_speaks_of_no_series(self):
        text = ("use Rattle.bounds.specs.Short.{short_exponent, binary}\n"
                "use Rattle.bounds.proofs.Within.{widen}\n")
        self.assertEqual(bounds.spoken(text), [])

    def test_a_computed_exponential_speaks_of_a_series(self):
        text = ("use Rattle.bounds.specs.Short.{short}\n"
                "use Rattle.bounds.proofs.Tangent.{tangent-near}\n")
        self.assertEqual(bounds.spoken(text), ["short", "tangent-near"])

    def test_an_opened_definition_is_found(self):
        text = SERIES + "root-same : E n x\nunfolding cut_root escape\n"
        self.assertEqual(bounds.opened(text, bounds.shut()), ["cut_root"])

    def test_a_definition_of_another_crate_may_be_opened(self):
        self.assertEqual(bounds.opened(SERIES + "unfolding escape\n", bounds.shut()), [])


if __name__ == "__main__":
    unittest.main()
