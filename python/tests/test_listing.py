"""Tests of wurdanei.listing: the listings of cases/shown, and what is no listing."""

import pathlib
import unittest
from decimal import Decimal

from wurdanei import listing

CASES = pathlib.Path(__file__).parents[2] / "cases" / "shown"


def shown(name: str) -> listing.Listing:
    return listing.read((CASES / name / "expected.note").read_text())


class Listing(unittest.TestCase):
    def test_records_have_values_units_and_what_stands_below(self) -> None:
        found = shown("shown_lines_and_arresters")
        self.assertEqual(found.nodes, ["SA", "RA", "SB", "RB", "SC", "RC", "FAR", "GA", "GB"])
        (line,) = found.of("line")
        self.assertEqual((line.line, line.name("BUS1"), line.exact("travel time")), (8, "RA", Decimal("0.0005")))
        self.assertEqual(line["travel time"] - 1e-4, 0.0005 - 1e-4)  # numbers are floats
        (arrester,) = found.of("nonlinear resistor")
        self.assertEqual([point["voltage"] for point in arrester.below], [200000, 350000])
        self.assertEqual([arrester.name("BUS2"), arrester["BUS2"]], ["", ""])
        self.assertEqual(found.of("time switch")[0].text("T-CLOSE"), "-1 s")
        self.assertIsNone(found.of("voltage source")[0]["TSTOP"])
        self.assertIn("line 7, columns 3-8, no other branch, switch or source has the node", found.warnings)
        self.assertEqual([line.line for line in found.of("copies line")], [17])

    def test_units_stand_behind_numbers(self) -> None:
        entry = listing.Entry("R", "10.2 ohm")
        self.assertEqual((entry.value, entry.exact, entry.unit), (10.2, Decimal("10.2"), "ohm"))
        self.assertIs(type(entry.value), float)
        self.assertEqual(listing.Entry("nodes", "3 of 1000").value, 3)
        self.assertEqual(listing.Entry("step", None).value, None)

    def test_the_control(self) -> None:
        found = shown("shown_control")
        (block,) = found.of("block")
        self.assertEqual(block.all("input"), ["+SENSE", "-BIAS"])
        self.assertEqual([it.kind for it in block.below], ["numerator", "denominator"])
        self.assertEqual(block.below[1]["s^1"], 0.01)
        self.assertEqual(len(found.of("device")[0].below), 2)
        tree = (".OR.", (".GT.", "FILTER", "0.25"), (".NOT.", "GATE"))
        self.assertEqual(listing.tree_of(found.of("formula")[0]), tree)

    def test_warnings_may_stand_above(self) -> None:
        lines = shown("shown_warnings_of_each_kind").text.splitlines()
        warnings = [line for line in lines if line.startswith("warning, ")]
        others = [line for line in lines if line not in warnings]
        self.assertGreater(len(warnings), 9)
        above, below = (listing.read("\n".join(it)) for it in (warnings + others, others + warnings))
        self.assertEqual((above.lines, above.warnings), (below.lines, below.warnings))
        self.assertEqual(above.warnings, [line.removeprefix("warning, ") for line in warnings])

    def test_what_is_no_listing(self) -> None:
        for text in ("", "USAGE\n", "BAD CARD LINE 2 COLUMN 1 REASON 3 NotANumber\n"):
            with self.assertRaises(listing.ListingError):
                listing.read(text)


if __name__ == "__main__":
    unittest.main()
