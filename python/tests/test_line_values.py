"""Tests of the fields of lines: what is kept of surge impedance, travel time and resistance, and where nothing is changed."""

import math
import random
import unittest

from wurdanei import line_values, program
from wurdanei.case import Case

needs_program = unittest.skipUnless(program.is_there(), "the program isn't built, so it answers nothing")


class Fields(unittest.TestCase):
    def test_random_lines_keep_their_waves(self) -> None:
        pick = random.Random(3)
        for _ in range(20):
            surge, travel = pick.uniform(10, 800), 10 ** pick.uniform(-6.5, -2)
            ohm = pick.choice([0.0, 10 ** pick.uniform(-1, 2)])
            found = line_values.best(surge, travel, ohm)
            self.assertIsNotNone(found)
            self.assertLess(found.loss, 1e-5)
            self.assertLess(found.resistance, 1e-4)
            self.assertLessEqual(max(len(it.text) for name, it in found.fields.items() if name != "R"), 5)

    def test_what_the_columns_hold_stays_as_it_is_given(self) -> None:
        case = Case(5e-5, 0.1)
        case.line("G", "H", length=120, r_ohm=0.08, zc_ohm=380, velocity=2.97e5)
        self.assertIn("-1G     H                    .08 380. 2.97E5  120. 1", case.text())
        self.assertEqual(case.told, [])

    @needs_program
    def test_a_line_from_its_tower_is_read_as_it_is(self) -> None:
        """Six columns alone would lose up to 4e-4 of its travel time."""
        zero = dict(r_ohm=0.25014, l_mh=2.63912, c_uf=0.00634321)
        positive = dict(r_ohm=0.061562, l_mh=1.31582, c_uf=0.00891823)
        case = Case(5e-5, 0.1)
        case.line3(list("ABC"), list("DEF"), length=100, zero=zero, positive=positive)
        case.line("G", "H", length=100, **positive)
        shown = case.show()
        (single,) = shown.of("line")
        self.assertAlmostEqual(float(single["surge impedance"]) / math.sqrt(1e3 * 1.31582 / 0.00891823), 1, 5)
        self.assertAlmostEqual(float(single["travel time"]) / (100 * math.sqrt(1.31582e-9 * 0.00891823)), 1, 5)
        self.assertAlmostEqual(float(single["R"]) / 6.1562, 1, 4)
        self.assertFalse([it for it in shown.warnings if "touch" in it])
        (told,) = case.told
        self.assertRegex(
            told, "^the lengths of the lines A-D, B-E, G-H stand in units of their own: of surge impedance at most"
        )


if __name__ == "__main__":
    unittest.main()
