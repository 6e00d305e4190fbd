"""What an arrester takes, beside integrals by hand; distributions, risks and withstand voltages beside their formulas."""

import contextlib
import io
import math
import pathlib
import sys
import tempfile
import unittest
from statistics import NormalDist

sys.path.insert(0, str(pathlib.Path(__file__).resolve().parent))

import numpy as np  # noqa: E402
from networks import record_of  # noqa: E402
from wurdanei import RecordError, arrester, insulation, program, read  # noqa: E402
from wurdanei.__main__ import main  # noqa: E402

EXAMPLE = pathlib.Path(__file__).resolve().parents[2] / "examples" / "arrester_energy"
POINTS = [(1.0, 200e3), (1000.0, 260e3), (10e3, 300e3)]
STEP, TAU = 1e-7, 20e-6


def impulse(crest=8000.0, first=50, end=3e-4):
    """A current that is there at once and decays, and its voltage on the characteristic, by straight lines."""
    place = np.arange(round(end / STEP) + 1)
    amps = np.where(place < first, 0, crest * np.exp(-(place - first) * STEP / TAU))
    i, u = np.array([(0.0, 0.0), *POINTS]).T
    return {"U P-0": ("kV", np.interp(amps, i, u) / 1e3), "I P-0": ("A", amps)}


class Records(unittest.TestCase):
    def setUp(self):
        self.room = tempfile.TemporaryDirectory()
        self.addCleanup(self.room.cleanup)
        self.stem = pathlib.Path(self.room.name) / "x"

    def test_by_hand(self):
        """10 kA 8/20 through 257.78 kV + 4.2222 ohm i: 45.75 kJ, .16 As, 300 kV at the crest."""
        its = arrester.duty(read(EXAMPLE / "arrester_energy.cfg"), "V P", "I P-ARR", 168)
        by_hand = 257.78e3 * 0.16 + 4.2222 * 1e8 * 32e-6 / 3
        self.assertLess(abs(its.energy / by_hand - 1), 0.005)
        self.assertLess(abs(its.charge / 0.16 - 1), 0.005)
        self.assertLess(abs(its.residual_v / 300e3 - 1), 1e-3)
        self.assertLess(abs(its.specific - by_hand / 168e3), 0.005)
        self.assertEqual(len(its.impulses), 1)

    def test_an_exponential(self):
        """The charge of I e^(-t/T) is I T."""
        its = arrester.duty(record_of(self.stem, STEP, impulse()), "U P-0", "I P-0", points=POINTS)
        self.assertLess(abs(its.charge / (8000 * TAU) - 1), 0.01)
        self.assertEqual(its.off, 0)
        self.assertLess(abs(its.residual_v - 260e3 - 7000 * 40e3 / 9000), 10)

    def test_off_the_characteristic(self):
        """Three samples 15 % too high are counted, and aren't the residual voltage."""
        curves = impulse()
        curves["U P-0"][1][50:53] *= 1.15
        its = arrester.duty(record_of(self.stem, STEP, curves), "U P-0", "I P-0", points=POINTS)
        self.assertEqual(its.off, 3)
        self.assertLess(abs(its.off_v - 1.15 * (260e3 + 7000 * 40e3 / 9000)), 10)
        self.assertLess(its.residual_v, 292e3)
        self.assertTrue(any("off the characteristic" in it for it in its.told))

    def test_impulses(self):
        """Two impulses, the second half as high, turned round."""
        one, two = impulse(), impulse(4000.0, 2000)
        curves = {name: (unit, one[name][1] - two[name][1]) for name, (unit, _) in one.items()}
        its = arrester.duty(record_of(self.stem, STEP, curves), "U P-0", "I P-0")
        self.assertEqual([round(it.crest_a / 1000) for it in its.impulses], [8, 4])
        self.assertGreater(min(it.energy for it in its.impulses), 0)

    def test_turned_round(self):
        its = arrester.duty(record_of(self.stem, STEP, impulse()), "U P-0", "-I P-0")
        self.assertTrue(any("turned round" in it for it in its.told))

    @unittest.skipUnless(program.is_there(), "emtp isn't there")
    def test_points_of_a_case(self):
        found = arrester.points_of_case(str(EXAMPLE / "arrester_energy.case"), "ARR")
        self.assertEqual(found[0], (0.001, 170000.0))
        self.assertEqual(found[-1], (10000.0, 300000.0))
        with self.assertRaisesRegex(RecordError, "no arrester"):
            arrester.points_of_case(str(EXAMPLE / "arrester_energy.case"), "X-Y")

    def test_refused(self):
        record = record_of(self.stem, STEP, impulse())
        for words, why in (
            (("U X", "I P-0"), "no analog channel"),
            (("I P-0", "I P-0"), "a voltage"),
            (("U P-0", "I P-0", 0.0), "above 0"),
            (("U P-0", "I P-0", 168, [(2, 1), (1, 2)]), "rise"),
            (("U P-0", "I P-0", 168, [(1, 2, 3)]), "two numbers"),
        ):
            with self.subTest(words=words), self.assertRaisesRegex(RecordError, why):
                arrester.duty(record, *words)


class Insulation(unittest.TestCase):
    def test_distribution(self):
        its = insulation.distribution(np.arange(1, 101))
        self.assertEqual((its.count, its.half, its.seldom, its.greatest, its.mean), (100, 50, 98, 100, 50.5))
        self.assertAlmostEqual(its.normal_seldom, 50.5 + 2.0537 * its.deviation, 2)

    def test_risk(self):
        """At Uw an insulation fails once in ten, at U50 every second time; z apart by formula."""
        for spread in (0.06, 0.03):
            middle = 1000 / (1 - 1.2816 * spread)
            self.assertAlmostEqual(insulation.risk(np.array([1000.0]), 1000, spread), 0.1, 6)
            self.assertAlmostEqual(insulation.risk(np.array([-middle]), 1000, spread), 0.5, 3)
        both = insulation.risk(np.array([1000.0, 0.0]), 1000)
        self.assertAlmostEqual(both, 0.05, 6)

    def test_risk_of_normal_peaks(self):
        """Normal peaks and a normal strength: one normal law of their difference."""
        peaks = 800 + 60 * np.array([NormalDist().inv_cdf((k + 0.5) / 4000) for k in range(4000)])
        middle = 950 / (1 - 1.28155 * 0.06)
        wanted = NormalDist().cdf((800 - middle) / math.hypot(60, 0.06 * middle))
        self.assertLess(abs(insulation.risk(peaks, 950) / wanted - 1), 0.01)

    def test_coordination(self):
        for ups, ue2, factor in (
            (600, 1000, 1.1),
            (700, 1000, 1.1),
            (900, 1000, 1.06),
            (1200, 1000, 1.0),
            (1500, 1000, 1.0),
        ):
            found, needed = insulation.coordination(ue2, ups)
            self.assertAlmostEqual(found, factor, 9)
            self.assertAlmostEqual(needed, factor * min(ups, ue2), 6)
        self.assertAlmostEqual(insulation.altitude_factor(1000, 1.0), 1.1305, 4)


class Commands(unittest.TestCase):
    def setUp(self):
        self.room = tempfile.TemporaryDirectory()
        self.addCleanup(self.room.cleanup)
        self.out = pathlib.Path(self.room.name)

    def run_words(self, words):
        said, fault = io.StringIO(), io.StringIO()
        with contextlib.redirect_stdout(said), contextlib.redirect_stderr(fault):
            status = main(["arrester", *words])
        return status, said.getvalue(), fault.getvalue()

    def test_record(self):
        own = [str(EXAMPLE / "arrester_energy.cfg"), "--u", "V P", "--i", "I P-ARR"]
        files = ["--csv", str(self.out / "a.csv"), "--curves", str(self.out / "b.csv")]
        for words, status, text in (
            ([*own, "--ur", "168", "--thermal", "5", "--out", str(self.out / "a.png"), *files], 0, "WITHIN"),
            ([*own, "--charge", ".1", "--out", str(self.out / "a.html")], 1, "BEYOND"),
            ([*own, "--points", "1:205,100:235,1000:262,10000:300"], 2, "NOT JUDGED"),
            ([*own, "--points", "1;205"], 2, ""),
            ([*own, "--thermal", "5"], 2, ""),
            ([own[0]], 2, ""),
            ([*own, "--case", "nothing"], 2, ""),
        ):
            with self.subTest(words=words):
                found, said, fault = self.run_words(words)
                self.assertEqual(found, status)
                self.assertIn(text, said)
                self.assertEqual(bool(fault), not text)
        self.assertTrue((self.out / "a.png").stat().st_size and (self.out / "a.html").stat().st_size)

    def test_study(self):
        table = self.out / "rows.csv"
        rows = [f"{k},{2 + 0.01 * k:.2f}" for k in range(1, 51)]
        table.write_text("\n".join(["row,ANY V (pu)", *rows]) + "\n")
        own = [str(table), "--column", "ANY V", "--unit", "pu:342.9"]
        seldom = 2.49 * 342.9
        for words, status, text in (
            (
                [*own, "--ups", "735", "--withstand", "1050", "--out", str(self.out / "s.png")],
                0,
                f"2 % exceed {seldom:.5g}",
            ),
            ([*own, "--withstand", "850"], 1, "BEYOND"),
            (own, 2, "NOT JUDGED"),
            ([*own[:2], "ANY", *own[3:]], 2, ""),
            ([*own[:3]], 2, "NOT JUDGED"),
            ([*own[:3], "--unit", "x"], 2, ""),
            ([*own, "--ups", "-1"], 2, ""),
            ([str(self.out / "none.csv"), "--column", "A"], 2, ""),
        ):
            with self.subTest(words=words):
                found, said, fault = self.run_words(words)
                self.assertEqual(found, status)
                self.assertIn(text, said)
                self.assertEqual(bool(fault), not text)
        kcd = 1.24 - 0.2 * 735 / seldom
        said = self.run_words([*own, "--ups", "735", "--withstand", "950"])[1]
        self.assertIn(f"{kcd:.4g} x 735 = {kcd * 735:.5g} kV", said)


if __name__ == "__main__":
    unittest.main()
