"""Recovery voltages beside hand formulas and the numbers of other programs; envelopes beside the table of 145 kV."""

import contextlib
import io
import math
import pathlib
import sys
import tempfile
import unittest

sys.path.insert(0, str(pathlib.Path(__file__).resolve().parent))

import networks  # noqa: E402
import numpy as np  # noqa: E402
from networks import E, ISC, L1, W, record_of  # noqa: E402
from wurdanei import RecordError, duty, envelope, program, tangents, trv  # noqa: E402
from wurdanei.__main__ import main  # noqa: E402
from wurdanei.case import Case, CaseError  # noqa: E402

STEP = 1e-6


def cut(zero: float, end: float, wave, crest: float = 44.5e3, step: float = STEP) -> dict:
    """A current of 50 Hz that is cut at its zero, and what stands across the pole from then on."""
    times = step * np.arange(round(end / step) + 1)
    after = times - zero
    amps = np.where(after < 0, crest * np.sin(W * -after), 0.0)
    return {"U S-L": ("V", np.where(after < 0, 0.0, wave(np.maximum(after, 0)))), "I S-L": ("A", amps)}


class Envelopes(unittest.TestCase):
    """The formulas give the rounded figures of the standard's table for 145 kV."""

    def test_table(self):
        table = {
            ("T100", 1.3): (115, 58, 215, 231),
            ("T100", 1.5): (133, 67, 249, 266),
            ("T60", 1.3): (115, 38, 231, 231),
            ("T30", 1.3): (237, 47, 237, 47),
            ("T10", 1.3): (272, 39, 272, 39),
            ("T10", 1.5): (272, 39, 272, 39),
            ("L90", 1.3): (89, 44, 166, 178),
            ("OOP", 1.3): (178, 115, 296, 461),
        }
        for (name, kpp), figures in table.items():
            with self.subTest(duty=name, kpp=kpp):
                its = envelope.rated(name, 145, kpp)
                found = (its.u1 / 1e3, its.t1 * 1e6, its.uc / 1e3, its.t2 * 1e6)
                self.assertEqual(tuple(round(it) for it in found), figures)

    def test_what_is_not_at_hand(self):
        for words in (("CAP", 145, 1.3), ("T100", 24, 1.5), ("T100", 145, 1.2), ("T100", 1100, 1.3)):
            with self.subTest(words=words), self.assertRaisesRegex(envelope.NotAtHand, "envelope"):
                envelope.rated(*words)

    def test_given(self):
        its, told = envelope.given((115e3, 58e-6, 215e3, 231e-6, 2e-6, 57e3))
        self.assertEqual((its.parameters, its.td, its.ud, told), (4, 2e-6, 57e3, []))
        self.assertEqual(its.at(np.array([29e-6, 58e-6, 1.0])).tolist(), [57.5e3, 115e3, 215e3])
        for bad in ((1, 2, 3, 0), (0, 1), (2, 1, 1, 2), (1,), (math.nan, 1)):
            with self.subTest(bad=bad), self.assertRaises(ValueError):
                envelope.given(bad)


class Lines(unittest.TestCase):
    """Tangents of curves that are known."""

    def test_one_frequency(self):
        """1 - cos x: the line from the zero touches where tan(x/2) = x, at 2.3311, with sin of it, .7246; t3 2 / .7246."""
        x = np.linspace(0, 6, 60001)[1:]
        its = tangents.tangents_of(x, 1 - np.cos(x))
        self.assertAlmostEqual(its.rate, 0.724611, 5)
        self.assertAlmostEqual(its.t_rate, 2.3311, 3)
        self.assertAlmostEqual(its.uc, 2, 9)
        self.assertLess(abs(its.t_uc - math.pi), 1e-4)
        self.assertAlmostEqual(its.t3, 2 / 0.724611, 4)
        self.assertTrue(math.isnan(its.t1))

    def test_two_crests(self):
        """Straight from point to point: the third line goes over the hollow, from the first crest to the second."""
        t = np.arange(1, 3001) * 1e-7
        v = np.interp(t, [0, 50e-6, 100e-6, 200e-6, 300e-6], [0, 100e3, 80e3, 150e3, 120e3])
        its = tangents.tangents_of(t, v)
        self.assertAlmostEqual(its.rate / 2e9, 1, 6)
        self.assertAlmostEqual(its.u1 / 100e3, 1, 6)
        self.assertAlmostEqual(its.t1 / 50e-6, 1, 6)
        self.assertAlmostEqual(its.uc / 150e3, 1, 6)
        self.assertAlmostEqual(its.t2 / 200e-6, 1, 6)

    def test_exponential(self):
        """1 - e^-x to x = 6 has no hollow: the line touches at a point with equal areas on either side, found here by
        bisection over the closed integrals."""
        x = np.linspace(0, 6, 6001)[1:]
        its = tangents.tangents_of(x, 1 - np.exp(-x))
        top, first = 1 - math.exp(-6), float(its.t_rate)
        rate = (1 - math.exp(-first)) / first

        def areas(at):
            slope, level = math.exp(-at), 1 - math.exp(-at) - at * math.exp(-at)
            t1, t2 = level / (rate - slope), (top - level) / slope
            under = lambda a, b: (b - a) + math.exp(-b) - math.exp(-a)
            left = (
                rate * (t1**2 - first**2) / 2
                + level * (at - t1)
                + slope * (at**2 - t1**2) / 2
                - under(first, at)
            )
            right = (1 - math.exp(-at) + top) / 2 * (t2 - at) + top * (6 - t2) - under(at, 6)
            return left - right, t1, t2

        low, high = 0.05, 4.0
        for _ in range(60):
            middle = (low + high) / 2
            low, high = (middle, high) if areas(middle)[0] < 0 else (low, middle)
        _, t1, t2 = areas(low)
        self.assertAlmostEqual(its.t1 / t1, 1, 2)
        self.assertAlmostEqual(its.t2 / t2, 1, 2)


class Poles(unittest.TestCase):
    """Records of curves: the instant of the zero, the verdict, what is refused."""

    def setUp(self):
        self.room = tempfile.TemporaryDirectory()
        self.addCleanup(self.room.cleanup)
        self.stem = pathlib.Path(self.room.name) / "x"

    def test_zero_between_samples(self):
        """The zero is found to a fiftieth of a sample, wherever it lies, and so is the rate of rise of a straight front."""
        for part in (0.0, 0.3, 0.77):
            zero = 1e-3 + part * STEP
            ramp = lambda t: np.minimum(1.5e9 * t, 150e3) * np.exp(-np.maximum(t - 100e-6, 0) / 1e-3)
            its = trv.evaluate(record_of(self.stem, STEP, cut(zero, 1.5e-3, ramp)))
            self.assertLess(abs(its.t0 - zero), STEP / 50)
            self.assertAlmostEqual(its.rrrv / 1.5e9, 1, 2)
            self.assertAlmostEqual(abs(its.slope) / (W * 44.5e3), 1, 3)

    def test_zero_at_a_recorders_rate(self):
        """Samples each 50 us: within a tenth of one."""
        zero = 9.973e-3
        wave = lambda t: 200e3 * (1 - np.cos(W * 20 * t))
        its = trv.evaluate(record_of(self.stem, 50e-6, cut(zero, 25e-3, wave, step=50e-6)))
        self.assertLess(abs(its.t0 - zero), 5e-6)

    def test_verdict(self):
        """.99 and 1.02 of the reference line of T100."""
        line = envelope.rated("T100", 145)
        for share, wanted in ((0.99, True), (1.02, False)):
            found = cut(1e-3, 1.4e-3, lambda t: share * line.at(t))
            its = trv.evaluate(record_of(self.stem, STEP, found))
            self.assertIs(its.passes, wanted)
            self.assertAlmostEqual(its.margin, 1 - share, 2)
            self.assertEqual(math.isnan(its.crossing), wanted)

    def test_crossing(self):
        """A front of 1 kV/us meets the second part, 115.43 kV at 57.72 us to 215.47 at 230.86, at 194.4 us."""
        its = trv.evaluate(record_of(self.stem, STEP, cut(1e-3, 1.4e-3, lambda t: np.minimum(1e9 * t, 300e3))))
        self.assertFalse(its.passes)
        self.assertLess(abs(its.crossing - 194.4e-6), 1.5e-6)

    def test_delay_line(self):
        """A voltage 1 us late, 2 kV/us steep, is above a delay line of 2 us and below one of .5 us."""
        wave = lambda t: np.clip(2e9 * (t - 1e-6), 0, 100e3)
        record = record_of(self.stem, 1e-7, cut(1e-3, 1.2e-3, wave, step=1e-7))
        for td, over in ((2e-6, True), (0.5e-6, False)):
            its = trv.evaluate(record, envelope=(115.4e3, 57.7e-6, 215e3, 231e-6, td))
            self.assertEqual(math.isnan(its.delay_crossing), not over)

    def test_turned_and_by_nodes(self):
        """The same by the voltages of the nodes, and turned round."""
        found = cut(1e-3, 1.4e-3, lambda t: np.minimum(1.2e9 * t, 120e3))
        source, far = 0.4 * found["U S-L"][1], -0.6 * found["U S-L"][1]
        nodes = {"V S": ("kV", source / 1e3), "V L": ("V", far), "I S-L": found["I S-L"]}
        record = record_of(self.stem, STEP, nodes)
        for name in ("U S-L", "V S - V L", "V L - V S"):
            self.assertAlmostEqual(trv.evaluate(record, name, "-I S-L").uc / 120e3, 1, 5)

    def test_missing(self):
        """A few missing values are left out, and told; more than 1 % are refused."""
        found = cut(1e-3, 1.4e-3, lambda t: np.minimum(1.2e9 * t, 120e3))
        found["I S-L"][1][[10, 400, 990]] = found["U S-L"][1][[500, 1050]] = np.nan
        its = trv.evaluate(record_of(self.stem, STEP, found))
        self.assertAlmostEqual(its.uc / 120e3, 1, 5)
        self.assertLess(abs(its.t0 - 1e-3), STEP / 20)
        self.assertIn("2 missing values", its.told[0])
        found["U S-L"][1][300:320] = np.nan
        with self.assertRaisesRegex(RecordError, "are missing"):
            trv.evaluate(record_of(self.stem, STEP, found))

    def test_three_poles(self):
        """Poles that clear 3.3 and 5 ms apart are told in their order, each by its own zero."""
        curves = {}
        for name, zero in (("A", 6e-3), ("B", 9.3e-3), ("C", 4.3e-3)):
            found = cut(zero, 12e-3, lambda t: np.minimum(1.2e9 * t, 120e3))
            curves |= {f"U {name}-0": found["U S-L"], f"I {name}-0": found["I S-L"]}
        record_of(self.stem, STEP, curves, {f"S {it}-0": curves[f"I {it}-0"][1] != 0 for it in "ABC"})
        said = io.StringIO()
        with contextlib.redirect_stdout(said):
            self.assertEqual(main(["trv", f"{self.stem}.cfg", "--rated", "145"]), 0)
        self.assertIn("in this order: U C-0, U A-0, U B-0", said.getvalue())
        self.assertIn("U B-0: the current became zero at 9.3 ms", said.getvalue())

    def test_a_variable(self):
        """A variable of the control has no unit; that it counts as volts is told. A current isn't a voltage."""
        found = cut(1e-3, 1.4e-3, lambda t: np.minimum(1.2e9 * t, 120e3))
        its = trv.evaluate(
            record_of(self.stem, STEP, {"T TRV": ("PU", found["U S-L"][1]), "I S-L": found["I S-L"]}), "T TRV", "I S-L"
        )
        self.assertAlmostEqual(its.uc / 120e3, 1, 5)
        self.assertIn("T TRV has no unit", its.told[0])

    def test_carries_again(self):
        """What comes after a restrike isn't judged."""
        found = cut(1e-3, 2e-3, lambda t: np.where(t < 2e-4, 5e8 * t, 0))
        found["I S-L"][1][1300:] = 2000.0
        its = trv.evaluate(record_of(self.stem, STEP, found))
        self.assertTrue(its.passes)
        self.assertTrue(any("again" in told for told in its.told))
        self.assertLess(its.times[-1], 3.01e-4)

    def test_by_the_voltage_alone(self):
        found = cut(1e-3, 1.4e-3, lambda t: np.minimum(1.2e9 * t, 120e3))
        its = trv.evaluate(record_of(self.stem, STEP, {"U S-L": found["U S-L"]}))
        self.assertLess(abs(its.t0 - 1e-3), 1.01 * STEP)
        self.assertTrue(any("no current" in told for told in its.told))

    def test_refused(self):
        found = cut(1e-3, 1.4e-3, lambda t: np.minimum(1.2e9 * t, 120e3))
        record = record_of(self.stem, STEP, found)
        for words, why in (
            (("U S-X",), "no analog channel"),
            (("I S-L",), "a voltage"),
            (("U S-L", "U S-L"), "a current"),
            (("U S-L", None, 145, "T99"), "none of"),
            (("U S-L", None, 145, "T100", 1.3, (1, 2)), None),
            (("U S-L", None, 145, "T100", 1.3, (1.0,)), "parameters"),
            (("U S-L", None, 145, "T100", 1.3, None, 0.0), "above 0"),
            (("U S-L", None, 145, "T100", 1.3, None, 5e-6), "samples"),
        ):
            with self.subTest(words=words):
                if why is None:
                    self.assertIsNotNone(trv.evaluate(record, *words).passes)
                    continue
                with self.assertRaisesRegex(RecordError, why):
                    trv.evaluate(record, *words)
        on = record_of(
            self.stem, STEP, {"U S-L": found["U S-L"], "I S-L": ("A", 1e4 * np.sin(W * STEP * np.arange(1401)))}
        )
        with self.assertRaisesRegex(RecordError, "doesn't open"):
            trv.evaluate(on)

    def test_command(self):
        """The statuses, what is printed, and what is left."""
        record_of(self.stem, STEP, cut(1e-3, 1.4e-3, lambda t: np.minimum(1.2e9 * t, 120e3)))
        cfg, out = f"{self.stem}.cfg", pathlib.Path(self.room.name)
        outs = ["--csv", str(out / "v.csv"), "--curves", str(out / "c.csv")]
        runs = (
            (["--rated", "145", "--out", str(out / "a.png"), *outs], 0, "BELOW"),
            (["--envelope", "100,60,110,300", "--out", str(out / "a.html")], 1, "OVER"),
            (["--rated", "145", "--duty", "CAP"], 2, "NOT JUDGED"),
            (["--rated", "24"], 2, "NOT JUDGED"),
            ([], 2, "NOT JUDGED"),
            (["--rated", "145", "--out", "x.docx"], 2, ""),
            (["--csv", "x.csv", "--curves", "x.csv"], 2, ""),
            (["--pole", "U A-B"], 2, ""),
            (["--envelope", "1,2,3,a"], 2, ""),
        )
        for words, status, last in runs:
            with self.subTest(words=words):
                said, fault = io.StringIO(), io.StringIO()
                pole = [] if "--pole" in words else ["--pole", "U S-L"]
                with contextlib.redirect_stdout(said), contextlib.redirect_stderr(fault):
                    self.assertEqual(main(["trv", cfg, *pole, *words]), status)
                self.assertIn(last, said.getvalue())
                self.assertEqual(fault.getvalue().count("\n"), 0 if last else 1)
        self.assertEqual(len((out / "v.csv").read_text().splitlines()), 2)
        self.assertTrue((out / "a.png").stat().st_size and (out / "a.html").stat().st_size)
        self.assertEqual((out / "c.csv").read_text().splitlines()[0].split(",")[0], "pole")


class Helps(unittest.TestCase):
    def test_each_command(self):
        """Each command of the studies says what its exit status means."""
        for word in ("trv", "arrester", "relay", "ct", "locate", "scan"):
            said = io.StringIO()
            with self.subTest(word=word), contextlib.redirect_stdout(said), self.assertRaises(SystemExit) as end:
                main([word, "--help"])
            self.assertEqual(end.exception.code, 0)
            self.assertIn("xit status", said.getvalue())


@unittest.skipUnless(program.is_there(), "emtp isn't there")
class Simulated(unittest.TestCase):
    """Networks that another program and hand formulas have computed."""

    def test_terminal_fault(self):
        """187.01 kV at 398 us and 1.458 kV/us of another program; by hand 1.3 E (1 - e^-(t Z / 1.3 L1)), 142.7 kV at 250 us."""
        its = trv.evaluate(networks.terminal_fault().run(), "U BA-0")
        self.assertLess(abs(its.t0 - 1e-3), 2e-8)
        self.assertLess(abs(its.uc - 187.01e3), 60)
        self.assertLess(abs(its.t_uc - 398.5e-6), 1e-6)  # between two samples of 1 us
        self.assertLess(abs(its.rrrv - 1.458e9), 0.005e9)
        by_hand = 1.3 * E * (1 - math.exp(-(250 - 0.58) / 95.47))
        self.assertLess(abs(np.interp(250e-6, its.times, its.volts) / by_hand - 1), 0.005)
        self.assertTrue(its.passes)

    def test_short_line(self):
        """450 ohm times w .9 I root 2 is 5.668 kV/us; a line without losses swings to twice its voltage."""
        its = trv.evaluate(networks.short_line().run(), "U S-L", duty="L90")
        self.assertLess(abs(its.line.slope - 450 * W * 0.9 * ISC * math.sqrt(2)), 0.01e9)
        self.assertLess(abs(its.line.peak - 2), 0.02)
        self.assertLess(abs(its.uc - 171.4e3), 200)
        self.assertFalse(its.passes)  # the standard's line has 1.6

    def test_out_of_phase(self):
        """232.04 kV of scipy."""
        its = trv.evaluate(networks.out_of_phase().run(), "U S1-S2", duty="OOP")
        self.assertLess(abs(its.uc - 232.04e3), 100)
        self.assertFalse(its.passes)

    def test_sources_meet_their_envelopes(self):
        """Run with the network of a duty, the recovery voltage has the figures of the table within 1 %."""
        for name in ("T100", "T30", "T10"):
            case = Case(2e-7, 1.5e-3)
            network = duty.source(case, "S", rated_kv=145, isc_ka=31.5, duty=name)
            case.switch("S", open_s=0.5e-3, ask="iu")
            its = trv.evaluate(case.run(), "U S-0", duty=name)
            wanted = envelope.rated(name, 145)
            with self.subTest(duty=name):
                self.assertLess(abs(its.t0 - 1e-3), 1e-8)
                self.assertAlmostEqual(its.uc / wanted.uc, 1, 2)
                self.assertAlmostEqual(its.rrrv / wanted.rate, 1, 2)
                self.assertAlmostEqual(sum(it.l for it in network.groups) * network.amps * W / network.volts, 1, 6)
                if wanted.parameters == 4:
                    self.assertLess(abs(its.u1 / wanted.u1 - 1), 0.01)
                    self.assertLess(abs(its.t2 / wanted.t2 - 1), 0.01)

    def test_the_line_of_l90(self):
        """The travel time that takes .1 of the current: (1/.9 - 1) L1 / 450."""
        network = duty.source(Case(2e-7, 1e-3), "S", isc_ka=31.5, duty="L90")
        self.assertAlmostEqual(network.line_us / (1e6 * (1 / 0.9 - 1) * L1 / 450), 1, 6)

    def test_no_source(self):
        for words, why in (
            ({"duty": "CAP"}, "no source network"),
            ({"rated_kv": 24}, "envelope"),
            ({"isc_ka": 0.0}, "above 0"),
        ):
            with self.subTest(words=words), self.assertRaisesRegex(CaseError, why):
                duty.source(Case(1e-6, 1e-3), "S", **({"isc_ka": 31.5} | words))


if __name__ == "__main__":
    unittest.main()
