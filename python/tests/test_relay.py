"""Impedances of a relay beside phasors of an independent program, and curves whose answers are formulas."""

import contextlib
import io
import math
import pathlib
import sys
import tempfile
import unittest

sys.path.insert(0, str(pathlib.Path(__file__).resolve().parent))

import numpy as np  # noqa: E402
from networks import CHANNELS, FAULT, Z0, Z1, W, faulted_line, faulted_phasors, record_of  # noqa: E402
from wurdanei import RecordError, program, relay  # noqa: E402
from wurdanei.__main__ import main  # noqa: E402
from wurdanei.fourier import turned  # noqa: E402

TURN = np.exp(2j * np.pi / 3)
VOLTS, AMPS = ("V A", "V B", "V C"), ("I A", "I B", "I C")


def waves(volts, amps, step=2.5e-4, end=0.2, begin=0.0):
    """Curves of phasors of three voltages and three currents, which begin at a time."""
    times = step * np.arange(round(end / step) + 1)
    return times, {
        name: (name[0].replace("I", "A"), np.where(times < begin, 0, np.real(value * np.exp(1j * W * times))))
        for name, value in zip(VOLTS + AMPS, (*volts, *amps))
    }


class Windows(unittest.TestCase):
    """The full-cycle Fourier transform and its decaying offset."""

    def test_phasor(self):
        times = np.arange(400) / 4000
        curve = (5 * np.cos(W * times + 0.7) + 3 * np.cos(3 * W * times) + 2)[None, :]
        for offset in (True, False):
            found = turned(curve, times, 50, 80, offset)
            self.assertTrue(np.isnan(found[0, :79]).all())
            self.assertLess(abs(found[0, 200:] - 5 * np.exp(0.7j)).max(), 1e-9)

    def test_offset(self):
        """An offset of the whole crest that decays in 30 ms is gone to 1e-9; left in, it is 12 % of the first phasor."""
        times = np.arange(800) / 4000
        for tau in (0.005, 0.03, 0.3):
            curve = (np.cos(W * times) - np.exp(-times / tau))[None, :]
            self.assertLess(abs(turned(curve, times, 50, 80, True)[0, 100:] - 1).max(), 1e-9)
        curve = (np.cos(W * times) - np.exp(-times / 0.03))[None, :]
        r, count = math.exp(-1 / 4000 / 0.03), 80
        extra = 2 / count * (1 - r**count) / (1 - r * np.exp(-2j * np.pi / count))  # the sum of a geometric series
        self.assertLess(abs(turned(curve, times, 50, count, False)[0, 79] - (1 - extra)), 1e-9)


class Curves(unittest.TestCase):
    """Records of formulas."""

    def setUp(self):
        self.room = tempfile.TemporaryDirectory()
        self.addCleanup(self.room.cleanup)
        self.stem = pathlib.Path(self.room.name) / "x"

    def record(self, volts, amps, **words):
        return record_of(self.stem, words.get("step", 2.5e-4), waves(volts, amps, **words)[1])

    def test_a_fault_to_ground(self):
        """Currents i0 = i1 = i2: V A is Z1 (I A + k0 3 I0) at the fault's place, and a healthy loop has load."""
        z1, z0 = 6 + 40j, 25 + 113j
        amps = (900 - 800j, 20 + 5j, -10j)
        k0 = (z0 - z1) / (3 * z1)
        volts = (0.3 * z1 * (amps[0] + k0 * sum(amps)), 1.8e5 * TURN**2, 1.8e5 * TURN)
        its = relay.loops(self.record(volts, amps), VOLTS, AMPS, z1, z0)
        self.assertLess(abs(its.at(0.19)["AG"] - 0.3 * z1), 1e-4)
        self.assertLess(abs(its.at(0.19)["BC"] - (volts[1] - volts[2]) / (amps[1] - amps[2])), 1)
        self.assertLess(abs(its.sequences("i")[0, -1] - sum(amps) / 3), 1e-2)
        self.assertLess(abs(its.sequences("v")[1, -1] - (volts[0] + TURN * volts[1] + TURN**2 * volts[2]) / 3), 1)

    def test_no_current(self):
        """Loops without current have no impedance."""
        its = relay.loops(
            self.record((1e5, 1e5 * TURN**2, 1e5 * TURN), (1000 - 500j, 0, 0)), VOLTS, AMPS, 6 + 40j, 6 + 40j
        )
        found = its.at(0.19)
        self.assertTrue(np.isnan(found["BC"]) and np.isnan(found["BG"]))
        self.assertFalse(np.isnan(found["AB"]))

    def test_zones(self):
        mho, quad = relay.Mho(4 + 32j), relay.Quadrilateral(32.0, 20.0, 80.0)
        for z, in_mho, in_quad in (
            (2 + 16j, True, True),
            (3.9 + 31.9j, True, True),
            (4.1 + 32.1j, False, False),
            (19 + 16j, False, True),
            (24 + 16j, False, False),
            (-1 - 8j, False, False),
            (-13 + 16j, True, False),
            (-2 + 5j, True, True),
        ):
            with self.subTest(z=z):
                self.assertEqual((bool(mho.holds(np.array(z))), bool(quad.holds(np.array(z)))), (in_mho, in_quad))
        self.assertTrue(np.allclose(abs(mho.outline() - (2 + 16j)), abs(2 + 16j)))
        middle = quad.outline().mean()
        self.assertTrue(quad.holds(middle + 0.999 * (quad.outline() - middle)).all())
        self.assertFalse(quad.holds(middle + 1.001 * (quad.outline() - middle)).any())

    def test_pickup_and_reset(self):
        """A voltage that falls at 60 ms and comes back at 140: the loop is in the zone within a cycle, and leaves it."""
        z1 = 6 + 40j
        times, load = waves((1.8e5, 1.8e5 * TURN**2, 1.8e5 * TURN), (400, 400 * TURN**2, 400 * TURN))
        _, near = waves((1e4j, 1e4j * TURN**2, 1e4j * TURN), (400, 400 * TURN**2, 400 * TURN))
        during = (times >= 0.06) & (times < 0.14)
        record = record_of(
            self.stem,
            2.5e-4,
            {name: (unit, np.where(during, near[name][1], values)) for name, (unit, values) in load.items()},
        )
        its = relay.pickup(relay.loops(record, VOLTS, AMPS, z1, z1), relay.Mho(z1))
        self.assertEqual({it.loop for it in its}, set(relay.LOOPS))
        for it in its[:6]:
            self.assertTrue(0.06 < it.start < 0.08 and 0.14 < it.reset < 0.16 and not it.lasts)
        self.assertEqual(relay.pickup(relay.loops(record, VOLTS, AMPS, z1, z1), relay.Mho(z1), 0.1), [])

    def test_overcurrent(self):
        """IEC 60255-151: five times the setting, NI .1: .1 .14 / (5^.02 - 1) s behind the pickup."""
        step, begin = 2.5e-4, 0.1
        _, curves = waves((1, 2, 3), (500 * math.sqrt(2),) * 3, step, 0.9, begin)
        record = record_of(self.stem, step, curves)
        for curve, seconds in (
            ("NI", 0.1 * 0.14 / (5**0.02 - 1)),
            ("VI", 0.1 * 13.5 / 4),
            ("EI", 0.1 * 80 / 24),
            ("DT", 0.1),
        ):
            its = relay.overcurrent(record, ["I A"], relay.Overcurrent(100, curve, 0.1))
            with self.subTest(curve=curve):
                self.assertLess(abs(its.trip[0] - begin - seconds), 0.022)
                self.assertLess(abs(its.trip[0] - its.start[0] - seconds), 0.02)
        its = relay.overcurrent(record, ["I A"], relay.Overcurrent(501, "NI", 0.1))
        self.assertTrue(math.isnan(its.trip[0]) and math.isnan(its.start[0]))

    def test_overcurrent_begins_again(self):
        """Two pulses of 60 ms, 100 ms apart, aren't one of 120 ms."""
        times, curves = waves((1, 2, 3), (500 * math.sqrt(2),) * 3, 2.5e-4, 0.6)
        on = ((times > 0.1) & (times < 0.16)) | ((times > 0.26) & (times < 0.32))
        record = record_of(self.stem, 2.5e-4, {"I A": ("A", curves["I A"][1] * on)})
        its = relay.overcurrent(record, ["I A"], relay.Overcurrent(100, "DT", 0.09))
        self.assertTrue(math.isnan(its.trip[0]))

    def test_differential(self):
        """Through current of 2,000 A with 5 % difference stays; a fault fed from both ends trips."""
        _, curves = waves((2000, 2000 * TURN, 0), (-1900, 900 * TURN, 0), end=0.2)
        record = record_of(self.stem, 2.5e-4, {it: ("A", values) for it, (_, values) in curves.items()})
        its = relay.differential(record, VOLTS, AMPS, 50, 0.3)
        self.assertEqual(its.spans[0], [])
        self.assertTrue(math.isnan(its.spans[1][0][1]) and its.spans[1][0][0] < 0.03)
        self.assertAlmostEqual(float(its.amps[1, -1]), 2900 / math.sqrt(2), 3)
        self.assertAlmostEqual(float(its.restraint[0, -1]), 1950 / math.sqrt(2), 3)

    def test_refused(self):
        record = self.record((1e5, 1e5 * TURN**2, 1e5 * TURN), (1000, 0, 0))
        for words, why in (
            ((VOLTS, AMPS[:2], 1j, 1j), "three currents"),
            ((VOLTS, ("I A", "I A", "I B"), 1j, 1j), "three currents"),
            (("V A", AMPS, 1j, 1j), "three voltages"),
            ((VOLTS, AMPS, 0, 1j), "isn't 0"),
            ((AMPS, VOLTS, 1j, 1j), "a voltage"),
            ((VOLTS, AMPS, 1j, 1j, 0), "above 0"),
            ((VOLTS, AMPS, 1j, 1j, 50, 9000), "samples"),
            ((VOLTS, AMPS, 1j, 1j, 50, 300), "at least"),
            ((VOLTS, AMPS, 1j, 1j, 50, None, 2000), "filter"),
            ((VOLTS, AMPS, 1j, 1j, 5), "two cycles"),
        ):
            with self.subTest(words=words), self.assertRaisesRegex(RecordError, why):
                relay.loops(record, *words)
        for made in (
            lambda: relay.Mho(0),
            lambda: relay.Quadrilateral(0, 1),
            lambda: relay.Overcurrent(0),
            lambda: relay.Overcurrent(1, "XX"),
            lambda: relay.differential(record, VOLTS, AMPS, 0, 1),
        ):
            with self.assertRaises(RecordError):
                made()

    def test_command(self):
        z1 = 6 + 40j
        amps = (900 - 800j, (900 - 800j) * TURN**2, (900 - 800j) * TURN)
        self.record(tuple(0.5 * z1 * it for it in amps), amps)
        out = pathlib.Path(self.room.name)
        own = ["--v", ",".join(VOLTS), "--i", ",".join(AMPS), "--line", ".06,.4,.06,.4,100"]
        far = ["--i", ",".join(AMPS), "--there", ",".join(AMPS)]
        files = ["--csv", str(out / "a.csv"), "--curves", str(out / "b.csv")]
        for words, status, last in (
            ([*own, "--mho", ".8", "--out", str(out / "a.png"), *files], 0, "TRIPS: zone 1"),
            ([*own, "--mho", ".4"], 1, "DOESN'T TRIP"),
            ([*own, "--mho", ".4", "--quad", ".8,25", "--expect", "2", "--out", str(out / "a.html")], 0, "AS EXPECTED"),
            ([*own, "--mho", ".8", "--expect", "none"], 1, "NOT AS EXPECTED"),
            ([*own], 2, "NOT JUDGED"),
            ([*own, "--mho", ".8", "--expect", "3"], 2, ""),
            (["--i", ",".join(AMPS), "--overcurrent", "100,DT,.05", "--out", str(out / "o.png"), *files], 0, "TRIPS"),
            (["--i", ",".join(AMPS), "--overcurrent", "100,NI,1"], 2, "NOT JUDGED"),
            (["--i", ",".join(AMPS), "--overcurrent", "5000,NI,1", "--expect", "none"], 0, "DOESN'T TRIP"),
            (["--i", ",".join(AMPS), "--overcurrent", "5000"], 2, ""),
            ([*far, "--differential", "100,.3", "--out", str(out / "d.png"), *files], 0, "TRIPS"),
            ([*far, "--differential", "100"], 2, ""),
            ([*own], 2, "NOT JUDGED"),
            (["--i", "I A,I B"], 2, ""),
        ):
            with self.subTest(words=words):
                said, fault = io.StringIO(), io.StringIO()
                with contextlib.redirect_stdout(said), contextlib.redirect_stderr(fault):
                    self.assertEqual(main(["relay", f"{self.stem}.cfg", *words]), status)
                self.assertIn(last, said.getvalue())
                self.assertEqual(bool(fault.getvalue()), not last)
        for name in ("a.png", "a.html", "o.png", "d.png"):
            self.assertTrue((out / name).stat().st_size)


@unittest.skipUnless(program.is_there(), "emtp isn't there")
class Faults(unittest.TestCase):
    """A line of 220 kV with faults, beside phasors that `networks.faulted_phasors` computes by admittances."""

    def test_impedances(self):
        """36 faults within .4 % with the offset left in, within .15 % with it taken out, 100 ms after the fault."""
        k0 = (Z0 - Z1) / (3 * Z1)
        for kind in ("AG", "BC", "BCG", "ABC"):
            for place in (0.5, 0.85, 1.1):
                for rf in (0.0, 5.0, 20.0):
                    record = faulted_line(kind, place, rf, 0.245).run()
                    v, i = faulted_phasors(kind, place, rf)
                    wanted = {
                        "AG": v[0] / (i[0] + k0 * i.sum()),
                        "BC": (v[1] - v[2]) / (i[1] - i[2]),
                        "AB": (v[0] - v[1]) / (i[0] - i[1]),
                    }
                    loop = {"AG": "AG", "ABC": "AB"}.get(kind, "BC")
                    for offset, within in ((False, 0.004), (True, 0.0015)):
                        with self.subTest(kind=kind, place=place, rf=rf, offset=offset):
                            found = relay.loops(record, *CHANNELS, Z1, Z0, offset=offset).at(FAULT + 0.1)[loop]
                            self.assertLess(abs(found / wanted[loop] - 1), within)

    def test_overreach(self):
        """A fault at 85 % is in a mho of 80 % in passing, 19.3 ms after an AG fault by another program, where the offset
        stays; where it is taken out it isn't."""
        record = faulted_line("AG", 0.85, 0.0, 0.245).run()
        zone = relay.Mho(0.8 * Z1)
        its = relay.pickup(relay.loops(record, *CHANNELS, Z1, Z0, rate=4000, offset=False), zone)
        self.assertEqual([it.loop for it in its], ["AG"])
        self.assertLess(abs(its[0].start - FAULT - 0.0193), 2.5e-4)
        self.assertFalse(its[0].lasts)
        self.assertEqual(relay.pickup(relay.loops(record, *CHANNELS, Z1, Z0, rate=4000), zone), [])


if __name__ == "__main__":
    unittest.main()
