"""A current transformer beside an independent integration and beside formulas."""

import contextlib
import io
import math
import pathlib
import sys
import tempfile
import unittest

sys.path.insert(0, str(pathlib.Path(__file__).resolve().parent))

import numpy as np  # noqa: E402
from networks import CHANNELS, FAULT, W, faulted_line, record_of  # noqa: E402
from scipy.integrate import solve_ivp  # type: ignore[import]  # noqa: E402
from wurdanei import ct, program, read  # noqa: E402
from wurdanei.__main__ import main  # noqa: E402
from wurdanei.case import Case, CaseError  # noqa: E402

POINTS = [(0.005, 0.35), (0.02, 0.45), (0.1, 0.52), (1.0, 0.58), (20.0, 0.75)]
CURVE = np.array([(0.0, 0.0), *POINTS, (1000.0, 0.75 + 980 * 0.17 / 19)])
VALUES = dict(ratio=1200, rct_ohm=6, burden_ohm=2, points=POINTS)


def iterated(times: np.ndarray, primary: np.ndarray, flux: float = 0.0) -> np.ndarray:
    """The secondary current by scipy's integration of the flux, to 1e-9."""

    def magnetising(webers):
        return np.sign(webers) * np.interp(np.abs(webers), CURVE[:, 1], CURVE[:, 0])

    def slope(t, webers):
        return 8 * (np.interp(t, times, primary) / 1200 - magnetising(webers))

    found = solve_ivp(slope, times[[0, -1]], [flux], "LSODA", times, rtol=1e-9, atol=1e-12, max_step=1e-4)
    return primary / 1200 - magnetising(found.y[0])


def apart(found: np.ndarray, wanted: np.ndarray) -> float:
    """The RMS difference over the RMS value."""
    return float(np.sqrt(np.mean((found - wanted) ** 2) / np.mean(wanted**2)))


class Secondary(unittest.TestCase):
    def test_saturated(self):
        """15 kA with its whole offset saturates it in the first half wave; a tenth of a per cent of scipy's."""
        times = np.arange(3001) * 2.5e-5
        primary = 15e3 * math.sqrt(2) * (np.exp(-times / 0.06) - np.cos(W * times))
        for remanence in (0.0, 0.7):
            found = ct.secondary(times, primary, remanence=remanence, **VALUES)
            self.assertLess(apart(found, iterated(times, primary, remanence * ct.saturation(POINTS))), 1e-3)
        self.assertGreater(apart(found, primary / 1200), 0.2)

    def test_coarse_samples(self):
        """Samples each .5 ms are cut into fine steps."""
        times = np.arange(301) * 5e-4
        primary = 8e3 * (np.exp(-times / 0.06) - np.cos(W * times))
        self.assertLess(apart(ct.secondary(times, primary, **VALUES), iterated(times, primary)), 2e-3)

    def test_linear(self):
        """Below its first point it is a resistance beside an inductance of 70 H: i_s = i_p / (1 + R / (j w L))."""
        times = np.arange(40001) * 5e-5
        found = ct.secondary(times, 600 * np.cos(W * times), **VALUES)
        share = 1 / (1 + 8 / (1j * W * 70))
        wanted = 0.5 * np.real(share * np.exp(1j * W * times))
        late = times > 1.8
        self.assertLess(apart(found[late], wanted[late]), 0.012)  # what is left of an offset of 9 s

    def test_burden_with_an_inductance(self):
        """Far below saturation the current is that of the ratio whatever the burden."""
        times = np.arange(2001) * 5e-5
        found = ct.secondary(times, 60 * np.sin(W * times), burden_mh=5, **VALUES)
        self.assertLess(apart(found, 0.05 * np.sin(W * times)), 0.02)

    def test_knee(self):
        """At 1.1 of the knee voltage, 1.5 of the current: flux by root 2 U / w."""
        points = ct.knee_points(200, 0.05)
        self.assertAlmostEqual(points[0][1], math.sqrt(2) * 200 / W, 12)
        self.assertAlmostEqual(points[1][0] / points[0][0], 1.5, 12)
        self.assertAlmostEqual(points[1][1] / points[0][1], 1.1, 12)
        times = np.arange(2001) * 5e-5
        found = ct.secondary(
            times, 1200 * np.sin(W * times), ratio=1200, rct_ohm=6, burden_ohm=2, knee_v=200, knee_a=0.05
        )
        self.assertLess(apart(found, np.sin(W * times)), 0.01)

    def test_refused(self):
        times, amps = np.arange(10) * 1e-3, np.ones(10)
        for words, why in (
            ({"ratio": 0}, "ratio"),
            ({"rct_ohm": 0, "burden_ohm": 0}, "resistance"),
            ({"points": None}, "magnetising curve"),
            ({"knee_v": 5}, "magnetising curve"),
            ({"points": None, "knee_v": 5}, "knee_a"),
            ({"points": [(1, 1), (1, 2)]}, "rise"),
            ({"points": []}, "two numbers"),
            ({"points": [(1,)]}, "two numbers"),
            ({"points": None, "knee_v": 1, "knee_a": 10, "saturated_mh": 100}, "a fifth"),
            ({"remanence": 1.2}, "remanence"),
        ):
            with self.subTest(words=words), self.assertRaisesRegex(CaseError, why):
                ct.secondary(times, amps, **(VALUES | words))
        with self.assertRaisesRegex(CaseError, "one length"):
            ct.secondary(times, amps[1:], **VALUES)
        with self.assertRaisesRegex(CaseError, "missing"):
            ct.secondary(times, amps * np.nan, **VALUES)


class Command(unittest.TestCase):
    def test_command(self):
        """Two currents, one of which saturates; both sides secondary in what is written."""
        with tempfile.TemporaryDirectory() as room:
            path, times = pathlib.Path(room), np.arange(4001) * 2.5e-5
            small, large = 300 * np.sin(W * times), 15e3 * math.sqrt(2) * (np.exp(-times / 0.06) - np.cos(W * times))
            channels = {"V A": ("kV", 180 * np.cos(W * times)), "I A": ("A", small), "I B": ("kA", large / 1e3)}
            record_of(path / "x", 2.5e-5, channels)
            own = ["ct", str(path / "x.cfg"), str(path / "y.cfg"), "--ratio", "1200/1", "--rct", "6", "--burden", "2"]
            curve = ["--points", ",".join(f"{i}:{f}" for i, f in POINTS)]
            files = ["--out", str(path / "o.png"), "--csv", str(path / "o.csv"), "--curves", str(path / "c.csv")]
            for words, status, text in (
                (["--i", "I A,I B", "--v", "V A", "--vt", "220000/100", *curve, *files], 1, "I B: crest"),
                (["--i", "I A", *curve], 0, "DOESN'T SATURATE"),
                (["--i", "I A", "--knee", "200,.05"], 0, "DOESN'T SATURATE"),
                (["--i", "I A"], 2, ""),
                (["--i", "I A", "--points", "1"], 2, ""),
                (["--i", "V A", *curve], 2, ""),
                (["--i", "I A", *curve, "--remanence", "2"], 2, ""),
            ):
                said, fault = io.StringIO(), io.StringIO()
                with self.subTest(words=words), contextlib.redirect_stdout(said), contextlib.redirect_stderr(fault):
                    self.assertEqual(main([*own, *words]), status)
                    self.assertEqual(bool(fault.getvalue()), not text)
                self.assertIn(text, said.getvalue())
                if status == 1:
                    found = read(path / "y.cfg")
                    self.assertEqual(found.secondary(), ["V A", "I A", "I B"])
                    self.assertLess(apart(found.channel("V A"), 180e3 * np.cos(W * times)), 1e-4)
                    self.assertLess(apart(found.channel("I B") / 1200, ct.secondary(times, large, **VALUES)), 1e-3)
            with contextlib.redirect_stderr(io.StringIO()):
                self.assertEqual(main([*own[:2], str(path / "x.cff"), *own[3:], "--i", "I A", *curve]), 2)


@unittest.skipUnless(program.is_there(), "emtp isn't there")
class InCase(unittest.TestCase):
    def test_a_fault_near_by(self):
        """AG at 10 km: on the record of the current, and as a network, a tenth of a per cent of scipy's."""
        case = faulted_line("AG", 0.1, 0.0, 0.26)
        record = case.run()
        near = record.times > FAULT - 0.005
        times, amps = record.times[near], record.channel(CHANNELS[1][0])[near]
        wanted = iterated(times, amps)
        self.assertLess(apart(ct.secondary(times, amps, **VALUES), wanted), 1e-3)
        self.assertGreater(apart(amps / 1200, wanted), 0.05)

    def test_as_a_network(self):
        case = Case(2.5e-5, 0.1)
        case.cosine("E", amplitude_v=100e3, hz=50, phase_deg=-90)
        case.series("E", "SA", r_ohm=0.3, l_mh=20)
        case.ct("SA", "LA", "CTA", **VALUES)
        case.series("LA", r_ohm=0.1)
        record = case.run()
        self.assertEqual(record.names, ["I CTA-0", "I SA-LA"])
        wanted = iterated(record.times, record.channel("I SA-LA"))
        self.assertLess(apart(record.channel("I CTA-0")[1:], wanted[:-1]), 2e-3)
        with self.assertRaisesRegex(CaseError, "measured already"):
            case.ct("X", "LA", "CTB", **VALUES)
        with self.assertRaisesRegex(CaseError, "letters and digits"):
            case.ct("X", "L.A", "CTB", **VALUES)


if __name__ == "__main__":
    unittest.main()
