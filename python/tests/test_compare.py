"""The numbers of a comparison by hand, the words of the command, and what it refuses."""

import contextlib
import io
import os
import pathlib
import subprocess
import sys
import tempfile
import unittest

sys.path.insert(0, str(pathlib.Path(__file__).resolve().parent))

import curves  # noqa: E402
import numpy as np  # noqa: E402
from wurdanei import compare, measures, program  # noqa: E402
from wurdanei.lowpass import lowpass  # noqa: E402
from wurdanei.write import Channel, Content, write  # noqa: E402

TURN = 2 * np.pi * np.arange(4000) / 4000


class Measures(unittest.TestCase):
    """Formulas on plain curves."""

    def test_rms_of_a_turned_wave(self):
        """cos(x + p) - cos(x) = -2 sin(p/2) sin(x + p/2): 2 sin(p/2) of the effective value."""
        for turn in (0.01, 0.3, np.pi):
            found = measures.rms_difference(np.cos(TURN + turn), np.cos(TURN))
            self.assertAlmostEqual(found, 200 * np.sin(turn / 2), 9)

    def test_peak(self):
        self.assertAlmostEqual(measures.peak_difference(np.array([0.0, -9.0, 2.0]), np.array([8.0, 1.0, -7.0])), 12.5)

    def test_of_nothing(self):
        """What is 0 throughout has no percentages: 0 where the case is 0 too, else infinitely many."""
        nothing, some = np.zeros(3), np.array([0.0, -1.0, 0.0])
        self.assertEqual(measures.rms_difference(nothing, nothing), 0.0)
        self.assertEqual(measures.rms_difference(some, nothing), np.inf)
        self.assertEqual(measures.peak_difference(some, nothing), np.inf)

    def test_band_of_a_step(self):
        """A step of 10 at 1 s, measured each 0.1 s: a step that comes a sample late lies in the band, one three late doesn't."""
        times = np.arange(0, 2, 0.01)
        case = np.where(times < 1, 0.0, 10.0)
        at = np.arange(0.15, 1.85, 0.1)
        low, high = measures.band(times, case, at, 0.1)
        for late, most in ((0.05, 0.0), (-0.05, 0.0), (0.3, 10.0), (-0.3, 10.0)):
            with self.subTest(late=late):
                measured = np.where(at < 1 + late, 0.0, 10.0)
                self.assertEqual(float(np.max(measures.beyond(measured, low, high))), most)

    def test_band_is_what_a_plain_loop_finds(self):
        chance = np.random.default_rng(5)
        times = np.cumsum(chance.uniform(0.1, 2.0, 300))
        case, at = chance.normal(size=300), chance.uniform(times[0] - 3, times[-1] + 3, 100)
        for width in (0.01, 1.0, 7.7, 500.0):
            low, high = measures.band(times, case, at, width)
            for place, moment in enumerate(at):
                ends = np.interp([moment - width, moment + width], times, case)
                seen = [*ends, *case[(times > moment - width) & (times < moment + width)]]
                self.assertEqual((low[place], high[place]), (min(seen), max(seen)))

    def test_features_of_a_scaled_curve(self):
        """A case that is k times the measured curve: each difference of magnitudes is (k-1)/(k+1) of the mean of their sum.

        ADM is that; FDM is 2 (1/2 + 1/6 + 1/7.2) of it; an offset adds d exp(d) with the same d.
        """
        wave = np.cos(20 * TURN) + 0.4 * np.cos(300 * TURN + 1)
        for scale in (1.1, 0.7):
            apart = abs(scale - 1) / (scale + 1)
            found = measures.features(scale * wave, wave)
            self.assertAlmostEqual(found.amplitude, apart, 9)
            self.assertAlmostEqual(found.feature, 2 * apart * (1 / 2 + 1 / 6 + 1 / 7.2), 9)
            found = measures.features(scale * (wave + 3), wave + 3)
            self.assertAlmostEqual(found.amplitude, apart + apart * np.exp(apart), 9)

    def test_features_of_one_wave(self):
        """k times a slow sine: ADM and FDM follow |cos| and |sin| over their mean 2/pi, so GDM is d pi/2 at each instant."""
        apart = 0.1 / 2.1
        found = measures.features(1.1 * np.cos(20 * TURN), np.cos(20 * TURN))
        self.assertAlmostEqual(found.amplitude, apart, 9)
        self.assertAlmostEqual(found.feature, apart, 4)
        self.assertAlmostEqual(found.whole, apart * np.pi / 2, 4)

    def test_features_of_equal_curves(self):
        found = measures.features(curves.line_current(TURN / 30), curves.line_current(TURN / 30))
        self.assertEqual((found.amplitude, found.feature, found.whole), (0.0, 0.0, 0.0))


class Filter(unittest.TestCase):
    """A Butterworth low-pass of second order, by its transfer function w^2 / (s^2 + sqrt(2) w s + w^2)."""

    def test_sines(self):
        times = np.arange(20000) * 1e-5
        for ratio in (0.1, 0.5, 1.0, 1.5):
            seen = lowpass(np.sin(2 * np.pi * 400 * ratio * times), 1e-5, 400.0)
            transfer = 1 / (1 - ratio**2 + 1j * np.sqrt(2) * ratio)
            hand = abs(transfer) * np.sin(2 * np.pi * 400 * ratio * times + np.angle(transfer))
            self.assertLess(np.max(abs(seen - hand)[2000:]), 1e-3)

    def test_ramp_is_late_by_root_two_over_w(self):
        """A ramp is straight between samples, so the answer is exact, also with five samples a period of the corner."""
        for step in (1e-5, 1e-4, 5e-4):
            times = np.arange(round(0.1 / step)) * step
            seen = lowpass(3 + 7 * times, step, 400.0)
            late = np.sqrt(2) / (2 * np.pi * 400)
            self.assertLess(np.max(abs(seen - 3 - 7 * (times - late))[times > 0.05]), 1e-9)

    def test_refuses_too_few_samples(self):
        with self.assertRaisesRegex(ValueError, "1500 Hz needs a sample each 133.3 us or less"):
            lowpass(np.zeros(9), 1.4e-4, 1500.0)


class Command(unittest.TestCase):
    """`emtp compare` on records of a known fault."""

    @classmethod
    def setUpClass(cls):
        cls.room = tempfile.TemporaryDirectory()
        cls.place = pathlib.Path(cls.room.name)
        curves.fault_record(str(cls.place / "case"), 1e-4)
        fine = curves.fault_record(str(cls.place / "fine"), 1e-5)
        curves.measured_record(str(cls.place / "measured"), fine, begin=0.03, missing=0.005)
        late = {name: (unit, curve(np.arange(2501) * 1e-4 - 2e-3)) for name, (unit, curve) in curves.CHANNELS.items()}
        curves.write_float(str(cls.place / "wrong"), 1e-4, late | {"V SOUND": ("V", 1.2 * late["V SOUND"][1])})
        (cls.place / "pairs").write_text("# a table\n\nV BUS, U_L1\nI BUS-LINE,I_L1,-1,3\n V SOUND , U_L2 , fit\n")

    @classmethod
    def tearDownClass(cls):
        cls.room.cleanup()

    def run_words(self, *words):
        out, told = io.StringIO(), io.StringIO()
        with contextlib.chdir(self.place), contextlib.redirect_stdout(out), contextlib.redirect_stderr(told):
            try:
                status = compare.main(list(words))
            except SystemExit as ended:
                status = ended.code
        return status, out.getvalue(), told.getvalue()

    def assert_shift(self, out, milliseconds):
        """The first line tells this shift, within 10 us."""
        words = out.split()
        found = float(words[10] + words[11])
        self.assertLess(abs(found - milliseconds), 0.010, out)

    def test_right_case_is_within(self):
        status, out, told = self.run_words("case.cfg", "measured.cfg", "pairs", "--lowpass", "1500")
        self.assertEqual(status, 0, out)
        self.assert_shift(out, -30)
        self.assertEqual(out.count("WITHIN"), 4)
        self.assertIn("V SOUND | U_L2", out)
        self.assertIn("missing values are left out", told)

    def test_without_the_filter_it_is_late(self):
        """The filter delays by sqrt(2) / (2 pi 1500 Hz) = 150 us."""
        _, out, _ = self.run_words("case.cfg", "measured.cfg", "pairs")
        self.assert_shift(out, -29.85)

    def test_wrong_case_is_beyond(self):
        """One channel a fifth too large, and 2 ms late: the first line says 32 ms, the last one which is beyond."""
        status, out, _ = self.run_words("wrong.cfg", "measured.cfg", "pairs", "--lowpass", "1500")
        self.assertEqual(status, 0, out)
        (self.place / "pairs2").write_text("V BUS,U_L1\nV SOUND,U_L2,1,15\n")
        status, out, _ = self.run_words("wrong.cfg", "measured.cfg", "pairs2", "--lowpass", "1500")
        self.assertEqual(status, 1, out)
        self.assert_shift(out, -32)
        self.assertTrue(out.endswith("BEYOND: 1 of 2 pairs\n"), out)
        line = next(line for line in out.splitlines() if line.startswith("V SOUND"))
        self.assertAlmostEqual(float(line.split()[5]), 20, delta=0.3)  # RMS, 1.2 times

    def test_given_shift_and_window(self):
        status, out, _ = self.run_words(
            "case.cfg", "measured.cfg", "pairs", "--lowpass", "1500", "--align=-0.03", "--from", ".05", "--to", ".1"
        )
        self.assertEqual(status, 0, out)
        self.assertTrue(out.startswith("time of the measured record = time of the case - 30.0000 ms\n"))
        self.assertIn(" measured samples from 0.050000 to 0.100000 s of the case", out)

    def test_equal_names(self):
        status, out, _ = self.run_words("case.cfg", "fine.cfg")
        self.assertEqual(status, 0)
        self.assertIn("V BUS ", out)
        self.assertIn("time of the case + 0.0000 ms", out)
        status, _, told = self.run_words("case.cfg", "measured.cfg")
        self.assertEqual(status, 2)
        self.assertIn("no channel has the same name", told)

    def test_picture_and_page(self):
        for name, begins in (("a.png", b"\x89PNG"), ("a.html", b"<!doctype html>")):
            status, out, _ = self.run_words("case.cfg", "measured.cfg", "pairs", "--lowpass", "1500", "--out", name)
            self.assertEqual(status, 0)
            self.assertIn("drawn: ", out)
            self.assertTrue((self.place / name).read_bytes().startswith(begins))

    def test_the_shift_of_a_pair(self):
        """A channel that is late beside two others is told as late as it is, less a third of it that all get."""
        times = np.arange(20001) * 1e-5
        names = {"V A": 0.0, "V B": 0.0, "V C": 1.0}
        ring = lambda at: np.cos(curves.OMEGA * at) + 0.3 * np.cos(2 * np.pi * 130 * at + 1)  # noqa: E731
        curves.write_float(str(self.place / "one"), 1e-5, {it: ("V", ring(times)) for it in names})
        for late in (10e-6, 50e-6, 200e-6, 500e-6):
            its = {it: ("V", ring(np.arange(768) / 4800 - own * late + 0.02)) for it, own in names.items()}
            seen = [Channel(it, unit, values) for it, (unit, values) in its.items()]
            write(str(self.place / "late.cfg"), Content(np.arange(768) / 4800, seen, rates=[(4800, 768)]))
            one, other = (curves.read(str(self.place / it)) for it in ("one.cfg", "late.cfg"))
            found = compare.compare(one, other, compare.equal_names(one, other, 5.0))
            self.assertLess(abs(found.pairs[2].shift + found.shift.seconds + 0.02 - late), 1e-6)

    def test_what_the_interface_refuses(self):
        case, measured = (curves.read(str(self.place / it)) for it in ("case.cfg", "measured.cfg"))
        for factor, tolerance in ((0.0, 5.0), (np.nan, 5.0), (np.inf, 5.0), (1.0, np.nan), (1.0, -1.0)):
            with self.assertRaisesRegex(compare.CompareError, "a factor's magnitude is from 1e-12 to 1e"):
                compare.Wanted("V BUS", "U_L1", factor, tolerance)
        with self.assertRaisesRegex(ValueError, "no pair of channels is named"):
            compare.compare(case, measured, [])
        with self.assertRaisesRegex(compare.CompareError, "a corner is above 0 Hz, and 0 Hz isn't"):
            compare.compare(case, measured, [compare.Wanted("V BUS", "U_L1")], corner=0)
        with self.assertRaisesRegex(compare.CompareError, "a clock gains by a part of the time"):
            compare.compare(case, measured, [compare.Wanted("V BUS", "U_L1")], clock=np.nan)

    def test_a_factor_that_explains_a_difference_is_told(self):
        (self.place / "pairs10").write_text("V BUS,U_L1,10\nI BUS-LINE,I_L1,-1\n")
        status, _, told = self.run_words("case.cfg", "measured.cfg", "pairs10", "--lowpass", "1500")
        self.assertEqual(status, 1)
        self.assertRegex(told, r"V BUS \| U_L1: least squares find the factor (1|0\.99\d*|1\.00\d*), which explains")

    def test_refusals(self):
        tables = {
            "one": ("V BUS\n", "pairs.bad, line 1: a pair is the case's channel"),
            "five": ("V BUS,U_L1,1,5,6\n", "line 1: a pair is"),
            "factor": ("\nV BUS,U_L1,x\n", "line 2: x is no number"),
            "nan": ("V BUS,U_L1,nan\n", "line 1: nan is no number"),
            "zero": ("V BUS,U_L1,0\n", "a factor's magnitude is from 1e-12 to 1e+12"),
            "tolerance": ("V BUS,U_L1,1,-3\n", "a tolerance isn't below 0"),
            "name": ("V BUS,U_L9\n", "no channel 'U_L9'; it has U_L1, I_L1, U_L2"),
            "case": ("V BUSS,U_L1\n", "the case has no channel 'V BUSS'"),
            "units": ("V BUS,I_L1\n", "V BUS is in V, and I_L1 in A"),
            "empty": ("# nothing\n", "names no pair"),
            "bytes": (b"\xff\xfe\x00", "no text in UTF-8"),
        }
        for name, (text, words) in tables.items():
            with self.subTest(table=name):
                (self.place / "pairs.bad").write_bytes(text if isinstance(text, bytes) else text.encode())
                status, out, told = self.run_words("case.cfg", "measured.cfg", "pairs.bad")
                self.assertEqual((status, out), (2, ""))
                self.assertIn(words, told)
        for given, words in (
            (("--align", "x"), "--align is `fit` or a number of seconds"),
            (("--align", "inf"), "--align is `fit`"),
            (("--align", "5"), "they have 0 samples in common"),
            (("--from", ".2", "--to", ".1"), "--from is a number of seconds below"),
            (("--from", "nan"), "--from is a number"),
            (("--from", "7"), "fewer than two samples"),
            (("--lowpass", "0"), "--lowpass is a number of hertz above 0"),
            (("--lowpass", "9000"), "a filter of 9000 Hz needs a sample each 22.22 us or less"),
            (("--lowpass", "1e-9"), "a filter of 1e-09 Hz is too slow"),
            (("--tolerance", "-1"), "--tolerance is"),
            (("--out", "x.pdf"), "--out is a picture, .png, or a page"),
            (("--from", "x"), "invalid float value"),
        ):
            with self.subTest(given=given):
                status, out, told = self.run_words("case.cfg", "measured.cfg", "pairs", *given)
                self.assertEqual((status, out), (2, ""))
                self.assertIn(words, told)
        status, _, told = self.run_words("none.cfg", "measured.cfg")
        self.assertEqual(status, 2)
        self.assertTrue(told.startswith("emtp compare: "), told)
        os.truncate(self.place / "fine.dat", 1000)
        self.assertEqual(self.run_words("case.cfg", "fine.cfg")[0], 2)


EXAMPLE = pathlib.Path(__file__).resolve().parents[2] / "examples" / "fault_on_a_line" / "locate.py"


@unittest.skipUnless(program.is_there(), "the program isn't built")
class Example(unittest.TestCase):
    """The worked study of docs/compare.md, by a smaller grid: the fault was made at 120 km, through 5 ohm."""

    def test_place_is_found(self):
        with tempfile.TemporaryDirectory() as room:
            words = [sys.executable, str(EXAMPLE), room, "quick"]
            ran = subprocess.run(words, capture_output=True, text=True, check=False, timeout=600)
            self.assertEqual(ran.returncode, 0, ran.stderr)
            self.assertTrue(ran.stdout.endswith(" % at 120 km and 5 ohm\n"), ran.stdout)
            for name, status in (("right", 0), ("wrong", 1)):
                out = io.StringIO()
                words = [f"{name}.cfg", "measured.cfg", "pairs", "--lowpass", "1500"]
                with contextlib.chdir(room), contextlib.redirect_stdout(out), contextlib.redirect_stderr(io.StringIO()):
                    self.assertEqual(compare.main(words), status, out.getvalue())


if __name__ == "__main__":
    unittest.main()
