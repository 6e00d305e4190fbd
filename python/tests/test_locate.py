"""A fault on a line is found in a record of another simulator, with a recorder's faults; and in formulas."""

import contextlib
import io
import math
import pathlib
import sys
import tempfile
import unittest

sys.path.insert(0, str(pathlib.Path(__file__).resolve().parent))

import numpy as np  # noqa: E402
import sections  # noqa: E402
from networks import CHANNELS, W, faulted_line, record_of  # noqa: E402
from wurdanei import compare, locate, program, read  # noqa: E402
from wurdanei.__main__ import main  # noqa: E402
from wurdanei.write import Channel, Content, write  # noqa: E402

FAULT, BEGIN, RATE, CORNER = 0.1437, 0.07, 5000.0, 1200.0
RATIOS = (1.004, 0.994, 1.0, 1.006, 0.997, 1.002)  # errors of the instrument transformers
OFFSETS = (0.001, -0.002, 0.004, 0.003, -0.001, 0.002)  # of the greatest magnitude
NAMES = ("UL1", "UL2", "UL3", "IL1", "IL2", "IL3")


def recorded(path: pathlib.Path, km: int, ohm: float) -> None:
    """What a recorder makes of the other simulator's fault: one file, secondary values, begun at 70 ms."""
    times = BEGIN + np.arange(round(0.13 * RATE)) / RATE
    seen = sections.measured(km, ohm, FAULT, times, CORNER)
    chance = np.random.default_rng(3)
    channels = []
    for name, values, ratio, offset in zip(NAMES, seen, RATIOS, OFFSETS):
        most = np.abs(values).max()
        values = ratio * values + offset * most + chance.normal(0, 0.002 * most, len(values))
        volts = name.startswith("U")
        sides = (220e3, 100.0) if volts else (1200.0, 1.0)
        channels.append(Channel(name, "V" if volts else "A", values, primary=sides[0], secondary=sides[1], scaling="S"))
    write(str(path), Content(times - BEGIN, channels, frequency=50.0, rates=[(RATE, len(times))]), "BINARY", 2013)


class Formulas(unittest.TestCase):
    """Curves whose values are known."""

    def setUp(self):
        self.room = tempfile.TemporaryDirectory()
        self.addCleanup(self.room.cleanup)
        self.stem = pathlib.Path(self.room.name) / "m"
        self.times = np.arange(2001) * 1e-4

    def run_of(self, size, tau):
        wave = size * np.where(self.times < 0.05, 0, np.exp(-(self.times - 0.05) / tau)) + np.sin(W * self.times)
        return record_of(pathlib.Path(self.room.name) / "r", 1e-4, {"V A": ("V", wave)})

    def test_two_values(self):
        """Size and time constant of an exponential within noise, and deviations that tell of that noise."""
        noise = np.random.default_rng(1).normal(0, 0.02, 2001)
        clean = self.run_of(3.0, 0.02).channel("V A")
        measured = record_of(self.stem, 1e-4, {"V A": ("V", clean + noise)})
        found = locate.fit(
            self.run_of, measured, [compare.Wanted("V A", "V A")], {"size": (0, 10), "tau": (0.002, 0.1)}
        )
        for name, value in (("size", 3.0), ("tau", 0.02)):
            self.assertLess(abs(found.values[name] - value), 5 * found.deviations[name])
            self.assertLess(abs(found.values[name] / value - 1), 0.01)
            self.assertGreater(found.deviations[name] / value, 1e-4)
        self.assertLess(abs(found.shift), 1e-5)
        self.assertLess(abs(found.rms - 100 * 0.02 / np.sqrt(np.mean(clean**2))), 0.2)
        self.assertEqual(found.others, [])

    def test_two_hollows(self):
        """A value that counts by its square has two answers."""
        measured = record_of(self.stem, 1e-4, {"V A": ("V", self.run_of(4.0, 0.02).channel("V A"))})
        pairs = [compare.Wanted("V A", "V A")]
        found = locate.fit(lambda x: self.run_of(x * x, 0.02), measured, pairs, {"x": (-5, 5)}, shift=0.0, grid=9)
        self.assertAlmostEqual(abs(found.values["x"]), 2, 3)
        self.assertEqual(len(found.others), 1)
        self.assertAlmostEqual(found.others[0].values["x"], -found.values["x"], 3)

    def test_at_a_bound(self):
        measured = record_of(self.stem, 1e-4, {"V A": ("V", self.run_of(4.0, 0.02).channel("V A"))})
        found = locate.fit(lambda x: self.run_of(x, 0.02), measured, [compare.Wanted("V A", "V A")], {"x": (5, 9)}, 0.0)
        self.assertTrue(any("bound" in it for it in found.told))

    def test_refused(self):
        measured = self.run_of(3.0, 0.02)
        pairs = [compare.Wanted("V A", "V A")]
        for words, why in (
            ((pairs, {}), "a value to vary"),
            ((pairs, {"size": (2, 1)}), "low bound"),
            (([], {"size": (1, 2)}), "no pair"),
            ((pairs, {"x": (1, 2)}, None, (0.3, 0.4)), "window|record|samples|time"),
        ):
            with self.subTest(words=words), self.assertRaisesRegex(locate.LocateError, why):
                locate.fit(lambda **its: self.run_of(next(iter(its.values())), 0.02), measured, *words)
        with self.assertRaisesRegex(locate.LocateError, "grid"):
            locate.fit(self.run_of, measured, pairs, {"size": (1, 2)}, grid=1)

    def test_texts(self):
        for value, width, text in (
            (62.904123, 6, "62.904"),
            (0.0123456, 6, ".01235"),
            (300.0, 6, "300."),
            (8.0, 6, "8."),
        ):
            self.assertEqual(locate.text_of(value, width), text)
        with self.assertRaises(locate.LocateError):
            locate.text_of(1e-12, 6)


@unittest.skipUnless(program.is_there(), "emtp isn't there")
class Line(unittest.TestCase):
    """63 km and 8 ohm, within .2 km and .2 ohm; the shift is -70 ms."""

    @classmethod
    def setUpClass(cls):
        cls.room = tempfile.TemporaryDirectory()
        cls.addClassCleanup(cls.room.cleanup)
        cls.path = pathlib.Path(cls.room.name)
        recorded(cls.path / "m.cff", 63, 8.0)

    def test_by_python(self):
        pairs = [compare.Wanted(a, b, None) for a, b in zip(sum(CHANNELS, []), NAMES)]
        found = locate.fit(
            lambda km, ohm: faulted_line("AG", km / 100, ohm, 0.2, FAULT), read(self.path / "m.cff"), pairs,
            {"km": (5, 95), "ohm": (0.1, 40)}, window=(0.11, 0.195), corner=CORNER, grid=4, jobs=2,
        )  # fmt: skip
        self.assertLess(abs(found.values["km"] - 63), 0.2)
        self.assertLess(abs(found.values["ohm"] - 8), 0.2)
        self.assertLess(abs(found.shift + BEGIN), 5e-6)
        self.assertEqual(found.others, [])
        for factor, ratio in zip(found.factors.values(), RATIOS):
            self.assertLess(abs(factor * ratio - 1), 0.004)

    def test_command(self):
        """The same of a case of a file, by its lines."""
        case = faulted_line("AG", 0.5, 5.0, 0.2, FAULT)
        case.write(self.path / "c.case", rulers=False)
        lines = (self.path / "c.case").read_text().splitlines()
        own = [k for k, line in enumerate(lines, 1) if line.startswith(("-1LA    FA", "-2LB    FB"))]
        far = [k for k, line in enumerate(lines, 1) if line.startswith(("-1FA    RA", "-2FB    RB"))]
        ohm = next(k for k, line in enumerate(lines, 1) if line.startswith("  YA "))
        (self.path / "pairs").write_text("".join(f"{a}, {b}, fit, 5\n" for a, b in zip(sum(CHANNELS, []), NAMES)))
        words = [str(self.path / it) for it in ("c.case", "m.cff", "pairs")]
        vary = [
            "--vary",
            f"{own[0]},{own[1]}:LENGTH=50:80",
            "--rest",
            f"{far[0]},{far[1]}:LENGTH=100",
            "--vary",
            f"{ohm}:R=4:12",
        ]
        more = ["--lowpass", "1200", "--from", ".11", "--to", ".195", "--grid", "2", "--jobs", "2"]
        files = [
            "--out",
            str(self.path / "l.png"),
            "--csv",
            str(self.path / "l.csv"),
            "--curves",
            str(self.path / "t.csv"),
        ]
        said, fault = io.StringIO(), io.StringIO()
        with contextlib.redirect_stdout(said), contextlib.redirect_stderr(fault):
            status = main(["locate", *words, *vary, *more, *files])
        self.assertEqual(status, 0, said.getvalue() + fault.getvalue())
        rows = [line.split(",") for line in (self.path / "l.csv").read_text().splitlines()[1:]]
        self.assertLess(abs(float(rows[0][-2]) - 63), 0.2)
        self.assertLess(abs(float(rows[1][-2]) - 8), 0.2)
        self.assertIn("FOUND", said.getvalue())
        for bad in (["--vary", "x"], ["--vary", "1:LENGTH=1:2"], ["--vary", f"{own[0]}:LENGTH=5:1"]):
            with contextlib.redirect_stderr(io.StringIO()) as fault:
                self.assertEqual(main(["locate", *words, *bad]), 2)
            self.assertEqual(fault.getvalue().count("\n"), 1)


if __name__ == "__main__":
    unittest.main()
