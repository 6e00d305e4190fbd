"""The impedance at a node of a case with its sources dead, beside formulas."""

import contextlib
import io
import pathlib
import sys
import tempfile
import unittest

sys.path.insert(0, str(pathlib.Path(__file__).resolve().parent))

import networks  # noqa: E402
import numpy as np  # noqa: E402
from wurdanei import program, scan_at  # noqa: E402
from wurdanei.__main__ import main  # noqa: E402
from wurdanei.case import Case  # noqa: E402


def network() -> Case:
    """A source behind R and L, a bank, two lossless lines (one open), an arrester, a reactor, a valve."""
    case = Case(1e-6, 1e-2)
    case.smooth_cosine("SRC", amplitude_v=118e3, hz=50)
    case.cosine("BUS", amplitude_a=5, hz=250)
    case.series("SRC", "BUS", r_ohm=0.5, l_mh=10)
    case.series("BUS", c_uf=5)
    case.switch("BUS", "LA")
    case.switch("BUS", "LB", close_s=0.01)
    case.line("LA", "FAR", zc_ohm=300, tau_us=100)
    case.line("LB", "FARB", zc_ohm=300, tau_us=100)
    case.series("FARB", r_ohm=1e4)
    case.series("LB", r_ohm=1e5)
    case.arrester("FAR", points=[(1e-3, 150e3), (1000.0, 200e3)])
    case.series("FAR", r_ohm=1000)
    case.reactor("BUS", points=[(1.0, 2.0), (2.0, 2.1)])
    case.valve("BUS", "V1")
    case.series("V1", r_ohm=1)
    case.output("BUS")
    return case


@unittest.skipUnless(program.is_there(), "emtp isn't there")
class Scans(unittest.TestCase):
    def test_by_hand(self):
        """The admittances of all branches at the bus: 10 mH and .5 ohm, 5 uF, 2 H, the line with 1,000 ohm beside 150 Mohm."""
        found = scan_at.scan(network(), "BUS", 50, 1000, 50)
        w = 2j * np.pi * found.hz
        end, turn = 1 / (1 / 1000 + 1 / 1.5e8), np.tan(w.imag * 1e-4)
        line = 300 * (end + 300j * turn) / (300 + 1j * end * turn)
        admittance = 1 / (0.5 + w * 0.01) + w * 5e-6 + 1 / (2 * w) + 1 / line
        self.assertLess(np.abs(found.ohm * admittance - 1).max(), 1e-6)
        said = " ".join(found.told)
        for words in (
            "SRC",
            "arrester is 1.5e+08 ohm",
            "reactor is 2000 mH",
            "left open",
            "control is left out",
            "closed as at the start",
        ):
            self.assertIn(words, said)

    def test_refused(self):
        for case, words, why in (
            (network(), ("SRC", 50, 100, 50), "voltage source"),
            (network(), ("NONE", 50, 100, 50), "no node"),
            (network(), ("BUS", 100, 50, 50), "at most the last"),
            (network(), ("BUS", 0, 50, 50), "from 1 to"),
            (networks.terminal_fault(), ("BA", 50, 100, 50), "three-phase lines"),
        ):
            with self.subTest(words=words), self.assertRaisesRegex(scan_at.ScanError, why):
                scan_at.scan(case, *words)

    def test_lossy_lines(self):
        case = Case(1e-6, 1e-3)
        case.line("A", "B", length=10, r_ohm=0.1, zc_ohm=300, tau_us=100)
        case.series("B", r_ohm=10)
        case.cosine("A", amplitude_a=1, hz=50)
        with self.assertRaisesRegex(scan_at.ScanError, "lines with resistance .line .*, from A to B"):
            scan_at.scan(case, "A", 50, 100, 50)

    def test_command(self):
        with tempfile.TemporaryDirectory() as room:
            path = pathlib.Path(room)
            network().write(path / "x.case")
            words = ["scan", str(path / "x.case"), "50", "1000", "50", "--at", "BUS"]
            files = ["--out", str(path / "x.png"), "--csv", str(path / "x.csv"), "--write", str(path / "y.case")]
            said, fault = io.StringIO(), io.StringIO()
            with contextlib.redirect_stdout(said), contextlib.redirect_stderr(fault):
                self.assertEqual(main([*words, *files]), 0)
            self.assertEqual(sum(line.startswith("F ") for line in said.getvalue().splitlines()), 20)
            self.assertIn("a current of 1 A flows into BUS", fault.getvalue())
            self.assertEqual(len((path / "x.csv").read_text().splitlines()), 21)
            self.assertTrue((path / "x.png").stat().st_size and (path / "y.case").stat().st_size)
            for bad in (["scan", str(path / "no.case"), *words[2:]], [*words[:2], "5.5", *words[3:]]):
                with contextlib.redirect_stderr(io.StringIO()) as fault:
                    self.assertEqual(main(bad), 2)
                self.assertEqual(fault.getvalue().count("\n"), 1)


if __name__ == "__main__":
    unittest.main()
