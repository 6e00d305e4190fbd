"""Tests of wurdanei.converge: how a case is re-timed, the orders of networks whose answers are known, and what is refused."""

import contextlib
import io
import math
import os
import pathlib
import re
import tempfile
import unittest

from wurdanei import converge, program
from wurdanei.case import Case
from wurdanei.converge import Quantity

# a wave of 500 kV on 350 ohm meets an arrester
WAVE = """BEGIN NEW DATA CASE
   1.E-6   1.E-4
       1       1
  E     S                   350.
-1S     A                         350. 1.E-5    1. 2
99A
              1.         540000.
            500.         645000.
           1000.         662000.
            9999
BLANK
BLANK
11E             1.E6
BLANK
  A
BLANK
"""

needs_program = unittest.skipUnless(program.is_there(), "the program isn't built, so it answers nothing")


def charged(dt: float) -> Case:
    """1 uF charged behind 1 kilohm by a ramp of 100 V within 4 ms; each sample stands at a multiple of .2 ms."""
    case = Case(dt, 4e-3, every=round(2e-4 / dt))
    case.ramp("E", amplitude_v=100, rise_s=4e-3)
    case.series("E", "A", r_ohm=1000, ask="iu")
    case.series("A", c_uf=1)
    case.output("A")
    return case


def told(words: list[str]) -> tuple[int, str, str]:
    """Status, standard output and standard error of the command."""
    out, err = io.StringIO(), io.StringIO()
    with contextlib.redirect_stdout(out), contextlib.redirect_stderr(err):
        status = converge.main(words)
    return status, out.getvalue(), err.getvalue()


def judges() -> bool:
    """Whether the program that is there says how far a run is off."""
    if not program.is_there() or not program.has_judge():
        return False
    with tempfile.TemporaryDirectory() as room:
        pathlib.Path(room, "x.case").write_text(WAVE, encoding="ascii")
        return program.run(["judge", "x.case"], room).status == 0


class Numbers(unittest.TestCase):
    def test_an_order(self) -> None:
        found = Quantity("V A", "peak", "V", (10 + 0.16, 10 + 0.04, 10 + 0.01), 1e-6)
        self.assertAlmostEqual(found.order, 2, 9)
        self.assertAlmostEqual(found.limit, 10, 9)
        self.assertAlmostEqual(found.remains, 0.16, 9)
        self.assertTrue(found.converges and not found.settled)

    def test_what_is_settled_and_what_is_open(self) -> None:
        self.assertTrue(Quantity("V A", "peak", "V", (10, 10.0005, 10.0), 1e-6).settled)  # within 1e-4 of it
        self.assertTrue(Quantity("V A", "peak", "V", (0, 0.3, 0.1), 0.5).settled)  # within what is resolved
        self.assertFalse(Quantity("V A", "peak", "V", (10, 11, 10), 1e-6).converges)
        self.assertFalse(Quantity("V A", "peak", "V", (10, 11, 12.5), 1e-6).converges)
        self.assertTrue(Quantity("V A", "peak", "V", (10, 11, 10.6), 1e-6).converges)  # it closes in from both sides
        self.assertEqual(Quantity("V A", "peak", "V", (10, 11, 10.6), 1e-6).limit, 10.6)


@needs_program
class Cases(unittest.TestCase):
    def test_the_trapezoidal_rule_is_of_order_2(self) -> None:
        """At the end the capacitance has 100 V (1 - (1 - e^-4)/4), behind a ramp of 4 time constants."""
        report = converge.of(charged, 2e-4)
        peak = next(it for it in report.quantities if (it.channel, it.kind) == ("V A", "peak"))
        self.assertEqual(peak.values[0], charged(2e-4).run(record=True).channel("V A").max())
        for name, kind in (("I E-A", "RMS"), ("U E-A", "RMS"), ("E-A", "energy")):
            own = next(it for it in report.quantities if (it.channel, it.kind) == (name, kind))
            self.assertAlmostEqual(own.order, 2, delta=0.1)
        self.assertAlmostEqual(peak.limit, 100 * (1 - (1 - math.exp(-4)) / 4), 2)
        self.assertEqual((report.converges, report.ended, report.told), (True, [], []))

    def test_a_case_of_cards_is_that_of_the_package(self) -> None:
        with tempfile.TemporaryDirectory() as room:
            path = os.path.join(room, "x.case")
            charged(2e-4).write(path)
            own, other = converge.report_of(path), converge.of(charged, 2e-4)
            self.assertEqual([it.values for it in own.quantities], [it.values for it in other.quantities])
            (first, _, third) = converge.retimed(converge.Deck(path))
            self.assertIn("\n  2.E-4     .004\n", first)
            self.assertIn("\n  5.E-5     .004\n", third)
            self.assertEqual([line.split() for line in third.splitlines() if line.split()[1:] == ["4"]], [["1", "4"]])
            status, words, _ = told([path, "--channels", "V *", "--csv", os.path.join(room, "x.csv")])
            self.assertEqual(status, 0)
            self.assertRegex(words, r"V A +peak +75\.\d+ +75\.\d+ +75\.\d+ +(2\.0|same)")
            with open(os.path.join(room, "x.csv"), encoding="utf-8") as file:
                rows = [line.split(",") for line in file.read().splitlines()]
            self.assertEqual(rows[0][:6], ["channel", "quantity", "unit", "0.0002 s", "0.0001 s", "5e-05 s"])
            self.assertEqual([row[:3] for row in rows[1:]], [["V A", "peak", "V"], ["V A", "RMS", "V"]])

    def test_a_run_that_ends_early_at_a_smaller_step(self) -> None:
        """A series branch of 1 H keeps 2 L i / dt below 1e9 V: 5 kA at 10 us, 2.5 kA at 5 us."""

        def rising(dt: float) -> Case:
            case = Case(dt, 4e-3, every=round(1e-5 / dt))
            case.step("A", amplitude_v=1e6)
            case.series("A", l_mh=1000, form="plain", ask="i")
            return case

        report = converge.of(rising, 1e-5)
        self.assertEqual((len(report.ended), report.converges), (2, False))  # it comes to 4 kA
        self.assertRegex(report.ended[1], "^at 1/4 of the step the run ended in step .* RANGE at A")

    @unittest.skipUnless(judges(), "the program that is there doesn't judge a run")
    def test_points_off_a_characteristic_are_told(self) -> None:
        """Step 1 behind the front is still on the first segment, of 540 kilohm: 999 kV at each of the three steps."""
        with tempfile.TemporaryDirectory() as room:
            path = os.path.join(room, "x.case")
            pathlib.Path(path).write_text(WAVE, encoding="ascii")
            _, said, _ = told([path])
        branch = "line 6, nonlinear resistor, BUS1=A, BUS2=(ground)"
        for part in converge.STEPS:
            self.assertRegex(
                said, f"at 1/{part} of the step: {re.escape(branch)}, off its characteristic in steps=[1-9]"
            )
            self.assertIn(
                f"at 1/{part} of the step: warning, {branch}, the record has a peak of the voltage that isn't on", said
            )

    def test_what_is_refused(self) -> None:
        points = [(1e-3, 1e5), (1e3, 2e5)]
        rows = []
        case = Case(1e-7, 1e-4)
        case.arrester("A", points=points, near_uf=0.005, ask="u")
        rows.append((case, "has a travel time of one step, as that before an exact arrester"))
        case = Case(1e-6, 0.3)
        case.series("A", r_ohm=1, ask="i")
        rows.append((case, "has 300,000 steps, so a quarter of its step has more than 1,000,000"))
        case = Case(1.2345e-7, 1e-4)
        case.series("A", r_ohm=1, ask="i")
        rows.append((case, "123,450 ps can't be divided by 4"))
        case = Case(1.2345e-4, 1e-2)
        case.series("A", r_ohm=1, ask="i")
        rows.append((case, "a step of 30,862,500 ps doesn't stand in the columns of DELTAT"))
        case = Case(1e-4, 1e-2)
        case.series("A", r_ohm=1)
        rows.append((case, "asks for no output"))
        with tempfile.TemporaryDirectory() as room:
            for case, words in rows:
                path = os.path.join(room, "x.case")
                case.write(path)
                status, _, said = told([path])
                self.assertEqual(status, 2)
                self.assertIn(words, said)
            self.assertEqual(told([os.path.join(room, "none.case")])[0], 2)


if __name__ == "__main__":
    unittest.main()
