"""Tests of wurdanei.case: the cards that its methods write, by hand; what it refuses, and in which words; and its
answers.

Where the program isn't built, the tests that need an answer of it are left out.
"""

import concurrent.futures
import contextlib
import io
import math
import os
import pathlib
import signal
import subprocess
import sys
import tempfile
import time
import unittest
import warnings
from unittest import mock

import numpy as np

from wurdanei import listing, program
from wurdanei.case import Case, CaseError, EndedEarly, Refused
from wurdanei.record import read

PACKAGE = pathlib.Path(__file__).resolve().parents[1]

CASES = pathlib.Path(__file__).parents[2] / "cases" / "shown"
needs_program = unittest.skipUnless(program.is_there(), "the program isn't built, so it answers nothing")


def cards(case: Case) -> list[str]:
    """The cards of a case behind its two miscellaneous cards, and without the ends of its sections."""
    lines = case.text().splitlines()
    return [line for line in lines[3:] if line != "BLANK"]


def line_and_breaker() -> Case:
    case = Case(dt=1e-5, end=0.04, every=8)
    case.series("SRC", "BUS", r_ohm=1, l_mh=40)
    case.series("BUS", c_uf=0.01)
    case.line("SEND", "FAR", length=120, r_ohm=0.08, zc_ohm=380, velocity=2.97e5)
    case.series("FAR", r_ohm=1e6)
    case.switch("BUS", "SEND", close_s=0.005, ask="i")
    case.cosine("SRC", amplitude_v=118.4e3, hz=50, phase_deg=-90)
    case.output("BUS", "SEND", "FAR")
    return case


class Text(unittest.TestCase):
    def test_the_whole_of_a_case(self) -> None:
        self.assertEqual(
            line_and_breaker().text(),
            "BEGIN NEW DATA CASE\n"
            "   1.E-5     .04\n"
            "       1       8\n"
            "  SRC   BUS                   1.   40.\n"
            "  BUS                                    .01\n"
            "-1SEND  FAR                  .08 380. 2.97E5  120. 1\n"
            "  FAR                       1.E6\n"
            "BLANK\n"
            "  BUS   SEND        .005                                                       1\n"
            "BLANK\n"
            "14SRC        118400.       50.      -90.\n"
            "BLANK\n"
            "  BUS   SEND  FAR\n"
            "BLANK\n",
        )

    def test_a_value_that_narrow_columns_lose_goes_into_wide_ones(self) -> None:
        case = Case(1e-5, 1e-3)
        case.series("A", r_ohm=1)
        case.series("A", "B", r_ohm=1234.56, l_mh=1 / 3)
        case.series("A", "C", like=("A", "B"))
        case.series("B", r_ohm=2)
        self.assertEqual(
            cards(case),
            [
                "  A                           1.",
                "$VINTAGE, 1",
                "  A     B" + " " * 26 + "1234.56" + " " * 9 + ".333333",
                "$VINTAGE, 0",
                "  A     C     A     B",
                "  B                           2.",
            ],
        )
        self.assertEqual(case.told, [])

    def test_three_phases_and_their_ways_of_values(self) -> None:
        case = Case(1e-5, 1e-3)
        zero, positive = {"r_ohm": 0.25, "l_mh": 2.8, "c_uf": 0.008}, {"zc_ohm": 266, "tau_us": 1020}
        case.line3(["A", "B", "C"], ["D", "E", "F"], length=300, zero=zero, positive=positive, ask=["i", "", "iu"])
        case.line3(["G", "H", "I"], ["J", "K", "L"], like=(["A", "B", "C"], ["D", "E", "F"]))
        self.assertEqual(
            cards(case),
            [
                "-1A     D                    .25   2.8  .008  300." + " " * 29 + "1",
                "-2B     E                        266. .00102  300. 2",
                "-3C     F" + " " * 70 + "3",
                "-1G     J     A     D",
                "-2H     K     B     E",
                "-3I     L",
            ],
        )

    def test_switches_and_sources(self) -> None:
        case = Case(1e-5, 1e-3)
        case.switch("A", "B", open_s=0.05, margin_a=0.5)
        case.switch("A", "C", close_s=0.002)
        case.measuring("B", "D")
        case.valve("A", "E", ignition_v=10, holding_a=0.5, control="TIMEX", ask="iu")
        case.controlled("A", control="PLUS1")
        case.step("B", amplitude_a=-3.25, start_s=0.01, stop_s=0.02)
        case.ramp("C", amplitude_v=100, rise_s=1e-3)
        self.assertEqual(
            cards(case),
            [
                "  A     B            -1.       .05        .5",
                "  A     C           .002",
                "  B     D" + " " * 45 + "MEASURING" + " " * 16 + "1",
                "11A     E            10.        .5" + " " * 30 + "TIMEX          3",
                "13A" + " " * 61 + "PLUS1",
                "11B     -1     -3.25" + " " * 47 + ".01       .02",
                "12C             100.                .001",
            ],
        )

    def test_points_of_an_arrester_and_a_reactor(self) -> None:
        case = Case(1e-5, 1e-3)
        case.arrester("A", points=[(0.001, 2e5), (1000, 350e3)], filtered=False, ask="iu")
        case.reactor("B", points=[(2.5, 120)])
        case.arrester("C", like=("A", ""), filtered=False)
        end = " " * 12 + "9999"
        self.assertEqual(
            cards(case),
            [
                "99A" + " " * 76 + "3",
                "            .001            2.E5",
                "           1000.           3.5E5",
                end,
                "98B",
                "             2.5            120.",
                end,
                "99C           A",
            ],
        )

    def test_the_cards_of_the_control(self) -> None:
        case = Case(1e-4, 1e-2, tolerance_a=1e-4, remark="A case")
        case.series("BUS", r_ohm=50)
        c = case.control
        c.block("FILTER", ["SENSE", "-BIAS"], gain=2, numerator=[1], denominator=[1, 0.01], low=-1, high="TOP")
        c.step("BIAS", 0.5, start_s=0.001, stop_s=0.008)
        c.sawtooth("TOP", 10, period_s=0.002)
        c.pulses("FIRE", 1, period_s=0.02, width_s=0.001)
        c.voltage("BUS")
        c.table("SENSE", "BUS", points=[(-100, -1), (100, 1.5)], group=99)
        c.delay("LATE", [("-", "FILTER")], time_s=0.002)
        c.formula("TRIP", "FILTER .GT. .25 .OR. .NOT. LATE", group=88)
        c.output("FILTER", "TRIP")
        self.assertEqual(
            case.text().splitlines(),
            [
                "C A case",
                "BEGIN NEW DATA CASE",
                "RESIDUAL TOLERANCE         1.E-4",
                "   1.E-4     .01",
                "       1       1",
                "TACS HYBRID",
                " 1FILTER  +SENSE  -BIAS" + " " * 31 + "2.   -1." + " " * 12 + "TOP",
                "        1.",
                "        1.       .01",
                "BLANK",
                "11BIAS            .5" + " " * 46 + ".001      .008",
                "24TOP            10.      .002",
                "23FIRE            1.       .02      .001",
                "90BUS",
                "BLANK",
                "99SENSE 56+BUS",
                "           -100.             -1.",
                "            100.             1.5",
                "            9999",
                "98LATE  53-FILTER" + " " * 35 + ".002",
                "88TRIP    =FILTER .GT. .25 .OR. .NOT. LATE",
                "BLANK",
                "  FILTERTRIP",
                "BLANK",
                "BLANK",
                "  BUS                        50.",
                "BLANK",
                "BLANK",
                "BLANK",
                "BLANK",
            ],
        )

    def test_a_gain_that_loses_digits_goes_into_the_numerator(self) -> None:
        case = Case(1e-4, 1e-2)
        case.control.block("X", "TIMEX", gain=1.234567, numerator=[1, 2], denominator=[1, 0.01])
        case.control.block("Y", "TIMEX", gain=1.25, numerator=[1, 2], denominator=[1, 0.01])
        self.assertIn("  1.234567  2.469134", cards(case))
        self.assertIn(" 1Y       +TIMEX".ljust(52) + "1.25", cards(case))

    def test_a_long_formula_goes_without_its_blanks(self) -> None:
        case = Case(1e-4, 1e-2)
        case.control.formula("X", " + ".join(["TIMEX"] * 11))
        self.assertIn("98X       =" + "+".join(["TIMEX"] * 11), cards(case))
        with self.assertRaisesRegex(
            CaseError, "the formula has 71 characters, and a card 69: compute a part before it"
        ):
            case.control.formula("Y", "+".join(["TIMEX"] * 12))

    def test_rulers_stand_above_the_cards(self) -> None:
        lines = line_and_breaker().text(rulers=True).splitlines()
        at = lines.index("  BUS   SEND        .005                                                       1")
        self.assertEqual(
            lines[at - 1], "C BUS1--BUS2--T-CLOSE---T-OPEN----MARGIN----          WORD------               A"
        )

    def test_what_is_seldom_meant_so_is_told(self) -> None:
        case = line_and_breaker()
        case.series("FAR", "0", r_ohm=1)
        case.step("FAR", amplitude_v=1, start_s=0.02, stop_s=0.01)
        case.line("BUS", "X", zc_ohm=300.123456, velocity=299792.458, length=50)
        self.assertEqual(
            case.told,
            [
                "the node 0 is not ground, which is the empty name",
                "FAR: the source never acts, since it stops at 0.01 s and starts at 0.02 s",
                case.told[2],
            ],
        )
        self.assertRegex(
            case.told[2], "^the lengths of the lines BUS-X stand in units of their own: of surge impedance at "
        )

    def test_lines_and_waves_that_are_seldom_meant_so(self) -> None:
        """A quarter of 2,000 ohm is above 300 ohm; 50 Hz at 50 ms has 0.4 steps a period."""
        case = Case(1e-6, 1e-3)
        case.line("A", "B", zc_ohm=300, tau_us=100, r_ohm=2000)
        self.assertEqual(
            case.told,
            [
                "a quarter of the resistance, 500 ohm, is above the surge impedance, 300 ohm: waves turn their sign on "
                "the way; cut the line into shorter ones"
            ],
        )
        case = Case(0.05, 1)
        case.series("A", r_ohm=1)
        case.cosine("A", amplitude_v=1, hz=50)
        self.assertEqual(case.told, ["A: a period of 50 Hz has 0.4 time steps: fewer than 20"])
        case = Case(1e-3, 1)
        case.series("A", r_ohm=1)
        case.cosine("A", amplitude_v=1, hz=50)
        self.assertEqual(case.told, [])

    def test_names_of_the_channels(self) -> None:
        case = line_and_breaker()
        case.series("A", "", r_ohm=1, ask="iu")
        self.assertEqual(case.names, ["V BUS", "V SEND", "V FAR", "I A-0", "U A-0", "I BUS-SEND"])
        self.assertEqual(case.state_names, ["S BUS-SEND"])
        case.switch("BUS", "SEND", ask="i")
        case.output("FAR")
        self.assertEqual(case.names[3:], ["V FAR.2", "I A-0", "U A-0", "I BUS-SEND", "I BUS-SEND.2"])
        self.assertEqual(case.state_names, ["S BUS-SEND", "S BUS-SEND.2"])


class Refusals(unittest.TestCase):
    """What can't be is told in words of the model, with the call."""

    def refused(self, words: str, write) -> None:
        case = Case(1e-5, 1e-3)
        case.series("A", "B", r_ohm=1)
        before = case.text()
        with self.assertRaises(CaseError) as raised:
            write(case)
        self.assertIn(words, str(raised.exception))
        self.assertRegex(str(raised.exception), r"^test_case.py line \d+, \w+\(")
        self.assertEqual(case.text(), before)

    def test_of_branches(self) -> None:
        rows = [
            ("both ends are A", lambda it: it.series("A", "A", r_ohm=1)),
            ("'TOOLONG' is no name", lambda it: it.series("TOOLONG", r_ohm=1)),
            ("'A,B' is no name", lambda it: it.series("A,B", r_ohm=1)),
            ("R + 2 L / dt + dt / (2 C) is 0 ohm with a step of 1e-05 s", lambda it: it.series("A", "C")),
            ("R = -1 ohm is out of its range, 0 ohm to 1e9 ohm", lambda it: it.series("A", "C", r_ohm=-1)),
            ("ask is '', 'i' for the current", lambda it: it.series("A", "C", r_ohm=1, ask="x")),
            ("no earlier branch of this type goes from X to ground", lambda it: it.series("A", "C", like=("X", ""))),
            ("has no values of its own: give like, or r_ohm", lambda it: it.series("A", "C", r_ohm=1, like=("A", "B"))),
            ("a line is given by l_mh and c_uf", lambda it: it.line("A", "C", zc_ohm=300)),
            (
                "the travel time, 5 us, is below the time step, 10 us",
                lambda it: it.line("A", "C", zc_ohm=300, tau_us=5),
            ),
            (
                "the surge impedance, 1e+09 ohm, has to lie",
                lambda it: it.line("A", "C", l_mh=1e6, c_uf=1e-9, r_ohm=1e6, length=100),
            ),
            ("a has three names", lambda it: it.line3("ABC", "DEF")),
            (
                "zero sequence: a line has no km",
                lambda it: it.line3(list("ABC"), list("DEF"), zero={"km": 1}, positive={"zc_ohm": 3, "tau_us": 99}),
            ),
            ("point 2: current and voltage have to rise", lambda it: it.arrester("A", points=[(1, 5), (2, 4)])),
            ("there are 1 to 64 points, and here 0", lambda it: it.arrester("A")),
            ("the current 9999 ends the points", lambda it: it.arrester("A", points=[(9999, 5e5)])),
        ]
        for words, write in rows:
            with self.subTest(words):
                self.refused(words, write)

    def test_of_sources_and_switches(self) -> None:
        rows = [
            ("a source has amplitude_v, as a voltage source, or", lambda it: it.step("A")),
            ("stop_s, 0 s, has to be after 0; without it", lambda it: it.step("A", amplitude_v=1, stop_s=0)),
            ("a controlled switch has a control", lambda it: it.controlled("A", control="")),
            ("T-CLOSE = inf is no finite number", lambda it: it.switch("A", close_s=math.inf)),
        ]
        for words, write in rows:
            with self.subTest(words):
                self.refused(words, write)

    def test_of_the_control(self) -> None:
        rows = [
            ("TIMEX is a variable of every case", lambda it: it.control.step("TIMEX", 1)),
            (
                "is due where '*' stands, at character 4",
                lambda it: it.control.formula("X", "1+(*2)"),
            ),
            ("the low limit, 2, is above the high one, 1", lambda it: it.control.block("X", "TIMEX", low=2, high=1)),
            ("a gain of 0 is read as 1", lambda it: it.control.block("X", "TIMEX", gain=0)),
            (
                "a block is of order 0 to 7, and here of order 8",
                lambda it: it.control.block("X", "TIMEX", denominator=[1] * 9),
            ),
            ("there are five inputs at most, and here 6", lambda it: it.control.counter("X", ["TIMEX"] * 6)),
            ("goes by a variable (D)", lambda it: it.control.device(51, "X", "TIMEX")),
            ("a device is of code 51, 52", lambda it: it.control.device(55, "X", "TIMEX")),
            ("inputs have to rise", lambda it: it.control.table("X", "TIMEX", points=[(1, 1), (1, 2)])),
            (
                "window 2 has to close before it opens",
                lambda it: it.control.window("X", "TIMEX", times_s=[(0, 2), (1, 3)]),
            ),
            ("group 99, 88 or 98, and here 97", lambda it: it.control.counter("X", "TIMEX", group=97)),
        ]
        for words, write in rows:
            with self.subTest(words):
                self.refused(words, write)

    def test_what_needs_all_cards_names_the_call_that_wrote_one(self) -> None:
        rows = [
            (
                "step('send', amplitude_v=1): no branch and no switch has the node send; there is SEND",
                lambda it: it.step("send", amplitude_v=1),
            ),
            ("output('FARR'): no branch and no switch has the node FARR; there is FAR", lambda it: it.output("FARR")),
            ("driven('SEND'): the control has no variable SEND", lambda it: it.driven("SEND")),
            (
                "controlled('FAR', control='TRIP'): the control has no variable TRIP",
                lambda it: it.controlled("FAR", control="TRIP"),
            ),
            ("formula('X', 'Y+1'): the control has no variable Y", lambda it: it.control.formula("X", "Y+1")),
            ("voltage('NODE'): no branch and no switch has the node NODE", lambda it: it.control.voltage("NODE")),
            ("current('FAR'): no switch has the node FAR", lambda it: it.control.current("FAR")),
        ]
        for words, write in rows:
            with self.subTest(words):
                case = line_and_breaker()
                write(case)
                with self.assertRaises(CaseError) as raised:
                    case.text()
                self.assertRegex(str(raised.exception), r"^test_case.py line \d+, ")
                self.assertIn(words, str(raised.exception))

    def test_of_names_that_are_there_already(self) -> None:
        case = line_and_breaker()
        with self.assertRaisesRegex(CaseError, "SRC has a voltage source already"):
            case.step("SRC", amplitude_v=1)
        case.control.step("X", 1)
        made = r"the variable X is there already, made by test_case.py line \d+, step\('X', 1\); "
        with self.assertRaisesRegex(CaseError, made + "take another name"):
            case.control.formula("X", "1")
        with self.assertRaisesRegex(CaseError, made + "name the other end of the switch"):
            case.control.current("X")

    def test_of_the_case_itself(self) -> None:
        rows = [
            ("end / dt is 2,000,000 steps", dict(dt=1e-6, end=2)),
            ("DELTAT = 2 s is out of its range, 1e-9 s to 1 s", dict(dt=2, end=3)),
            ("every is a whole number from 1", dict(dt=1e-3, end=1, every=0)),
        ]
        for words, given in rows:
            with self.assertRaises(CaseError) as raised:
                Case(**given)
            self.assertIn(words, str(raised.exception))

    def test_of_limits_by_count(self) -> None:
        case = Case(1e-6, 1.0)
        case.series("A", r_ohm=1, ask="iu")
        case.output(*["A"] * 3)
        with self.assertRaisesRegex(CaseError, r"5,000,005 values, 5 channels of 1,000,001 samples, .* raise every"):
            case.text()
        case = Case(1e-3, 1.0)
        case.series("A", r_ohm=1)
        case.output(*["A"] * 65)
        with self.assertRaisesRegex(CaseError, "65 channels are asked for, and a record has at most 64"):
            case.text()
        case = Case(1e-6, 0.1)
        case.line("A", "B", zc_ohm=300, tau_us=1.1e6)
        with self.assertRaisesRegex(CaseError, r"would keep 2,200,002 values of the past"):
            case.text()
        case = Case(1e-6, 0.1)
        values = {"zc_ohm": 300, "tau_us": 1.2e5}
        for name in "ADG":  # 8 * 120,001 values each: those of the second and third are copied
            like = None if name == "A" else (list("AAA"), list("XYZ"))
            a, b = [name] * 3, [f"{name}{k}" for k in range(3)] if like else list("XYZ")
            sequences = {"like": like} if like else {"zero": values, "positive": values}
            case.line3(a, b, **sequences)
        with self.assertRaisesRegex(CaseError, r"would keep 2,880,024 values of the past"):
            case.text()
        case = Case(1e-3, 1.0)
        for number in range(1000):
            case.series(f"N{number}", r_ohm=1)
        with self.assertRaisesRegex(CaseError, "a case has at most 1,000 nodes"):
            case.series("MORE", r_ohm=1)


class CompoundCalls(unittest.TestCase):
    def test_names_of_made_nodes_are_taken(self) -> None:
        case = Case(1e-6, 1e-3)
        case.series("SRC", "BUS", r_ohm=1.6, l_mh=50.9, peak_a=60e3, ask="i")
        self.assertEqual((case.nodes, case.names), (["SRC", "L.1", "BUS"], ["I SRC-BUS"]))
        with self.assertRaisesRegex(CaseError, r"L.1 is a name that test_case.py line \d+, series\("):
            case.series("L.1", r_ohm=1)

    def test_poles_are_tied_to_the_first_one(self) -> None:
        case = Case(1e-5, 1e-1)
        case.poles(list("ABC"), list("DEF"), close_s=0.01, open_s=0.05, later_s=(0, 0.001, 0.003), ask="i")
        times = [(line[14:24].strip(), line[24:34].strip()) for line in cards(case)]
        self.assertEqual(times, [(".01", ".05"), (".011", ".051"), (".013", ".053")])
        self.assertEqual(case._row([0.02], [math.inf]), "0.020000000000 - 0.021000000000 - 0.023000000000 -")
        self.assertEqual(
            case._row([math.nan], [0.06]),
            "0.010000000000 0.060000000000 0.011000000000 0.061000000000 0.013000000000 0.063000000000",
        )

    def test_a_transformer_is_refused_where_its_ratio_would_ring(self) -> None:
        case = Case(2e-5, 0.1)
        case.series("SRC", "P", r_ohm=1, l_mh=30)
        with self.assertRaisesRegex(CaseError, r"behind_mh \* ratio\^2, 30 mH, is below l_mh, 20 mH"):
            case.transformer("P", "Y", ratio=1, l_mh=20, behind_mh=30)
        self.assertEqual(case.nodes, ["SRC", "P"])

    @needs_program
    def test_the_bound_of_a_transformer_is_where_it_begins_to_ring(self) -> None:
        for part, rings in ((0.95, False), (1.05, True)):
            case = Case(2e-5, 0.1)
            case.series("SRC", "P", r_ohm=1, l_mh=30)
            case.transformer("P", "Y", ratio=1, l_mh=30 / part, r_ohm=0.1, behind_mh=0)  # 0: the bound isn't judged
            case.series("Y", r_ohm=100)
            case.cosine("SRC", amplitude_v=1000, hz=50, phase_deg=-90)
            case.output("Y")
            found = case.run(early="keep")
            self.assertEqual(case.end_of_run is not None or abs(found.channel("V Y")).max() > 1e5, rings)

    @needs_program
    def test_a_transformer_has_its_ratio(self) -> None:
        case = Case(2e-5, 0.1)
        case.series("SRC", "P", r_ohm=1, l_mh=36.8)
        case.transformer("P", "Y", ratio=0.3, l_mh=20, r_ohm=0.1, behind_mh=36.8)
        case.series("Y", r_ohm=100)
        case.cosine("SRC", amplitude_v=326.6e3, hz=50, phase_deg=-90)
        case.output("Y")
        w = 2 * math.pi * 50
        hand = 326.6e3 * 0.3 * 100 / abs(100.1 + 0.09 + 1j * w * (20e-3 + 0.09 * 36.8e-3))
        self.assertAlmostEqual(case.run().channel("V Y")[-1001:].max() / hand, 1, 3)

    @needs_program
    def test_a_smooth_start_leaves_no_offset(self) -> None:
        currents = {}
        for smooth in (True, False):
            case = Case(2e-5, 0.2)
            case.series("SRC", r_ohm=0.01, l_mh=100, ask="i")
            start = case.smooth_cosine if smooth else case.cosine
            start("SRC", amplitude_v=1000, hz=50, phase_deg=-90)
            currents[smooth] = abs(case.run().channel("I SRC-0")[-1001:]).max()
        crest = 1000 / (2 * math.pi * 50 * 0.1)
        self.assertAlmostEqual(currents[True] / crest, 1, delta=0.02)
        self.assertGreater(currents[False] / crest, 1.9)

    @needs_program
    def test_a_smooth_start_is_the_cosine_behind_it(self) -> None:
        case = Case(1e-4, 0.1)
        case.series("A", r_ohm=1)
        case.smooth_cosine("A", amplitude_v=100, hz=50, phase_deg=30, cycles=2)
        case.output("A")
        found = case.run()
        x = np.clip(found.times / 0.04, 0, 1)
        hand = 100 * np.cos(2 * math.pi * 50 * found.times + math.pi / 6) * (3 * x**2 - 2 * x**3)
        # the ramp is a step late
        self.assertLess(abs(found.channel("V A") - hand)[found.times > 0.0401].max(), 0.01)
        self.assertLess(abs(found.channel("V A") - hand).max(), 100 * 1.5 / 400 + 0.01)

    @needs_program
    def test_a_wave_goes_through_its_points(self) -> None:
        case = Case(1e-4, 0.2)
        case.series("A", r_ohm=1)
        t = np.sort(np.random.default_rng(1).uniform(0, 0.19, 900).round(6))
        t = np.unique(t)
        v = np.random.default_rng(2).uniform(-50, 50, len(t)).round(3)
        case.waveform("A", times_s=t, values=v)
        case.output("A")
        found = case.run()
        self.assertLess(abs(found.channel("V A") - np.interp(found.times, t, v))[2:].max(), 0.0011)


@needs_program
class Page(unittest.TestCase):
    def test_the_first_case_of_the_page_runs_as_it_says(self) -> None:
        """docs/python.md, its code but for the picture."""
        page = (CASES.parents[1] / "docs" / "python.md").read_text(encoding="utf-8")
        code = page.partition("```python\n")[2].partition("```")[0]
        lines = [line for line in code.splitlines() if "plt" not in line]
        printed = io.StringIO()
        with contextlib.redirect_stdout(printed):
            exec(compile("\n".join(lines), "python.md", "exec"), {})
        (names,) = [line.partition("# ")[2] for line in lines if "record.names" in line]
        self.assertEqual(printed.getvalue().splitlines()[0], names)
        # at most twice the crest, less what the arrester takes; 190 kV is its level at 1 A
        self.assertRegex(printed.getvalue().splitlines()[1], r"^19\d{4}\.\d+ None$")


@needs_program
class Answers(unittest.TestCase):
    def test_a_record(self) -> None:
        case = line_and_breaker()
        found = case.run()
        self.assertEqual(found.names, ["V BUS", "V SEND", "V FAR", "I BUS-SEND"])
        steps = "values are those of 16 bits: V BUS by 10 V, V SEND by 10 V, V FAR by 10 V, I BUS-SEND by 0.02 A"
        self.assertEqual(case.run(record=True).told, [steps])
        self.assertEqual(found.told, [] if program.has_judge() else [steps])
        self.assertEqual(found.channel("V FAR").shape, (501,))
        # both are those of examples/README.md, by hand
        at = np.searchsorted(found.times, 5.76e-3 - 1e-9)
        self.assertAlmostEqual(abs(found.channel("V FAR")[at]) / 226e3, 1, 1)

    def test_a_run_that_ends_early_is_a_record_with_its_end_told(self) -> None:
        case = Case(1e-6, 1e-4)
        case.series("A", "B", l_mh=1000, form="plain")
        case.series("B", r_ohm=1)
        case.step("A", amplitude_v=9e8)
        case.output("B")
        found = case.run(early="keep")
        self.assertEqual(case.end_of_run.cause, "RANGE")
        self.assertEqual(len(found.times), case.end_of_run.step)
        self.assertRegex(
            found.told[0], r"^the run ended in step \d+ .*RANGE at [AB]: .*A-B at 500 A\): with form='flux' "
        )

    def test_a_case_that_asks_for_nothing(self) -> None:
        case = Case(1e-3, 1e-2)
        case.series("A", r_ohm=1)
        self.assertEqual((case.run().names, len(case.run().times)), ([], 11))
        self.assertEqual(case.told[-1], "no output is asked for, so the record has no channel")

    def test_warnings_are_told_by_their_number(self) -> None:
        case = line_and_breaker()
        case.run()
        self.assertEqual(case.told, [])
        case.cosine("BUS", amplitude_a=1, hz=0)
        with self.assertRaisesRegex(Refused, "lines with resistance"):
            case.steady()
        self.assertEqual(case.told, [])
        case.run()
        self.assertEqual(case.told, ["there is 1 warning of what was read: case.show().warnings"])
        self.assertEqual(len(case.show().warnings), 1)
        self.assertEqual(case.told, [])  # they are shown

    def test_warnings_of_other_answers(self) -> None:
        case = Case(1e-4, 1e-2)
        case.series("A", "B", r_ohm=1)  # B is an open end
        case.series("A", r_ohm=1)
        case.cosine("A", amplitude_a=1, hz=50)
        case.output("A")
        for answer in (case.steady, lambda: case.scan(50, 50, 1)):
            answer()
            self.assertEqual(case.told, ["there is 1 warning of what was read: case.show().warnings"])
        with self.assertRaisesRegex(CaseError, "^the case has no time switch"):
            case.batch([[]])
        case.switch("A", "B", close_s=1.0)  # behind the end
        case.batch([0.0])
        self.assertEqual(case.told, ["there is 1 warning of what was read: case.show().warnings"])

    def test_rows_behind_the_end_of_the_run(self) -> None:
        case = Case(1e-3, 1e-2)
        case.series("A", r_ohm=1)
        case.switch("A", close_s=0.001)
        case.step("A", amplitude_a=1)
        case.batch([0.01])
        self.assertEqual(case.told, ["no output is asked for, so there are no peaks"])
        case.output("A")
        found = case.batch([0.01, 0.0101, 5.0])
        self.assertEqual(found.channel("V A").tolist(), [1.0, 1.0, 1.0])
        self.assertEqual(case.told, ["of 2 of 3 rows all times lie behind the end of the run, 0.01 s"])

    def test_a_steady_state_that_isn_t_there_has_the_cure(self) -> None:
        case = Case(1e-5, 0.01)
        case.series("A", "B", r_ohm=1)
        case.line("B", "C", zc_ohm=400, tau_us=300)
        case.cosine("A", amplitude_v=1000, hz=50)
        case.output("C")
        with self.assertRaisesRegex(
            CaseError, "^no steady state, ZEROPIVOT at C: .* large resistance to ground, as 1.E6"
        ):
            case.steady()
        case.series("C", r_ohm=1e6)
        self.assertGreater(abs(case.steady()["C"]), 1000)

    def test_equal_switches_have_times_of_their_own(self) -> None:
        case = Case(1e-5, 0.01)
        case.series("SRC", "A", r_ohm=1)
        case.series("B", r_ohm=1)
        for _ in range(2):
            case.switch("A", "B", close_s=1.0)
        case.step("SRC", amplitude_v=2)
        case.output("B")
        found = case.batch([[1.0, 1.0], [1.0, 0.001], [0.001, 1.0]])
        self.assertEqual(found.channel("V B").round(3).tolist(), [0.0, 1.0, 1.0])

    def test_files_that_stay(self) -> None:
        with tempfile.TemporaryDirectory() as room:
            line_and_breaker().run(save=os.path.join(room, "new", "line"))
            self.assertEqual(sorted(os.listdir(os.path.join(room, "new"))), ["line.case", "line.cfg", "line.dat"])

    def test_a_refusal_of_the_program_names_card_and_call(self) -> None:
        case = Case(1e-4, 1e-2)
        # the sum S of the denominator is 1 - 0.00005 * 2 / dt = 0
        case.control.block("X", "TIMEX", numerator=[1], denominator=[1, -0.00005])
        with self.assertRaises(Refused) as raised:
            case.run()
        fault = raised.exception
        self.assertEqual((fault.line, fault.column, fault.reason), (7, 1, "OutOfUnitRange"))
        self.assertEqual(fault.card, "        1.    -5.E-5")
        self.assertEqual(fault.call.name, "block")

    def test_a_steady_state(self) -> None:
        case = Case(1e-4, 1e-2)
        case.series("SRC", "BUS", r_ohm=3, l_mh=1e3 * 4 / (2 * math.pi * 50))
        case.series("BUS", r_ohm=5)
        case.cosine("SRC", amplitude_v=100, hz=50)
        found = case.steady()
        self.assertEqual((found.hz, found.nodes, found.volts.shape), (50.0, ["SRC", "BUS"], (2,)))
        self.assertAlmostEqual(found["BUS"], 100 * 5 / (8 + 4j), 4)
        case.arrester("BUS", points=[(1, 1000)])
        with self.assertRaisesRegex(
            Refused, "a steady state has no arresters and no nonlinear reactors .Nonlinear.: 99BUS"
        ):
            case.steady()

    def test_a_scan(self) -> None:
        case = Case(1e-4, 1e-2)
        case.series("A", r_ohm=1, l_mh=10, c_uf=10)
        case.series("A", r_ohm=50)
        case.cosine("A", amplitude_a=1, hz=50)
        found = case.scan(100, 1000, 10)
        w = 2 * math.pi * found.hz
        branch = 1 + 1j * (w * 10e-3 - 1 / (w * 10e-6))
        self.assertLess(abs(found.ohm / (branch * 50 / (branch + 50)) - 1).max(), 1e-6)
        self.assertEqual((found.hz.shape, found.told), ((91,), []))

    def test_a_batch(self) -> None:
        case = Case(1e-5, 0.02)
        case.series("SRC", "A", r_ohm=1)
        case.series("B", r_ohm=1)
        case.switch("A", "B", close_s=0.001)
        case.ramp("SRC", amplitude_v=200, rise_s=0.02)
        case.output("B")
        # half of the ramp while the switch is closed, which opens at no zero of its current within the run
        openings = np.full(1001, np.nan)
        found = case.batch(np.linspace(0.001, 0.03, 1001), openings)
        self.assertEqual((found.peaks.shape, found.names), ((1001, 1), ["V B"]))
        self.assertAlmostEqual(found.channel("V B")[0], 100, 6)
        self.assertEqual(found.channel("V B")[-1], 0.0)
        self.assertEqual(set(found.ends), {None})

    def test_what_is_shown_is_that_of_cases_written_by_hand(self) -> None:
        """The listings of cases/shown, whose cases are written by hand, but for the numbers of lines."""
        for name, case in (("shown_control", control_by_methods()), ("shown_lines_and_arresters", lines_by_methods())):
            want = listing.read((CASES / name / "expected.note").read_text())
            found = case.show()
            self.assertEqual(
                [
                    (line.kind, line.entries, [below.entries for below in line.below])
                    for line in found.lines
                    if line.kind[:4] != "asks"
                ],
                [
                    (line.kind, line.entries, [below.entries for below in line.below])
                    for line in want.lines
                    if line.kind[:4] != "asks"
                ],
            )


RIPPLE = """#!/usr/bin/python3
import math, sys
assert sys.argv[1] == "--samples" and open(sys.argv[2]).read().startswith("BEGIN NEW DATA CASE")
print("DONE STEPS 200 SAMPLES 201 REDONE 0")
for k in range(201):
    print(400_000_000_000_000 + round(3e9 * math.sin(2 * math.pi * k / 100)), -5 * k, 7 * k, k % 2)
"""


class AllDigits(unittest.TestCase):
    """What `emtp_judge --samples` tells of a run is answered to the last digit."""

    def setUp(self) -> None:
        room = tempfile.TemporaryDirectory()
        self.addCleanup(room.cleanup)
        self.room = pathlib.Path(room.name)

    def stand_in(self, text: str) -> None:
        """A program in place of emtp_judge."""
        path = self.room / "judge"
        path.write_text(text)
        path.chmod(0o755)
        changed = mock.patch.dict(os.environ, EMTP_JUDGE=str(path))
        changed.start()
        self.addCleanup(changed.stop)
        self.addCleanup(program._has_judge.cache_clear)
        self.addCleanup(program._found.cache_clear)

    def case(self) -> Case:
        """400 kV dc with a ripple of 3 V at 1 kHz, behind 1 ohm."""
        case = Case(1e-5, 2e-3)
        case.control.step("DC", 4e5)
        case.control.cosine("AC", 3, hz=1000, phase_deg=-90)
        case.control.formula("N", "DC+AC")
        case.control.output("AC")
        case.series("N", "M", r_ohm=1)
        case.switch("M", ask="i")
        case.driven("N")
        case.output("N")
        return case

    def test_of_a_program_that_stands_in(self) -> None:
        self.stand_in(RIPPLE)
        case = self.case()
        found = case.run(early="raise")
        self.assertEqual((found.names, found.state_names), (["V N", "I M-0", "T AC"], ["S M-0"]))
        self.assertEqual((found.units, found.told, found.path), (["V", "A", "PU"], [], ""))
        self.assertEqual(found.steps, {"V N": 1e-9, "I M-0": 1e-9, "T AC": 1e-9})
        ripple = 3 * np.sin(2 * np.pi * np.arange(201) / 100)
        self.assertLess(abs(found.channel("V N") - 4e5 - ripple).max(), 1e-9 + 1e-10)
        np.testing.assert_allclose(found.times, np.arange(201) * 1e-5, rtol=1e-12)
        np.testing.assert_allclose(found.channel("T AC"), 7e-9 * np.arange(201))
        self.assertEqual(found.states("S M-0").tolist(), [k % 2 for k in range(201)])

    @needs_program
    def test_a_record_is_written_besides(self) -> None:
        self.stand_in(RIPPLE)
        found = self.case().run(save=self.room / "x" / "ripple")
        self.assertEqual(sorted(os.listdir(self.room / "x")), ["ripple.case", "ripple.cfg", "ripple.dat"])
        self.assertEqual((found.path, found.steps["V N"]), (str(self.room / "x" / "ripple.cfg"), 1e-9))
        self.assertEqual(self.case().run(record=True).steps["V N"], 20.0)

    def test_an_early_end(self) -> None:
        self.stand_in("#!/bin/sh\necho ENDED STEP 2 RANGE N SAMPLES 2 REDONE 0\necho 0 0 0 0\necho 1 2 3 1\n")
        case = self.case()
        with self.assertWarnsRegex(RuntimeWarning, "the run ended in step 2 .2e-05 s., RANGE at N"):
            found = case.run()
        self.assertEqual((len(found.times), case.end_of_run.name), (2, "N"))

    def test_what_is_no_answer(self) -> None:
        for text in ("echo DONE", "echo DONE; echo 1 2 3", "echo DONE; echo 1 2 3 x", "printf 'DONE\\n1 2 3 4'"):
            self.stand_in(f"#!/bin/sh\n{text}\n")
            with self.assertRaisesRegex(ValueError, "emtp_judge answered .* and 4 a line are wanted|ended with status"):
                self.case().run()

    def test_a_refusal(self) -> None:
        self.stand_in("#!/bin/sh\necho BAD CARD LINE 5 COLUMN 3 REASON 1 BadName\nexit 2\n")
        with self.assertRaises(Refused) as raised:
            self.case().run()
        self.assertEqual((raised.exception.line, raised.exception.reason), (5, "BadName"))

    @unittest.skipUnless(program.is_there() and program.has_judge(), "emtp_judge isn't built")
    def test_a_ripple_of_3_v_on_400_kv(self) -> None:
        """It comes back to 1 uV; sources of the control are one step late."""
        found = self.case().run().channel("V N")
        at = np.arange(1, 201)
        hand = 4e5 + 3 * np.sin(2 * np.pi * (at - 1) / 100)
        self.assertLess(abs(found[2:] - hand[1:]).max(), 1e-6)


@needs_program
class Runs(unittest.TestCase):
    """Runs that end otherwise than whole, and what is kept of them."""

    def ending(self) -> Case:
        """A case whose control divides by 0 at once."""
        case = Case(1e-3, 1e-2)
        case.series("A", r_ohm=1)
        case.control.formula("X", "1./ZERO")
        case.output("A")
        return case

    def test_an_early_end_is_a_warning_or_an_error(self) -> None:
        with self.assertWarnsRegex(RuntimeWarning, "the run ended in step .* TACSRANGE at X"):
            self.ending().run()
        with self.assertRaisesRegex(EndedEarly, "TACSRANGE at X") as raised:
            self.ending().run(early="raise")
        self.assertEqual((raised.exception.end.cause, len(raised.exception.record.times)), ("TACSRANGE", 1))
        with warnings.catch_warnings():
            warnings.simplefilter("error")
            self.assertIn("TACSRANGE at X", self.ending().run(early="keep").told[0])
        with self.assertRaisesRegex(CaseError, "early is 'warn', 'raise' or 'keep', and here 'no'"):
            self.ending().run(early="no")

    def test_two_runs_that_save_to_one_name(self) -> None:
        """Each of eight threads is answered its own values, and the files that stay are of one run."""

        def peak(volts: int) -> float:
            case = Case(1e-4, 1e-2)
            case.series("A", r_ohm=1)
            case.step("A", amplitude_v=volts)
            case.output("A")
            return float(case.run(save=os.path.join(room, "same")).channel("V A").max())

        with tempfile.TemporaryDirectory() as room:
            with concurrent.futures.ThreadPoolExecutor(8) as pool:
                found = list(pool.map(peak, range(1, 65)))
            np.testing.assert_allclose(found, range(1, 65), rtol=2e-5)
            self.assertEqual(sorted(os.listdir(room)), ["same.case", "same.cfg", "same.dat"])
            own = read(os.path.join(room, "same.cfg")).channel("V A").max()
            self.assertIn(f"11A{own:16g}.", pathlib.Path(room, "same.case").read_text())

    def test_names_that_are_no_stem(self) -> None:
        for name in ("", "out/", ".", "out/.."):
            with self.assertRaisesRegex(CaseError, "save is a folder and a stem, .* has no stem"):
                line_and_breaker().run(save=name)

    def test_a_run_that_takes_too_long(self) -> None:
        with self.assertRaisesRegex(TimeoutError, "was ended, since it took longer than 1e-06 s"):
            line_and_breaker().run(timeout=1e-6)

    def test_what_is_set_on_a_case(self) -> None:
        case = line_and_breaker()
        for name in ("dt", "end", "every", "steps"):
            with self.assertRaisesRegex(AttributeError, f"{name} stands on the cards of a case from its start"):
                setattr(case, name, 1e-3)
        with self.assertRaisesRegex(AttributeError, "a Case has no evry that could be set"):
            case.evry = 3
        self.assertEqual((case.dt, case.every, case.steps), (1e-5, 8, 4000))
        self.assertEqual(repr(case), "<Case of 4,000 steps of 1e-05 s: 4 nodes, 4 branches, 1 switches, 1 sources>")

    def test_signals_leave_nothing(self) -> None:
        """A script that a scheduler ends leaves neither its program nor a file."""
        case = (
            "import os, sys\nfrom wurdanei.case import Case\n"
            "case = Case(1e-6, 1.0, 1000)\ncase.series('A', r_ohm=1)\ncase.cosine('A', amplitude_v=1, hz=50)\n"
            "for k in range(400):\n    case.series('A', f'B{k}', r_ohm=1, l_mh=1)\n    case.series(f'B{k}', c_uf=1)\n"
            "case.output('A')\nprint('runs', flush=True)\ncase.run()\nprint('done')\n"
        )
        for number in (signal.SIGTERM, signal.SIGHUP, signal.SIGKILL):
            before = set(os.listdir(program.scratch() or "/tmp"))
            ran = subprocess.Popen([sys.executable, "-c", case], stdout=subprocess.PIPE, text=True, cwd=PACKAGE)
            self.assertEqual(ran.stdout.readline(), "runs\n")
            self.addCleanup(ran.kill)
            child = None
            for _ in range(1500):
                time.sleep(0.02)
                children = pathlib.Path(f"/proc/{ran.pid}/task/{ran.pid}/children").read_text().split()
                if children and "emtp" in pathlib.Path(f"/proc/{children[0]}/comm").read_text():
                    child = children[0]
                    break
            self.assertIsNotNone(child)
            ran.send_signal(number)
            self.assertEqual(ran.communicate(timeout=60)[0], "")
            for _ in range(1500):
                if not os.path.exists(f"/proc/{child}"):
                    break
                time.sleep(0.02)
            self.assertFalse(os.path.exists(f"/proc/{child}/exe"), number)
            made = {it for it in os.listdir(program.scratch() or "/tmp") if it.startswith("wurdanei.")} - before
            self.assertEqual(made, set())


class Noise(unittest.TestCase):
    """What is below half of the last digit that a field keeps is 0, and told."""

    def test_times_and_values_of_noise(self) -> None:
        case = Case(1e-5, 1e-3)
        case.series("A", "B", r_ohm=1e-12, l_mh=1)
        case.switch("A", "B", close_s=0.1 * 3 - 0.3)
        case.cosine("A", amplitude_v=np.sin(np.pi), hz=50, phase_deg=1e-14)
        case.control.table("T", "TIMEX", points=[(1e-13, 0), (1, 1)])
        case.waveform("B", times_s=[0.0, 1.04e-5, 2e-5], values=[0, 1, 2])
        self.assertIn("A-B: T-CLOSE = 5.551115123125783e-17 becomes 0 s, 1 of it lost in 10 columns", case.told)
        self.assertEqual(len([it for it in case.told if "1 of it lost" in it]), 5)
        self.assertIn("  A     B             0.", cards(case))
        for closing in np.arange(-0.3, 0.31, 0.1):
            case.switch("A", close_s=closing)

    def test_where_0_means_something_else(self) -> None:
        case = Case(1e-5, 1e-3)
        for write in (
            lambda: case.series("A", r_ohm=1, c_uf=1e-10),
            lambda: case.control.block("X", "TIMEX", gain=1e-13),
            lambda: case.line("A", "B", zc_ohm=1e-9, tau_us=10),
        ):
            with self.assertRaises(CaseError):
                write()


class Errors(unittest.TestCase):
    """Errors are those that Python's users wait for."""

    def test_of_words(self) -> None:
        case = Case(1e-5, 1e-3)
        case.series("A", "B", r_ohm=1)
        case.switch("A", close_s=0.0)
        case.output("A")
        for words, write in (
            ("a row of a batch has times in s", lambda: case.batch([np.inf])),
            ("closings are times in s, and here .'a'.", lambda: case.batch(["a"])),
            ("are numbers", lambda: case.waveform("B", times_s="ab", values=[1, 2])),
            ("a formula is a text, and here 5", lambda: case.control.formula("X", 5)),
            ("points are pairs of current and voltage, and here None", lambda: case.arrester("A", points=None)),
            ("point 1 has two numbers", lambda: case.arrester("A", points=[1, 2])),
        ):
            with self.subTest(words), self.assertRaisesRegex(CaseError, words):
                write()

    @needs_program
    def test_of_names(self) -> None:
        case = Case(1e-5, 1e-3)
        case.series("A", r_ohm=1)
        case.switch("A", close_s=0.0)
        case.cosine("A", amplitude_v=1, hz=50)
        case.output("A")
        found, peaks = case.steady(), case.batch([0.0])
        for kind in (KeyError, ValueError):
            with self.assertRaisesRegex(kind, "^no node 'NOPE' is in the answer; there is A$"):
                found["NOPE"]
            with self.assertRaisesRegex(kind, "^no channel 'NOPE' is in the answer; there is V A$"):
                peaks.channel("NOPE")
            with self.assertRaisesRegex(kind, "^the record: no analog channel 'NOPE'; it has V A$"):
                case.run(early="keep").channel("NOPE")

    @needs_program
    def test_listings_have_floats(self) -> None:
        case = Case(1e-5, 1e-3)
        case.line("A", "B", zc_ohm=300, tau_us=100)
        case.step("A", amplitude_v=1)
        self.assertEqual(case.show().of("line")[0]["travel time"] - 1e-4, 0.0)


def control_by_methods() -> Case:
    """The case of cases/shown/shown_control."""
    case = Case(1e-4, 0.01, 10)
    c = case.control
    c.block("FILTER", ["SENSE", "-BIAS"], gain=2, denominator=[1, 0.01], low=-1, high="TOP")
    c.step("BIAS", 0.5, start_s=0.001, stop_s=0.008)
    c.sawtooth("TOP", 10, period_s=0.002)
    c.voltage("BUS")
    c.state("GATE")
    c.table("SENSE", "BUS", points=[(-100, -1), (100, 1.5)], group=99)
    c.delay("LATE", "-FILTER", time_s=0.002)
    c.formula("FIRE", "FILTER .GT. .25 .OR. .NOT. GATE", group=88)
    c.output("FILTER", "FIRE")
    case.series("SRC", "BUS", r_ohm=1, l_mh=10)
    case.series("GATE", r_ohm=50, ask="i")
    case.valve("BUS", "GATE", ignition_v=10, holding_a=0.5, control="FIRE", ask="i")
    case.controlled("SRC", "GATE", control="LATE")
    case.cosine("SRC", amplitude_v=100, hz=50)
    case.driven("BUS", current=True)
    case.output("BUS")
    return case


def lines_by_methods() -> Case:
    """The case of cases/shown/shown_lines_and_arresters."""
    case = Case(5e-5, 0.1, 4, tolerance_a=1e-4)
    zero, positive = dict(r_ohm=0.1, zc_ohm=600, velocity=2e5), dict(r_ohm=0.02, zc_ohm=300, velocity=2.5e5)
    case.line3(["SA", "SB", "SC"], ["RA", "RB", "RC"], length=100, zero=zero, positive=positive)
    case.line("RA", "FAR", zc_ohm=400, tau_us=500, ask="i")
    case.arrester("RB", points=[(0.001, 2e5), (1000, 3.5e5)], filtered=False, ask="iu")
    case.reactor("RC", points=[(2.5, 120)])
    case.series("FAR", r_ohm=75)
    case.series("RC", like=("FAR", ""))
    case.measuring("GA", "SA", ask="iu")
    case.switch("GB", "SB", open_s=0.05, margin_a=0.5)
    case.cosine("GA", amplitude_v=1.2e5, hz=50, phase_deg=120)
    case.ramp("GB", amplitude_v=100, rise_s=1e-3, start_s=0.01, stop_s=0.02)
    case.step("FAR", amplitude_a=-3.25)
    case.output_all()
    return case


if __name__ == "__main__":
    unittest.main()
