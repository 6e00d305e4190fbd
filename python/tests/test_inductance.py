"""Tests of the forms of inductances and capacitances: what a series branch acts with, by hand and by runs; and that what is
written in another form is what was asked for."""

import math
import pathlib
import re
import tempfile
import unittest
from dataclasses import dataclass
from fractions import Fraction

import numpy as np

from wurdanei import inductance, program
from wurdanei.case import Case, CaseError
from wurdanei.record import Record

needs_program = unittest.skipUnless(program.is_there(), "the program isn't built, so it answers nothing")


def r_ohm(l_mh: float, dt_us: float, r_uohm: int = 0) -> float:
    """What a series branch acts with besides its R, in ohm."""
    z = inductance.impedance(round(dt_us * 1e6), r_uohm, round(l_mh * 1e6), 0)
    return float(inductance.acting(z)) / 1e6


def told(found: Record) -> list[str]:
    """What is told of a run, but for the digits of its record."""
    return [it for it in found.told if not it.startswith("values are those of 16 bits")]


def left_alone(case: Case, l_mh: float, amperes: float, time_s: float, **more) -> None:
    """Brings an inductance to a current within a time, and leaves it then, its source being 0 V."""
    case.step("A", amplitude_v=float(f"{1e-3 * l_mh * amperes / time_s:.9g}"), stop_s=time_s)
    case.series("A", l_mh=l_mh, ask="i", **more)


class Numbers(unittest.TestCase):
    def test_what_a_branch_acts_with(self) -> None:
        # 5.6 H at 1 us: Z = 1.12e7 ohm = 1.12e13 micro-ohm, 1e18/Z = 89285.71 pS, kept 89286; 1/89286 pS = 1.1199964e7 ohm
        self.assertAlmostEqual(r_ohm(5600, 1), 1e12 / 89286 - 1.12e7, 6)
        self.assertEqual(round(r_ohm(5600, 1), 2), -35.84)
        self.assertEqual(round(r_ohm(1030, 0.1), 2), -131.84)
        self.assertEqual(round(r_ohm(5613, 0.1), 2), -1356.08)
        self.assertEqual(r_ohm(1000, 1), 0.0)  # 2 L / dt is 2e6 ohm, whose conductance is a whole number
        self.assertEqual(inductance.acting(3), Fraction(10**18, 333333333333333333) - 3)

    def test_a_resistance_that_does_nothing(self) -> None:
        """10 ohm beside 5.6 H at 1 us leave the same conductance: what acts is R + r."""
        self.assertEqual(inductance.near(10**18, 11_200_010 * 10**6), 89286)
        self.assertAlmostEqual(10 + r_ohm(5600, 1, 10_000_000), r_ohm(5600, 1), 6)

    def test_the_rows_of_show(self) -> None:
        """What cases/shown has of the same branches: r in ohm and r T/L."""
        rows = (
            [  # us, steps, ohm, mH, as in the notes of shown_current_that_grows and shown_branches_that_act_as_others
                (1, 210_000, 0, 5600, -35.839885312, -1.343995699),
                (1, 210_000, 10, 5600, -45.839885312, -1.718995699),
                (0.1, 450_000, 0, 1030, -131.839156229, -5.759963136),
            ]
        )
        for us, steps, ohm, l_mh, r, drift in rows:
            kept = ohm * 10**6, l_mh * 10**6, 0
            own = inductance.judged("A-0", round(us * 1e6), steps, kept, 1.0)
            self.assertAlmostEqual(own.r_ohm, r, delta=1.1e-9)
            self.assertAlmostEqual(own.drift, abs(drift), delta=1.1e-9)

    def test_its_bound(self) -> None:
        """|r| is at most Z^2 / 2 pS, 2e-12 L^2 / dt^2."""
        for seed in range(200):
            random = np.random.default_rng(seed)
            l_nh, dt_ps = int(10 ** random.uniform(2, 11)), int(10 ** random.uniform(4, 8))
            z = inductance.impedance(dt_ps, 0, l_nh, 0)
            if 10 <= z <= 10**15:
                self.assertLessEqual(abs(inductance.acting(z)), Fraction(z * z, 10**18) * Fraction(51, 100))

    def test_the_point_of_a_reactor_is_exact(self) -> None:
        for l_nh in (1, 67_600_000, 10**11 - 1, 558 * 10**9, 10**15):
            amperes, webers = inductance.point(l_nh)
            self.assertEqual(webers / amperes, Fraction(l_nh, 10**9))
            self.assertLessEqual(webers, 10**5)
            self.assertEqual(webers * 10**12 % 1, 0)

    def test_pieces_of_a_capacitance(self) -> None:
        rows = [(1530, 0.1, 9.8e-3, 2), (730, 0.1, -7.2e-3, 2), (4700, 0.5, -3.6e-3, 2), (10, 1, 0, 1)]
        for c_uf, dt_us, single, count in rows:
            dt_ps, c_ff = round(dt_us * 1e6), c_uf * 10**9
            # near(dt / 2 C) micro-ohm, by hand: 1530 uF at .1 us 32.68, kept 33, as 1515 uF have
            z = dt_us / (2 * c_uf) * 1e6
            self.assertAlmostEqual(abs(z / round(z) - 1), abs(single), delta=2e-4)
            parts = inductance.pieces(dt_ps, c_ff)
            self.assertEqual((len(parts), sum(parts)), (count, c_ff))
            self.assertLess(inductance.off(dt_ps, parts, c_ff), 1e-5)


class Cards(unittest.TestCase):
    def test_a_capacitance_that_no_pieces_mend(self) -> None:
        """.15 F at .1 us have .33 micro-ohm, and a branch 10 at least."""
        case = Case(1e-7, 1e-3)
        case.series("A", r_ohm=1, c_uf=1.5e5)
        self.assertEqual(case.told, ["A-0: 150000 uF are 100 % off, by dt / (2 C) in whole micro-ohm"])
        self.assertEqual(len(case._draft.contents.branches), 1)

    def test_the_rule(self) -> None:
        rows = [  # dt, end, mH, greatest current, form
            (1e-5, 0.04, 40, None, "plain"),
            (1e-6, 0.04, 40, None, "flux"),  # 2 L i / dt is 8e9 V at 100 kA
            (1e-6, 0.04, 40, 1e3, "plain"),
            (1e-6, 0.21, 5600, 1.0, "flux"),  # |r| T / L = 35.8 * .21 / 5.6 = 1.3
            (1e-6, 1.0, 1000, 1.0, "plain"),  # r is 0
            (1e-6, 0.01, 558_000, 1e-3, "flux"),  # 2 L / dt is above 1e9 ohm
        ]
        for dt, end, l_mh, peak_a, form in rows:
            case = Case(dt, end)
            case.series("A", "B", l_mh=l_mh, peak_a=peak_a)
            self.assertEqual(case.inductances[0].form, form, (dt, l_mh, peak_a))
            self.assertEqual(bool(case.told), form == "flux")
            self.assertEqual("98A" in case.text(), form == "flux")

    def test_what_stands_for_an_inductance(self) -> None:
        case = Case(1e-6, 0.02)
        case.series("S", "BUS", r_ohm=0.5, l_mh=38.6, ask="iu")
        end = " " * 12 + "9999"
        lines = [line for line in case.text().splitlines()[3:] if line != "BLANK"]
        flux = [
            "98S     L.1".ljust(79) + "1",
            "           1000.            38.6",
            end,
            "  L.1   BUS                   .5",
        ]
        self.assertEqual(lines, [*flux, "11S     BUS         1.E9".ljust(79) + "2"])
        plain = [line for line in case.text(plain=True).splitlines()[3:] if line != "BLANK"]
        self.assertEqual(plain, ["  S     BUS                   .5  38.6".ljust(79) + "3"])
        self.assertEqual((case.names, case.state_names), (["I S-BUS", "U S-BUS"], []))
        self.assertRegex(case.told[0], r"^S-BUS: 38.6 mH by its flux, .* 7.72e\+09 V at 100000 A.*; made for it: L.1$")
        self.assertEqual(case.nodes, ["S", "L.1", "BUS"])

    def test_a_form_that_is_asked_for(self) -> None:
        case = Case(1e-5, 0.02)
        case.series("S", l_mh=1, form="flux")
        case.series("S", "T", l_mh=500, form="plain")
        self.assertEqual([it.form for it in case.inductances], ["flux", "plain"])
        with self.assertRaisesRegex(CaseError, "form is 'plain' or 'flux', and here 'clean'"):
            case.series("S", l_mh=1, form="clean")
        with self.assertRaisesRegex(CaseError, "has to lie from 1e-12 to 1e5 S"):
            Case(1e-6, 0.02).series("S", "X", l_mh=1e9)
        case.series("S", "X", l_mh=1e7, r_ohm=2)
        with self.assertRaisesRegex(
            CaseError, r"series\('S', 'X', .*: S-X: as a series branch, which steady\(\), scan"
        ):
            case.text(plain=True)

    def test_a_copy_has_the_form_of_its_run(self) -> None:
        case = Case(1e-6, 0.02)
        case.series("A", "B", r_ohm=1, l_mh=100)
        case.series("C", "D", like=("A", "B"))
        self.assertIn("  C     D     A     B", case.text(plain=True).splitlines())
        self.assertEqual(case.text().count("98"), 2)
        self.assertEqual([it.form for it in case.inductances], ["flux", "flux"])

    def test_digits_that_narrow_columns_lose(self) -> None:
        case = Case(1e-5, 0.02)
        case.series("A", l_mh=5613.1251, form="plain")  # 5613.1 in six columns is 5e-6 another one
        self.assertIn("$VINTAGE, 1", case.text())
        self.assertEqual(case.told, [])

    def test_a_written_case_tells_what_its_channels_are(self) -> None:
        case = Case(1e-6, 0.02)
        case.series("A", r_ohm=1, l_mh=100, ask="i")
        case.write("/dev/null")
        self.assertIn("/dev/null: its channel I A-L.1 is I A-0", case.told)
        self.assertRegex(case.told[-1], "phasor and scan refuse its reactors .* plain=True")
        case.write("/dev/null", plain=True)
        self.assertEqual(len(case.told), 1)


@needs_program
class Runs(unittest.TestCase):
    def test_a_current_left_alone_stays(self) -> None:
        case = Case(1e-6, 1.0, every=1000)
        left_alone(case, 67.6, 100, 0.005)
        found = case.run()
        after = found.channel("I A-0")[found.times > 0.006]
        self.assertEqual((len(found.times), told(found)), (1001, []))
        self.assertAlmostEqual(after.min(), 100, 3)
        self.assertAlmostEqual(after.max(), 100, 3)

    def test_a_plain_branch_drifts_as_it_is_told(self) -> None:
        case = Case(1e-6, 1.0, every=1000)
        left_alone(case, 67.6, 100, 0.005, form="plain")
        (own,) = case.inductances
        found = case.run()
        after = found.channel("I A-0")[found.times > 0.006]
        seen = -math.log(after[-1] / after[0]) * 0.0676 / (found.times[-1] - 0.007)
        self.assertAlmostEqual(seen / own.r_ohm, 1, 2)
        self.assertAlmostEqual(after[-1], 108.3, 1)

    def test_random_inductances_keep_their_current(self) -> None:
        """160 of .1 mH to 500 H, at steps of 10 ns to 50 us."""
        forms = {"plain": 0, "flux": 0}
        random = np.random.default_rng(5)
        for number in range(160):
            dt = float(f"{10 ** random.uniform(-8, -4.3):.3g}")
            henry = float(f"{10 ** random.uniform(-4, 2.7):.4g}")
            steps = int(10 ** random.uniform(3.7, 5.3))
            rise = float(f"{steps // 20 * dt:.7g}")
            case = Case(dt, float(f"{steps * dt:.12g}"), every=max(1, steps // 200))
            volts = min(5e8, 100 * henry / rise)
            left_alone(case, 1e3 * henry, volts * rise / henry, rise)
            found = case.run()
            after = found.channel("I A-0")[found.times > 1.3 * rise]
            self.assertEqual(told(found), [], (dt, henry, steps))
            self.assertLessEqual(np.abs(after / after[0] - 1).max(), 1.1e-4, (dt, henry, steps))
            forms[case.inductances[0].form] += 1
        self.assertGreater(min(forms.values()), 30)

    def test_current_and_voltage_of_a_branch_behind_a_made_node(self) -> None:
        """R, L and C in series at 50 Hz, beside complex numbers, in a run and in a batch."""
        w = 2 * math.pi * 50
        case = Case(1e-6, 0.2, every=20)
        case.smooth_cosine("E", amplitude_v=1e5, hz=50, cycles=2)
        case.series("E", "A", r_ohm=400)
        case.switch("A", "B", close_s=0.0)
        case.series("B", r_ohm=40, l_mh=2000, c_uf=20, ask="iu")
        z = 40 + 1j * (w * 2 - 1 / (w * 20e-6))
        amperes = 1e5 / abs(400 + z)
        self.assertEqual(case.names[:2], ["I B-0", "U B-0"])
        found = case.run()
        late = found.times > 0.16
        self.assertAlmostEqual(np.abs(found.channel("I B-0")[late]).max() / amperes, 1, 3)
        self.assertAlmostEqual(np.abs(found.channel("U B-0")[late]).max() / (amperes * abs(z)), 1, 3)
        peaks = case.batch([0.0])
        self.assertAlmostEqual(peaks.channel("I B-0")[0] / np.abs(found.channel("I B-0")).max(), 1, 4)
        self.assertAlmostEqual(peaks.channel("U B-0")[0] / np.abs(found.channel("U B-0")).max(), 1, 4)

    def test_a_large_fault_current_in_one_branch(self) -> None:
        """420 kV and 63 kA from the zero of the voltage, .1 ohm, at 1 us: the closed form of an R-L branch."""
        volts, ohm = 420e3 * math.sqrt(2 / 3), 0.1
        x = volts / (63e3 * math.sqrt(2))
        case = Case(1e-6, 0.05, every=10)
        case.cosine("E", amplitude_v=volts, hz=50, phase_deg=-90)
        case.series("E", r_ohm=ohm, l_mh=1e3 * x / (100 * math.pi), ask="i")
        found = case.run()
        angle = math.atan2(x, ohm)
        t = found.times
        decay = np.exp(-t * ohm * 100 * math.pi / x)
        hand = volts / math.hypot(ohm, x) * (np.sin(100 * math.pi * t - angle) + math.sin(angle) * decay)
        self.assertEqual(told(found), [])
        self.assertLess(np.abs(found.channel("I E-0") - hand).max(), 8)  # 16 bit of 171 kA are 5 A
        self.assertAlmostEqual(np.abs(found.channel("I E-0")).max() / 171_204, 1, 4)

    def test_large_capacitances(self) -> None:
        for c_uf, dt in ((1530, 1e-7), (730, 1e-7), (4700, 5e-7)):
            case = Case(dt, 2e5 * dt, every=200)
            case.step("A", amplitude_a=100)
            case.series("A", r_ohm=1e6)
            case.series("A", c_uf=c_uf, ask="iu")
            found = case.run()
            hand = 100 * (found.times[-1] - dt / 2) / (c_uf * 1e-6)
            self.assertAlmostEqual(found.channel("U A-0")[-1] / hand, 1, delta=3e-5)
            self.assertAlmostEqual(found.channel("I A-0")[-1], 100, 2)  # of all its pieces

    def test_a_steady_state_and_a_scan_take_the_plain_branch(self) -> None:
        case = Case(1e-6, 0.02)
        case.series("A", r_ohm=2, l_mh=500)
        case.series("A", r_ohm=1e4)
        case.cosine("A", amplitude_a=1, hz=50)
        z = 2 + 100j * math.pi * 0.5
        self.assertEqual(case.inductances[0].form, "flux")
        self.assertAlmostEqual(case.steady()["A"], z * 1e4 / (z + 1e4), 3)
        self.assertAlmostEqual(complex(case.scan(50, 50, 1).ohm[0]), z * 1e4 / (z + 1e4), 3)


WARNED = re.compile(
    r"line (\d+), the rounding of its conductance acts as a resistance in series: r=(\S+) ohm, r T/L=([^ ,]+)"
)


def warned(case: Case) -> dict[int, tuple[float, float]]:
    """Of each line that `show` warns of: r in ohm, and r T/L."""
    found = (WARNED.match(it) for it in case.show(plain=True).warnings)
    return {int(it[1]): (float(it[2]), float(it[3])) for it in found if it}


def tells() -> bool:
    """Whether the program that is there warns of what a branch acts as."""
    case = Case(1e-6, 0.21)
    case.series("A", l_mh=5600, form="plain")
    return program.is_there() and bool(warned(case))


class Beside(unittest.TestCase):
    @unittest.skipUnless(tells(), "the program that is there doesn't warn of what a branch acts as")
    def test_a_thousand_branches_are_told_as_show_tells_them(self) -> None:
        random = np.random.default_rng(11)
        count = 0
        for dt in (1e-8, 1e-7, 1e-6, 1e-5):
            case = Case(dt, 1e5 * dt)
            for _ in range(250):
                henry = 10 ** random.uniform(-1, 1) * dt * 1e6
                ohm = float(random.choice([0.0, 10 ** random.uniform(-6, 2)]))
                case.series("A", r_ohm=round(ohm, 6), l_mh=float(f"{1e3 * henry:.7g}"), form="plain")
            lines = case.text(plain=True).splitlines()
            cards = [at for at, line in enumerate(lines, 1) if line.startswith("  A")]
            warns = warned(case)
            for at, own, branch in zip(cards, case.inductances, case._draft.contents.branches):
                r = branch.given["values"][0]
                due = own.drift > 1e-3 and abs(own.r_ohm) > 1e-4 * r
                self.assertEqual(at in warns, due, (lines[at - 1], own))
                if due:
                    count += 1
                    self.assertAlmostEqual(warns[at][0], own.r_ohm, delta=1e-9 + 1e-9 * abs(own.r_ohm))
                    self.assertAlmostEqual(abs(warns[at][1]), own.drift, delta=1e-9 + 1e-9 * own.drift)
        self.assertGreater(count, 100)


def wide(value: int, places: int) -> str:
    """A whole number of parts of 10^-places, in the 16 columns of a wide field; none where it is 0."""
    return f"{value // 10**places}.{value % 10**places:0{places}}".rjust(16) if value else " " * 16


def nearest(value: Fraction) -> int:
    """The nearest whole number, a half away from zero."""
    size = inductance.near(abs(value.numerator), value.denominator)
    return size if value > 0 else -size


def held(value: int) -> int:
    """The number nearest to it that `show` tells: to 1e18 in magnitude."""
    return max(-(10**18), min(value, 10**18))


@dataclass(frozen=True)
class Branch:
    """A series branch as its card has it: R in micro-ohm, L in nH, C in fF."""

    r: int
    l: int
    c: int

    def warnings(self, dt_ps: int, steps: int) -> list[str]:
        """What `show` has to say of it over a run, by this package's numbers: each text ends with its first number."""
        z = inductance.impedance(dt_ps, self.r, self.l, self.c)
        own, found = inductance.acting(z), []
        if (
            self.l
            and inductance.drift(own, self.l, steps * dt_ps) > Fraction(1, 1000)
            and abs(own) > self.r * Fraction(1, 10**4)
        ):
            part = held(nearest(own * steps * dt_ps / self.l))  # in 1e-9, since micro-ohm times ps over nH are that
            text = f"r={fixed(nearest(own * 1000), 9)} ohm, r T/L={fixed(part, 9)}"
            found.append(f"the rounding of its conductance acts as a resistance in series: {text}")
        if self.r and 2 * abs(own) >= self.r:
            found.append(f"R acts as another one: R + r={fixed(1000 * self.r + nearest(own * 1000), 9)} ohm")
        zc = inductance.of_capacitance(dt_ps, self.c)
        if self.c and not zc:
            found.append("C acts as a wire")
        elif self.c and abs(Fraction(10**9 * dt_ps, 2 * zc) / self.c - 1) > Fraction(1, 10**4):
            acting = held(inductance.near(10**9 * dt_ps, 2 * zc))
            found.append(f"C acts as another one: acting C={fixed(acting, 9)} uF")
        return found


def fixed(value: int, places: int) -> str:
    """A whole number of parts of 10^-places as a decimal without needless zeros."""
    digits = f"{abs(value):0{places + 1}}"
    text = f"{digits[:-places]}.{digits[-places:]}".rstrip("0").rstrip(".")
    return f"-{text}" if value < 0 else text


@needs_program
class AnyBranch(unittest.TestCase):
    """What the proved `show` warns of is what the package computes, on random branches and to the last digit."""

    KNOWN = ("the rounding of its conductance", "R acts as another one", "C acts as")

    def branch(self, random: np.random.Generator, dt_ps: int) -> Branch:
        """One of an impedance that a branch may have, of any mixture of R, L and C."""
        while True:
            r, l, c = (int(10 ** random.uniform(0, 15)) * (random.random() < 0.6) for _ in range(3))
            l = l // 10 ** int(random.integers(0, 8))
            if inductance.LEAST_OHM <= inductance.impedance(dt_ps, r, l, c) <= inductance.MOST_OHM:
                return Branch(r, l, c)

    def shown(self, dt_ps: int, steps: int, branches: list[Branch]) -> dict[int, list[str]]:
        """What `show` warns of each branch, by its place; of a drift without the inductance that has none."""
        head = [f"{dt_ps * 1e-12:8.0E}{steps * dt_ps * 1e-12:8g}", f"{1:>8}{steps:>8}", "$VINTAGE, 1"]
        cards = [
            f"  N{at // 2:<5}{'':18}{wide(it.r, 6)}{wide(it.l, 6)}{wide(it.c, 9)}" for at, it in enumerate(branches)
        ]
        lines = ["BEGIN NEW DATA CASE", *head, *cards, *["BLANK"] * 4]
        with tempfile.TemporaryDirectory() as folder:
            pathlib.Path(folder, "a.case").write_text("\n".join(lines) + "\n", encoding="ascii")
            ended = program.run(["show", "a.case"], folder)
        self.assertEqual(ended.status, 0, ended.note)
        found: dict[int, list[str]] = {}
        for line, text in re.findall(r"^warning, line (\d+), (.*)$", ended.note, re.MULTILINE):
            if text.startswith(self.KNOWN):
                found.setdefault(int(line) - 5, []).append(text.partition(", none with")[0])
        return found

    def test_a_thousand_random_branches(self) -> None:
        random = np.random.default_rng(73)
        warned = 0
        for dt_ps, steps in ((10**6, 210_000), (10**5, 450_000), (5 * 10**7, 4_000), (10**4, 1_000_000)):
            branches = [self.branch(random, dt_ps) for _ in range(250)]
            wanted = {at: it.warnings(dt_ps, steps) for at, it in enumerate(branches)}
            wanted = {at: texts for at, texts in wanted.items() if texts}
            warned += len(wanted)
            self.assertEqual(self.shown(dt_ps, steps, branches), wanted)
        self.assertGreater(warned, 100)


if __name__ == "__main__":
    unittest.main()
