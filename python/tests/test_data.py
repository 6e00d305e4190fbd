"""Tests of wurdanei.data: line constants beside integrals, images and a published line; plates and data sheets beside hand
formulas; and what is made of them in a case beside complex numbers."""

import cmath
import contextlib
import io
import math
import os
import pathlib
import tempfile
import unittest

import numpy as np
from scipy import integrate

from wurdanei import data, lineconst, program
from wurdanei.case import Case, CaseError
from wurdanei.data.overhead_line import (
    EPSILON,
    MU,
    Conductor,
    DataError,
    carson,
    constants,
    deri,
    over_frequency,
    overhead,
    surface_impedance,
    tube_mean_radius,
)

needs_program = unittest.skipUnless(program.is_there(), "the program isn't built, so it answers nothing")
PHASES = [Conductor(x_m=x, y_m=20, radius_mm=15.3, r_ohm_km=0.059, sag_m=9) for x in (-7, 0, 7)]
GROUND = [Conductor(x_m=x, y_m=26, radius_mm=8, r_ohm_km=0.36, sag_m=9) for x in (-5, 5)]
W = 100 * math.pi


def by_integral(hz: float, rho: float, height: float, across: float) -> complex:
    """Carson's integral in ohm/km, by quadrature."""
    earth = 2j * math.pi * hz * MU / rho
    bounds = (0.0, abs(cmath.sqrt(earth)), 10 * abs(cmath.sqrt(earth)), 40 / height + 20 * abs(cmath.sqrt(earth)))

    def value(alpha: float) -> complex:
        return math.exp(-height * alpha) * math.cos(across * alpha) / (alpha + cmath.sqrt(alpha * alpha + earth))

    parts = [
        sum(
            integrate.quad(lambda it: getattr(value(it), part), *ends, limit=500)[0] for ends in zip(bounds, bounds[1:])
        )
        for part in ("real", "imag")
    ]
    return 2e3j * hz * MU * complex(*parts)


class Lines(unittest.TestCase):
    def test_the_earth_by_carson_is_its_integral(self) -> None:
        for hz in (1.0, 50.0, 1e3, 1e5, 1e6):
            for height, across in ((40.0, 0.0), (40.0, 14.0), (25.0, 50.0)):
                want = by_integral(hz, 100.0, height, across)
                own = complex(carson(hz, 100.0, np.array(height), np.array(across)))
                self.assertLess(abs(own / want - 1), 1e-5 if hz == 1e6 else 1e-10)
                other = complex(deri(hz, 100.0, np.array(height), np.array(across)))
                self.assertLess(abs(other / want - 1), 0.04)  # of the earth's part alone

    def test_the_inside_of_a_wire(self) -> None:
        # a solid wire: R and mu/8 pi at low frequency, R of the skin at a high one
        own = surface_impedance(0.0, 0.0153, 0.059, 1.0)
        self.assertAlmostEqual(own.real, 0.059, 5)
        self.assertAlmostEqual(own.imag / (2 * math.pi * 1e3), MU / (8 * math.pi), 10)
        rho = 0.059e-3 * math.pi * 0.0153**2
        skin = math.sqrt(rho * math.pi * 1e7 * MU) / (2 * math.pi * 0.0153) * 1e3
        self.assertAlmostEqual(surface_impedance(0.0, 0.0153, 0.059, 1e7).real / skin, 1, 2)
        self.assertAlmostEqual(tube_mean_radius(0.0, 1.0), math.exp(-0.25), 12)
        self.assertAlmostEqual(tube_mean_radius(0.9999, 1.0), 1.0, 3)

    def test_a_line_by_hand(self) -> None:
        """220 kV over 100 ohm m: .2 ln(GMD/GMR), the sequences of another program, and images for the capacitance."""
        line = overhead(PHASES, GROUND, earth="deri")
        gmd = (7 * 7 * 14) ** (1 / 3)
        self.assertAlmostEqual(
            line.positive["l_mh"] / (0.2 * math.log(gmd / (0.0153 * math.exp(-0.25)))), 1, delta=5e-3
        )
        for own, want in zip(
            (*line.zero.values(), *line.positive.values()), (0.249, 2.64, 6.34e-3, 0.060, 1.316, 8.92e-3)
        ):
            self.assertAlmostEqual(
                own / want, 1, delta=0.03 if want == 0.060 else 6e-3
            )  # Bessel functions, not .059 ohm
        high = 1000 + 7 * math.sqrt(3) / 2  # a triangle of 7 m far above ground
        bare = overhead([Conductor(x, y, 15.3, 0.059) for x, y in ((-3.5, 1000), (0, high), (3.5, 1000))])
        self.assertAlmostEqual(bare.positive["c_uf"] / (2e9 * math.pi * EPSILON / math.log(7 / 0.0153)), 1, 5)
        self.assertAlmostEqual(bare.positive["l_mh"] / (0.2 * math.log(7 / (0.0153 * math.exp(-0.25)))), 1, delta=2e-3)
        self.assertLess(abs(line.km_s[1] / 299792.458 - 1), 0.03)

    def test_a_published_line(self) -> None:
        """IEEE 13-node test feeder, configuration 601, at 60 Hz: its matrices in ohm and uS a mile (W. H. Kersting), which
        take the first terms of Carson's series."""
        foot, mile = 0.3048, 1.609344

        def wire(x: float, y: float, gmr: float, inches: float, ohm: float) -> Conductor:
            return Conductor(x * foot, y * foot, 12.7 * inches, ohm / mile, gmr_mm=304.8 * gmr, r_hz=60)

        phases = [wire(x, 28, 0.0313, 0.927, 0.1859) for x in (2.5, 0.0, 7.0)]
        z, y = constants(phases, [wire(4, 24, 0.00814, 0.563, 0.592)], 100, 60, "carson")
        want = {
            (0, 0): 0.3465 + 1.0179j,
            (0, 1): 0.1560 + 0.5017j,
            (0, 2): 0.1580 + 0.4236j,
            (1, 1): 0.3375 + 1.0478j,
            (1, 2): 0.1535 + 0.3849j,
            (2, 2): 0.3414 + 1.0348j,
        }
        for place, value in want.items():
            self.assertLess(abs(z[place] * mile / value - 1), 3e-3)
            self.assertAlmostEqual(z[place], z[place[::-1]], 12)
        siemens = {(0, 0): 6.2998, (0, 1): -1.9958, (0, 2): -1.2595, (1, 1): 5.9597, (1, 2): -0.7417, (2, 2): 5.6386}
        for place, value in siemens.items():
            self.assertAlmostEqual(y[place].imag * mile * 1e6 / value, 1, delta=2e-3)

    def test_a_bundle_by_hand(self) -> None:
        """Two wires of 40 cm count as one of the radius root(.4 r)."""
        twin = overhead([Conductor(x, 20, 15.3, 0.059, bundle=2, spacing_m=0.4) for x in (-10, 0, 10)])
        single = overhead(
            [
                Conductor(
                    x,
                    20,
                    1e3 * math.sqrt(0.4 * 0.0153),
                    0.0295,
                    gmr_mm=1e3 * math.sqrt(0.4 * 0.0153 * math.exp(-0.25)),
                    r_hz=50,
                )
                for x in (-10, 0, 10)
            ]
        )
        self.assertAlmostEqual(twin.positive["l_mh"] / single.positive["l_mh"], 1, 3)
        self.assertAlmostEqual(twin.positive["c_uf"] / single.positive["c_uf"], 1, 3)

    def test_what_is_told(self) -> None:
        line = overhead(PHASES, GROUND)
        self.assertRegex(
            line.told[0], r"^by deri in place of carson: zero sequence R \+0\.7\d %, L \+0\.3\d %; positive"
        )
        self.assertRegex(line.told[1], "^without transposition an impedance differs from the mean by up to 5")
        table = over_frequency(line, [50, 1000])
        self.assertRegex(table[-1], r"at 1000 Hz R0 is 4\.\d+ times that, L0 0\.8\d+ times, .* damped too little$")
        self.assertEqual(len(table), 4)

    def test_what_is_refused(self) -> None:
        rows = [
            ("three phases, and here 2", lambda: overhead(PHASES[:2])),
            ("earth is one of carson, deri", lambda: overhead(PHASES, earth="moon")),
            ("have to be above 0", lambda: overhead(PHASES, rho_ohm_m=0)),
            ("two wires stand at one place", lambda: overhead([PHASES[0], PHASES[0], PHASES[1]])),
            ("has to be above ground", lambda: Conductor(0, 5, 10, 0.1, sag_m=9)),
            ("lies above 0 and at most at the radius", lambda: Conductor(0, 5, 10, 0.1, gmr_mm=11)),
            ("spacing_m is above two radii", lambda: Conductor(0, 5, 10, 0.1, bundle=2)),
        ]
        for words, made in rows:
            with self.assertRaisesRegex(DataError, words):
                made()


TOWER = """name = "220 kV"
rho_ohm_m = 100
length_km = 100
[[phase]]
x_m = -7
y_m = 20
sag_m = 9
radius_mm = 15.3
r_ohm_km = 0.059
[[phase]]
x_m = 0
y_m = 20
sag_m = 9
radius_mm = 15.3
r_ohm_km = 0.059
[[phase]]
x_m = 7
y_m = 20
sag_m = 9
radius_mm = 15.3
r_ohm_km = 0.059
[[ground_wire]]
x_m = -5
y_m = 26
sag_m = 9
radius_mm = 8
r_ohm_km = 0.36
[[ground_wire]]
x_m = 5
y_m = 26
sag_m = 9
radius_mm = 8
r_ohm_km = 0.36
"""


class Command(unittest.TestCase):
    def told(self, text: str, *words: str) -> tuple[int, str, str]:
        out, err = io.StringIO(), io.StringIO()
        with tempfile.TemporaryDirectory() as room:
            path = os.path.join(room, "tower.toml")
            pathlib.Path(path).write_text(text, encoding="utf-8")
            with contextlib.redirect_stdout(out), contextlib.redirect_stderr(err):
                status = lineconst.main([path, *(it.replace("ROOM", room) for it in words)])
            if "--picture" in words:
                self.assertGreater(os.path.getsize(os.path.join(room, "tower.png")), 5000)
        return status, out.getvalue(), err.getvalue()

    def test_a_tower(self) -> None:
        status, out, _ = self.told(TOWER, "--hz", "50,1000", "--picture", "ROOM/tower.png")
        line = overhead(PHASES, GROUND)
        self.assertEqual(status, 0)
        self.assertIn(f"zero = dict(r_ohm={line.zero['r_ohm']:.6g}, l_mh={line.zero['l_mh']:.6g}", out)
        self.assertEqual([it[:2] for it in out.splitlines() if it.startswith("-")], ["-1", "-2", "-3"])
        self.assertIn("R0 is 4", out)
        other = self.told(TOWER, "--rho", "1000", "--earth", "deri")[1]
        self.assertIn("earth of 1000 ohm m (deri)", other)

    def test_what_is_refused(self) -> None:
        rows = [
            ("x = ", "Invalid value"),
            (TOWER.replace("sag_m = 9", "sagg_m = 9", 1), "phase 1: sagg_m isn't known; there are bundle, gmr_mm"),
            (
                TOWER.replace("radius_mm = 15.3\n", "", 1),
                "phase 1: missing 1 required positional argument: 'radius_mm'",
            ),
            (TOWER.replace("name", "nam"), "nam isn't known; there are earth, ground_wire"),
            (TOWER.replace("length_km = 100", 'length_km = "x"'), "the length is a number of km"),
        ]
        for text, words in rows:
            status, _, err = self.told(text)
            self.assertEqual(status, 2)
            self.assertIn(words, err)


class Plates(unittest.TestCase):
    def test_a_source_by_hand(self) -> None:
        own = data.source3(kv=220, sk_mva=10_000, xr=12, x0x1=1.5)
        self.assertAlmostEqual(abs(own.z_ohm), 220**2 / 10_000, 9)
        self.assertAlmostEqual(own.z_ohm.imag / own.r_ohm, 12, 9)
        self.assertAlmostEqual(own.amplitude_v, 179_629, 0)
        other = data.source3(kv=220, ik_ka=10_000 / math.sqrt(3) / 220, xr=12)
        self.assertAlmostEqual(other.l_mh, own.l_mh, 9)
        self.assertIsNone(other.between)
        # admittances of the sequences of its branches: Y0 that to ground, Y1 that and thrice the one between phases
        (r0, l0), (r, l) = own.to_ground, own.between
        y0, y = 1 / complex(r0, W * l0 * 1e-3), 1 / complex(r, W * l * 1e-3)
        self.assertAlmostEqual(1 / y0, 1.5 * own.z_ohm, 9)
        self.assertAlmostEqual(1 / (y0 + 3 * y), own.z_ohm, 9)
        with self.assertRaisesRegex(DataError, "x0x1 is 0.5: below 1 no branches"):
            data.source3(kv=220, sk_mva=1, xr=1, x0x1=0.5)
        with self.assertRaisesRegex(DataError, "sk_mva or ik_ka"):
            data.source3(kv=220, xr=1)

    def test_a_transformer_by_hand(self) -> None:
        own = data.transformer(mva=200, kv=(220, 110), uk=0.12, pk_kw=500, i0=0.003, p0_kw=90)
        self.assertAlmostEqual(own.r_ohm, 0.5 * 110**2 / 200**2, 9)
        self.assertAlmostEqual(own.l_mh, 23.1, 1)
        (amperes, webers), lossless = own.points[0], 220**2 / 200 / 0.003 / W
        self.assertAlmostEqual(lossless, 257, 0)
        self.assertAlmostEqual(webers / amperes / lossless, 0.003 / math.sqrt(0.003**2 - 0.00045**2), 6)
        self.assertAlmostEqual(webers, 220e3 * math.sqrt(2 / 3) / W, 4)
        self.assertAlmostEqual(own.core_ohm, 220e3**2 / 90e3, 3)
        delta = data.transformer(mva=200, kv=(220, 110), uk=0.12, i0=0.003, knee=1.2, group="Dyn1")
        self.assertAlmostEqual(delta.points[0][1], 1.2 * 220e3 * math.sqrt(2) / W, 4)
        self.assertAlmostEqual(delta.most_behind_mh, own.most_behind_mh, delta=0.1)
        with self.assertRaisesRegex(DataError, "group is one of YNyn0, Dyn1"):
            data.transformer(mva=200, kv=(220, 110), uk=0.12, i0=0.003, group="YNz5")
        with self.assertRaisesRegex(DataError, "above what the losses are"):
            data.transformer(mva=1, kv=(20, 0.4), uk=0.05, pk_kw=60, i0=0.003)

    def test_an_arrester(self) -> None:
        own = data.arrester(
            ur_kv=336, lightning={5: 735, 10: 780, 20: 850}, switching={0.5: 645, 1: 662, 2: 688}, steep={10: 826}
        )
        self.assertEqual(
            own.points[3:], ((500, 645e3), (1e3, 662e3), (2e3, 688e3), (5e3, 735e3), (1e4, 780e3), (2e4, 850e3))
        )
        self.assertAlmostEqual(own.points[0][1] / 475e3, 1, 3)  # a real one has some 475 kV at 1 mA
        self.assertAlmostEqual(own.points[1][1] / 540e3, 1, delta=5e-3)
        self.assertAlmostEqual(own.points[2][1] / 612e3, 1, delta=5e-3)
        self.assertRegex(own.told[-1], "^not of the data sheet but of a typical curve: 0.001 A, 1 A, 100 A")
        steep = data.arrester(ur_kv=336, lightning={5: 735, 10: 780}, steep={10: 826}, form="steep")
        self.assertEqual(steep.points[-1], (1e4, 826e3))
        self.assertAlmostEqual(steep.points[-2][1], 735e3 * 826 / 780, 0)
        with self.assertRaisesRegex(DataError, "the crest of the rated voltage, 475.18 kV"):
            data.arrester(ur_kv=336, lightning={10: 400})
        with self.assertRaisesRegex(DataError, "residual voltages rise"):
            data.arrester(ur_kv=100, lightning={5: 300, 10: 290})

    def test_others_by_hand(self) -> None:
        self.assertAlmostEqual(data.bank(30, 72.5).c_uf, 30 / (W * 72.5**2) * 1e6, 9)
        self.assertAlmostEqual(data.bank(30, 72.5, delta=True).c_uf, 10 / (W * 72.5**2) * 1e6, 9)
        own = data.reactor(80, 420)
        self.assertAlmostEqual(own.l_mh, 7019, 0)
        self.assertAlmostEqual(own.amplitude_a, 155.52, 2)
        (first, second) = data.reactor(80, 420, knee=1.3, loss=0.002).points
        self.assertAlmostEqual((second[1] - first[1]) / (second[0] - first[0]) / (first[1] / first[0]), 0.3, 6)
        self.assertEqual(own.lines()[0], "7018.73 mH and 0 ohm from a phase to ground, 155.52 A crest")
        self.assertEqual(
            data.bank(30, 72.5).lines(), ["18.1675 uF from a phase to ground, rated current 337.86 A crest in a lead"]
        )
        self.assertAlmostEqual(data.busbar_ohm(10, 50), 60 * math.log(20 / 0.05), delta=0.4)
        self.assertAlmostEqual(data.tower_ohm(40, 5), 60 * math.log(math.sqrt(2) * math.sqrt(65)), 9)
        self.assertAlmostEqual(data.tower_ohm(40, 2, "cylinder"), 60 * (math.log(2 * math.sqrt(2) * 20) - 2), 9)

    def test_a_cable_by_hand(self) -> None:
        """Without losses C = 2 pi eps/ln(b/a) and the velocity of light over root eps; the skins add inductance."""
        own = data.cable(core_mm=19.5, screen_mm=37.8, core_ohm_km=0.029, screen_ohm_km=0.1, permittivity=2.85, hz=1e7)
        ratio = math.log(37.8 / 19.5)
        self.assertAlmostEqual(own.c_uf, 1e9 * 2 * math.pi * EPSILON * 2.85 / ratio, 9)
        self.assertAlmostEqual(own.l_mh / (0.2 * ratio), 1, delta=0.01)
        self.assertAlmostEqual(own.surge_ohm / (60 / math.sqrt(2.85) * ratio), 1, delta=0.01)
        direct = data.cable(core_mm=19.5, screen_mm=37.8, core_ohm_km=0.029, screen_ohm_km=0.1, hz=0.01)
        self.assertAlmostEqual(direct.r_ohm, 0.129, 3)  # core and screen in series


@needs_program
class Cases(unittest.TestCase):
    def test_faults_behind_a_source(self) -> None:
        source = data.source3(kv=220, sk_mva=10_000, xr=12, x0x1=1.5)
        z, volts = source.z_ohm, source.amplitude_v
        rows = [
            ("A", "", 3 * volts / abs(2 * z + 1.5 * z + 0.03)),
            ("B", "C", math.sqrt(3) * volts / abs(2 * z + 0.01)),
        ]
        for one, other, amperes in rows:
            case = Case(5e-5, 0.3)
            case.source3(list("ABC"), source, cycles=5)
            case.series(one, other, r_ohm=0.01, ask="i")
            found = case.run()
            self.assertAlmostEqual(found.channel(case.names[0])[-800:].max() / amperes, 1, 3)

    def test_a_source_without_load_has_its_voltage_and_angle(self) -> None:
        case = Case(5e-5, 0.3)
        case.source3(list("ABC"), data.source3(kv=220, sk_mva=10_000, xr=12, x0x1=3), angle_deg=20)
        case.output(*"ABC")
        case.control.voltage("A")  # its name is free
        found = case.run()
        times = found.times[-800:]
        for phase, degrees in zip("ABC", (20, -100, 140)):
            phasor = 2 * np.mean(found.channel("V " + phase)[-800:] * np.exp(-1j * W * times))
            self.assertAlmostEqual(abs(phasor) / 179_629, 1, 3)
            self.assertAlmostEqual(math.degrees(cmath.phase(phasor)), degrees, 1)

    def test_where_a_delta_begins_to_ring(self) -> None:
        """The bound of its ratio by the control: the inductance behind a primary node times the ratio squared over the
        leakage, at 1."""
        own = data.transformer(mva=200, kv=(220, 20), uk=0.12, i0=0.003, group="YNd11")
        for part, rings in ((0.95, False), (1.1, True)):
            case = Case(5e-5, 0.1)
            for k, phase in enumerate("ABC"):
                case.series("E" + phase, phase, r_ohm=1, l_mh=part * own.most_behind_mh)
                case.cosine("E" + phase, amplitude_v=1000, hz=50, phase_deg=-90 - 120 * k)
            case.transformer3(list("ABC"), list("XYZ"), own, behind_mh=0)  # 0: the bound isn't judged
            for node in "XYZ":
                case.series(node, r_ohm=2)
            case.output("X")
            found = case.run()
            self.assertEqual(case.end_of_run is not None or abs(found.channel("V X")).max() > 1e5, rings)
        with self.assertRaisesRegex(CaseError, "the ratio by the control is stable where"):
            case.transformer3(list("ABC"), list("UVW"), own, behind_mh=1.01 * own.most_behind_mh)

    def test_transformers_under_load(self) -> None:
        """A load of 80.7 ohm on the secondary side, beside complex numbers; the control is one step late, .9 degrees."""
        source = data.source3(kv=220, sk_mva=10_000, xr=12, x0x1=1.5)
        for group, degrees in (("YNyn0", 0), ("Dyn1", -30), ("Dyn11", 30), ("YNd1", -30), ("YNd11", 30)):
            own = data.transformer(mva=200, kv=(220, 110), uk=0.12, pk_kw=500, i0=0.003, p0_kw=90, group=group)
            case = Case(5e-5, 0.4)
            case.source3(list("ABC"), source, cycles=8)
            case.transformer3(list("ABC"), list("XYZ"), own, behind_mh=source.l_mh)
            for node in "XYZ":
                case.series(node, r_ohm=80.7, ask="i")
            found = case.run()
            phasor = 2 * np.mean(found.channel("I X-0")[-800:] * np.exp(-1j * W * found.times[-800:]))
            leakage = complex(own.r_ohm, W * own.l_mh * 1e-3) / (3 if "d" in group else 1)
            want = source.amplitude_v / 2 * cmath.rect(1, math.radians(degrees)) / (source.z_ohm / 4 + leakage + 80.7)
            self.assertAlmostEqual(abs(phasor / want), 1, delta=1e-3)
            self.assertAlmostEqual(math.degrees(cmath.phase(phasor / want)), 0, delta=1.1)


if __name__ == "__main__":
    unittest.main()
