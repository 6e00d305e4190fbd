"""Networks whose answers other programs and hand formulas know, and records of curves: what the tests of studies share."""

from __future__ import annotations

import math
import pathlib
import sys
from typing import Mapping

import numpy as np

sys.path.insert(0, str(pathlib.Path(__file__).resolve().parents[1]))

from wurdanei import read  # noqa: E402
from wurdanei.case import Case  # noqa: E402
from wurdanei.record import Record  # noqa: E402
from wurdanei.write import Bar, Channel, Content, write  # noqa: E402

W = 2 * math.pi * 50
E = 145e3 * math.sqrt(2 / 3)  # crest of a phase to ground, V
ISC = 31.5e3  # A RMS
L1 = E / (math.sqrt(2) * ISC * W)  # H


def record_of(
    stem: pathlib.Path,
    step: float,
    channels: Mapping[str, tuple[str, np.ndarray]],
    states: Mapping[str, np.ndarray] | None = None,
) -> Record:
    """A record of curves, name to unit and values, one sample each `step` seconds: FLOAT32, edition 2013."""
    count = len(next(iter(channels.values()))[1])
    analogs = [Channel(name, unit, np.asarray(values, float)) for name, (unit, values) in channels.items()]
    bars = [Bar(name, values) for name, values in (states or {}).items()]
    rates = [(1 / step, count)]
    write(f"{stem}.cfg", Content(step * np.arange(count), analogs, bars, frequency=50.0, rates=rates), "FLOAT32", 2013)
    return read(f"{stem}.cfg")


def terminal_fault() -> Case:
    """145 kV, 31.5 kA, three phases to ground at the breaker, k 3.25, three transposed lines; pole A opens at 1 ms."""
    case = Case(1e-6, 1.6e-3)
    poles = ("BA", "BB", "BC")
    for pole in poles:
        case.series(pole, "NS", r_ohm=0.19, l_mh=1e3 * L1)
        case.series(pole, c_uf=0.005)
    case.series("NS", r_ohm=0.14, l_mh=1e3 * L1 * 2.25 / 3)
    case.series("NS", r_ohm=1e5)
    zero, positive = dict(r_ohm=0.2, zc_ohm=650, velocity=230e3), dict(r_ohm=0.03, zc_ohm=280, velocity=295e3)
    for number, km in enumerate((40, 90, 90), 1):
        ends = (f"A{number}", f"B{number}", f"C{number}")
        case.line3(poles, ends, length=km, zero=zero, positive=positive)
        for end in ends:
            case.series(end, r_ohm=1e5)
    case.switch("BA", open_s=0.5e-3, ask="iu")
    case.switch("BB")
    case.switch("BC")
    for pole, degrees in zip(poles, (-108, 132, 12)):
        case.cosine(pole, amplitude_a=E / (W * L1), hz=50, phase_deg=degrees)
    return case


def short_line() -> Case:
    """L90 of the same rating: a short line of 450 ohm; the pole S to L opens at the zero after 9 ms."""
    case = Case(1e-7, 10.6e-3)
    case.series("E", "S", l_mh=1e3 * L1, peak_a=45e3)
    case.series("S", c_uf=0.014)
    case.line("S", "F", zc_ohm=143, tau_us=100)
    case.series("F", r_ohm=493)
    case.line("L", "X", zc_ohm=450, tau_us=1e6 * (1 / 0.9 - 1) * L1 / 450)
    case.series("X", r_ohm=0.01)
    case.series("L", r_ohm=1e6)
    case.switch("S", "L", open_s=9e-3, ask="iu")
    case.cosine("E", amplitude_v=E, hz=50)
    case.output("S", "L")
    return case


def out_of_phase() -> Case:
    """25 % of the same rating out of phase: S1 to S2 opens at the zero after 9 ms."""
    whole = 2 * E / (0.25 * ISC * math.sqrt(2) * W)
    case = Case(1e-6, 11e-3)
    case.series("E1", "S1", l_mh=1e3 * L1, peak_a=15e3)
    case.series("E2", "S2", l_mh=1e3 * (whole - L1), peak_a=15e3)
    case.series("S1", c_uf=0.014)
    case.series("S1", r_ohm=150)
    case.series("S2", c_uf=0.005)
    case.series("S2", r_ohm=450)
    case.switch("S1", "S2", open_s=9e-3, ask="iu")
    case.cosine("E1", amplitude_v=E, hz=50)
    case.cosine("E2", amplitude_v=E, hz=50, phase_deg=180)
    return case


# ---- a line of 220 kV and 100 km between two sources, with a fault

E220 = 220e3 * math.sqrt(2 / 3)
LINE = {"zero": dict(r_ohm=0.25, l_mh=3.6, c_uf=0.0055), "positive": dict(r_ohm=0.06, l_mh=1.3, c_uf=0.0089)}
Z1, Z0 = 100 * complex(0.06, W * 1.3e-3), 100 * complex(0.25, W * 3.6e-3)
SOURCES = {"S": (10e9, 12.0, 1.5, 0.0), "R": (4e9, 10.0, 2.0, -20.0)}  # VA, X/R, X0/X1, degrees
PHASES = {"A": -90.0, "B": 150.0, "C": 30.0}
BEHIND, ENDED = 40.0, complex(800.0, W * 0.5)  # km behind R, ohm a phase
CHANNELS = ([f"V S{it}" for it in "ABC"], [f"I S{it}-L{it}" for it in "ABC"])
FAULT = 0.1422  # s


def source_ohm(name: str) -> tuple[complex, float]:
    """The positive sequence impedance of a source at 50 Hz, and its X0/X1."""
    power, ratio, k, _ = SOURCES[name]
    size = 220e3**2 / power
    return size * complex(1, ratio) / math.hypot(1, ratio), k


def resistances(kind: str, rf: float) -> tuple[dict[str, float], float | None]:
    """The resistances of a fault from its phases to a star point, and from that to ground (None: isolated)."""
    if kind == "AG":
        return {"A": max(rf, 0.01)}, 0.0
    if kind == "BC":
        return {"B": max(rf, 0.01) / 2, "C": max(rf, 0.01) / 2}, None
    if kind == "BCG":
        return {"B": max(rf, 0.01) / 2, "C": max(rf, 0.01) / 2}, max(rf, 0.01)
    return {it: max(rf, 0.01) for it in "ABC"}, None


def faulted_line(kind: str, place: float, rf: float, end: float = 0.26, fault: float = FAULT) -> Case:
    """The case of a fault at a part of the line's 100 km."""
    case = Case(25e-6, end)
    for name, (_, _, _, degrees) in SOURCES.items():
        z, k = source_ohm(name)
        for phase, own in PHASES.items():
            case.series(f"{name}{phase}", f"N{name}", r_ohm=z.real, l_mh=1e3 * z.imag / W)
            turn = own + degrees - math.degrees(np.angle(z))
            case.smooth_cosine(f"{name}{phase}", amplitude_a=E220 / abs(z), hz=50, phase_deg=turn)
        case.series(f"N{name}", r_ohm=z.real * (k - 1) / 3, l_mh=1e3 * z.imag / W * (k - 1) / 3)
    for phase in PHASES:
        case.measuring(f"S{phase}", f"L{phase}")
    before, behind = [("L", "F", 100 * place), ("F", "R", 100 * (1 - place)), ("R", "X", BEHIND)], []
    if place > 1:
        before, behind = [("L", "R", 100.0), ("R", "F", 100 * (place - 1)), ("F", "X", BEHIND - 100 * (place - 1))], []
    for a, b, km in before + behind:
        case.line3([f"{a}{it}" for it in PHASES], [f"{b}{it}" for it in PHASES], length=km, **LINE)
    for phase in PHASES:
        case.series(f"X{phase}", r_ohm=ENDED.real, l_mh=1e3 * ENDED.imag / W)
    star, ground = resistances(kind, rf)
    point = "" if ground == 0.0 else "FP"
    for phase, ohm in star.items():
        case.switch(f"F{phase}", f"Y{phase}", close_s=fault)
        case.series(f"Y{phase}", point, r_ohm=ohm)
    if point:
        case.series(point, r_ohm=1e7 if ground is None else ground)
    case.output(*(f"S{it}" for it in PHASES))
    return case


def faulted_phasors(kind: str, place: float, rf: float) -> tuple[np.ndarray, np.ndarray]:
    """Voltages of S and currents into the line with the fault, crest phasors of a, b, c: by admittances in phase
    coordinates, the line exact by its hyperbolic functions."""
    turn = np.exp(2j * np.pi / 3)
    fortescue = np.array([[1, 1, 1], [1, turn**2, turn], [1, turn, turn**2]])  # phases of sequences 0, 1, 2

    def phases(zero, positive):
        return fortescue @ np.diag([zero, positive, positive]) @ np.linalg.inv(fortescue)

    def of_line(km):
        own, between = [], []
        for name in ("zero", "positive"):
            its = LINE[name]
            z = km * complex(its["r_ohm"], W * its["l_mh"] * 1e-3)
            y = km * 1j * W * its["c_uf"] * 1e-6
            root = np.sqrt(z * y)
            own.append(np.sqrt(y / z) / np.tanh(root))
            between.append(-np.sqrt(y / z) / np.sinh(root))
        return phases(*own), phases(*between)

    nodes = ["S", "R", "X", "F"]
    admittance, current = np.zeros((12, 12), complex), np.zeros(12, complex)

    def at(name):
        return slice(3 * nodes.index(name), 3 * nodes.index(name) + 3)

    km = 100 * place
    parts = [("S", "F", km), ("F", "R", 100 - km), ("R", "X", BEHIND)]
    if place > 1:
        parts = [("S", "R", 100.0), ("R", "F", km - 100), ("F", "X", BEHIND - km + 100)]
    for a, b, length in parts:
        own, between = of_line(length)
        admittance[at(a), at(a)] += own
        admittance[at(b), at(b)] += own
        admittance[at(a), at(b)] += between
        admittance[at(b), at(a)] += between
    for name, (_, _, _, degrees) in SOURCES.items():
        z, k = source_ohm(name)
        own = phases(1 / (k * z), 1 / z)
        admittance[at(name), at(name)] += own
        voltage = E220 * np.exp(1j * np.radians(np.array(list(PHASES.values())) + degrees))
        current[at(name)] += own @ voltage
    admittance[at("X"), at("X")] += np.eye(3) / ENDED
    star, ground = resistances(kind, rf)
    g = np.array([1 / star[it] if it in star else 0.0 for it in "ABC"])
    whole = g.sum() + (0.0 if ground is None else 1 / ground if ground else 1e12)
    admittance[at("F"), at("F")] += np.diag(g) - np.outer(g, g) / whole
    volts = np.linalg.solve(admittance, current)
    z, k = source_ohm("S")
    voltage = E220 * np.exp(1j * np.radians(np.array(list(PHASES.values()))))
    into = phases(1 / (k * z), 1 / z) @ (voltage - volts[at("S")])
    return volts[at("S")], into
