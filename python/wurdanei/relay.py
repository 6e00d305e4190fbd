"""What a protection relay makes of a record: impedances, zones, overcurrent, differential current.

    emtp relay x.cfg --v 'V SA,V SB,V SC' --i 'I SA-LA,I SB-LB,I SC-LC' --line .06,.408,.25,1.131,100 --mho .8 --out rx.png
    emtp relay x.cfg --i 'I SA-LA,I SB-LB,I SC-LC' --overcurrent 600,NI,.1
    emtp relay x.cfg --i 'I SA-LA,..' --there 'I RA-MA,..' --differential 200,.5

Currents flow into the line. Values are primary: ohm, V, A. --line is R1,X1,R0,X0 in ohm a km, and km. A zone is a mho
through the origin, with a reach in parts of the line (.8), or a quadrilateral: its reach in X in parts of the line, its
reach in R in ohm (.8,25). Zones count from 1 in their order, mhos first. --overcurrent is a setting in A, a curve of IEC
60255-151 (NI, VI, EI) with its time multiplier, or DT with a time in s. --differential is the least current in A and the
part of the restraining current, the mean magnitude of both ends. docs/studies.md has the formulas.

Exit status: 0 what is expected picks up, and nothing else; 1 it doesn't; 2 it can't be judged. --expect names the zones
that shall pick up (1,2), or none; without it a zone, or a current, has to pick up and stay.
"""

from __future__ import annotations

import argparse
import cmath
import math
import os
import sys
from dataclasses import dataclass, field
from typing import Mapping, Protocol, Sequence

import numpy as np

from . import report
from .configuration import RecordError
from .convert import number as real
from .drawing import Bar, Curve, Drawing, Mark, Pane
from .fourier import Phasors, phasors_of
from .record import Record, read
from .signals import names_of

Names = Sequence[str]
GROUND, PHASE = ("AG", "BG", "CG"), ("AB", "BC", "CA")
LOOPS = GROUND + PHASE
ACROSS = 8.2  # inches of a picture's pane
NOTHING = 1e-3  # of the greatest current of any loop: below it a loop has no impedance
TURN = cmath.exp(2j * math.pi / 3)
CURVES = {"NI": (0.14, 0.02), "VI": (13.5, 1.0), "EI": (80.0, 2.0)}  # IEC 60255-151, A, B and C


@dataclass(frozen=True)
class Loops:
    """Impedances of the six loops over the time: `times` in s, shape (samples,), each of `z` complex ohm, nan where a
    loop has no current or the first cycle isn't over.

    `volts` and `amps` are phasors of the phases, crest, shape (3, samples); `sequences("v")` and ("i") the zero,
    positive and negative ones.
    """

    times: np.ndarray = field(repr=False)
    z: dict[str, np.ndarray] = field(repr=False)
    volts: np.ndarray = field(repr=False)
    amps: np.ndarray = field(repr=False)
    k0: complex
    hz: float
    samples: int  # of a cycle
    told: list[str]

    def sequences(self, what: str) -> np.ndarray:
        """The zero, positive and negative sequence of the voltages ("v") or currents ("i"): shape (3, samples), crest."""
        return symmetrical(self.volts if what == "v" else self.amps)

    def at(self, seconds: float) -> dict[str, complex]:
        """The impedances at the last sample up to a time."""
        place = int(np.searchsorted(self.times, seconds + 1e-9, "right")) - 1
        if place < 0:
            raise RecordError(f"{seconds:g} s is before the first sample")
        return {name: complex(values[place]) for name, values in self.z.items()}


def symmetrical(phases: np.ndarray) -> np.ndarray:
    """Zero, positive and negative sequence of phasors of the phases a, b, c: shape (3, samples) both."""
    matrix = np.array([[1, 1, 1], [1, TURN, TURN**2], [1, TURN**2, TURN]]) / 3
    return matrix @ phases


def loops(
    record: Record,
    volts: Names,
    amps: Names,
    z1_ohm: complex,
    z0_ohm: complex,
    hz: float = 50,
    rate: float | None = None,
    corner: float | None = None,
    offset: bool = True,
) -> Loops:
    """The impedances that a distance relay sees, of the six loops.

    `volts` are three voltages to ground, `amps` three currents into the line; z1_ohm and z0_ohm those of the whole line,
    primary, from which k0 = (z0 - z1) / (3 z1). `rate`, `corner` and `offset` are those of `fourier.phasors_of`.
    """
    _three(volts, "voltages")
    _three(amps, "currents")
    z1, z0 = complex(z1_ohm), complex(z0_ohm)
    if not (abs(z1) > 0 and cmath.isfinite(z1) and cmath.isfinite(z0)):
        raise RecordError(f"z1_ohm is {z1:g} and z0_ohm {z0:g}: they are finite, and z1_ohm isn't 0")
    its = phasors_of(record, [(it, "V") for it in volts] + [(it, "A") for it in amps], hz, rate, corner, offset)
    v, i = its.values[:3], its.values[3:]
    k0 = (z0 - z1) / (3 * z1)
    residual = i.sum(axis=0)
    drops = {name: v[place] for place, name in enumerate(GROUND)}
    drops |= {name: v[place] - v[(place + 1) % 3] for place, name in enumerate(PHASE)}
    flows = {name: i[place] + k0 * residual for place, name in enumerate(GROUND)}
    flows |= {name: i[place] - i[(place + 1) % 3] for place, name in enumerate(PHASE)}
    most = max(float(np.nanmax(np.abs(it))) for it in flows.values())
    found = {}
    for name in LOOPS:
        with np.errstate(invalid="ignore", divide="ignore"):
            z = drops[name] / flows[name]
            z[~(np.abs(flows[name]) > NOTHING * most)] = np.nan
        found[name] = z
    return Loops(its.times, found, v, i, k0, hz, its.samples, its.told)


def _three(names: Names, what: str) -> None:
    if isinstance(names, str) or len(names) != 3 or len(set(names)) != 3:
        raise RecordError(f"there are three {what}, of the phases a, b and c, and here {', '.join(names) or 'none'}")


# ---- zones


class Zone(Protocol):
    """A region of the impedance plane."""

    @property
    def name(self) -> str:
        """What it is called."""

    def holds(self, z: np.ndarray) -> np.ndarray:
        """Which impedances lie in it, shape of `z`."""

    def outline(self) -> np.ndarray:
        """Its edge, complex, shape (points,), the last point being the first."""


@dataclass(frozen=True)
class Mho:
    """A circle over the diameter from `behind_ohm` (the origin) to `reach_ohm`, complex."""

    reach_ohm: complex
    behind_ohm: complex = 0j
    name: str = "mho"

    def __post_init__(self) -> None:
        if not abs(self.reach_ohm - self.behind_ohm) > 0:
            raise RecordError("a mho has a reach that isn't 0")

    def holds(self, z: np.ndarray) -> np.ndarray:
        with np.errstate(invalid="ignore"):
            return ((self.reach_ohm - z) * np.conj(z - self.behind_ohm)).real > 0

    def outline(self) -> np.ndarray:
        middle, radius = (self.reach_ohm + self.behind_ohm) / 2, abs(self.reach_ohm - self.behind_ohm) / 2
        return middle + radius * np.exp(1j * np.linspace(0, 2 * np.pi, 121))


@dataclass(frozen=True)
class Quadrilateral:
    """X up to `x_ohm`, tilted down by `tilt_deg`; R up to `r_ohm` to either side of a line at `angle_deg`; and ahead, which is
    between -15 and 115 degrees."""

    x_ohm: float
    r_ohm: float
    angle_deg: float = 90.0
    tilt_deg: float = 0.0
    name: str = "quad"

    def __post_init__(self) -> None:
        if not (self.x_ohm > 0 and self.r_ohm > 0 and 20 <= self.angle_deg <= 160 and abs(self.tilt_deg) < 60):
            raise RecordError(
                "a quadrilateral has x_ohm and r_ohm above 0, angle_deg from 20 to 160, tilt_deg within 60"
            )

    def _edges(self) -> list[tuple[complex, float]]:
        """Its edges as half planes: a point, and the angle of the way in."""
        lean = math.radians(self.angle_deg)
        return [
            (1j * self.x_ohm, math.radians(-90 - self.tilt_deg)),
            (complex(self.r_ohm), lean + math.pi / 2),
            (complex(-self.r_ohm), lean - math.pi / 2),
            (0j, math.radians(75)),
            (0j, math.radians(25)),
        ]

    def holds(self, z: np.ndarray) -> np.ndarray:
        inside = np.ones(np.shape(z), bool)
        for point, way in self._edges():
            with np.errstate(invalid="ignore"):
                inside &= ((z - point) * cmath.exp(-1j * way)).real > 0
        return inside

    def outline(self) -> np.ndarray:
        size = 4 * (self.x_ohm + self.r_ohm)
        corners = [complex(a, b) for a, b in ((-size, -size), (size, -size), (size, size), (-size, size))]
        for point, way in self._edges():
            cut: list[complex] = []
            deep = [((it - point) * cmath.exp(-1j * way)).real for it in corners]
            for one, other, d, e in zip(corners, corners[1:] + corners[:1], deep, deep[1:] + deep[:1]):
                cut += [one] if d >= 0 else []
                cut += [one + (other - one) * d / (d - e)] if d * e < 0 else []
            corners = cut
        return np.array(corners + corners[:1])


@dataclass(frozen=True)
class Pickup:
    """A stay of a loop in a zone: s of the record; `reset` is nan where it lasts to the end."""

    loop: str
    start: float
    reset: float

    @property
    def lasts(self) -> bool:
        return math.isnan(self.reset)


def pickup(its: Loops, zone: Zone, hold_s: float = 0.0) -> list[Pickup]:
    """The stays of all loops in a zone that last at least `hold_s`, in the order of their begins."""
    found = []
    for name in LOOPS:
        found += [Pickup(name, *span) for span in spans_of(its.times, zone.holds(its.z[name]), hold_s)]
    return sorted(found, key=lambda it: (it.start, LOOPS.index(it.loop)))


def spans_of(times: np.ndarray, inside: np.ndarray, hold_s: float = 0.0) -> list[tuple[float, float]]:
    """The times from and to which something is true for at least `hold_s`; nan where it is to the end."""
    edges = np.flatnonzero(np.diff(np.concatenate([[0], inside.astype(np.int8), [0]])))
    found = []
    for begin, end in zip(edges[::2].tolist(), edges[1::2].tolist()):
        last = end == len(times)
        if times[min(end, len(times) - 1)] - times[begin] >= hold_s - 1e-12:
            found.append((float(times[begin]), math.nan if last else float(times[end])))
    return found


# ---- overcurrent


@dataclass(frozen=True)
class Overcurrent:
    """A setting in A RMS, and the curve: NI, VI, EI with a time multiplier, or DT with a time in s."""

    setting_a: float
    curve: str = "NI"
    time: float = 1.0

    def __post_init__(self) -> None:
        if not (self.setting_a > 0 and self.time >= 0) or self.curve not in (*CURVES, "DT"):
            raise RecordError(
                "an overcurrent relay has a setting above 0 A, one of NI, VI, EI, DT, and a time from 0 on"
            )

    def seconds(self, amps: np.ndarray) -> np.ndarray:
        """The time to the trip at currents in A RMS, shape of `amps`; infinite at or below the setting."""
        share = np.asarray(amps, float) / self.setting_a
        with np.errstate(divide="ignore", invalid="ignore"):
            if self.curve == "DT":
                return np.where(share > 1, self.time, np.inf)
            k, power = CURVES[self.curve]
            return np.where(share > 1, self.time * k / (share**power - 1), np.inf)


@dataclass(frozen=True)
class Trips:
    """Of each phase its current in A RMS over the time, when it is above its setting for good, and when it trips; nan
    where it doesn't."""

    times: np.ndarray = field(repr=False)
    amps: np.ndarray = field(repr=False)  # shape (phases, samples)
    start: list[float]
    trip: list[float]
    told: list[str]


def overcurrent(
    record: Record, amps: Names, relay: Overcurrent, hz: float = 50, rate: float | None = None,
    corner: float | None = None, offset: bool = True,
) -> Trips:  # fmt: skip
    """When an overcurrent relay of each phase trips: where the integral of dt over its time comes to 1 (IEC 60255-151); it
    begins again at each sample that isn't above the setting."""
    its = phasors_of(record, [(it, "A") for it in amps], hz, rate, corner, offset)
    effective = np.abs(its.values) / math.sqrt(2)
    start, trip = [], []
    step = 1 / (hz * its.samples)
    for row in effective:
        with np.errstate(divide="ignore", invalid="ignore"):
            part = step / relay.seconds(np.nan_to_num(row))
        part[~np.isfinite(part)] = 1.0  # a time of 0 s
        above = np.nan_to_num(row) > relay.setting_a
        part[~above] = 0.0
        sums = np.cumsum(part)
        sums -= np.maximum.accumulate(np.where(above, 0.0, sums))
        there = np.flatnonzero(above & (sums >= 1 - 1e-9))
        trip.append(float(its.times[there[0]]) if len(there) else math.nan)
        spans = spans_of(its.times, above)
        start.append(spans[-1][0] if spans and math.isnan(spans[-1][1]) else (spans[0][0] if spans else math.nan))
    return Trips(its.times, effective, start, trip, its.told)


# ---- differential


@dataclass(frozen=True)
class Differential:
    """Differential and restraining current of each phase in A RMS, shape (3, samples), and the spans in which it trips."""

    times: np.ndarray = field(repr=False)
    amps: np.ndarray = field(repr=False)
    restraint: np.ndarray = field(repr=False)
    spans: list[list[tuple[float, float]]]
    told: list[str]


def differential(
    record: Record, here: Names, there: Names, least_a: float, slope: float, hz: float = 50,
    other: Record | None = None, rate: float | None = None, corner: float | None = None,
) -> Differential:  # fmt: skip
    """A differential relay of two ends, whose currents both flow into the line: it trips where |here + there| is above
    `least_a` and above `slope` times (|here| + |there|) / 2. `other` has the currents of the far end, on the same time.
    """
    _three(here, "currents here")
    _three(there, "currents there")
    if not (least_a > 0 and slope >= 0):
        raise RecordError("a differential relay has a least current above 0 A, and a slope from 0 on")
    near = phasors_of(record, [(it, "A") for it in here], hz, rate, corner)
    far = phasors_of(other or record, [(it, "A") for it in there], hz, hz * near.samples, corner)
    count = min(len(near.times), len(far.times))
    if abs(near.times[0] - far.times[0]) > 1e-9:
        raise RecordError("the records of the two ends begin at different times")
    one, two = near.values[:, :count] / math.sqrt(2), far.values[:, :count] / math.sqrt(2)
    amps, restraint = np.abs(one + two), (np.abs(one) + np.abs(two)) / 2
    trips = (np.nan_to_num(amps) > least_a) & (np.nan_to_num(amps) > slope * np.nan_to_num(restraint))
    times = near.times[:count]
    return Differential(times, amps, restraint, [spans_of(times, row) for row in trips], near.told + far.told)


# ---- the command


def parser() -> argparse.ArgumentParser:
    """The words of the command."""
    made = argparse.ArgumentParser(
        prog="emtp relay", description=__doc__, formatter_class=argparse.RawDescriptionHelpFormatter
    )
    made.add_argument("record", metavar="RECORD", help="a .cfg, with its .dat beside it, or a .cff")
    made.add_argument("--v", metavar="NAMES", help="the voltages of the phases a, b, c to ground, between commas")
    made.add_argument("--i", metavar="NAMES", required=True, help="the currents into the line of the phases a, b, c")
    made.add_argument("--line", metavar="R1,X1,R0,X0,KM", help="ohm a km at the line frequency, and the length")
    made.add_argument("--hz", type=real, default=50.0, help="the line frequency; default: 50")
    made.add_argument("--rate", metavar="HZ", type=real, help="samples a second of the relay; default: the record's")
    made.add_argument("--lowpass", metavar="HZ", type=real, help="corner of its anti-alias filter; default: none")
    made.add_argument("--keep-offset", action="store_true", help="the decaying offset stays in the phasors")
    made.add_argument("--mho", metavar="PART", action="append", default=[], type=real, help="a mho zone")
    made.add_argument("--quad", metavar="PART,R", action="append", default=[], help="a quadrilateral zone")
    made.add_argument(
        "--hold", metavar="MS", type=real, default=0.0, help="a zone picks up after so long within; default: 0"
    )
    made.add_argument("--fault", metavar="S", type=real, help="the instant of the fault, from which times are told")
    made.add_argument("--expect", metavar="ZONES", help="the zones that shall pick up, as 1,2, or none")
    made.add_argument("--overcurrent", metavar="A,CURVE,T", help="an overcurrent relay")
    made.add_argument("--there", metavar="NAMES", help="the currents of the far end into the line")
    made.add_argument("--other", metavar="RECORD", help="the record of the far end; default: the same")
    made.add_argument("--differential", metavar="A,SLOPE", help="a differential relay of two ends")
    report.add_outputs(made)
    return made


def main(words: list[str]) -> int:
    """Runs the command."""
    its = parser().parse_args(words)
    report.checked(its, its.record, its.other)
    record = read(its.record)
    for told in record.told:
        print(f"{its.record}: {told}", file=sys.stderr)
    amps = names_of(its.i)
    kinds = [it for it in (its.mho or its.quad or its.v, its.overcurrent, its.differential) if it]
    if len(kinds) != 1:
        raise RecordError("ask for one of zones (--v, --line and --mho or --quad), --overcurrent and --differential")
    if its.overcurrent:
        return overcurrent_told(record, amps, its)
    if its.differential:
        return differential_told(record, amps, its)
    return zones_told(record, amps, its)


def zones_of(its: argparse.Namespace, z1: complex) -> list[Zone]:
    """The zones that are asked for, mhos first."""
    found: list[Zone] = []
    for part in its.mho:
        found.append(Mho(part * z1, name=f"zone {len(found) + 1}, mho {part:g}"))
    for text in its.quad:
        part, ohm = report.numbers(text, "--quad", (2,))
        lean = math.degrees(cmath.phase(z1))
        found.append(
            Quadrilateral(part * z1.imag, ohm, lean, name=f"zone {len(found) + 1}, quadrilateral {part:g}, {ohm:g} ohm")
        )
    return found


def expected_of(text: str | None, count: int) -> set[int] | None:
    """The zones that shall pick up, from 1; None where that isn't said."""
    if text is None:
        return None
    if text.strip() == "none":
        return set()
    found = [int(part) if part.strip().isdigit() else 0 for part in text.split(",")]
    if not all(1 <= it <= count for it in found):
        raise RecordError(f"--expect {text}: zones count from 1 to {count}, or it is none")
    return set(found)


def zones_told(record: Record, amps: list[str], its: argparse.Namespace) -> int:
    """Impedances and zones: prints, writes, and answers the status."""
    if not (its.v and its.line):
        raise RecordError("impedances want --v, the voltages, and --line")
    r1, x1, r0, x0, km = report.numbers(its.line, "--line", (5,))
    if not (km > 0 and x1 > 0):
        raise RecordError(f"--line {its.line}: X1 and the length are above 0")
    z1, z0 = complex(r1, x1) * km, complex(r0, x0) * km
    zones = zones_of(its, z1)
    expected = expected_of(its.expect, len(zones))
    found = loops(record, names_of(its.v), amps, z1, z0, its.hz, its.rate, its.lowpass, not its.keep_offset)
    for told in found.told:
        print(told)
    print(
        f"line {z1.real:.4g} + j {z1.imag:.4g} ohm, k0 {abs(found.k0):.4g} at {math.degrees(cmath.phase(found.k0)):.3g} degrees; "
        f"{found.samples} samples a cycle of {its.hz:g} Hz, decaying offset {'kept' if its.keep_offset else 'taken out'}"
    )
    seconds = float(found.times[-1])
    for name, z in found.at(seconds).items():
        print(f"  {name}  {seen(z, z1)}")
    picked = {place: pickup(found, zone, 1e-3 * its.hold) for place, zone in enumerate(zones, 1)}
    for place, zone in enumerate(zones, 1):
        print(f"{zone.name}:" + ("" if picked[place] else " doesn't pick up"))
        for it in picked[place]:
            print(f"  {it.loop}  {stay(it, its.fault)}")
    status, word = zones_verdict(picked, expected)
    print(word)
    if its.csv:
        rows = [
            [zone.name, it.loop, it.start, it.reset, int(it.lasts)]
            for place, zone in enumerate(zones, 1)
            for it in picked[place]
        ]
        report.write_table(its.csv, ("zone", "loop", "pickup (s)", "reset (s)", "lasts"), rows)
    if its.curves:
        parts = [
            (f"{part} {name} (ohm)", getattr(found.z[name], part.lower()))
            for name in LOOPS
            for part in ("real", "imag")
        ]
        columns = [(head.replace("real", "R").replace("imag", "X"), values) for head, values in parts]
        report.write_curves(its.curves, [("s", found.times), *columns, *sequence_columns(found)])
    if its.out:
        report.draw(drawing_of(found, zones, picked, z1, its.fault, os.path.basename(its.record)), its.out)
    return status


def seen(z: complex, z1: complex) -> str:
    """An impedance at the end of the record, in words."""
    if cmath.isnan(z):
        return "no current"
    return f"{z.real:8.3f} + j {z.imag:8.3f} ohm at the end, X {100 * z.imag / z1.imag:.1f} % of the line"


def stay(it: Pickup, fault: float | None) -> str:
    """A stay in a zone, in words."""
    since = "" if fault is None else f", {1e3 * (it.start - fault):.1f} ms after the fault"
    end = "stays to the end" if it.lasts else f"resets at {1e3 * it.reset:.2f} ms: in passing"
    return f"picks up at {1e3 * it.start:.2f} ms{since}, {end}"


def zones_verdict(picked: Mapping[int, list[Pickup]], expected: set[int] | None) -> tuple[int, str]:
    """The status of the zones, and its words."""
    if not picked:
        return report.UNJUDGED, "NOT JUDGED: no zone is given"
    lasting = {place for place, its in picked.items() if any(it.lasts for it in its)}
    passing = {place for place, its in picked.items() if its} - lasting
    if expected is None:
        if passing:
            return report.FAILS, f"OVERREACHES in passing: zone {', '.join(map(str, sorted(passing)))}"
        return (report.PASSES, f"TRIPS: zone {min(lasting)}") if lasting else (report.FAILS, "DOESN'T TRIP")
    if lasting == expected and not passing:
        return report.PASSES, "AS EXPECTED"
    missing, extra = sorted(expected - lasting), sorted((lasting | passing) - expected)
    words = [
        f"zone {', '.join(map(str, its))} {what}"
        for its, what in ((missing, "doesn't stay"), (extra, "picks up"))
        if its
    ]
    return report.FAILS, "NOT AS EXPECTED: " + "; ".join(words or ["a zone picks up in passing"])


def sequence_columns(found: Loops) -> list[tuple[str, np.ndarray]]:
    """The magnitudes of the symmetrical components, RMS."""
    columns = []
    for what, unit in (("v", "V"), ("i", "A")):
        for name, row in zip("012", found.sequences(what)):
            columns.append((f"{unit}{name} (RMS {unit})", np.abs(row) / math.sqrt(2)))
    return columns


def drawing_of(
    found: Loops,
    zones: Sequence[Zone],
    picked: Mapping[int, list[Pickup]],
    z1: complex,
    fault: float | None,
    title: str,
) -> Drawing:
    """The path of the loops that come near in the impedance plane, with the zones and the line."""
    edge = 1.6 * max([abs(z1)] + [float(np.abs(zone.outline()).max()) for zone in zones])
    curves = [Curve("line", np.array([0, z1.real]), np.array([0, z1.imag]), "ohm", 2)]
    for zone in zones:
        outline = zone.outline()
        curves.append(Curve(zone.name, outline.real, outline.imag, "ohm", 1))
    marks = []
    times = found.times if fault is None else found.times - fault
    for name in LOOPS:
        z = found.z[name]
        near = np.abs(z) < edge
        if not near.any():
            continue
        curves.append(Curve(name, np.where(near, z.real, np.nan), np.where(near, z.imag, np.nan), "ohm"))
        if near[-1]:
            marks.append(Mark(float(z[-1].real), float(z[-1].imag), f"{name} at {1e3 * times[-1]:.0f} ms"))
    return Drawing(title, [Pane("X, ohm", curves, "R, ohm", height_of(curves), marks=marks)])


def height_of(curves: Sequence[Curve]) -> float:
    """The height of a pane in inches by which an ohm is as long up as across, from 4 to 9."""
    wide, high = (
        max(float(np.nanmax(it)) for it in its) - min(float(np.nanmin(it)) for it in its)
        for its in ([curve.x for curve in curves], [curve.y for curve in curves])
    )
    return float(np.clip(ACROSS * high / wide, 4.0, 9.0))


def overcurrent_told(record: Record, amps: list[str], its: argparse.Namespace) -> int:
    """An overcurrent relay: prints, writes, and answers the status."""
    parts = names_of(its.overcurrent)
    try:
        relay = Overcurrent(float(parts[0]), parts[1].upper(), float(parts[2]))
    except (IndexError, ValueError):
        raise RecordError(
            f"--overcurrent {its.overcurrent}: it is a setting in A, NI, VI, EI or DT, and a time"
        ) from None
    found = overcurrent(record, amps, relay, its.hz, its.rate, its.lowpass, not its.keep_offset)
    for told in found.told:
        print(told)
    zero = its.fault or 0.0
    for name, row, start, trip in zip(amps, found.amps, found.start, found.trip):
        most = f"at most {np.nanmax(row):.5g} A RMS, {np.nanmax(row) / relay.setting_a:.3g} times the setting"
        if math.isnan(start):
            print(f"{name}: {most}: doesn't pick up")
        else:
            end = "doesn't trip in the record" if math.isnan(trip) else f"trips at {1e3 * (trip - zero):.1f} ms"
            print(f"{name}: {most}; picks up at {1e3 * (start - zero):.1f} ms, {end}")
    trips = any(not math.isnan(it) for it in found.trip)
    waits = any(not math.isnan(it) for it in found.start)
    if its.csv:
        rows = [[*it] for it in zip(amps, found.amps[:, -1].tolist(), found.start, found.trip)]
        report.write_table(its.csv, ("channel", "at the end (A RMS)", "pickup (s)", "trip (s)"), rows)
    curves = [Curve(name, 1e3 * found.times, row, "A") for name, row in zip(amps, found.amps)]
    limit = Curve("setting", 1e3 * found.times[[0, -1]], np.full(2, relay.setting_a), "A", 1)
    if its.curves:
        report.write_curves(
            its.curves, [("s", found.times), *((f"{name} (A RMS)", row) for name, row in zip(amps, found.amps))]
        )
    if its.out:
        report.draw(Drawing(os.path.basename(its.record), [Pane("A RMS", [*curves, limit])], x_label="ms"), its.out)
    if waits and not trips:
        print("NOT JUDGED: it picks up, and the record ends before it trips")
        return report.UNJUDGED
    return said(trips, its.expect)


def differential_told(record: Record, amps: list[str], its: argparse.Namespace) -> int:
    """A differential relay: prints, writes, and answers the status."""
    least, slope = report.numbers(its.differential, "--differential", (2,))
    there = names_of(its.there)
    other = read(its.other) if its.other else None
    found = differential(record, amps, there, least, slope, its.hz, other, its.rate, its.lowpass)
    for told in found.told:
        print(told)
    zero = its.fault or 0.0
    for name, row, spans in zip(amps, found.amps, found.spans):
        most = f"differential current at most {np.nanmax(row):.5g} A RMS"
        print(f"{name}: {most}" + ("" if spans else ": doesn't trip"))
        for begin, end in spans:
            print(
                f"  trips at {1e3 * (begin - zero):.2f} ms"
                + ("" if math.isnan(end) else f", resets at {1e3 * (end - zero):.2f} ms")
            )
    if its.csv:
        rows = [[name, *span] for name, spans in zip(amps, found.spans) for span in spans]
        report.write_table(its.csv, ("channel", "trip (s)", "reset (s)"), rows)
    if its.curves:
        columns = [
            (f"{what} of {name} (A RMS)", row)
            for what, rows in (("difference", found.amps), ("restraint", found.restraint))
            for name, row in zip(amps, rows)
        ]
        report.write_curves(its.curves, [("s", found.times), *columns])
    if its.out:
        edge = np.array([0.0, 2 * least / slope if slope else least, float(np.nanmax(found.restraint))])
        paths = [Curve(name, b, a, "A") for name, a, b in zip(amps, found.amps, found.restraint)]
        limit = Curve("trips above", edge, np.maximum(least, slope * edge), "A", 1)
        pane = Pane("differential current, A RMS", [*paths, limit], "restraining current, A RMS", height=5.0)
        report.draw(Drawing(os.path.basename(its.record), [pane]), its.out)
    return said(any(found.spans), its.expect)


def said(trips: bool, expect: str | None) -> int:
    """The status of a relay that trips or not, and its words."""
    if expect not in (None, "none", "trip"):
        raise RecordError(f"--expect {expect}: of a current it is trip or none")
    print("TRIPS" if trips else "DOESN'T TRIP")
    return report.PASSES if trips == (expect != "none") else report.FAILS
