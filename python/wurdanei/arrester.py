"""Says what an arrester takes: energy, charge, crest current and residual voltage; and what insulation stands beside it.

    emtp arrester x.cfg --u 'V ARR' --i 'I ARR-0' --ur 336 --points 500:645,1000:662,2000:688 --thermal 10
    emtp arrester poles.study/rows.csv --column 'ANY V' --unit pu:342.9 --ups 735 --withstand 950

The first form is of a record. --points are the characteristic, A:kV between commas, or --case FILE:A-B takes those of the
branch from A to B of a case. Samples off it are counted, and the residual voltage is that of the others. --thermal and
--charge are what the arrester may take, kJ a kV of its rated voltage and C.

The second form is of a study's table: the distribution of a column, the value that 2 % exceed, the coordination withstand
voltage behind an arrester of the protective level --ups, and the risk of failure of an insulation. Voltages are in kV.

Exit status: 0 within its limits, 1 beyond, 2 it can't be judged, as where no limit is given.
"""

from __future__ import annotations

import argparse
import math
import os
import re
import sys
from dataclasses import dataclass, field
from typing import Sequence

import numpy as np

from . import insulation, listing, program, report
from .configuration import RecordError
from .convert import number as real
from .drawing import Curve, Drawing, Mark, Pane
from .record import Record, read
from .signals import signal_of

Points = Sequence[tuple[float, float]]
OFF = 0.005  # of the first point's voltage: so far from the characteristic a sample is off it
IMPULSE = 0.02  # of the crest current: above it an impulse goes on


@dataclass(frozen=True)
class Impulse:
    """A time in which the current is above 2 % of its crest: s, A, C, J."""

    begin: float
    end: float
    crest_a: float
    charge: float
    energy: float


@dataclass(frozen=True)
class Duty:
    """What an arrester takes over a record.

    `energy` in J, `charge` in C (of the magnitude of the current), `crest_a` in A, `residual_v` the greatest voltage of
    the samples on the characteristic, `recorded_v` that of all. `off` samples are off the characteristic (None where it
    isn't given), the greatest of them `off_v` V. `specific` is the energy in J a V of the rated voltage, nan without it.
    """

    energy: float
    charge: float
    crest_a: float
    residual_v: float
    recorded_v: float
    off: int | None
    off_v: float
    specific: float
    impulses: list[Impulse]
    told: list[str]
    times: np.ndarray = field(repr=False)  # s, shape (samples,)
    volts: np.ndarray = field(repr=False)
    amps: np.ndarray = field(repr=False)
    energies: np.ndarray = field(repr=False)  # J up to each sample


def duty(record: Record, u: str, i: str, ur_kv: float | None = None, points: Points | None = None) -> Duty:
    """What an arrester takes: `u` the voltage across it, `i` the current into it.

    `points` are its characteristic in A and V, both rising, odd, straight from the origin to the first one and on beyond
    the last. `ur_kv` is its rated voltage, RMS.
    """
    volts, amps = signal_of(record, u, "V"), signal_of(record, i, "A")
    if ur_kv is not None and not ur_kv > 0:
        raise RecordError(f"a rated voltage of {ur_kv:g} kV isn't above 0")
    t, v, a = volts.times, volts.values, amps.at(volts.times)
    told = [*volts.told, *amps.told]
    steps = np.diff(t)
    energies = np.concatenate([[0.0], np.cumsum(steps * (v[1:] * a[1:] + v[:-1] * a[:-1]) / 2)])
    energy, charge = float(energies[-1]), float(np.sum(steps * (np.abs(a[1:]) + np.abs(a[:-1])) / 2))
    if energies.min() < -1e-3 * max(energy, 0.0) - 1e-12:
        told.append("the arrester gives energy back: voltage and current don't belong together, or one is turned round")
    off, off_v, residual = None, math.nan, float(np.abs(v).max())
    if points is not None:
        on = on_characteristic(v, a, checked_points(points), volts.least, amps.least)
        off = int((~on).sum())
        off_v = float(np.abs(v[~on]).max()) if off else math.nan
        residual = float(np.abs(v[on]).max()) if on.any() else math.nan
        if off and off_v > residual * 1.005:
            told.append(
                f"{off} samples are off the characteristic, up to {off_v / 1e3:.5g} kV: a smaller step, a front of the "
                "wave or a capacitance beside the arrester leaves fewer"
            )
    return Duty(
        energy, charge, float(np.abs(a).max()), residual, float(np.abs(v).max()), off, off_v,
        math.nan if ur_kv is None else energy / (1e3 * ur_kv), impulses_of(t, v, a), told, t, v, a, energies,
    )  # fmt: skip


def checked_points(points: Points) -> np.ndarray:
    """The points of a characteristic, shape (points, 2), in A and V."""
    its = np.asarray(points, float)
    if its.ndim != 2 or its.shape[1] != 2 or not len(its) or not np.isfinite(its).all():
        raise RecordError("a characteristic has points of two numbers, A and V")
    if not (np.diff(its, axis=0, prepend=[[0.0, 0.0]]) > 0).all():
        raise RecordError("the points of a characteristic rise, in current and in voltage, from above 0 on")
    return its


def voltage_at(amps: np.ndarray, points: np.ndarray) -> np.ndarray:
    """The voltage of the characteristic at currents: V, shape of `amps`."""
    i, v = np.concatenate([[0.0], points[:, 0]]), np.concatenate([[0.0], points[:, 1]])
    size = np.abs(amps)
    slope = (v[-1] - v[-2]) / (i[-1] - i[-2])
    return np.sign(amps) * np.where(size > i[-1], v[-1] + slope * (size - i[-1]), np.interp(size, i, v))


def on_characteristic(v: np.ndarray, a: np.ndarray, points: np.ndarray, least_v: float, least_a: float) -> np.ndarray:
    """Which samples lie on the characteristic, within what the record keeps: shape (samples,), bool."""
    spread = voltage_at(np.abs(a) + least_a, points) - voltage_at(np.maximum(np.abs(a) - least_a, 0), points)
    return np.abs(v - voltage_at(a, points)) <= OFF * points[0, 1] + spread + least_v


def impulses_of(t: np.ndarray, v: np.ndarray, a: np.ndarray) -> list[Impulse]:
    """The times in which the current is above 2 % of its crest, each with what it brings."""
    most = float(np.abs(a).max())
    if not most:
        return []
    above = np.abs(a) > IMPULSE * most
    edges = np.flatnonzero(np.diff(np.concatenate([[0], above.astype(np.int8), [0]])))
    found = []
    for begin, end in zip(edges[::2].tolist(), edges[1::2].tolist()):
        part = slice(max(begin - 1, 0), min(end + 1, len(t)))
        at, own, other = t[part], a[part], v[part]
        charge = float(np.trapz(np.abs(own), at))
        found.append(
            Impulse(float(at[0]), float(at[-1]), float(np.abs(own).max()), charge, float(np.trapz(own * other, at)))
        )
    return found


def points_of_case(path: str, ends: str) -> list[tuple[float, float]]:
    """The characteristic of a nonlinear resistor of a case, by its ends as A-B, ground being 0."""
    folder, name = os.path.split(os.path.abspath(path))
    if not os.path.isfile(path):
        raise RecordError(f"{path} isn't there")
    try:
        ended = program.run(["show", f"./{name}"], folder)
        read_of = listing.read(ended.note)
    except (program.ProgramError, listing.ListingError) as fault:
        raise RecordError(f"{path}: {fault}") from None
    its = [it for it in read_of.of("nonlinear resistor")]
    names = ["-".join((it.name("BUS1") or "0", it.name("BUS2") or "0")) for it in its]
    wanted = {ends, "-".join(reversed(ends.split("-")))} | ({f"{ends}-0"} if "-" not in ends else set())
    found = [it for it, own in zip(its, names) if own in wanted]
    if not found:
        raise RecordError(f"{path} has no arrester {ends}; it has {', '.join(dict.fromkeys(names)) or 'none'}")
    rows = found[0].below or next((it.below for it in its if it.below), [])
    return [(_plain(row.text("current")), _plain(row.text("voltage"))) for row in rows if row.kind == "point"]


def _plain(text: str) -> float:
    """The number before a unit."""
    return float(text.split(" ")[0])


# ---- the command


def parser() -> argparse.ArgumentParser:
    """The words of the command."""
    made = argparse.ArgumentParser(
        prog="emtp arrester", description=__doc__, formatter_class=argparse.RawDescriptionHelpFormatter
    )
    made.add_argument("record", metavar="RECORD", help="a .cfg or a .cff, or the .csv of a study")
    made.add_argument("--u", metavar="NAME", help="the voltage across the arrester")
    made.add_argument("--i", metavar="NAME", help="the current into it")
    made.add_argument("--ur", metavar="KV", type=real, help="its rated voltage")
    made.add_argument("--points", metavar="A:KV,..", help="its characteristic")
    made.add_argument("--case", metavar="FILE:A-B", help="the case and the branch that have its characteristic")
    made.add_argument("--thermal", metavar="KJ", type=real, help="the energy that it may take, kJ a kV of --ur")
    made.add_argument("--charge", metavar="C", type=real, help="the charge that one impulse may have")
    made.add_argument("--column", metavar="NAME", help="the column of a study's table")
    made.add_argument("--unit", metavar="pu:KV", help="what 1 in the column is, in kV; default: V, as .001 kV")
    made.add_argument("--ups", metavar="KV", type=real, help="the switching impulse protective level of the arrester")
    made.add_argument(
        "--withstand", metavar="KV", type=real, help="the switching impulse withstand voltage of an insulation"
    )
    made.add_argument(
        "--risk", metavar="R", type=real, default=1e-4, help="the risk of failure that is allowed; default: 1e-4"
    )
    made.add_argument(
        "--z", metavar="Z", type=real, default=insulation.SPREAD, help="deviation of its strength; default: 0.06"
    )
    made.add_argument(
        "--kcd", metavar="K", type=real, help="the coordination factor; default: by ups over the 2 %% value"
    )
    made.add_argument(
        "--ks", metavar="K", type=real, default=insulation.EXTERNAL, help="the safety factor; default: 1.05"
    )
    made.add_argument("--ka", metavar="K", type=real, default=1.0, help="the altitude factor; default: 1")
    report.add_outputs(made)
    return made


def main(words: list[str]) -> int:
    """Runs the command."""
    its = parser().parse_args(words)
    report.checked(its, its.record)
    return study_told(its) if its.record.lower().endswith(".csv") else record_told(its)


def given_points(its: argparse.Namespace) -> list[tuple[float, float]] | None:
    """The characteristic that is named, A and V."""
    if its.points and its.case:
        raise RecordError("--points and --case are two characteristics: give one")
    if its.case:
        path, colon, ends = its.case.rpartition(":")
        if not colon:
            raise RecordError(f"--case {its.case}: it is FILE:A-B, the case and the ends of the arrester")
        return points_of_case(path, ends)
    if not its.points:
        return None
    found = []
    for part in its.points.split(","):
        match = re.fullmatch(r"\s*([^:]+):([^:]+)\s*", part)
        try:
            found.append((float(match[1]), 1e3 * float(match[2])) if match else (math.nan, math.nan))
        except ValueError:
            raise RecordError(f"--points {its.points}: {part} isn't of the form A:KV") from None
    checked_points(found)
    return found


def record_told(its: argparse.Namespace) -> int:
    """An arrester of a record: prints, writes, and answers the status."""
    if not (its.u and its.i):
        raise RecordError("a record wants --u, the voltage across the arrester, and --i, the current into it")
    if its.thermal is not None and its.ur is None:
        raise RecordError("--thermal is kJ a kV of the rated voltage: give it by --ur")
    record = read(its.record)
    for told in record.told:
        print(f"{its.record}: {told}", file=sys.stderr)
    found = duty(record, its.u, its.i, its.ur, given_points(its))
    a_kv = "" if math.isnan(found.specific) else f", {found.specific:.4g} kJ a kV of {its.ur:g} kV"
    print(f"{its.i}: energy {found.energy / 1e3:.5g} kJ{a_kv}; charge {found.charge:.4g} C")
    off = "" if found.off is None else f"; {found.off} of {len(found.times)} samples off the characteristic"
    print(f"  crest current {found.crest_a:.5g} A, residual voltage {found.residual_v / 1e3:.5g} kV{off}")
    for number, it in enumerate(found.impulses[:20], 1):
        print(
            f"  impulse {number}: {1e3 * it.begin:.6g} to {1e3 * it.end:.6g} ms, {it.crest_a:.5g} A, "
            f"{it.charge:.4g} C, {it.energy / 1e3:.5g} kJ"
        )
    for told in found.told + (
        [f"{len(found.impulses)} impulses; the first 20 are told"] if len(found.impulses) > 20 else []
    ):
        print(f"  {told}")
    if its.csv:
        heads = ("impulse", "begin (s)", "end (s)", "crest (A)", "charge (C)", "energy (J)")
        rows: list[list[object]] = [[number, *vars(it).values()] for number, it in enumerate(found.impulses, 1)]
        rows.append(["all", found.times[0], found.times[-1], found.crest_a, found.charge, found.energy])
        report.write_table(its.csv, heads, rows)
    if its.curves:
        names = ("s", f"{its.u} (V)", f"{its.i} (A)", "energy (J)")
        report.write_curves(its.curves, list(zip(names, (found.times, found.volts, found.amps, found.energies))))
    if its.out:
        report.draw(drawing_of(found, its), its.out)
    limits = []
    if its.thermal is not None:
        limits.append((f"energy {found.specific:.4g} kJ a kV, allowed {its.thermal:g}", found.specific <= its.thermal))
    if its.charge is not None:
        most = max((it.charge for it in found.impulses), default=0.0)
        limits.append((f"charge of an impulse {most:.4g} C, allowed {its.charge:g}", most <= its.charge))
    return verdict(limits)


def verdict(limits: list[tuple[str, bool]]) -> int:
    """Prints which limits are kept, and answers the status."""
    for words, kept in limits:
        print(f"{words}: {'WITHIN' if kept else 'BEYOND'}")
    if not limits:
        print("NOT JUDGED: no limit is given")
        return report.UNJUDGED
    return report.PASSES if all(kept for _, kept in limits) else report.FAILS


def drawing_of(found: Duty, its: argparse.Namespace) -> Drawing:
    """Voltage, current and energy over the time."""
    ms = 1e3 * found.times
    most = int(np.argmax(np.abs(found.amps)))
    crest = Mark(float(ms[most]), float(found.amps[most]) / 1e3, f"{found.crest_a / 1e3:.4g} kA")
    panes = [
        Pane(f"{its.u}, kV", [Curve(its.u, ms, found.volts / 1e3, "kV")]),
        Pane(f"{its.i}, kA", [Curve(its.i, ms, found.amps / 1e3, "kA")], marks=[crest]),
        Pane("energy, kJ", [Curve("energy", ms, found.energies / 1e3, "kJ")]),
    ]
    return Drawing(os.path.basename(its.record), panes, x_label="ms")


def study_told(its: argparse.Namespace) -> int:
    """Peaks of a study: prints, writes, and answers the status."""
    if not its.column:
        raise RecordError("a study's table wants --column, as --column 'ANY V'")
    scale = 1e-3
    if its.unit:
        match = re.fullmatch(r"(?:\w+:)?(\d*\.?\d+(?:e[+-]?\d+)?)", its.unit)
        scale = float(match[1]) if match else math.nan
    if not scale > 0:
        raise RecordError(f"--unit {its.unit}: it is pu:KV, with a number above 0")
    for word, value in (
        ("--ups", its.ups),
        ("--withstand", its.withstand),
        ("--ks", its.ks),
        ("--ka", its.ka),
        ("--kcd", its.kcd),
    ):
        if value is not None and not value > 0:
            raise RecordError(f"{word} {value:g}: it is above 0")
    peaks = scale * insulation.column_of(its.record, its.column)
    found = insulation.distribution(peaks)
    print(f"{its.column}: {found.count} rows, mean {found.mean:.5g} kV, standard deviation {found.deviation:.4g} kV")
    print(
        f"  half exceed {found.half:.5g} kV, 2 % exceed {found.seldom:.5g} kV (normal: {found.normal_seldom:.5g}), "
        f"greatest {found.greatest:.5g} kV"
    )
    factor, needed = None, math.nan
    if its.ups is not None:
        factor, needed = insulation.coordination(found.seldom, its.ups)
    if its.kcd is not None:
        factor, needed = its.kcd, its.kcd * min(found.seldom, its.ups or math.inf)
    limits = []
    if factor is not None:
        required = needed * its.ks * its.ka
        print(
            f"  coordination withstand voltage Ucw = Kcd Urp = {factor:.4g} x {needed / factor:.5g} = {needed:.5g} kV"
        )
        print(
            f"  required withstand voltage Urw = Ucw Ks Ka = {needed:.5g} x {its.ks:g} x {its.ka:.4g} = {required:.5g} kV"
        )
        if its.withstand is not None:
            limits.append((f"required {required:.5g} kV, there is {its.withstand:g}", required <= its.withstand))
    if its.withstand is not None:
        own = insulation.risk(peaks, its.withstand, its.z)
        middle = its.withstand / (1 + insulation.NORMAL.inv_cdf(0.1) * its.z)
        print(f"  risk of failure {own:.3g}, with U50 = Uw / (1 - 1.28 z) = {middle:.5g} kV, z = {its.z:g}")
        limits.append((f"risk {own:.3g}, allowed {its.risk:g}", own <= its.risk))
    shares = np.arange(1, found.count + 1) / found.count
    if its.csv:
        report.write_table(
            its.csv, ("what", "kV"), [(name, value) for name, value in vars(found).items() if name != "count"]
        )
    if its.curves:
        report.write_curves(its.curves, [("kV", np.sort(peaks)), ("share at or below", shares)])
    if its.out:
        curve = Curve(its.column, np.sort(peaks), 100 * shares, "%", stepped=True)
        marks = [(found.seldom, f"2 % exceed {found.seldom:.4g} kV")]
        marks += [(its.withstand, f"withstands {its.withstand:g} kV")] if its.withstand else []
        pane = Pane("rows at or below, %", [curve], f"{its.column}, kV", 4.0, limits=marks)
        report.draw(Drawing(os.path.basename(its.record), [pane]), its.out)
    return verdict(limits)
