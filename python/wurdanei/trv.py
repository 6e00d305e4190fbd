"""Lays the recovery voltage of a breaker's pole beside the envelope of a duty, after IEC 62271-100.

    emtp trv x.cfg --pole 'U S-L' --rated 145 --duty T100
    emtp trv x.cfg --pole 'V S - V L' --envelope 115,58,215,231,2

RECORD is simulated or measured, of any form that `emtp plot` reads. For each --pole (up to three) it prints the
instant at which the current became zero, between the samples; crest, rate of rise (RRRV) and the four parameters by
tangents; and whether the voltage stays below the reference line, where it comes nearest to it, and where it first
crosses it. docs/studies.md has the formulas.

Duties: T100, T60, T30, T10; L90, L75 (short line: the node voltages of both sides are judged, and the line's wave); OOP
(out of phase); CAP (by --envelope alone). --envelope takes numbers in kV and us: uc,t3 or u1,t1,uc,t2, behind them
perhaps td, and behind td the voltage to which the delay line goes.

Exit status: 0 the voltage stays below the reference line, 1 it doesn't, 2 it can't be judged.
"""

from __future__ import annotations

import argparse
import math
import os
import sys
from dataclasses import dataclass, field
from typing import Sequence

import numpy as np

from . import report
from .configuration import RecordError
from .convert import number as real
from .drawing import Curve, Drawing, Mark, Pane
from .envelope import DUTIES, LINE_OHM, LINE_PEAK, Envelope, NotAtHand, given, rated
from .record import Record, read
from .signals import Signal, signal_of, spelled, where
from .tangents import Tangents, skipped, tangents_of

QUIET = 0.002  # of the current's crest: below it the pole carries nothing
BEFORE = 0.4e-3  # s before the zero that show the current's way to it
FEWEST, COARSE = 20, 20  # samples of the recovery voltage, and of it up to its crest
SHORT = ("L90", "L75")
NEAR = 1e-3  # of an envelope: what rounding and the zero's error come to


@dataclass(frozen=True)
class LineSide:
    """The wave on the line of a short-line fault: slope in V/s, the surge impedance that it has for the current's slope,
    and its first crest over the voltage that the line had at the zero."""

    slope: float
    ohm: float
    peak: float

    @property
    def passes(self) -> bool:
        return self.ohm <= LINE_OHM * (1 + NEAR) and self.peak <= LINE_PEAK * (1 + NEAR)


@dataclass(frozen=True)
class Trv:
    """The recovery voltage of a pole. Times but `t0` are from the zero; V, A, s, V/s; nan where there is none."""

    pole: str
    t0: float  # s of the record at which the current became zero
    slope: float  # of the current at the zero, A/s; nan where no current is there
    uc: float
    t_uc: float
    rrrv: float
    t_rrrv: float  # where the line from the zero touches
    u1: float
    t1: float
    t2: float
    t3: float
    envelope: Envelope | None
    margin: float  # 1 less the greatest voltage over the reference line at one time
    t_margin: float
    crossing: float  # s at which the voltage first is above the reference line; nan where never
    delay_crossing: float  # s at which it first is above the delay line; nan where never
    line: LineSide | None
    passes: bool | None  # None where it can't be judged
    told: list[str]
    times: np.ndarray = field(repr=False)  # s from the zero, shape (samples,)
    volts: np.ndarray = field(repr=False)  # V across the pole, its crest above 0, shape (samples,)
    judged: np.ndarray = field(repr=False)  # V that are laid beside the envelope, shape (samples,)


@dataclass(frozen=True)
class Zero:
    """The instant at which a pole's current became zero: s of the record, A/s before it, how it was found."""

    time: float
    slope: float
    quiet: float  # s of the first sample without current
    told: str


def evaluate(
    record: Record,
    pole: str = "U S-L",
    current: str | None = None,
    rated_kv: float | None = 145,
    duty: str = "T100",
    kpp: float = 1.3,
    envelope: Envelope | Sequence[float] | None = None,
    within: float | None = None,
) -> Trv:
    """The recovery voltage of a pole, judged by the envelope of a duty.

    `pole` is the voltage across it, `current` the current through it; without one it is that of the same ends, as
    `I S-L`, or else the state `S S-L`, or else the voltage alone says when the current became zero. `envelope`
    stands in place of that of rating and duty: an `Envelope`, or its parameters in V and s (`envelope.given`).
    `within` s after the zero are looked at, else all that the record has. RecordError where the record has no such
    channel, or where the pole doesn't open.
    """
    volts = signal_of(record, pole, "V")
    told = list(volts.told)
    zero = zero_of(record, pole, current, volts)
    told += [zero.told] if zero.told else []
    end = end_of(record, pole, current, volts, zero, told)
    if within is not None:
        if not within > 0:
            raise RecordError(f"{within:g} s after the zero: a time above 0 is looked at")
        end = min(end, zero.time + within)
    kept = (volts.times >= zero.quiet - 1e-3 * volts.step) & (volts.times > zero.time) & (volts.times <= end)
    times, values = volts.times[kept] - zero.time, volts.values[kept]
    if len(times) < FEWEST:
        raise RecordError(
            f"{where(record)}: {len(times)} samples of {pole} stand behind the zero at {zero.time:g} s, and {FEWEST} are needed"
        )
    sign = 1.0 if values[np.argmax(np.abs(values))] > 0 else -1.0
    try:
        lines = tangents_of(times, sign * values)
    except ValueError:
        raise RecordError(f"{where(record)}: {pole} doesn't rise behind the zero at {zero.time:g} s") from None
    before = int(np.searchsorted(times, lines.t_uc))
    if before < COARSE:
        told.append(f"{before} samples stand between the zero and the crest: the true rate of rise may be greater")
    found = envelope_of(rated_kv, duty, kpp, envelope, told)
    judged, line = sign * values, None
    if duty in SHORT and found is not None:
        source, line = short_line(record, pole, zero, times, sign, told)
        judged = judged if source is None else source
        found = None if source is None else found
    return judge(pole, zero, lines, found, judged, line, duty in SHORT, told, times, sign * values)


def judge(
    pole: str,
    zero: Zero,
    lines: Tangents,
    found: Envelope | None,
    judged: np.ndarray,
    line: LineSide | None,
    short: bool,
    told: list[str],
    times: np.ndarray,
    volts: np.ndarray,
) -> Trv:
    """Lays a recovery voltage beside an envelope."""
    margin = t_margin = crossing = delay = math.nan
    passes: bool | None = None
    if found is not None:
        share = judged / found.at(times)
        share[: skipped(int(np.argmax(volts)))] = -np.inf
        nearest = int(np.argmax(share))
        margin, t_margin = 1.0 - float(share[nearest]), float(times[nearest])
        over = np.flatnonzero(share > 1.0 + NEAR)
        crossing = float(times[over[0]]) if len(over) else math.nan
        delay = delay_crossing(found, times, judged)
        passes = not len(over) and (line is None or line.passes)
        if short and line is None and passes:
            passes = None  # half of it is
    return Trv(
        pole, zero.time, zero.slope, lines.uc, lines.t_uc, lines.rate, lines.t_rate, lines.u1, lines.t1, lines.t2,
        lines.t3, found, margin, t_margin, crossing, delay, line, passes, told, times, volts, judged,
    )  # fmt: skip


def envelope_of(
    rated_kv: float | None, duty: str, kpp: float, parameters: Envelope | Sequence[float] | None, told: list[str]
) -> Envelope | None:
    """The envelope that is given, or that of the rating; None, and why, where none is at hand."""
    if duty not in DUTIES:
        raise RecordError(f"the duty {duty!r} is none of {', '.join(DUTIES)}")
    if isinstance(parameters, Envelope):
        return parameters
    try:
        if parameters is not None:
            found, more = given(parameters)
            told += more
            return found
        if rated_kv is None:
            raise NotAtHand("no rated voltage is given, and no envelope")
        found = rated(duty, rated_kv, kpp)
    except NotAtHand as fault:
        told.append(str(fault))
        return None
    except ValueError as fault:
        raise RecordError(str(fault)) from None
    if duty == "OOP":
        told.append("out of phase: t2 is 2 to 4 t1 there, and the line with 4 t1, the lower one, is taken")
    told.append("no delay line is at hand: the reference line from the zero alone is judged; --envelope takes td")
    return found


# ---- the zero


def zero_of(record: Record, pole: str, current: str | None, volts: Signal) -> Zero:
    """When the current of a pole became zero, between the samples."""
    ends = pole.split(" ", 1)[1] if pole.startswith("U ") else ""
    name = current or (f"I {ends}" if ends and f"I {ends}" in record.names else None)
    state = f"S {ends}" if ends and f"S {ends}" in record.state_names else None
    if name is not None:
        return zero_of_current(record, signal_of(record, name, "A"), state)
    if state is not None:
        closed = np.flatnonzero(record.states(state) == 1)
        if not len(closed) or closed[-1] + 1 >= len(record.times):
            raise RecordError(
                f"{where(record)}: the pole {pole} doesn't open: {state} is {'1 to' if len(closed) else '0 from'} its end"
            )
        at = int(closed[-1])
        return Zero(
            float(record.times[at]), math.nan, float(record.times[at + 1]),
            f"no current is at hand: the zero is the last sample at which {state} is closed, up to {volts.step:g} s early",
        )  # fmt: skip
    most = float(np.abs(volts.values).max())
    there = np.abs(volts.values) > max(QUIET * most, 2 * volts.least)
    if not most or there[0]:
        raise RecordError(
            f"{where(record)}: {pole} isn't 0 before it rises, and no current says when it opens: name one"
        )
    at = int(np.argmax(there)) - 1
    return Zero(
        float(volts.times[at]), math.nan, float(volts.times[at + 1]),
        "no current and no state is at hand: the zero is the last sample before the voltage rises",
    )  # fmt: skip


def zero_of_current(record: Record, amps: Signal, state: str | None) -> Zero:
    """The zero of a current that stays zero from there on, by the way that it goes before."""
    most = float(np.abs(amps.values).max())
    floor = max(QUIET * most, 3 * amps.least)
    carrying = np.abs(amps.values) > floor
    if not most or not carrying.any():
        raise RecordError(f"{where(record)}: {amps.name} carries no current")
    last = last_of_first_stretch(record, amps, carrying, state)
    quiet = last + 1
    still = max(1e-9 * most, 1.5 * amps.least)
    while quiet < len(amps.values) - 1 and abs(amps.values[quiet]) > still:
        quiet += 1
    near = (amps.times > amps.times[last] - BEFORE) & (np.arange(len(amps.times)) <= last) & carrying
    near &= np.arange(len(amps.times)) >= max(_turn(amps.values, last), 0)
    places = np.flatnonzero(near)
    if len(places) < 3:
        return Zero(
            float(amps.times[last]), math.nan, float(amps.times[quiet]),
            f"{amps.name} has fewer than three samples on its way to zero: the last one that carries current is taken",
        )  # fmt: skip
    at = amps.times[places] - amps.times[last]
    degree = 3 if len(places) > 11 else 2 if len(places) > 5 else 1
    way = np.polynomial.Polynomial.fit(at, amps.values[places], degree)  # type: ignore[no-untyped-call]
    roots = [float(it.real) for it in way.roots() if abs(it.imag) < 1e-12]
    after = [it for it in roots if it > -0.5 * amps.step]
    root = min(after, default=math.inf)
    told = ""
    if root > amps.times[quiet] - amps.times[last] + 2 * amps.step:
        told = (
            f"{amps.name} was cut at {amps.values[last]:.4g} A, before its zero: the last sample with current is taken"
        )
        root = 0.0
    return Zero(float(amps.times[last]) + root, float(way.deriv()(root)), float(amps.times[quiet]), told)


def last_of_first_stretch(record: Record, amps: Signal, carrying: np.ndarray, state: str | None) -> int:
    """The last sample with current before the pole first stays without: for as long as it had been carrying, or to the
    end."""
    if state is not None:
        closed = record.states(state)
        opens = np.flatnonzero((closed[:-1] == 1) & (closed[1:] == 0))
        if not len(opens):
            raise RecordError(f"{where(record)}: the pole doesn't open: {state} has no change from 1 to 0")
        before = np.flatnonzero(carrying & (amps.times <= record.times[opens[0]] + 0.5 * amps.step))
        if len(before):
            return int(before[-1])
    edges = np.flatnonzero(np.diff(carrying.astype(np.int8)))
    ends = [int(it) for it in edges if carrying[it]]
    crossing = np.flatnonzero(np.diff(np.sign(amps.values)) != 0)
    longest = max(np.diff(crossing).max(initial=1), 10) / 20  # of a half wave: a zero that is passed is shorter
    for end in ends:
        again = np.flatnonzero(carrying[end + 1 :])
        if not len(again) or again[0] > longest:
            return end
    raise RecordError(f"{where(record)}: {amps.name} carries current to the end of the record: the pole doesn't open")


def _turn(values: np.ndarray, last: int) -> int:
    """The sample from which on the magnitude falls up to the last one."""
    sizes = np.abs(values[: last + 1][::-1])
    falls = np.flatnonzero(np.diff(sizes) < -1e-3 * sizes.max())
    return last - int(falls[0]) if len(falls) else 0


def end_of(record: Record, pole: str, current: str | None, volts: Signal, zero: Zero, told: list[str]) -> float:
    """The end of what is looked at: where the pole carries current again, or the record ends."""
    ends = pole.split(" ", 1)[1] if pole.startswith("U ") else ""
    name = current or (f"I {ends}" if ends and f"I {ends}" in record.names else None)
    if name is None:
        return float(volts.times[-1])
    amps = signal_of(record, name, "A")
    floor = max(QUIET * float(np.abs(amps.values).max()), 3 * amps.least)
    again = np.flatnonzero((np.abs(amps.values) > floor) & (amps.times > zero.quiet))
    if not len(again):
        return float(volts.times[-1])
    at = float(amps.times[int(again[0]) - 1])
    told.append(
        f"the pole carries current again {1e6 * (at - zero.time):.4g} us after the zero: only the time before is judged"
    )
    return at


# ---- a short line


def short_line(
    record: Record, pole: str, zero: Zero, times: np.ndarray, sign: float, told: list[str]
) -> tuple[np.ndarray | None, LineSide | None]:
    """The voltage of the source's side from the zero on, its crest above 0, and the wave of the line's side."""
    nodes = spelled(record, pole) if pole not in record.names else []
    if len(nodes) != 2 and pole.startswith("U "):
        nodes = [(s, f"V {end}") for s, end in zip((1.0, -1.0), pole[2:].rsplit("-", 1))]
    if len(nodes) != 2 or any(name not in record.names for _, name in nodes):
        told.append(
            "a short line wants the voltages of both nodes of the pole, as V S and V L beside U S-L, or --pole 'V S - V L': "
            "the source's side is judged by its envelope, the line's by its slope and crest"
        )
        return None, None
    source, far = (signal_of(record, name, "V") for _, name in nodes)
    at = zero.time + times
    start = float(source.at(np.array([zero.time]))[0])
    side = sign * (source.at(at) - start)
    if math.isnan(zero.slope):
        told.append(
            "a short line wants the current of the pole, whose slope its wave is measured by: name one by --current"
        )
        return None, None
    before = float(far.at(np.array([zero.time]))[0])
    swing = sign * (before - far.at(at))
    line = line_side(times, swing, abs(before), abs(zero.slope))
    if line is None:
        told.append("the line's side doesn't swing behind the zero: nothing of it is judged")
    return side, line


def line_side(times: np.ndarray, swing: np.ndarray, before: float, slope: float) -> LineSide | None:
    """The first swing of the line's side: its slope between 20 and 80 % of the first crest."""
    falls = np.flatnonzero(np.diff(swing) < -1e-3 * np.abs(swing).max())
    crest = int(falls[0]) if len(falls) else len(swing) - 1
    top = float(swing[: crest + 1].max(initial=0.0))
    inside = np.flatnonzero((swing[: crest + 1] >= 0.2 * top) & (swing[: crest + 1] <= 0.8 * top))
    if top <= 0 or len(inside) < 2:
        return None
    rate = float(np.polyfit(times[inside], swing[inside], 1)[0])
    return LineSide(rate, rate / slope, top / before if before else math.nan)


# ---- what is printed and drawn


def lines_of(it: Trv, duty: str) -> list[str]:
    """What is said of a pole."""
    said = [f"{it.pole}: the current became zero at {1e3 * it.t0:.6g} ms"]
    if not math.isnan(it.slope):
        said[0] += f", at {abs(it.slope) / 1e6:.4g} A/us"
    said.append(
        f"  crest {it.uc / 1e3:.5g} kV at {1e6 * it.t_uc:.4g} us, RRRV {it.rrrv / 1e9:.4g} kV/us (touches at {1e6 * it.t_rrrv:.4g} us)"
    )
    if math.isnan(it.t1):
        said.append(f"  by tangents, two parameters: uc {it.uc / 1e3:.5g} kV, t3 {1e6 * it.t3:.4g} us")
    else:
        said.append(
            f"  by tangents, four parameters: u1 {it.u1 / 1e3:.4g} kV, t1 {1e6 * it.t1:.4g} us, "
            f"uc {it.uc / 1e3:.5g} kV, t2 {1e6 * it.t2:.4g} us; t3 {1e6 * it.t3:.4g} us"
        )
    if it.line is not None:
        said.append(
            f"  line side: {it.line.slope / 1e9:.4g} kV/us, which is {it.line.ohm:.4g} ohm (at most {LINE_OHM:g}); "
            f"first crest {it.line.peak:.3g} times the voltage at the zero (at most {LINE_PEAK:g})"
        )
    if it.envelope is not None:
        side = "source's side " if duty in SHORT else ""
        said.append(f"  envelope of {duty}: {it.envelope}")
        said.append(
            f"  {side}below its reference line by {100 * max(it.margin, 0.0):.1f} % at least, {1e6 * it.t_margin:.4g} us after the zero"
            if math.isnan(it.crossing)
            else f"  {side}OVER its reference line by {-100 * it.margin:.1f} % at {1e6 * it.t_margin:.4g} us; "
            f"it first crosses it at {1e6 * it.crossing:.4g} us"
        )
    if it.envelope is not None and it.envelope.td is not None:
        said.append(
            "  it stays below the delay line to its end"
            if math.isnan(it.delay_crossing)
            else f"  it crosses the delay line at {1e6 * it.delay_crossing:.4g} us"
        )
    return said + [f"  {told}" for told in it.told]


def delay_crossing(envelope: Envelope, times: np.ndarray, volts: np.ndarray) -> float:
    """When the voltage first is above the delay line; nan where it never is or there is none."""
    if envelope.td is None:
        return math.nan
    line = (times - envelope.td) * envelope.rate
    there = np.flatnonzero((line >= 0) & (line <= envelope.ud) & (volts > line))
    return float(times[there[0]]) if len(there) else math.nan


def verdict(found: Sequence[Trv]) -> tuple[int, str]:
    """The exit status of some poles, and its words."""
    if any(it.passes is None for it in found):
        return report.UNJUDGED, "NOT JUDGED"
    return (report.PASSES, "BELOW") if all(it.passes for it in found) else (report.FAILS, "OVER")


def drawing_of(found: Sequence[Trv], title: str) -> Drawing:
    """The voltages over the time from the zero, with reference and delay lines, and tangents."""
    panes = []
    for it in found:
        end = min(float(it.times[-1]), 4 * max(it.t_uc, it.envelope.t2 if it.envelope else 0.0))
        shown = it.times <= end
        curves = [Curve(it.pole, 1e6 * it.times[shown], it.volts[shown] / 1e3, "kV")]
        if it.judged is not it.volts and it.envelope is not None and it.line is not None:
            curves.append(Curve("source's side", 1e6 * it.times[shown], it.judged[shown] / 1e3, "kV", 3))
        if it.envelope is not None:
            x, y = it.envelope.corners(end)
            curves.append(Curve("reference line", 1e6 * x, y / 1e3, "kV", 1))
            x, y = it.envelope.delay_line()
            curves += [Curve("delay line", 1e6 * x, y / 1e3, "kV", 3)] if len(x) else []
        own = [0.0, it.t3] if math.isnan(it.t1) else [0.0, it.t1, it.t2]
        tops = [0.0, it.uc] if math.isnan(it.t1) else [0.0, it.u1, it.uc]
        curves.append(Curve("tangents", 1e6 * np.array(own + [end]), np.array(tops + [it.uc]) / 1e3, "kV", 2))
        marks = [Mark(1e6 * it.t_uc, it.uc / 1e3, f"{it.uc / 1e3:.4g} kV")]
        if not math.isnan(it.crossing):
            place = int(np.searchsorted(it.times, it.crossing))
            marks.append(Mark(1e6 * it.crossing, float(it.judged[place]) / 1e3, "crosses"))
        panes.append(Pane(f"{it.pole}, kV", curves, height=4.0, marks=marks))
    return Drawing(title, panes, x_label="us after the zero of the current")


TABLE = ("pole", "t0 (s)", "di/dt (A/s)", "uc (V)", "t_uc (s)", "rrrv (V/s)", "u1 (V)", "t1 (s)", "t2 (s)", "t3 (s)",
         "margin", "t_margin (s)", "crossing (s)", "delay crossing (s)", "line slope (V/s)", "line ohm", "line peak",
         "passes")  # fmt: skip


def row_of(it: Trv) -> list[object]:
    """The line of a table of a pole."""
    line = it.line or LineSide(math.nan, math.nan, math.nan)
    passes = "" if it.passes is None else int(it.passes)
    return [it.pole, it.t0, it.slope, it.uc, it.t_uc, it.rrrv, it.u1, it.t1, it.t2, it.t3, it.margin, it.t_margin,
            it.crossing, it.delay_crossing, line.slope, line.ohm, line.peak, passes]  # fmt: skip


def parser() -> argparse.ArgumentParser:
    """The words of the command."""
    made = argparse.ArgumentParser(
        prog="emtp trv", description=__doc__, formatter_class=argparse.RawDescriptionHelpFormatter
    )
    made.add_argument("record", metavar="RECORD", help="a .cfg, with its .dat beside it, or a .cff")
    made.add_argument("--pole", metavar="NAME", action="append", help="the voltage across a pole; up to three times")
    made.add_argument("--current", metavar="NAME", action="append", default=[], help="the current of each pole")
    made.add_argument("--rated", metavar="KV", type=real, help="the rated voltage of the breaker")
    made.add_argument("--duty", choices=DUTIES, default="T100", help="default: T100")
    made.add_argument("--kpp", metavar="K", type=real, default=1.3, help="of the system, 1.3 or 1.5; default: 1.3")
    made.add_argument("--envelope", metavar="NUMBERS", help="uc,t3[,td] or u1,t1,uc,t2[,td[,ud]] in kV and us")
    made.add_argument("--within", metavar="US", type=real, help="so many us after the zero are looked at, else all")
    report.add_outputs(made)
    return made


def main(words: list[str]) -> int:
    """Runs the command."""
    its = parser().parse_args(words)
    report.checked(its, its.record)
    record = read(its.record)
    poles = its.pole or poles_of(record)
    if len(poles) > 3:
        raise RecordError(f"{len(poles)} poles: a breaker has three at most")
    if its.current and len(its.current) != len(poles):
        raise RecordError(f"{len(its.current)} currents for {len(poles)} poles: give --current for each, or for none")
    for told in record.told:
        print(f"{its.record}: {told}", file=sys.stderr)
    found = []
    for place, pole in enumerate(poles):
        current = its.current[place] if its.current else None
        within = None if its.within is None else 1e-6 * its.within
        parameters = scaled(report.numbers(its.envelope, "--envelope", (2, 3, 4, 5, 6))) if its.envelope else None
        found.append(evaluate(record, pole, current, its.rated, its.duty, its.kpp, parameters, within))
    for it in found:
        print("\n".join(lines_of(it, its.duty)))
    if len(found) > 1:
        print("the poles clear in this order: " + ", ".join(it.pole for it in sorted(found, key=lambda it: it.t0)))
    status, word = verdict(found)
    print(word)
    title = f"{os.path.basename(its.record)}: {its.duty}"
    if its.csv:
        report.write_table(its.csv, TABLE, [row_of(it) for it in found])
    if its.curves:
        write_curves(its.curves, found)
    if its.out:
        report.draw(drawing_of(found, title), its.out)
    return status


def write_curves(path: str, found: Sequence[Trv]) -> None:
    """The curves of all poles, one below the other."""
    rows = []
    for it in found:
        line = np.full(len(it.times), math.nan) if it.envelope is None else it.envelope.at(it.times)
        rows += [
            [it.pole, *row] for row in zip(it.times.tolist(), it.volts.tolist(), it.judged.tolist(), line.tolist())
        ]
    report.write_table(path, ("pole", "s from the zero", "V", "judged (V)", "reference line (V)"), rows)


def poles_of(record: Record) -> list[str]:
    """The poles of a record where none is named: the voltages of switches that it has the states of."""
    found = [
        f"U {name[2:]}" for name in record.state_names if name.startswith("S ") and f"U {name[2:]}" in record.names
    ]
    if not 1 <= len(found) <= 3:
        raise RecordError(
            f"{where(record)}: {len(found)} voltages of switches could be poles: name each by --pole, as --pole 'U S-L'"
        )
    return found


def scaled(parameters: Sequence[float]) -> list[float]:
    """Parameters in kV and us as V and s: voltages and times alternate but behind td."""
    if len(parameters) in (2, 3):
        return [it * factor for it, factor in zip(parameters, (1e3, 1e-6, 1e-6))]
    return [it * factor for it, factor in zip(parameters, (1e3, 1e-6, 1e3, 1e-6, 1e-6, 1e3))]
