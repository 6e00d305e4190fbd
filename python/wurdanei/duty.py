"""Puts the source network of a duty of IEC 62271-100 into a case: its recovery voltage at a pole to ground meets the
duty's envelope.

    network = duty.source(case, "S", rated_kv=145, isc_ka=31.5, duty="T100")
    case.switch("S", open_s=.5e-3, ask="iu")
    record = case.run()

The network is that of one phase, the first pole to clear: a current source beside inductances with a resistance and a
capacitance across each. Each of these groups answers a current that rises straight with

    u(t) = S L (1 - e^(-a t) (cos w t + a/w sin w t)),    a = 1/(2 R C),  w^2 = 1/(L C) - a^2

where S is the slope of the current that is cut. One group meets crest and rate of rise of two parameters; two meet
those of four. The values are found by scipy's least squares, and the envelope by `tangents`.
"""

from __future__ import annotations

import math
from dataclasses import dataclass

import numpy as np

from .case import Case
from .draft import CaseError, writes
from .envelope import FORMS, LINE_OHM, Envelope, NotAtHand, rated
from .tangents import SKIPPED, Tangents, tangents_of

SHARES = {"T100": 1.0, "T60": 0.6, "T30": 0.3, "T10": 0.1, "L90": 1.0, "L75": 1.0, "OOP": 0.25}  # of isc
LINES = {"L90": 0.9, "L75": 0.75}
SAMPLES = 1500
CLOSE, MET = 0.02, 5e-4  # of each parameter: what counts as met; what is looked for no further


@dataclass(frozen=True)
class Group:
    """An inductance with a resistance and a capacitance across it: ohm, H, F."""

    r: float
    l: float
    c: float


@dataclass(frozen=True)
class Network:
    """What was put into a case: the envelope that is meant, that of the network's own recovery voltage, and the values.

    `volts` is the crest of the recovery voltage at 50 Hz, `amps` that of the current that is cut, A. `zero_s` is the
    instant at which that current is 0. Of a short line `line_us` is the travel time of the line that brings the
    current to 90 or 75 %.
    """

    envelope: Envelope
    met: Tangents
    groups: list[Group]
    volts: float
    amps: float
    zero_s: float
    line_us: float


def answer(groups: list[Group], slope: float, times: np.ndarray) -> np.ndarray:
    """What the groups answer to a current that rises from 0 at `slope` A/s: V at `times` in s, shape of `times`."""
    found = np.zeros(len(times))
    for it in groups:
        damping = 1 / (2 * it.r * it.c)
        turn = np.sqrt(complex(1 / (it.l * it.c) - damping**2))
        wave = np.exp((-damping + 1j * turn) * times), np.exp((-damping - 1j * turn) * times)
        cosine, sine = (wave[0] + wave[1]) / 2, (wave[0] - wave[1]) / (2j * turn)
        found += slope * it.l * (1 - (cosine + damping * sine)).real
    return found


@writes
def source(
    case: Case,
    node: str,
    *,
    rated_kv: float = 145.0,
    isc_ka: float,
    duty: str = "T100",
    kpp: float = 1.3,
    hz: float = 50.0,
    zero_s: float | None = None,
    envelope: Envelope | None = None,
) -> Network:
    """Puts the source network of a duty between a node and ground; the pole, a switch of the node, is the caller's.

    `isc_ka` is the rated short-circuit current, RMS; what the duty cuts is its part of it. `zero_s` is an instant at
    which the current of a pole that joins the node to ground is 0: 1 ms, or half a period of L90 and L75, so that a
    line in between starts at rest, without offset. `envelope` stands in place of that of the formulas. Of L90 and L75
    it is the source's side for the whole current; the line is the caller's (`case.line(.., zc_ohm=450,
    tau_us=network.line_us)`, its far end to ground). CaseError where no envelope is at hand.
    """
    if duty not in SHARES:
        raise CaseError(f"the duty {duty!r} has no source network; {', '.join(SHARES)} have one")
    if zero_s is None:
        zero_s = 0.5 / hz if duty in LINES else 1e-3
    if not (isc_ka > 0 and hz > 0 and zero_s >= 0):
        raise CaseError("isc_ka and hz have to be above 0, zero_s not below")
    try:
        wanted = envelope or rated(duty, rated_kv, kpp)
    except NotAtHand as fault:
        raise CaseError(str(fault)) from None
    amps = math.sqrt(2) * isc_ka * 1e3 * SHARES[duty]
    volts = FORMS[duty].factors.get(kpp, kpp) * rated_kv * 1e3 * math.sqrt(2 / 3)
    groups, met = fitted(wanted, volts, 2 * math.pi * hz * amps)
    middle = [case._draft.unused("TRV") for _ in groups[1:]]
    for it, one, other in zip(groups, [node, *middle], [*middle, ""]):
        case.series(one, other, l_mh=1e3 * it.l, peak_a=3 * amps)
        case.series(one, other, r_ohm=it.r)
        case.series(one, other, c_uf=1e6 * it.c)
    case.cosine(node, amplitude_a=amps, hz=hz, phase_deg=round(math.remainder(-90.0 - 360.0 * hz * zero_s, 360.0), 9))
    share = LINES.get(duty)
    line = 0.0 if share is None else 1e6 * (1 / share - 1) * sum(it.l for it in groups) / LINE_OHM
    return Network(wanted, met, groups, volts, amps, zero_s, line)


def fitted(wanted: Envelope, volts: float, slope: float) -> tuple[list[Group], Tangents]:
    """The groups whose answer has the envelope's parameters, and those that it has."""
    from scipy.optimize import least_squares

    if wanted.uc <= volts:
        raise CaseError(f"a crest of {wanted.uc:g} V isn't above the recovery voltage, {volts:g} V: nothing swings")
    inductance = volts / slope
    times = np.linspace(0, 2.5 * wanted.t2, SAMPLES)[1:]

    def groups_of(values: np.ndarray) -> list[Group]:
        if len(values) == 2:
            return [_group(inductance, *np.exp(values))]
        part = 1 / (1 + math.exp(-values[0]))
        return [_group(part * inductance, *np.exp(values[1:3])), _group((1 - part) * inductance, *np.exp(values[3:]))]

    def misfit(values: np.ndarray) -> np.ndarray:
        own = answer(groups_of(values), slope, times)
        lines = tangents_of(times, own)
        steepest = float(np.max(own[SKIPPED:] / times[SKIPPED:]))
        found: list[float] = [lines.uc / wanted.uc - 1, steepest / wanted.rate - 1]
        if len(values) > 2:
            level = float(np.interp(wanted.t1, times, own)) / wanted.u1
            over = float(np.maximum(own / wanted.at(times) - 1, 0).max())
            t2 = lines.t2 if not math.isnan(lines.t2) else lines.t_uc
            u1 = lines.u1 if not math.isnan(lines.u1) else level * wanted.u1
            found += [u1 / wanted.u1 - 1, t2 / wanted.t2 - 1, over]
        return np.array(found)

    if wanted.parameters == 2:
        starts = [np.log([2 * math.pi / (2.6 * wanted.t2), k]) for k in (0.1, 0.2, 0.4)]
    else:
        starts = [
            np.array([s, *np.log([math.pi / (f * wanted.t1), d, math.pi / (g * wanted.t2), 0.4])])
            for s in (-0.5, 0.5)
            for f in (1.5, 2.5)
            for d in (0.3, 0.8)
            for g in (1.0, 1.4)
        ]
    off, best = math.inf, starts[0]
    for start in starts:
        tried = least_squares(misfit, start, diff_step=1e-4, max_nfev=60)
        most = float(np.abs(tried.fun).max())
        if most < off:
            off, best = most, tried.x
        if off < MET:
            break
    groups = groups_of(best)
    lines = tangents_of(times, answer(groups, slope, times))
    if off > CLOSE:
        raise CaseError(f"no network of {len(groups)} groups meets {wanted}: the nearest is {100 * off:.1f} % off")
    return groups, lines


def _group(inductance: float, turn: float, damping: float) -> Group:
    """The group of an inductance with this own angular frequency, and a damping in parts of it."""
    capacitance = 1 / (inductance * turn**2)
    return Group(1 / (2 * damping * turn * capacitance), inductance, capacitance)
