"""A saturable current transformer: on currents of a record, or in a case.

    secondary(times, amps, ratio=1200, rct_ohm=6, burden_ohm=2, points=[(.005, .35), (.02, .45), (.1, .52), (1, .58), (20, .75)])
    case.ct("SA", "LA", "CTA", ratio=1200, rct_ohm=6, burden_ohm=2, points=[..])

The primary current over the ratio divides between the magnetising branch, whose flux f is a function of its current, and
the winding with its burden:

    i_p / ratio = i_s + i_m(f),      df/dt = (Rct + Rb) i_s + Lb di_s/dt

The step is the trapezoidal rule. What it leaves, f + k i_m(f) = a known value, rises with f, and is straight from point to
point, so it is solved exactly, without iterating.
"""

from __future__ import annotations

import bisect
import math
from typing import TYPE_CHECKING, Sequence

import numpy as np

from . import columns, fields
from .draft import CaseError, writes
from .formula import FUNCTIONS

if TYPE_CHECKING:
    from .compound import Compound

Points = Sequence[tuple[float, float]]
FINE = 0.2  # of the time constant beyond saturation: the longest step


def knee_points(knee_v: float, knee_a: float, saturated_mh: float = 1.0, hz: float = 50.0) -> list[tuple[float, float]]:
    """A magnetising curve by its knee, RMS: 10 % more voltage than knee_v wants 50 % more current than knee_a (IEC
    61869-2), and beyond that the inductance is saturated_mh. A and Wb, crest."""
    if not (knee_v > 0 and knee_a > 0 and saturated_mh > 0 and hz > 0):
        raise CaseError("knee_v, knee_a, saturated_mh and hz are above 0")
    amps, flux = math.sqrt(2) * knee_a, math.sqrt(2) * knee_v / (2 * math.pi * hz)
    if 1e-3 * saturated_mh >= 0.2 * flux / amps:
        raise CaseError(f"saturated_mh is below a fifth of the inductance at the knee, {200 * flux / amps:.4g} mH")
    far = 1000 * amps
    return [(amps, flux), (1.5 * amps, 1.1 * flux), (far, 1.1 * flux + 1e-3 * saturated_mh * (far - 1.5 * amps))]


def checked_points(
    points: Points | None, knee: tuple[float | None, float | None, float, float]
) -> list[tuple[float, float]]:
    """The magnetising curve that is given, by points or by its knee."""
    knee_v, knee_a, saturated_mh, hz = knee
    if (points is None) == (knee_v is None):
        raise CaseError("a magnetising curve is given by points (A, Wb), or by knee_v and knee_a")
    if points is None:
        if knee_v is None or knee_a is None:
            raise CaseError("a knee has knee_v and knee_a, the exciting current there")
        return knee_points(knee_v, knee_a, saturated_mh, hz)
    if not len(points) or not all(len(it) == 2 for it in points):
        raise CaseError("a magnetising curve has points of two numbers, A and Wb")
    its = [(float(i), float(flux)) for i, flux in points]
    before = (0.0, 0.0)
    for now in its:
        if not (now[0] > before[0] and now[1] > before[1] and math.isfinite(now[0]) and math.isfinite(now[1])):
            raise CaseError("the points of a magnetising curve rise, in A and in Wb, from above 0 on")
        before = now
    return its


def secondary(
    times: np.ndarray,
    primary_a: np.ndarray,
    *,
    ratio: float,
    rct_ohm: float,
    burden_ohm: float,
    knee_v: float | None = None,
    knee_a: float | None = None,
    saturated_mh: float = 1.0,
    points: Points | None = None,
    burden_mh: float = 0.0,
    remanence: float = 0.0,
    hz: float = 50.0,
) -> np.ndarray:
    """The secondary current in A of a current in A at `times` in s, both of shape (samples,); straight between them.

    `ratio` is primary over secondary current. The magnetising curve is `points`, (A, Wb) of the secondary side, odd, or
    that of a knee: knee_v and knee_a, RMS at `hz`. `remanence` is the flux at the first sample, in parts of that of the
    last point before the steepest bend (or of the knee), from -1 to 1. CaseError names what can't be.
    """
    t, i = np.asarray(times, float), np.asarray(primary_a, float)
    if t.ndim != 1 or t.shape != i.shape or len(t) < 2 or not (np.diff(t) > 0).all():
        raise CaseError(f"times and primary_a are two arrays of one length, the times rise: {t.shape}, {i.shape}")
    if not np.isfinite(i).all():
        raise CaseError(f"{int((~np.isfinite(i)).sum())} values of the primary current are missing")
    if not (ratio > 0 and rct_ohm >= 0 and burden_ohm >= 0 and rct_ohm + burden_ohm > 0 and burden_mh >= 0):
        raise CaseError("ratio is above 0, rct_ohm, burden_ohm and burden_mh aren't below, and there is a resistance")
    if not -1 <= remanence <= 1:
        raise CaseError(f"a remanence of {remanence:g} isn't within -1 to 1, parts of the flux of saturation")
    curve = checked_points(points, (knee_v, knee_a, saturated_mh, hz))
    return _stepped(t, i / ratio, curve, rct_ohm + burden_ohm, 1e-3 * burden_mh, remanence * saturation(curve))


def saturation(curve: Points) -> float:
    """The flux of the point behind which the slope falls most, Wb."""
    its = np.array([(0.0, 0.0), *curve])
    if len(its) < 3:
        return float(its[-1, 1])
    slopes = np.diff(its[:, 1]) / np.diff(its[:, 0])
    return float(its[1 + int(np.argmax(slopes[:-1] / slopes[1:])), 1])


def _stepped(t: np.ndarray, ideal: np.ndarray, curve: Points, r: float, l: float, flux: float) -> np.ndarray:
    """The steps of the trapezoidal rule; each time between two samples is cut where it is too long."""
    amps, webers = [0.0, *(it[0] for it in curve)], [0.0, *(it[1] for it in curve)]
    last = (webers[-1] - webers[-2]) / (amps[-1] - amps[-2])
    amps.append(1e6 * amps[-1])
    webers.append(webers[-1] + last * (amps[-1] - amps[-2]))
    made = np.empty(len(t))
    magnetising = math.copysign(float(np.interp(abs(flux), webers, amps)), flux)
    current = float(ideal[0]) - magnetising
    made[0] = current
    for place in range(1, len(t)):
        whole = float(t[place] - t[place - 1])
        count = max(1, math.ceil(whole * r / (FINE * (last + l))))
        h = whole / count
        k = h * r / 2 + l
        heights = [f + k * m for f, m in zip(webers, amps)]
        begin, step = float(ideal[place - 1]), float(ideal[place] - ideal[place - 1]) / count
        for number in range(1, count + 1):
            wave = begin + number * step
            known = flux + h * r / 2 * (wave + current) + l * (wave - current)
            size = abs(known)
            at = min(bisect.bisect_right(heights, size), len(heights) - 1)
            part = (size - heights[at - 1]) / (heights[at] - heights[at - 1])
            magnetising = math.copysign(amps[at - 1] + part * (amps[at] - amps[at - 1]), known)
            flux = math.copysign(webers[at - 1] + part * (webers[at] - webers[at - 1]), known)
            current = wave - magnetising
        made[place] = current
    return made


@writes
def in_case(
    case: "Compound",
    a: str,
    b: str,
    secondary: str,
    *,
    ratio: float,
    rct_ohm: float,
    burden_ohm: float,
    knee_v: float | None = None,
    knee_a: float | None = None,
    saturated_mh: float = 1.0,
    points: Points | None = None,
    burden_mh: float = 0.0,
    hz: float = 50.0,
    ask: str = "i",
) -> None:
    """A current transformer between the nodes a and b, which it joins; its secondary circuit stands at a node of its own.

    The channel of the secondary current is `I SECONDARY-0`, in A of the secondary side; `ask` is that of its branch. The
    control takes the primary current over, one time step late. It begins without remanence. Values as of
    `wurdanei.ct.secondary`.
    """
    if not (ratio > 0 and rct_ohm >= 0 and burden_ohm >= 0 and rct_ohm + burden_ohm > 0):
        raise CaseError("ratio is above 0, rct_ohm and burden_ohm aren't below, and there is a resistance")
    curve = checked_points(points, (knee_v, knee_a, saturated_mh, hz))
    contents = case._draft.contents
    if any(b in it.ends for it in contents.switches) or b in contents.variables:
        raise CaseError(f"{b} is measured already: the current transformer takes a node b that no other switch has")
    if not (b.isalnum() and b.isascii() and b[:1].isalpha()) or b in FUNCTIONS:
        raise CaseError(f"{b!r} can't be the name of a variable: take a node b of letters and digits")
    case.measuring(a, b)
    case.control.current(b)
    case.control.formula(secondary, f"{b}/{fields.fitted(ratio, columns.TABLE_POINT.field('input')).text}")
    case.series(secondary, r_ohm=rct_ohm + burden_ohm, l_mh=burden_mh, ask=ask)
    case.reactor(secondary, points=curve)
    case.driven(secondary, current=True)
    case._draft.tell(f"{secondary}: the secondary current of a transformer, one time step late")
