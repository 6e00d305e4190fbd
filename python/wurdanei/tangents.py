"""The parameters of a transient recovery voltage by the lines that touch its curve.

After the annex of IEC 62271-100 on the representation of such voltages, told here so that it can be laid beside an
edition at hand:

1. The first line goes from the zero and touches the curve without cutting it: its slope is the rate of rise (RRRV).
2. The level line touches the curve at its highest crest, uc.
3. The third line touches the curve between these two points of contact without cutting it. Where the curve has a
   hollow there, the line touches it on either side of the widest one. Where it has none, and the crest comes later
   than twice the first point of contact, the line touches the curve where the areas between line and curve are equal
   on either side. Else there is no third line, and two parameters are all: uc and t3 = uc / RRRV.

The third line meets the first one at (t1, u1) and the level one at (t2, uc).
"""

from __future__ import annotations

from dataclasses import dataclass

import numpy as np

SKIPPED, FINE = (
    3,
    60,
)  # samples behind the zero whose quotient by the time would show its error; up to the crest, else 1
HOLLOW = 0.005  # of the crest: what counts as a hollow of the curve
NEAR = 2.0  # crests up to so many times the first contact have no third line


@dataclass(frozen=True)
class Tangents:
    """V, s from the zero, V/s; u1, t1 and t2 are nan of a curve with two parameters."""

    uc: float
    t_uc: float
    rate: float
    t_rate: float  # where the first line touches
    u1: float
    t1: float
    t2: float

    @property
    def t3(self) -> float:
        return self.uc / self.rate


def skipped(peak: int) -> int:
    """How many samples behind the zero don't count, where the crest is the sample `peak`."""
    return SKIPPED if peak >= FINE else 1


def hull_of(times: np.ndarray, values: np.ndarray) -> np.ndarray:
    """The places of the corners of the least curve that bends down everywhere and lies nowhere below: shape (corners,)."""
    kept: list[int] = []
    t, v = times.tolist(), values.tolist()
    for place in range(len(t)):
        while len(kept) > 1:
            one, two = kept[-2], kept[-1]
            if (v[two] - v[one]) * (t[place] - t[one]) > (v[place] - v[one]) * (t[two] - t[one]):
                break
            kept.pop()
        kept.append(place)
    return np.array(kept)


def tangents_of(times: np.ndarray, values: np.ndarray) -> Tangents:
    """The parameters of a curve in V over the times in s from the zero, both of shape (samples,); its crest is above 0.

    ValueError where no sample lies behind the first ones.
    """
    peak = int(np.argmax(values))
    first = skipped(peak)
    if peak < first or values[peak] <= 0:
        raise ValueError("the voltage doesn't rise after the zero")
    t = np.concatenate([[0.0], times[first : peak + 1]])
    v = np.concatenate([[0.0], values[first : peak + 1]])
    uc, t_uc = float(values[peak]), float(times[peak])
    corners = hull_of(t, v)
    touch = int(corners[1])
    rate = float(v[touch] / t[touch])
    third = third_line(t, v, corners)
    if third is None:
        return Tangents(uc, t_uc, rate, float(t[touch]), np.nan, np.nan, np.nan)
    slope, level = third  # v = level + slope t
    t1 = level / (rate - slope)
    return Tangents(uc, t_uc, rate, float(t[touch]), rate * t1, t1, (uc - level) / slope)


def third_line(t: np.ndarray, v: np.ndarray, corners: np.ndarray) -> tuple[float, float] | None:
    """Slope and level at the zero of the third line; None where there is none."""
    first, peak = int(corners[1]), int(corners[-1])
    if len(corners) < 3:
        return None
    best, widest = None, 0.0
    for one, two in zip(corners[1:-1].tolist(), corners[2:].tolist()):
        slope = (v[two] - v[one]) / (t[two] - t[one])
        level = v[one] - slope * t[one]
        dip = float((level + slope * t[one : two + 1] - v[one : two + 1]).max())
        if dip > HOLLOW * v[peak] and slope > 0 and t[two] - t[one] > widest:
            best, widest = (float(slope), float(level)), float(t[two] - t[one])
    if best is not None or t[peak] <= NEAR * t[first]:
        return best
    return equal_areas(t, v, corners)


def equal_areas(t: np.ndarray, v: np.ndarray, corners: np.ndarray) -> tuple[float, float] | None:
    """The line that touches the curve where the areas above the curve are equal before and behind the contact."""
    first, peak = int(corners[1]), int(corners[-1])
    rate = v[first] / t[first]
    sums = np.concatenate([[0.0], np.cumsum(np.diff(t) * (v[1:] + v[:-1]) / 2)])
    least, best = np.inf, None
    for before, at, behind in zip(corners[1:-2].tolist(), corners[2:-1].tolist(), corners[3:].tolist()):
        slope = (v[behind] - v[before]) / (t[behind] - t[before])
        level = v[at] - slope * t[at]
        if not 0 < slope < rate:
            continue
        t1, t2 = level / (rate - slope), (v[peak] - level) / slope
        if not (t[first] <= t1 <= t[at] <= t2 <= t[peak]):
            continue
        left = _under(rate, slope, level, t[first], t1, t[at]) - (sums[at] - sums[first])
        right = (v[at] + v[peak]) / 2 * (t2 - t[at]) + v[peak] * (t[peak] - t2) - (sums[peak] - sums[at])
        if abs(left - right) < least:
            least, best = float(abs(left - right)), (float(slope), float(level))
    return best


def _under(rate: float, slope: float, level: float, begin: float, corner: float, end: float) -> float:
    """The area under the first and the third line, which meet at the corner."""
    return rate * (corner**2 - begin**2) / 2 + level * (end - corner) + slope * (end**2 - corner**2) / 2
