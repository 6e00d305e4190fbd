"""How peaks are distributed, and what insulation stands them, after IEC 60071-2.

- Slow-front strength of an insulation with the withstand voltage Uw, which it stands with 90 %: its discharge voltages
  are normal about U50 = Uw / (1 - 1.28 z) with the standard deviation z U50, z = 0.06 of air. The risk of failure of a
  study is the mean of that probability over its rows (the case peak method, where a row's peak is that of three phases).
- Coordination withstand voltage: Ucw = Kcd Urp. Behind an arrester with the switching impulse protective level Ups the
  representative voltage Urp is Ups, or the 2 % value Ue2 where that is lower; Kcd is 1.1 for Ups/Ue2 up to 0.7, 1.24 -
  0.2 Ups/Ue2 up to 1.2, and 1 above. Without an arrester the factor is that of the caller.
- Required withstand voltage: Urw = Ucw Ks Ka, with Ks 1.05 of external and 1.15 of internal insulation, and Ka = e^(m H /
  8150) at H metres.

The factors are those of IEC 60071-2 as commonly cited; each can be given, so that another edition counts.
"""

from __future__ import annotations

import csv
import math
from dataclasses import dataclass
from statistics import NormalDist

import numpy as np

from .configuration import RecordError

SPREAD = 0.06  # z of air under slow fronts
EXTERNAL, INTERNAL = 1.05, 1.15  # Ks
NORMAL = NormalDist()


@dataclass(frozen=True)
class Distribution:
    """Of peaks: how many, mean, standard deviation, the least that at most half and at most 2 % exceed, the greatest; and
    the 2 % value of a normal distribution with this mean and deviation."""

    count: int
    mean: float
    deviation: float
    half: float
    seldom: float
    greatest: float

    @property
    def normal_seldom(self) -> float:
        return self.mean + NORMAL.inv_cdf(0.98) * self.deviation


def distribution(peaks: np.ndarray) -> Distribution:
    """The distribution of peaks, shape (rows,), two at least."""
    its = np.sort(np.asarray(peaks, float))
    if its.ndim != 1 or len(its) < 2 or not np.isfinite(its).all():
        raise RecordError("a distribution has two peaks at least, all of them numbers")

    def exceeded(share: float) -> float:
        return float(its[len(its) - 1 - int(math.floor(share * len(its) + 1e-9))])

    return Distribution(
        len(its), float(its.mean()), float(its.std(ddof=1)), exceeded(0.5), exceeded(0.02), float(its[-1])
    )


def risk(peaks: np.ndarray, withstand: float, spread: float = SPREAD) -> float:
    """The risk of failure of an insulation with this withstand voltage, in the unit of the peaks."""
    if not (withstand > 0 and 0 < spread < 0.5):
        raise RecordError("a withstand voltage is above 0, and its deviation from 0 to 0.5")
    middle = withstand / (1 + NORMAL.inv_cdf(0.1) * spread)
    return float(np.mean([NORMAL.cdf((it / middle - 1) / spread) for it in np.abs(np.asarray(peaks, float))]))


def coordination(seldom: float, level: float) -> tuple[float, float]:
    """Kcd and the coordination withstand voltage behind an arrester, by the 2 % value and its protective level."""
    if not (seldom > 0 and level > 0):
        raise RecordError("the 2 % value and the protective level are above 0")
    part = level / seldom
    factor = 1.1 if part <= 0.7 else 1.24 - 0.2 * part if part <= 1.2 else 1.0
    return factor, factor * min(level, seldom)


def altitude_factor(metres: float, exponent: float) -> float:
    """Ka of external insulation at a height above the sea."""
    return math.exp(exponent * metres / 8150)


def column_of(path: str, name: str) -> np.ndarray:
    """The numbers of a column of a table of a study: shape (rows,)."""
    try:
        with open(path, encoding="utf-8", newline="") as file:
            rows = list(csv.reader(file))
    except (UnicodeDecodeError, csv.Error):
        raise RecordError(f"{path}: it is no table (csv)") from None
    except OSError as fault:
        raise RecordError(f"{path}: {fault.strerror}") from None
    heads = rows[0] if rows else []
    found = [place for place, head in enumerate(heads) if name in (head, head.rsplit(" (", 1)[0])]
    if len(found) != 1:
        raise RecordError(f"{path} has {len(found) or 'no'} column {name!r}; it has {', '.join(heads[:30]) or 'none'}")
    values = []
    for number, row in enumerate(rows[1:], 2):
        try:
            values.append(float(row[found[0]]))
        except (IndexError, ValueError):
            raise RecordError(f"{path}, line {number}: {name} has no number") from None
    return np.array(values)
