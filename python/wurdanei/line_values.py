"""The fields of a line, whose six columns hold four or five digits: which numbers keep surge impedance and travel time best.

A line is its surge impedance, its travel time and its resistance; the unit of its length is free. Where the numbers of a call
lose something in their columns, another unit is taken, and L, C and the length in it (ILINE 0), or the surge impedance, the
velocity and the length (ILINE 1), so that all three are kept best, with a blank before each number.
"""

import functools
import math
from dataclasses import dataclass
from decimal import Decimal

import numpy as np

from . import columns, fields
from .fields import Fitted

WIDTH = 5  # of six columns, so that no two numbers touch
OF_R = 0.02  # what an error of the resistance counts beside one of the surge impedance or the travel time
DECADES = range(-2, 4)


@dataclass(frozen=True)
class Kept:
    """The fields of a line by their names, and which part of surge impedance, travel time and resistance is lost."""

    iline: int
    fields: dict[str, Fitted]
    surge: float
    travel: float
    resistance: float

    @property
    def loss(self) -> float:
        return max(self.surge, self.travel)

    @property
    def cost(self) -> float:
        return max(self.loss, OF_R * self.resistance)


@dataclass(frozen=True)
class Rescaled:
    """A line that is written with a length in a unit of its own, and what is lost of it all the same."""

    name: str
    surge: float
    travel: float
    resistance: float


def told(lines: list[Rescaled]) -> list[str]:
    """What is said of the lines of a case that were written in other units, in one line."""
    if not lines:
        return []
    names = list(dict.fromkeys(it.name for it in lines))
    named = ", ".join(names[:6]) + (f" and {len(names) - 6} more" if names[6:] else "")
    parts = [max(getattr(it, part) for it in lines) for part in ("surge", "travel", "resistance")]
    return [
        f"the lengths of the lines {named} stand in units of their own: of surge impedance at most {parts[0]:.1g} is lost, of "
        f"travel time {parts[1]:.1g}, of resistance {parts[2]:.1g}"
    ]


def held(values: np.ndarray, scale: int) -> np.ndarray:
    """The numbers that WIDTH columns hold and the scale keeps, nearest to these."""
    power = np.floor(np.log10(values))
    digits = np.where(power == WIDTH - 1, WIDTH, np.where((power >= -1) & (power < WIDTH - 1), WIDTH - 1, WIDTH - 2))
    quantum = np.maximum(10.0 ** (power - digits + 1), 10.0**-scale)
    return np.round(values / quantum) * quantum


def of_fields(iline: int, first: float, second: float, length: float) -> tuple[float, float]:
    """Surge impedance in ohm and travel time in s of a line's A, B and length as they are kept."""
    if iline == 0:
        return math.sqrt(1e3 * first / second), length * math.sqrt(1e-9 * first * second)
    return first, length / second if iline == 1 else second


def _fitted(value: float, field: columns.Field, width: int | None = WIDTH) -> Fitted:
    return fields.fitted(Decimal(f"{value:.12g}"), field, width)


def _candidates(surge: float, travel: float, ohm: float) -> list[tuple[int, float, float, float]]:
    """The best A, B and length by ILINE 0 and by ILINE 1."""
    numbers = np.concatenate([np.arange(10 ** (WIDTH - 2), 10 ** (WIDTH - 1)) * 10.0**it for it in DECADES])
    numbers *= 10.0 ** (2 - WIDTH)
    found = []
    l = held(numbers, 6)
    c = held(1e3 * l / surge**2, 9)
    with np.errstate(divide="ignore", invalid="ignore"):
        km = held(travel / np.sqrt(1e-9 * l * c), 6)
        errors = np.maximum(np.abs(np.sqrt(1e3 * l / c) / surge - 1), np.abs(km * np.sqrt(1e-9 * l * c) / travel - 1))
        found.append((0, l, c, km, _costs(errors, ohm, km)))
        km = held(numbers, 6)
        speed = held(km / travel, 6)
        errors = np.abs(km / speed / travel - 1) + abs(float(held(np.array([surge]), 6)[0]) / surge - 1)
        found.append((1, np.full_like(km, surge), speed, km, _costs(errors, ohm, km)))
    best = []
    for iline, a, b, length, costs in found:
        for at in np.argpartition(costs, 3)[:3]:
            if math.isfinite(costs[at]):
                best.append((iline, float(a[at]), float(b[at]), float(length[at])))
    return best


def _costs(errors: np.ndarray, ohm: float, length: np.ndarray) -> np.ndarray:
    """What each candidate loses, the resistance a length in six columns counted a little."""
    kept = np.where((length >= 1e-6) & (length <= 1e6), errors, np.inf)
    if not ohm:
        return kept
    own = held(ohm / length, 6)
    return np.maximum(kept, OF_R * np.abs(own * length / ohm - 1))


@functools.lru_cache(maxsize=256)
def best(surge: float, travel: float, ohm: float) -> Kept | None:
    """The fields that keep a line of this surge impedance in ohm, travel time in s and whole resistance in ohm best; none
    where no columns hold it."""
    found = None
    for iline, first, second, length in _candidates(surge, travel, ohm):
        card = columns.LINES[iline]
        names = [it.name for it in columns.LINE_VALUES[iline]]
        try:
            own = {names[0]: _fitted(first, card.field(names[0])), names[1]: _fitted(second, card.field(names[1]))}
            own["length"] = _fitted(length, card.field("length"))
            own["R"] = _fitted(ohm / length, card.field("R"), None)
        except fields.FieldError:
            continue
        kept = made(iline, own, surge, travel, ohm)
        if found is None or kept.cost < found.cost:
            found = kept
    return found


def made(iline: int, own: dict[str, Fitted], surge: float, travel: float, ohm: float) -> Kept:
    """What these fields keep of a line."""
    first, second = (own[it.name].kept / 10.0**it.scale for it in columns.LINE_VALUES[iline])
    length = own["length"].kept / 1e6
    zc, tau = of_fields(iline, first, second, length)
    r = own["R"].kept / 1e6 * length
    return Kept(iline, own, abs(zc / surge - 1), abs(tau / travel - 1), abs(r / ohm - 1) if ohm else 0.0)
