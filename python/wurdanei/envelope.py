"""The reference line and the delay line of a transient recovery voltage, as IEC 62271-100 draws them.

Of a rating from 100 kV on they come by the formulas of edition 2, with b = kpp Ur root(2/3):

    four parameters: u1 = 0.75 b, t1 = u1 / RRRV, uc = kaf b, t2 a multiple of t1
    two parameters:  uc = kaf b, t3 = uc / RRRV

`FORMS` has kaf, RRRV and the multiple of each duty. They give the figures of the standard's table for 145 kV; who has
another edition, or a duty that isn't there, gives the parameters as numbers.
"""

from __future__ import annotations

import math
from dataclasses import dataclass
from typing import Sequence

import numpy as np

DUTIES = ("T100", "T60", "T30", "T10", "L90", "L75", "OOP", "CAP")
LEAST_KV, MOST_KV = 100.0, 800.0  # of the ratings that the formulas are for
SOURCE = "IEC 62271-100, edition 2, by its formulas"


@dataclass(frozen=True)
class Form:
    """What the formulas have of a duty: first-pole-to-clear factors, amplitude factor, rate of rise in V/s, and t2 in
    t1 (0: two parameters). `factors` maps the system's kpp to that of the duty."""

    factors: dict[float, float]
    amplitude: float
    rate: dict[float, float]  # by the system's kpp
    multiple: float


def _same(rate: float) -> dict[float, float]:
    return {1.3: rate, 1.5: rate}


FORMS = {
    "T100": Form({1.3: 1.3, 1.5: 1.5}, 1.40, _same(2.0e9), 4.0),
    "T60": Form({1.3: 1.3, 1.5: 1.5}, 1.50, _same(3.0e9), 6.0),
    "T30": Form({1.3: 1.3, 1.5: 1.5}, 1.54, _same(5.0e9), 0.0),
    "T10": Form({1.3: 1.5, 1.5: 1.5}, 0.9 * 1.7, _same(7.0e9), 0.0),
    "L90": Form({1.3: 1.0, 1.5: 1.0}, 1.40, _same(2.0e9), 4.0),  # of the source's side
    "L75": Form({1.3: 1.0, 1.5: 1.0}, 1.40, _same(2.0e9), 4.0),
    "OOP": Form({1.3: 2.0, 1.5: 2.5}, 1.25, {1.3: 1.54e9, 1.5: 1.67e9}, 4.0),  # t2 is 2 to 4 t1: the lower line
}
LINE_OHM, LINE_PEAK = 450.0, 1.6  # of a short line: surge impedance, peak factor


class NotAtHand(ValueError):
    """No formula is at hand for a duty or a rating; the words say what is wanted."""


@dataclass(frozen=True)
class Envelope:
    """A reference line through (t1, u1) to (t2, uc) and level from there; of two parameters both points are one.

    With `td` a delay line besides: parallel to the first part from (td, 0) to the voltage `ud`. V and s from the zero.
    """

    u1: float
    t1: float
    uc: float
    t2: float
    td: float | None = None
    ud: float = 0.0
    source: str = "as given"

    def __post_init__(self) -> None:
        if not (0 < self.t1 <= self.t2 < math.inf and 0 < self.u1 <= self.uc < math.inf):
            raise ValueError("an envelope has 0 < t1 <= t2 and 0 < u1 <= uc")
        if (self.t1 == self.t2) != (self.u1 == self.uc):
            raise ValueError("an envelope of two parameters has u1 = uc and t1 = t2, another one neither")
        if self.td is not None and not (0 <= self.td < math.inf and 0 < self.ud <= self.u1):
            raise ValueError("a delay line has a delay of 0 or more, and ends above 0 V and not above u1")

    @property
    def rate(self) -> float:
        """The slope of the first part in V/s."""
        return self.u1 / self.t1

    @property
    def parameters(self) -> int:
        return 2 if self.t1 == self.t2 else 4

    def at(self, times: np.ndarray) -> np.ndarray:
        """The reference line at times in s from the zero: V, shape of `times`."""
        corners = ([0.0, self.t1, self.t2], [0.0, self.u1, self.uc])
        if self.parameters == 2:
            corners = ([0.0, self.t1], [0.0, self.uc])
        return np.interp(times, *corners)

    def corners(self, until: float) -> tuple[np.ndarray, np.ndarray]:
        """The points of the reference line, to its end at `until` s."""
        times = np.array(sorted({0.0, self.t1, self.t2, max(until, self.t2)}))
        return times, self.at(times)

    def delay_line(self) -> tuple[np.ndarray, np.ndarray]:
        """The two ends of the delay line, in s and V; none without a delay."""
        if self.td is None:
            return np.empty(0), np.empty(0)
        return np.array([self.td, self.td + self.ud / self.rate]), np.array([0.0, self.ud])

    def __str__(self) -> str:
        if self.parameters == 2:
            words = f"uc {self.uc / 1e3:.4g} kV, t3 {self.t2 * 1e6:.4g} us"
        else:
            words = (
                f"u1 {self.u1 / 1e3:.4g} kV, t1 {self.t1 * 1e6:.4g} us, "
                f"uc {self.uc / 1e3:.4g} kV, t2 {self.t2 * 1e6:.4g} us"
            )
        delay = "" if self.td is None else f", td {self.td * 1e6:.4g} us to {self.ud / 1e3:.4g} kV"
        return f"{words}{delay}, {self.rate / 1e9:.4g} kV/us ({self.source})"


def rated(duty: str, rated_kv: float, kpp: float = 1.3) -> Envelope:
    """The envelope of a duty of a rated voltage in kV, of systems with the first-pole-to-clear factor 1.3 or 1.5.

    NotAtHand where no formula is at hand. Without a delay: the standard's td is that of the edition at hand.
    """
    if duty not in DUTIES:
        raise ValueError(f"the duty {duty!r} is none of {', '.join(DUTIES)}")
    if duty not in FORMS:
        raise NotAtHand(f"no formula is at hand for the duty {duty}: give its parameters by an envelope")
    if not LEAST_KV <= rated_kv <= MOST_KV:
        raise NotAtHand(
            f"the formulas at hand are for ratings from {LEAST_KV:g} to {MOST_KV:g} kV, and {rated_kv:g} kV isn't: "
            "give the parameters by an envelope"
        )
    form = FORMS[duty]
    if kpp not in form.factors:
        raise NotAtHand(
            f"the formulas at hand are for a first-pole-to-clear factor of 1.3 or 1.5, and {kpp:g} isn't: "
            "give the parameters by an envelope"
        )
    base = form.factors[kpp] * rated_kv * 1e3 * math.sqrt(2 / 3)
    uc, rate = form.amplitude * base, form.rate[kpp]
    if not form.multiple:
        return Envelope(uc, uc / rate, uc, uc / rate, source=SOURCE)
    u1 = 0.75 * base
    return Envelope(u1, u1 / rate, uc, form.multiple * u1 / rate, source=SOURCE)


def given(parameters: Sequence[float]) -> tuple[Envelope, list[str]]:
    """An envelope by its parameters in V and s, and what was added to them.

    uc, t3; uc, t3, td; u1, t1, uc, t2; the same with td; or with td and the voltage to which the delay line goes.
    """
    told: list[str] = []
    values = [float(it) for it in parameters]
    if len(values) in (2, 3):
        uc, t3, *rest = values
        u1, t1, t2 = uc, t3, t3
    elif len(values) in (4, 5, 6):
        u1, t1, uc, t2, *rest = values
    else:
        raise ValueError("an envelope has the parameters uc, t3 or u1, t1, uc, t2, and perhaps td behind them")
    if not rest:
        return Envelope(u1, t1, uc, t2), told
    if len(rest) == 1:
        rest.append(u1 / 2 if t1 != t2 else uc / 3)
        told.append(f"the delay line goes to {rest[1] / 1e3:.4g} kV, since no voltage is given behind td")
    return Envelope(u1, t1, uc, t2, rest[0], rest[1]), told
