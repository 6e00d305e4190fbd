"""In which form an inductance or a large capacitance is written, by the whole numbers with which the machine computes.

A series branch has Z = R + near(2 L / dt) + near(dt / 2 C), in whole micro-ohm, and acts by g = near(1e18 / Z), in whole
pS: as if r = 1 / g - Z stood in series with it, of either sign. Over a run of T seconds a current that nothing drives so
changes by the part |r| T / L of itself. A reactor of one point (I, L I) keeps its flux instead, and has no such r; it has no
range but that of a flux either, where a series branch keeps 2 L i / dt below 1e9 V.

Source: this project's own (docs/modelling.md, "The range of a branch").
"""

import math
from dataclasses import dataclass
from fractions import Fraction

LEAST_OHM, MOST_OHM = 10, 10**15  # of an impedance, in micro-ohm
DRIFT = Fraction(1, 10**4)  # of a current over a run, or of R, above which a plain branch isn't taken
PEAK_A = 1e5  # the greatest current to come, where none is given
ROOM_V = 0.9e9  # of the 1e9 V of 2 L i / dt
OFF = Fraction(1, 10**5)  # of a capacitance, above which it is written as several side by side
MOST_PIECES = 3
GREATEST_WB = 10**5  # of the point of a reactor
LEAST_PS, MOST_PS = 1, 10**17  # of the slope of a reactor, in pS


def near(part: int, whole: int) -> int:
    """A quotient of two numbers that aren't negative, rounded to the nearest, a half away from zero."""
    return (2 * part + whole) // (2 * whole)


def of_inductance(dt_ps: int, l_nh: int) -> int:
    """2 L / dt in micro-ohm."""
    return near(2 * 10**9 * l_nh, dt_ps)


def of_capacitance(dt_ps: int, c_ff: int) -> int:
    """dt / (2 C) in micro-ohm; 0 where there is no capacitance."""
    return near(10**9 * dt_ps, 2 * c_ff) if c_ff else 0


def impedance(dt_ps: int, r_uohm: int, l_nh: int, c_ff: int) -> int:
    """Z of a series branch in micro-ohm."""
    return r_uohm + of_inductance(dt_ps, l_nh) + of_capacitance(dt_ps, c_ff)


def acting(z_uohm: int) -> Fraction:
    """r = 1 / g - Z in micro-ohm of a branch whose Z, at most 2e18, is above 0."""
    return Fraction(10**18, near(10**18, z_uohm)) - z_uohm


def drift(r_uohm: Fraction, l_nh: int, time_ps: int) -> Fraction:
    """|r| T / L: by which part of itself a current that nothing drives changes within a time."""
    return abs(r_uohm) * time_ps / (10**9 * l_nh)


@dataclass(frozen=True)
class Inductance:
    """How an inductance is written: plain, as part of a series branch, or by its flux, as a reactor of one point.

    `r_ohm` is what a plain branch acts with besides R, and `drift` which part of itself a current that nothing drives
    wins (r below 0) or loses by it over the run, both as they would be where the form is another one.
    """

    name: str  # the ends
    l_mh: float
    form: str  # "plain" or "flux"
    r_ohm: float
    drift: float
    why: str = ""  # a plain branch isn't taken, in words

    def __str__(self) -> str:
        if self.form == "plain":
            return f"{self.name}: {self.l_mh:g} mH in a series branch, r {self.r_ohm:.4g} ohm, drift {self.drift:.2g}"
        return f"{self.name}: {self.l_mh:g} mH by its flux, as a reactor of one point, since {self.why}"


def judged(
    name: str, dt_ps: int, steps: int, kept: tuple[int, int, int], peak_a: float, form: str | None = None
) -> Inductance:
    """The form of an inductance above 0 within R, L and C as they are kept (micro-ohm, nH, fF): plain where that is exact
    enough and has the range, else by its flux; or the one that is asked for."""
    r, l, c = kept
    z = impedance(dt_ps, r, l, c)
    own = acting(z)
    part = drift(own, l, steps * dt_ps)
    volts = 2e3 * l * abs(peak_a) / dt_ps  # nH over ps
    why = ""
    if z > MOST_OHM:
        why = f"2 L / dt, {z / 1e6:.3g} ohm, is above 1e9 ohm"
    elif part > DRIFT and abs(own) > DRIFT * r:
        why = f"a series branch would act with {float(own) / 1e6:.4g} ohm more, by which a current left alone "
        why += f"{_changed(math.copysign(float(part), -own))} within the run"
    elif volts >= ROOM_V:
        why = f"2 L i / dt of a series branch would be {volts:.3g} V at {abs(peak_a):g} A, and has to stay below 1e9 V"
    chosen = form or ("flux" if why else "plain")
    reason = (why or "it was asked for") if chosen == "flux" else ""
    return Inductance(name, l / 1e6, chosen, float(own) / 1e6, float(part), reason)


def _changed(exponent: float) -> str:
    """What a current does that goes by e^exponent, in words."""
    verb = "grows" if exponent > 0 else "falls"
    if abs(exponent) < 0.1:
        return f"{verb} by {100 * abs(exponent):.2g} %"
    return f"{verb} to {math.exp(exponent):.3g} times itself" if abs(exponent) < 20 else f"{verb} beyond all measure"


def point(l_nh: int) -> tuple[Fraction, Fraction]:
    """The point (A, Wb) of the reactor that an inductance is: a current of a power of ten, 1,000 A at most, whose flux,
    1e5 Wb at most, is exact."""
    amperes = Fraction(1000)
    while amperes * l_nh > GREATEST_WB * 10**9:
        amperes /= 10
    return amperes, amperes * l_nh / 10**9


def has_slope(dt_ps: int, l_nh: int) -> bool:
    """Whether dt / (2 L) is in the range of a reactor's slopes, 1e-12 to 1e5 S."""
    slope = Fraction(dt_ps * 10**9, 2 * l_nh)  # ps over nH are 1e-3 S, so 1e9 pS
    return LEAST_PS <= slope <= MOST_PS


def pieces(dt_ps: int, c_ff: int) -> list[int]:
    """A capacitance as one or several that stand side by side, in fF, so that dt / (2 C), which is kept in whole micro-ohm,
    is that of the whole within 1e-5: the first one's rounded up, the next one's of what is left again."""
    found: list[int] = []
    rest = c_ff
    while len(found) < MOST_PIECES - 1 and off(dt_ps, [*found, rest], c_ff) > OFF:
        z = math.ceil(Fraction(10**9 * dt_ps, 2 * rest))
        piece = near(10**9 * dt_ps, 2 * z)
        others = of_capacitance(dt_ps, rest - piece) if piece < rest else 0
        if z < LEAST_OHM or not LEAST_OHM <= others <= MOST_OHM:  # each piece is a branch of its own
            break
        found.append(piece)
        rest -= piece
    return [*found, rest]


def off(dt_ps: int, parts: list[int], c_ff: int) -> Fraction:
    """By which part of a capacitance its pieces, as the machine has them, are off; 1 where one acts as a wire."""
    ohms = [of_capacitance(dt_ps, it) for it in parts]
    if 0 in ohms:
        return Fraction(1)
    return abs(sum((Fraction(10**9 * dt_ps, 2 * it) for it in ohms), Fraction(0)) / c_ff - 1)
