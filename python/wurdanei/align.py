"""The time of one record on the scale of another.

A shift is a measured record's time less the case's: time of the measured record = time of the case + shift. It is
found by least squares of all pairs of channels together: on a grid over all shifts by Fourier transforms, then on the
steps of the case around the best one, and between these. Its uncertainty is told by the jackknife over pieces of the
time (B. Efron and R. Tibshirani, An Introduction to the Bootstrap, chapter 11), so that differences which last longer
than a sample count once.
"""

from __future__ import annotations

import math
from dataclasses import dataclass, field, replace
from functools import cached_property

import numpy as np
from scipy import fft, optimize

from .resample import even_spacing

OVERLAP = 0.8  # share of the shorter of record and window that has to have a partner
SCANT = 0.2  # such a share is looked at, and told where it fits far better
NEARLY = 0.005  # of the power of both curves: by so much more a shift still fits nearly as well
POOR = 0.01  # of that power, a pair: a misfit above it may have a cause that is told
FAR_BETTER = 0.25  # of a misfit: what another shift or polarity has to leave of it to be told
PIECES = 10  # of the jackknife
MOST_POINTS = 1 << 17  # of the grid over all shifts
MOST_TRIES = 4000  # shifts that are tried around one
MOST_DOUBLINGS = 6  # of the reach, while the best shift stands at its end
MOST_CLOCK = 1e-3  # a clock that is farther off isn't looked for
SEEN = 0.3  # of the misfit: what a clock has to explain by its slope alone to be looked for


class AlignError(ValueError):
    """Why no shift can be told, in words."""


@dataclass(frozen=True)
class Pair:
    """A channel of the case and one of the measured record, in one unit, without missing values.

    `case_times` and `case_values` have the shape (case samples,), `times` and `values` (measured samples,); times are
    in s and rise. `free` says that the factor of the measured values is unknown; `name` is what is told of the pair.
    """

    case_times: np.ndarray
    case_values: np.ndarray
    times: np.ndarray
    values: np.ndarray
    free: bool = False
    name: str = ""

    def inside(self, shift: float, window: tuple[float, float], margin: float = 0.0) -> slice:
        """Which measured samples lie on the case's record and in the window, (begin, end) in s of the case."""
        at = self.times - shift
        begin = max(window[0], self.case_times[0]) + margin
        end = min(window[1], self.case_times[-1]) - margin
        first = int(np.searchsorted(at, begin))
        return slice(first, max(first, int(np.searchsorted(at, end, "right"))))

    def case_at(self, times: np.ndarray) -> np.ndarray:
        """The case's values at these times of the case, straight between its samples."""
        return np.interp(times, self.case_times, self.case_values)

    @cached_property
    def case_step(self) -> float:
        """The time between two samples of the case, in s: the median one."""
        return even_spacing(self.case_times) or float(np.median(np.diff(self.case_times)))

    @cached_property
    def step(self) -> float:
        """The time between two measured samples, in s: the median one."""
        return even_spacing(self.times) or float(np.median(np.diff(self.times)))

    @cached_property
    def stride(self) -> int:
        """How many steps of the case a measured one has, where both records are even and it is a whole number; else
        0."""
        own, other = even_spacing(self.case_times), even_spacing(self.times)
        if own is None or other is None:
            return 0
        count = round(other / own)
        return count if count and abs(other / own - count) * len(self.times) < 1e-6 else 0

    def case_beside(self, those: slice, shift: float) -> np.ndarray:
        """The case's values at these measured samples, as `case_at` has them."""
        count = those.stop - those.start
        if self.stride and count:
            place = float((self.times[those.start] - shift - self.case_times[0]) / self.case_step)
            first = math.floor(place)
            last = first + self.stride * (count - 1)
            if 0 <= first and last + 1 < len(self.case_values):
                left = self.case_values[first : last + 1 : self.stride]
                return left + (place - first) * (self.case_values[first + 1 : last + 2 : self.stride] - left)
        return self.case_at(self.times[those] - shift)


@dataclass(frozen=True)
class Shift:
    """A shift in s, its standard deviation in s, other shifts that fit nearly as well, and what may explain a poor
    fit."""

    seconds: float
    deviation: float
    others: list[float]
    told: list[str] = field(default_factory=list)


def power_of(values: np.ndarray) -> float:
    """The sum of the squares."""
    return float(values @ values)


def factor_of(wanted: np.ndarray, given: np.ndarray) -> float:
    """By what the given values have to be multiplied to be nearest to the wanted ones by least squares."""
    power = power_of(given)
    return float(wanted @ given) / power if power else 1.0


def misfit(pairs: list[Pair], kept: list[slice], powers: list[float], shift: float) -> float:
    """The sum over all pairs of the squared differences over a pair's power, of the samples that are kept.

    Where the factor is free, it is the part of the measured curve's power that no multiple of the case's explains.
    """
    total = 0.0
    for pair, those, power in zip(pairs, kept, powers):
        case, measured = pair.case_beside(those, shift), pair.values[those]
        if pair.free:
            measured = measured - case * factor_of(measured, case)
        else:
            measured = measured - case
        total += power_of(measured) / power
    return total


def powers_of(pairs: list[Pair], kept: list[slice], shift: float) -> list[float]:
    """The power by which each pair counts: that of both curves, or twice the measured one's where the factor is free."""
    found = []
    for pair, those in zip(pairs, kept):
        own = power_of(pair.values[those])
        found.append(own + (own if pair.free else power_of(pair.case_beside(those, shift))) or 1.0)
    return found


# ---- all shifts


@dataclass
class Tried:
    """Shifts in s that rise evenly, and of each the misfit of all pairs: shape (shifts,); infinite where too little
    overlaps.

    `scant` is the misfit where less overlaps too; `turned` the least one by either sign of each pair's factor.
    """

    shifts: np.ndarray
    misfits: np.ndarray
    scant: np.ndarray
    turned: np.ndarray


def misfits_on_grid(pairs: list[Pair], grid: float) -> Tried:
    """The misfits of all shifts that are a multiple of `grid` seconds apart.

    The case is taken on the grid, and each measured sample counts at its two neighbours there, so that nothing is
    assumed between measured samples. All sums over what overlaps are correlations, each a product of Fourier
    transforms.
    """
    first = min(pair.case_times[0] for pair in pairs)
    offset = min(pair.times[0] for pair in pairs) - first
    here = np.arange(first, max(pair.case_times[-1] for pair in pairs) + grid / 2, grid)
    there = int((max(pair.times[-1] for pair in pairs) - offset - first) / grid) + 2
    size = fft.next_fast_len(len(here) + there, True)
    total, scant, turned = np.zeros(size), np.zeros(size), np.zeros(size)
    shared, seen = np.zeros(0), (np.zeros(0), np.zeros(0))  # of the pair before, which mostly has the same times
    for pair in pairs:
        if pair.case_times is not seen[0] or pair.times is not seen[1]:
            seen = pair.case_times, pair.times
            on = (here >= pair.case_times[0]) & (here <= pair.case_times[-1])
            place = (pair.times - offset - first) / grid
            left = np.floor(place).astype(np.int64)
            part = place - left
            spread_ones = fft.rfft(_spread(left, part, np.ones(len(part)), there), size)
            here_is = np.conj(fft.rfft(on * 1.0, size))
            shared = fft.irfft(spread_ones * here_is, size)
            share = shared / min(float(len(part)), max(shared.max(), 1.0))
        u = np.interp(here, pair.case_times, pair.case_values) * on
        case_power = np.maximum(fft.irfft(spread_ones * np.conj(fft.rfft(u * u, size)), size), 0)
        power = np.maximum(fft.irfft(fft.rfft(_spread(left, part, pair.values**2, there), size) * here_is, size), 0)
        values = fft.rfft(_spread(left, part, pair.values, there), size)
        cross = fft.irfft(values * np.conj(fft.rfft(u, size)), size)
        own, other = power_of(u), power_of(pair.values)
        both = np.maximum(case_power + power, 1e-12 * (own + other) + 1e-300)
        if pair.free:
            least = 1e-12 * own * other + 1e-300  # what the transforms round to
            found = either = (1 - cross**2 / np.maximum(case_power * power, least)) / 2
        else:
            found, either = (both - 2 * cross) / both, (both - 2 * abs(cross)) / both
        total += np.where(share >= OVERLAP, found, np.inf)
        scant += np.where(share >= SCANT, found, np.inf)
        turned += np.where(share >= OVERLAP, either, np.inf)
    lags = np.arange(size)
    lags = np.where(lags < there, lags, lags - size)
    order = np.argsort(lags)
    return Tried(lags[order] * grid + offset, total[order], scant[order], turned[order])


def _spread(left: np.ndarray, part: np.ndarray, values: np.ndarray, count: int) -> np.ndarray:
    """Values on a grid of so many points, each shared by the point to its left and the next one: shape (count,)."""
    right = values * part
    return np.bincount(left, values - right, count) + np.bincount(left + 1, right, count)


def nearly_as_good(misfits: np.ndarray, pairs: int) -> list[int]:
    """The places of the least misfit of each run of shifts that fit nearly as well as the best one; that one first."""
    best = int(np.argmin(misfits))
    good = np.flatnonzero(misfits <= misfits[best] + NEARLY * pairs)
    runs = np.split(good, np.flatnonzero(np.diff(good) > 1) + 1)
    least = [int(run[np.argmin(misfits[run])]) for run in runs]
    return [best] + [place for place in least if place != best]


# ---- one shift


def refined(pairs: list[Pair], shift: float, reach: float, window: tuple[float, float]) -> float:
    """The shift of the least misfit within `reach` seconds of `shift`, and farther on where that stands at an end.

    All tries of one round are of the same samples. A misfit is nearly a parabola between two steps of the case, and
    may have a kink or a jump at a step: so each step is tried, and then both sides of the best one. AlignError where
    the misfit falls on and on.
    """
    fine = max(min(pair.case_step for pair in pairs), 2 * reach / MOST_TRIES)
    for _ in range(MOST_DOUBLINGS + 1):
        steps = np.arange(-math.ceil(reach / fine), math.ceil(reach / fine) + 1)
        kept = [pair.inside(shift, window, reach) for pair in pairs]
        if not all(those.stop > those.start for those in kept):
            kept = [pair.inside(shift, window) for pair in pairs]
        powers = powers_of(pairs, kept, shift)
        tried = [misfit(pairs, kept, powers, shift + fine * step) for step in steps]
        best = int(np.argmin(tried))
        shift += fine * float(steps[best])
        if 0 < best < len(tried) - 1:
            break
        reach, fine = 2 * reach, max(fine, 4 * reach / MOST_TRIES)
    else:
        raise AlignError(f"the best shift isn't found: beyond {shift:g} s it still fits better")

    def beside(part: float) -> float:
        return misfit(pairs, kept, powers, shift + fine * part)

    least = (tried[best], 0.0)
    for side in ((-1.0, 0.0), (0.0, 1.0)):
        found = optimize.minimize_scalar(beside, bounds=side, method="bounded", options={"xatol": 1e-5})
        least = min(least, (float(found.fun), float(found.x)))
    return shift + fine * least[1]


@dataclass(frozen=True)
class Pulls:
    """Of pieces of the time, shape (pieces,): the sum of the squared slopes, what pulls at the shift, and where in the
    measured record they lie, in s. `white` is the variance of all pulls together where the differences are white noise.
    """

    slopes: np.ndarray
    pulls: np.ndarray
    at: np.ndarray
    white: float


def pulls_of(pairs: list[Pair], shift: float, grid: float, window: tuple[float, float]) -> Pulls:
    """What each piece of the time adds to the slope of the misfit over the shift."""
    slopes, pulls, moments, white = np.zeros(PIECES), np.zeros(PIECES), np.zeros(PIECES), 0.0
    kept = [pair.inside(shift, window, grid) for pair in pairs]
    for pair, those, power in zip(pairs, kept, powers_of(pairs, kept, shift)):
        at, measured = pair.times[those], pair.values[those]
        if len(at) < PIECES:
            continue
        case = pair.case_beside(those, shift)
        slope = (pair.case_beside(those, shift + grid / 2) - pair.case_beside(those, shift - grid / 2)) / grid
        if pair.free:  # what another factor would do isn't the shift's
            factor = factor_of(measured, case)
            slope = factor * (slope - case * factor_of(slope, case))
            case = factor * case
        piece = np.minimum(((at - at[0]) / (at[-1] - at[0]) * PIECES).astype(int), PIECES - 1)
        weights = slope * slope / power
        slopes += np.bincount(piece, weights, PIECES)
        pulls += np.bincount(piece, slope * (case - measured) / power, PIECES)
        moments += np.bincount(piece, weights * at, PIECES)
        white += float(weights.sum()) / power * power_of(case - measured) / len(at)
    return Pulls(slopes, pulls, np.divide(moments, slopes, out=np.full(PIECES, np.nan), where=slopes > 0), white)


def deviation_of(pairs: list[Pair], shift: float, grid: float, window: tuple[float, float]) -> float:
    """The standard deviation of a shift of the least misfit, in s: by the jackknife over pieces of equal time, and not
    below that of white noise, since of ten pieces few may hold what tells the shift."""
    found = pulls_of(pairs, shift, grid, window)
    left = found.slopes.sum() - found.slopes
    if not (left > 0).all():
        raise AlignError("what changes in these channels does so at one moment or never: give the shift in seconds")
    steps = -(found.pulls.sum() - found.pulls) / left
    pieces = (PIECES - 1) / PIECES * float(((steps - steps.mean()) ** 2).sum())
    return math.sqrt(max(pieces, found.white / float(found.slopes.sum()) ** 2))


def with_clock(pair: Pair, clock: float) -> Pair:
    """The pair by a measured clock that is right: one that gains `clock` (1e-6: a ppm) tells so much longer times."""
    return replace(pair, times=pair.times / (1 + clock)) if clock else pair


def clock_of(pairs: list[Pair], shift: float, grid: float, window: tuple[float, float]) -> tuple[float, float]:
    """By which part the measured clock gains on the case's, by weighted least squares of the shifts of ten pieces of
    the time, and the shift with that clock; (0, shift) where nothing of the kind is seen.

    It is seen where a right clock would leave less than half of the misfit.
    """
    clock, now, moved, total = 0.0, pairs, shift, _misfit_at(pairs, shift, window)
    for turn in range(5):
        found = pulls_of(now, moved, grid, window)
        there = found.slopes > 0
        if there.sum() < 3:
            return 0.0, shift
        weights, at = found.slopes[there], found.at[there]
        off = -found.pulls[there] / weights
        middle = float(np.average(at, weights=weights))
        spread = float(np.sum(weights * (at - middle) ** 2))
        gain = float(np.sum(weights * (at - middle) * off)) / spread if spread else 0.0
        clock += gain
        if not abs(clock) <= MOST_CLOCK or turn == 0 and gain**2 * spread < SEEN * total:
            return 0.0, shift
        now = [with_clock(pair, clock) for pair in pairs]
        moved = refined(now, moved - gain * middle, grid, window)
    return (clock, moved) if _misfit_at(now, moved, window) < total / 2 else (0.0, shift)


def _misfit_at(pairs: list[Pair], shift: float, window: tuple[float, float]) -> float:
    kept = [pair.inside(shift, window) for pair in pairs]
    return misfit(pairs, kept, powers_of(pairs, kept, shift), shift)


def fitted(pairs: list[Pair], window: tuple[float, float] = (-np.inf, np.inf)) -> Shift:
    """The shift of the least misfit of all pairs together over a window, (begin, end) in s of the case.

    AlignError where nothing in the channels changes, or where no shift lays enough of one record on the other.
    """
    cut = []
    for pair in pairs:
        kept = _in_window(pair, window)
        if len(kept.case_times) < 2 or len(pair.times) < 2:
            raise AlignError("fewer than two samples of a channel are left to lay beside each other")
        cut.append(kept)
    cut = [pair for pair in cut if np.ptp(pair.case_values) and np.ptp(pair.values)]
    if not cut:
        raise AlignError("nothing in these channels changes, so no shift can be found: give it in seconds")
    steps = [step for pair in cut for step in (pair.case_step, pair.step)]
    spans = [times[-1] - times[0] for pair in cut for times in (pair.case_times, pair.times)]
    grid = max(min(steps), 2 * max(spans) / MOST_POINTS)
    tried = misfits_on_grid(cut, grid)
    if not np.isfinite(tried.misfits).any():
        raise AlignError(
            f"no shift lays {100 * OVERLAP:g} % of the measured record, or of the window, on the other record: "
            "give the shift in seconds, or a shorter window"
        )
    best, *others = nearly_as_good(tried.misfits, len(cut))
    shift = refined(cut, float(tried.shifts[best]), 2 * max(grid, max(steps)), window)
    deviation = deviation_of(cut, shift, grid, window)
    told = hints(cut, tried, shift, deviation, grid, window)
    return Shift(shift, deviation, [float(tried.shifts[place]) for place in others], told)


def _in_window(pair: Pair, window: tuple[float, float]) -> Pair:
    """The pair with the samples of the case that lie in the window."""
    first = int(np.searchsorted(pair.case_times, window[0]))
    last = int(np.searchsorted(pair.case_times, window[1], "right"))
    if last - first == len(pair.case_times):
        return pair
    return replace(pair, case_times=pair.case_times[first:last], case_values=pair.case_values[first:last])


# ---- what may explain a poor fit


def hints(
    pairs: list[Pair], tried: Tried, shift: float, deviation: float, grid: float, window: tuple[float, float]
) -> list[str]:
    """Why the curves may lie apart at the best shift: a clock that drifts, a polarity that is turned, an overlap that
    is too short to be taken."""
    total, told = _misfit_at(pairs, shift, window), []
    clock, _ = clock_of(pairs, shift, grid, window)
    span = max(float(pair.times[-1] - pair.times[0]) for pair in pairs)
    if abs(clock) * span > max(3 * deviation, grid / 10):
        told.append(
            f"the measured clock gains {1e6 * clock:+.4g} ppm on the case's, which explains more than half of the "
            f"misfit: --clock {1e6 * clock:.4g} takes it away"
        )
    limit = FAR_BETTER * total
    if total < POOR * len(pairs):
        return told
    place = int(np.argmin(tried.turned))
    if tried.turned[place] < limit:
        at = float(tried.shifts[place])
        told.append(
            f"with the polarity of {_turned(pairs, at, window)} turned (a factor below 0) the curves fit far better, "
            f"at a shift of {1e3 * at:.3f} ms"
        )
    place = int(np.argmin(tried.scant))
    if tried.scant[place] < limit and not np.isfinite(tried.misfits[place]):
        at = float(tried.shifts[place])
        told.append(
            f"at a shift of {1e3 * at:.3f} ms the curves fit far better, but less than {100 * OVERLAP:g} % of the "
            f"shorter record overlap there: --align {at:.6f} takes it"
        )
    return told


def _turned(pairs: list[Pair], shift: float, window: tuple[float, float]) -> str:
    """Which pairs have a factor below 0 at a shift."""
    found = []
    for pair in pairs:
        those = pair.inside(shift, window)
        if not pair.free and pair.case_beside(those, shift) @ pair.values[those] < 0:
            found.append(pair.name)
    return "all pairs" if len(found) == len(pairs) else ", ".join(found)
