"""Numbers that say how far two curves lie apart.

Each takes the case's values and the measured ones at the same instants, shape (samples,), and is told in % of the
measured curve. docs/compare.md has their definitions in formulas, with their sources.
"""

from collections.abc import Callable
from typing import NamedTuple

import numpy as np
from scipy import fft

Curves = tuple[np.ndarray, np.ndarray]  # of the case and of the measured record

NOTHING = 1e-9  # of the greatest magnitude: a part of a curve below it is what transforms round to


def percent(part: float, whole: float) -> float:
    """`part` in % of `whole`; of nothing, 0 is 0 % and anything else infinitely much."""
    if whole:
        return 100 * part / whole
    return 0.0 if not part else float(np.copysign(np.inf, part))


def rms(values: np.ndarray) -> float:
    """The root of the mean of the squares."""
    return float(np.sqrt(np.mean(values * values)))


def rms_difference(case: np.ndarray, measured: np.ndarray) -> float:
    """The effective value of the difference, in % of the measured effective value."""
    return percent(rms(case - measured), rms(measured))


def peak_difference(case: np.ndarray, measured: np.ndarray) -> float:
    """The case's greatest magnitude less the measured one, in % of the measured one."""
    peak = float(np.max(abs(measured)))
    return percent(float(np.max(abs(case))) - peak, peak)


def band(
    case_times: np.ndarray, case_values: np.ndarray, at: np.ndarray, width: float
) -> tuple[np.ndarray, np.ndarray]:
    """The least and the greatest value that the case has within `width` seconds of each instant of `at`, on either side.

    `case_times`, in s, rise; the case is straight between its samples. Both answers have the shape of `at`.
    """
    begin, end = at - width, at + width
    ends = np.stack([np.interp(it, case_times, case_values) for it in (begin, end)])
    low, high = ends.min(0), ends.max(0)
    first, last = np.searchsorted(case_times, begin), np.searchsorted(case_times, end)
    some = last > first
    spans = np.stack([first, last], axis=1)[some].ravel()
    low[some] = np.minimum(low[some], np.minimum.reduceat(np.append(case_values, np.inf), spans)[::2])
    high[some] = np.maximum(high[some], np.maximum.reduceat(np.append(case_values, -np.inf), spans)[::2])
    return low, high


def beyond(measured: np.ndarray, low: np.ndarray, high: np.ndarray) -> np.ndarray:
    """How far each measured value lies outside of its band, 0 within it."""
    return np.maximum(0, np.maximum(measured - high, low - measured))


class Features(NamedTuple):
    """Means of the amplitude, the feature and the global difference measure of IEEE 1597.1 (FSV); 0 where both agree."""

    amplitude: float
    feature: float
    whole: float


def features(case: np.ndarray, measured: np.ndarray) -> Features:
    """The difference measures of two curves on one even grid, shape (samples,), by Feature Selective Validation.

    IEEE 1597.1-2008; A. P. Duffy et al., IEEE Transactions on Electromagnetic Compatibility 48 (2006), 449 to 459.
    """
    if np.array_equal(case, measured):  # of which a transform of both would leave its rounding
        return Features(0.0, 0.0, 0.0)
    samples, least = len(case), NOTHING * float(max(np.max(abs(case)), np.max(abs(measured))))
    both = fft.fft(case + 1j * measured)  # both spectra by one transform
    half = np.arange(samples // 2 + 1)
    mirrored = np.conj(both[-half])
    turn = min(_turn(both[half] + mirrored), _turn(both[half] - mirrored))
    place = np.minimum(np.arange(samples), samples - np.arange(samples))
    rest, slow = place >= 4, np.clip((turn + 3 - place) / 6, 0, 1)
    offsets, lows = ((it.real, it.imag) for it in (fft.ifft(both * share) for share in (1 - rest, rest * slow)))
    highs = (case - offsets[0] - lows[0], measured - offsets[1] - lows[1])
    offsets, lows, highs = (
        _both(lambda it: it if np.max(abs(it)) > least else 0 * it, its) for its in (offsets, lows, highs)
    )
    low_slopes, high_slopes = _both(np.gradient, lows), _both(np.gradient, highs)
    shift = abs(_apart(offsets, 1))
    amplitude = abs(_apart(lows, 1)) + shift * np.exp(shift)
    feature = 2 * abs(_apart(low_slopes, 2) + _apart(high_slopes, 6) + _apart(_both(np.gradient, high_slopes), 7.2))
    whole = np.sqrt(amplitude**2 + feature**2)
    return Features(float(amplitude.mean()), float(feature.mean()), float(whole.mean()))


def _both(change: Callable[[np.ndarray], np.ndarray], curves: Curves) -> Curves:
    return change(curves[0]), change(curves[1])


def _turn(spectrum: np.ndarray) -> int:
    """Where slow parts end and fast ones begin: five places behind that by which 40 % of the magnitudes are summed up,
    those of the first four places left out."""
    sums = np.cumsum(abs(spectrum[4:]))
    return 4 + int(np.searchsorted(sums, 0.4 * sums[-1])) + 5 if len(sums) and sums[-1] > 0 else len(spectrum)


def _apart(curves: Curves, weight: float) -> np.ndarray:
    """The difference of two magnitudes over so many times the mean of their sum; 0 where both are nothing."""
    case, measured = np.abs(curves[0]), np.abs(curves[1])
    mean = float(np.mean(case + measured))
    if not mean:
        return np.zeros(len(case))
    return (case - measured) / (weight * mean)
