"""Values at another rate: a low-pass against aliases where the new rate is lower, straight lines where it is higher.

The low-pass is a sine over its argument with the cut-off at 0.4 of the new rate, within a raised cosine (von Hann) of
8 periods of the new rate to either side, and without a shift in time. It passes what lies below 0.3 of the new rate
to 1 %, and leaves less than 1 % of what lies above half of it. Source: Oppenheim and Schafer, Discrete-Time Signal
Processing, on the design of filters by windows.
"""

from __future__ import annotations

import numpy as np

from .configuration import RecordError

CUT = 0.4  # of the new rate
REACH = 8.0  # periods of the new rate to either side
BLOCK = 1 << 20  # weights that are made at once
MOST = 50_000_000  # points of the even grid before the low-pass
EVEN = 1e-6  # of a spacing: spacings that differ by no more are even


def even_spacing(times: np.ndarray) -> float | None:
    """The spacing of evenly spaced times, shape (samples,), in s; None where they aren't even or are fewer than two."""
    if len(times) < 2:
        return None
    spacing = (times[-1] - times[0]) / (len(times) - 1)
    if spacing <= 0:
        return None
    off = np.abs(times - times[0] - spacing * np.arange(len(times))).max()
    return float(spacing) if off <= EVEN * spacing + 1e-12 * abs(times[-1]) else None


def at_rate(times: np.ndarray, values: np.ndarray, wanted: np.ndarray, rate: float) -> np.ndarray:
    """The values at the wanted times, which have this rate in Hz: shape (wanted,), float64, nan beside missing
    values.

    times: shape (samples,), s, rising. values: shape (samples,), nan where missing. Outside of the times the end
    values go on.
    """
    missing = np.isnan(values)
    if missing.all() or len(times) == 1:
        return np.full(len(wanted), values[0])
    known, its = times[~missing], values[~missing]
    spacing = even_spacing(times) or float(np.median(np.diff(times)))
    if rate * spacing < 1.0 - 1e-9:
        count = np.floor((times[-1] - times[0]) / spacing * (1 + 1e-12)) + 1 if spacing > 0 else np.inf
        if count > MOST:
            raise RecordError(
                f"half of the samples stand {spacing:g} s apart or less, in {times[-1] - times[0]:g} s: too unevenly"
            )
        grid = times[0] + spacing * np.arange(int(count))
        made = low_pass(np.interp(grid, known, its), times[0], spacing, wanted, rate)
    else:
        made = np.interp(wanted, known, its)
    if missing.any():
        gone = np.flatnonzero(missing)
        before, behind = times[np.maximum(gone - 1, 0)], times[np.minimum(gone + 1, len(times) - 1)]
        made[hidden(wanted, before, behind, times[gone])] = np.nan
    return made


def hidden(wanted: np.ndarray, before: np.ndarray, behind: np.ndarray, gone: np.ndarray) -> np.ndarray:
    """Which of the wanted times lie between a missing value's neighbours, shape (wanted,), bool."""
    place = np.searchsorted(before, wanted, "left") - 1  # the last gap that begins before it
    inside = (place >= 0) & (wanted < behind[np.maximum(place, 0)])
    nearest = np.searchsorted(gone, wanted, "left")
    exact = (nearest < len(gone)) & (gone[np.minimum(nearest, len(gone) - 1)] == wanted)
    return inside | exact


def low_pass(values: np.ndarray, first: float, spacing: float, wanted: np.ndarray, rate: float) -> np.ndarray:
    """Values on an even grid from `first` on, seen through the low-pass at the wanted times: shape (wanted,)."""
    reach = int(np.ceil(REACH / (rate * spacing)))
    padded = np.concatenate([np.full(reach, values[0]), values, np.full(reach + 1, values[-1])])
    offsets = np.arange(-reach, reach + 1)
    made = np.empty(len(wanted))
    size = max(1, BLOCK // len(offsets))
    for at in range(0, len(wanted), size):
        place = (wanted[at : at + size] - first) / spacing
        nearest = np.clip(np.rint(place), 0, len(values) - 1).astype(np.int64)
        away = (nearest[:, None] + offsets - place[:, None]) * (spacing * rate)  # in periods of the new rate
        weights = np.sinc(2 * CUT * away) * np.cos(0.5 * np.pi * np.clip(away / REACH, -1, 1)) ** 2
        made[at : at + size] = (weights * padded[nearest[:, None] + offsets + reach]).sum(1) / weights.sum(1)
    return made
