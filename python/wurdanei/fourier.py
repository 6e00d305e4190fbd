"""Phasors of channels over the time, as a relay has them: samples, anti-alias filter, full-cycle Fourier, and the decaying
offset taken out.

A window of one cycle with N samples gives X = 2/N times the sum of x e^(-j w t), of crest values. An offset A r^n in it adds

    2 D (1 - r) / (1 - r e^(-j 2 pi / N))     from the window's first sample on, D being the mean of the window

and r is that by which D falls from one window to one an eighth of a cycle later, and again to the next one: where both
differ, a window has two states of the network in it, and nothing is taken out. Source: Guo, Kezunovic and Chen,
Simplified algorithms for removal of the effect of exponentially decaying DC-offset on the Fourier algorithm, IEEE
Transactions on Power Delivery 18 (2003); the form by means of windows is this project's own.
"""

from __future__ import annotations

from dataclasses import dataclass, field
from typing import Sequence

import numpy as np

from .configuration import RecordError
from .lowpass import lowpass
from .record import Record
from .signals import Signal, signal_of, where

LEAST_SAMPLES, MOST_SAMPLES = 8, 400  # of a cycle
ALIKE = 0.1  # by so much may the offset fall otherwise from one eighth of a cycle to the next


@dataclass(frozen=True)
class Phasors:
    """Complex crest values at times in s, nan in the first cycle: `values` of shape (channels, samples).

    Their angle counts from a cosine whose crest stands at 0 s of the record.
    """

    times: np.ndarray = field(repr=False)
    values: np.ndarray = field(repr=False)
    hz: float
    samples: int  # of a cycle
    shown: np.ndarray = field(repr=False)  # the samples behind the filter, shape (channels, samples)
    told: list[str]


def phasors_of(
    record: Record,
    names: Sequence[tuple[str, str]],
    hz: float = 50.0,
    rate: float | None = None,
    corner: float | None = None,
    offset: bool = True,
) -> Phasors:
    """The phasors of channels, each (name, unit), at the frequency `hz`.

    `rate` in Hz is that of the relay's samples, else the nearest one to the record's that has whole samples a cycle;
    `corner` in Hz that of a Butterworth filter of second order before them, none without it; `offset` takes the
    decaying offset out. RecordError where a cycle has too few samples, or the record is shorter than two cycles.
    """
    if not hz > 0:
        raise RecordError(f"a line frequency of {hz:g} Hz isn't above 0")
    signals = [signal_of(record, name, unit) for name, unit in names]
    step = max(it.step for it in signals)
    own = 1 / step
    wanted = own if rate is None else rate
    count = int(np.floor(min(wanted, MOST_SAMPLES * hz if rate is None else wanted) / hz + 1e-6))
    if not LEAST_SAMPLES <= count or wanted > 1.001 * own:
        raise RecordError(
            f"{where(record)}: {wanted:g} samples a second of {hz:g} Hz, where the record has {own:.6g}: "
            f"a relay has at least {LEAST_SAMPLES} samples a cycle, and no more than the record"
        )
    begin = max(float(it.times[0]) for it in signals)
    end = min(float(it.times[-1]) for it in signals)
    times = begin + np.arange(int((end - begin) * hz * count * (1 + 1e-12)) + 1) / (hz * count)
    if len(times) < 2 * count:
        raise RecordError(f"{where(record)}: it lasts {end - begin:g} s, and two cycles of {hz:g} Hz are needed")
    shown = np.array([_sampled(it, times, corner) for it in signals])
    told = list(dict.fromkeys(words for it in signals for words in it.told))
    return Phasors(times, turned(shown, times, hz, count, offset), hz, count, shown, told)


def _sampled(signal: Signal, times: np.ndarray, corner: float | None) -> np.ndarray:
    """A channel at the relay's samples, behind its filter."""
    if corner is None:
        return signal.at(times)
    step = signal.step
    even = signal.times[0] + step * np.arange(int(round((signal.times[-1] - signal.times[0]) / step)) + 1)
    try:
        return np.interp(times, even, lowpass(signal.at(even), step, corner))
    except ValueError as fault:
        raise RecordError(str(fault)) from None


def turned(values: np.ndarray, times: np.ndarray, hz: float, count: int, offset: bool) -> np.ndarray:
    """The phasors of samples, `count` a cycle: shape of `values`, (channels, samples), nan in the first cycle."""
    turn = np.exp(-2j * np.pi * hz * times)
    found = 2 / count * _moving(values * turn, count)
    if not offset:
        return found
    means = _moving(values, count).real / count
    back = max(count // 8, 1)
    with np.errstate(invalid="ignore", divide="ignore"):
        fall = np.full(means.shape, np.nan)
        fall[:, back:] = means[:, back:] / means[:, :-back]
        before = np.full(means.shape, np.nan)
        before[:, back:] = fall[:, :-back]
        alike = (fall > 0) & (fall < 1) & (np.abs(fall - before) < ALIKE)
        kept = np.where(alike, fall, 1.0) ** (1 / back)
    begin = np.ones(len(times), complex)  # the turn of the window's first sample
    begin[count - 1 :] = turn[: len(times) - count + 1]
    extra = 2 * means * (1 - kept) / (1 - kept * np.exp(-2j * np.pi / count)) * begin
    return found - extra


def _moving(values: np.ndarray, count: int) -> np.ndarray:
    """Sums over the last `count` samples: shape of `values`, complex, nan where there are fewer."""
    sums = np.cumsum(np.concatenate([np.zeros((len(values), 1)), values], axis=1), axis=1)
    found = np.full(values.shape, np.nan, complex)
    found[:, count - 1 :] = sums[:, count:] - sums[:, :-count]
    return found
