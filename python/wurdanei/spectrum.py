"""The spectrum of a channel by the window of von Hann, and its peaks.

A sine of crest c shows a peak of c. Between two lines of the spectrum frequency and crest are found from both: with
the ratio r of the greater neighbour to the greatest line the peak stands (2 r - 1) / (1 + r) lines towards it.
Source: Rife and Vincent, Bell System Technical Journal 1970; Harris, Proceedings of the IEEE 1978.
"""

from __future__ import annotations

from dataclasses import dataclass

import numpy as np
from scipy import signal

from .configuration import RecordError
from .resample import even_spacing

LEAST = 8  # samples
SMALL = 1e-3  # of the greatest peak: smaller ones aren't told


@dataclass
class Spectrum:
    """Crest values over frequencies, both of shape (lines,): those of an even grid of times."""

    hertz: np.ndarray
    crests: np.ndarray
    resolution: float  # Hz between two lines
    length: float  # s
    told: str  # what had to be done to the samples, else empty


def spectrum_of(times: np.ndarray, values: np.ndarray, name: str) -> Spectrum:
    """The spectrum of values at rising times in s, shape (samples,) both; gaps and uneven times are bridged by
    straight lines."""
    known = np.isfinite(values)
    count = len(times)
    if known.sum() < LEAST:
        raise RecordError(f"{name} has {known.sum()} values in the time that is asked for: a spectrum wants {LEAST}")
    spacing, told = even_spacing(times), []
    if spacing is None:
        told.append("samples aren't evenly spaced")
        spacing = (times[-1] - times[0]) / (count - 1)
    if not known.all():
        told.append(f"{count - known.sum()} values are missing")
    if spacing <= 0:
        raise RecordError(f"the times of {name} don't rise: it has no spectrum")
    if told:
        values = np.interp(times[0] + spacing * np.arange(count), times[known], values[known])
    window = 0.5 - 0.5 * np.cos(2 * np.pi * np.arange(count) / count)
    crests = np.abs(np.fft.rfft(values * window)) * (2.0 / window.sum())
    crests[0] *= 0.5  # of a constant
    resolution = 1.0 / (spacing * count)
    words = " and ".join(told) + ": they are bridged by straight lines" if told else ""
    return Spectrum(resolution * np.arange(len(crests)), crests, resolution, spacing * count, words)


def peaks_of(spectrum: Spectrum) -> list[tuple[float, float]]:
    """The peaks above 0 Hz, the greatest first: frequency in Hz and crest."""
    lines = spectrum.crests
    inner, _ = signal.find_peaks(lines, height=SMALL * lines.max())
    found = []
    for line in inner[inner > 1].tolist():
        side = 1 if lines[line + 1] >= lines[line - 1] else -1
        ratio = lines[line + side] / lines[line]
        away = (2 * ratio - 1) / (1 + ratio)
        crest = lines[line] * (1 - away**2) / np.sinc(away)
        found.append(((line + side * away) * spectrum.resolution, float(crest)))
    return sorted(found, key=lambda peak: -peak[1])
