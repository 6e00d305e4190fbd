"""The input filter of a recorder.

A Butterworth low-pass of second order that goes forward only, so that it delays as the filter before a recorder's
converter does. Its answer is exact for a curve that is straight between its samples (the ramp-invariant discretization:
G. F. Franklin, J. D. Powell and M. L. Workman, Digital Control of Dynamic Systems, on hold equivalents).
"""

import numpy as np
from scipy import signal

LEAST_SAMPLES, MOST_SAMPLES = 5, 1_000_000  # a period of the corner frequency


def lowpass(values: np.ndarray, step: float, corner: float) -> np.ndarray:
    """`values`, shape (samples,), one each `step` seconds, behind the filter with its corner at `corner` hertz.

    The filter stands at rest at the first value. At the corner it leaves 1 / sqrt(2) of a sine and delays it by a
    quarter of its period. ValueError where a period of the corner has less than five samples or more than a million.
    """
    if not corner > 0 or not step > 0:
        raise ValueError(f"a corner is above 0 Hz, and {corner:g} Hz isn't, or the samples don't follow each other")
    if corner * step * LEAST_SAMPLES > 1:
        raise ValueError(
            f"a filter of {corner:g} Hz needs a sample each {1e6 / LEAST_SAMPLES / corner:.4g} us or less, "
            f"and there is one each {1e6 * step:.4g} us: a smaller IPLOT of the case gives more"
        )
    periods = 1 / (corner * step)
    if periods > MOST_SAMPLES:
        raise ValueError(f"a filter of {corner:g} Hz is too slow for samples that are {1e6 * step:.4g} us apart")
    # the time is counted in samples, so that no number is far from 1
    continuous = signal.butter(2, 2 * np.pi * corner * step, analog=True, output="ba")
    numerator, denominator, _ = signal.cont2discrete(continuous, 1.0, method="foh")
    return values[0] + signal.lfilter(numerator.ravel(), denominator, values - values[0])
