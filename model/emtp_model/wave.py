"""The cosine, by a table of a quarter turn and straight lines between, and the values of sources."""
from .case import RunData, Source
from .fix import E6, E12, E18, near

C1 = 999999984769129049
S1 = 174532924313337
QUARTER = 25 * 10**16


def make_table() -> list[int]:
    """The cosine of each hundredth of a degree from 0 to 90, in 10^-12."""
    table = []
    cj, sj = E18, 0
    for _ in range(9001):
        table.append(near(cj, E6))
        cj, sj = near(cj * C1 - sj * S1, E18), near(sj * C1 + cj * S1, E18)
    return table


T = make_table()


def first_quarter(p: int) -> int:
    """The cosine of a phase within the first quarter turn."""
    j, u = divmod(p * 36000, E18)
    if j == 9000:
        return T[9000]
    return T[j] + near(u * (T[j + 1] - T[j]), E18)


def cosine(phase: int) -> int:
    """The cosine of a phase in 10^-18 turns, in 10^-12."""
    p = phase % E18
    if p <= QUARTER:
        return first_quarter(p)
    if p <= 2 * QUARTER:
        return -first_quarter(2 * QUARTER - p)
    if p <= 3 * QUARTER:
        return -first_quarter(p - 2 * QUARTER)
    return first_quarter(E18 - p)


def value(source: Source, step: int, run: RunData, tacs: list[int] | None) -> int:
    """The value at `step` of a source that isn't read from the network; `tacs` are the control's values of the record
    before."""
    t = step * run.dt
    if not source.start <= t or source.stop is not None and not t <= source.stop:
        return 0
    amplitude = source.amplitude
    shape = source.shape
    if shape == "step":
        return amplitude
    if shape == "ramp":
        m = t - max(source.start, 0)
        return near(amplitude * m, source.rise) if m <= source.rise else amplitude
    if shape == "cosine":
        return near(amplitude * cosine(source.freq * t + source.phase), E12)
    if shape == "tacs":
        return tacs[source.var]
    k = (t - source.start) % source.period
    if shape == "pulse":
        return amplitude if k < source.width else 0
    if shape == "saw":
        return near(amplitude * k, source.period)
    raise AssertionError(shape)
