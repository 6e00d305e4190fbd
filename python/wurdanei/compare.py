"""Lays the record of a case beside a measured one, and says of each pair of channels how far they lie apart.

The time is found by `align`, the numbers are those of `measures`, the recorder's input filter is `lowpass`.
docs/compare.md has the definitions and a worked study.
"""

import argparse
import math
import sys
from dataclasses import dataclass, field

import numpy as np

from . import align, measures
from .drawing import base_unit
from .lowpass import lowpass
from .record import Record, RecordError, read
from .resample import even_spacing

FEWEST = 10  # samples in common
LEAST = 1e-12  # magnitude of a factor


class CompareError(ValueError):
    """Why two records can't be compared, in words."""


@dataclass(frozen=True)
class Wanted:
    """A line of the table of pairs: the names of two channels, the factor of the measured one (None: it is found by
    least squares) and the tolerance in %. CompareError where one of them is out of its range."""

    case: str
    measured: str
    factor: float | None = 1.0
    tolerance: float = 5.0

    def __post_init__(self) -> None:
        if not (self.factor is None or LEAST <= abs(self.factor) <= 1 / LEAST) or not 0 <= self.tolerance <= 1 / LEAST:
            raise CompareError(
                f"a factor's magnitude is from {LEAST:g} to {1 / LEAST:g}, and a tolerance isn't below 0 %; "
                f"here they are {self.factor} and {self.tolerance}"
            )

    @property
    def name(self) -> str:
        """Both names."""
        return self.case if self.case == self.measured else f"{self.case} | {self.measured}"


@dataclass(frozen=True)
class Compared:
    """A pair that was compared, over `span` of its measured samples, at a shift in s. Percentages are of the measured
    curve."""

    wanted: Wanted
    unit: str
    factor: float
    rms: float  # %
    peak: float  # %
    beyond: float  # %
    share: float  # % of samples
    shift: float  # s, from the common one; nan where nothing tells it
    features: measures.Features
    pair: align.Pair = field(repr=False)
    span: slice = field(repr=False)
    common: float = field(repr=False)  # the common shift, s

    @property
    def name(self) -> str:
        """Both names."""
        return self.wanted.name

    @property
    def within(self) -> bool:
        """Neither the effective difference nor the greatest one beyond the band is above the tolerance."""
        return max(self.rms, self.beyond) <= self.wanted.tolerance

    # Curves, each made when it is asked for: shape (samples,), at the measured instants.

    @property
    def times(self) -> np.ndarray:
        """The measured instants in s of the case."""
        return self.pair.times[self.span] - self.common

    @property
    def case(self) -> np.ndarray:
        """The case's curve."""
        return self.pair.case_beside(self.span, self.common)

    @property
    def measured(self) -> np.ndarray:
        """The measured curve times its factor."""
        values = self.pair.values[self.span]
        return values * self.factor if self.pair.free else values

    @property
    def band(self) -> tuple[np.ndarray, np.ndarray]:
        """The least and the greatest value that the case has within one measured sample of each instant."""
        return measures.band(self.pair.case_times, self.pair.case_values, self.times, self.pair.step)


@dataclass(frozen=True)
class Comparison:
    """What was found of all pairs: the shift, what has to be told of the records, and each pair."""

    shift: align.Shift
    pairs: list[Compared]
    told: list[str]

    @property
    def within(self) -> bool:
        """All pairs agree."""
        return all(it.within for it in self.pairs)


# ---- the pairs


def wanted_pairs(path: str, tolerance: float) -> list[Wanted]:
    """The table of pairs: a line has the case's channel, the measured one, a factor or `fit` and a tolerance in %.

    Commas part them; the last two may be blank or lack. Blank lines and lines that begin with # are skipped.
    """
    try:
        with open(path, encoding="utf-8") as file:
            lines = file.read().splitlines()
    except (OSError, UnicodeDecodeError) as fault:
        raise CompareError(f"{path}: {getattr(fault, 'strerror', None) or 'no text in UTF-8'}") from None
    found = []
    for number, line in enumerate(lines, 1):
        fields = [field.strip() for field in line.split(",")]
        if line.startswith("#") or not line.strip():
            continue
        if not 2 <= len(fields) <= 4 or not all(fields[:2]):
            raise CompareError(
                f"{path}, line {number}: a pair is the case's channel, the measured one, a factor and a tolerance in %, "
                "parted by commas"
            )
        factor, limit = (fields + ["", ""])[2:4]
        try:
            value = None if factor == "fit" else _finite(factor) if factor else 1.0
            most = _finite(limit) if limit else tolerance
        except ValueError as fault:
            raise CompareError(f"{path}, line {number}: {fault} is no number") from None
        try:
            found.append(Wanted(fields[0], fields[1], value, most))
        except CompareError as fault:
            raise CompareError(f"{path}, line {number}: {fault}") from None
    if not found:
        raise CompareError(f"{path} names no pair")
    return found


def equal_names(case: Record, measured: Record, tolerance: float) -> list[Wanted]:
    """A pair for each channel that both records have by the same name."""
    found = [Wanted(name, name, 1.0, tolerance) for name in case.names if name in measured.names]
    if not found:
        raise CompareError(
            "no channel has the same name in both records, so a table of pairs is needed; the case has "
            f"{_listed(case.names)}, the measured record {_listed(measured.names)}"
        )
    return found


def _finite(word: str) -> float:
    try:
        value = float(word)
    except ValueError:
        raise ValueError(word) from None
    if not math.isfinite(value):
        raise ValueError(word)
    return value


def _listed(names: list[str]) -> str:
    return ", ".join(names[:40]) + (" .." if len(names) > 40 else "") if names else "none"


# ---- the curves


def _curve(record: Record, name: str, whose: str) -> tuple[np.ndarray, np.ndarray, str]:
    """Times in s and values in V, A or the channel's unit, without missing ones, and the unit."""
    if name not in record.names:
        raise CompareError(f"{whose} has no channel {name!r}; it has {_listed(record.names)}")
    times, values = record.times_of(name), record.channel(name)
    good = np.isfinite(values)
    if good.sum() < 2 or 2 * good.sum() < len(values):
        raise CompareError(f"{name} of {whose}: {len(values) - good.sum()} of its {len(values)} values are missing")
    if not good.all():
        times, values = times[good], values[good]
    if not (np.diff(times) > 0).all():
        raise CompareError(f"{name} of {whose}: its times don't rise")
    scale, unit = base_unit(record.units[record.names.index(name)].strip())
    values *= scale
    return times, values, unit


def _filtered(times: np.ndarray, values: np.ndarray, corner: float) -> tuple[np.ndarray, np.ndarray]:
    """The curve behind the recorder's filter, on an even grid."""
    step = float(np.median(np.diff(times)))
    even = times[0] + step * np.arange(int(round((times[-1] - times[0]) / step)) + 1)
    try:
        return even, lowpass(np.interp(even, times, values), step, corner)
    except ValueError as fault:
        raise CompareError(f"--lowpass: {fault}") from None


def laid_pair(
    case: Record, measured: Record, wanted: Wanted, corner: float | None = None
) -> tuple[align.Pair, str, list[str]]:
    """The two curves of a pair, the measured one times its factor, their unit, and what has to be told of them."""
    case_times, case_values, case_unit = _curve(case, wanted.case, "the case")
    times, values, unit = _curve(measured, wanted.measured, "the measured record")
    told = []
    if {case_unit, unit} == {"V", "A"}:
        raise CompareError(f"{wanted.case} is in {case_unit}, and {wanted.measured} in {unit}")
    if case_unit != unit:
        told.append(
            f"{wanted.case} is in {case_unit or 'no unit'}, and {wanted.measured} in {unit or 'no unit'}: as they are"
        )
    if missing := measured.missing(wanted.measured):
        told.append(f"{wanted.measured}: {missing} missing values are left out")
    if corner is not None:
        case_times, case_values = _filtered(case_times, case_values, corner)
    if wanted.factor is not None:
        values *= wanted.factor
    pair = align.Pair(case_times, case_values, times, values, wanted.factor is None, wanted.name)
    if pair.case_step > 1.001 * pair.step:
        told.append(
            f"{wanted.case} has fewer samples a second than {wanted.measured}: between them it is taken as straight"
        )
    return pair, unit, told


# ---- the comparison


def _compared(pair: align.Pair, wanted: Wanted, unit: str, shift: float, window: tuple[float, float]) -> Compared:
    those = pair.inside(shift, window)
    if those.stop - those.start < FEWEST:
        raise CompareError(
            f"{wanted.case}, {wanted.measured}: they have {those.stop - those.start} samples in common, fewer than "
            f"{FEWEST}"
        )
    times = pair.times[those] - shift
    case, measured = pair.case_beside(those, shift), pair.values[those]
    found = align.factor_of(case, measured) if pair.free else 1.0
    measured = measured * found
    low, high = measures.band(pair.case_times, pair.case_values, times, pair.step)
    off, peak = measures.beyond(measured, low, high), float(np.max(abs(measured)))
    if even_spacing(pair.times):
        beside = case, measured
    else:
        even = times[0] + pair.step * np.arange(int((times[-1] - times[0]) / pair.step * (1 + 1e-12)) + 1)
        beside = pair.case_at(even), np.interp(even, times, measured)
    return Compared(
        wanted=wanted,
        unit=unit,
        factor=found if wanted.factor is None else wanted.factor,
        rms=measures.rms_difference(case, measured),
        peak=measures.peak_difference(case, measured),
        beyond=measures.percent(float(np.max(off)), peak),
        share=100 * float(np.mean(off > wanted.tolerance / 100 * peak)),
        shift=_own_shift(pair, shift, window),
        features=measures.features(*beside),
        pair=pair,
        span=those,
        common=shift,
    )


def _own_shift(pair: align.Pair, shift: float, window: tuple[float, float]) -> float:
    """The shift of this pair alone, less the common one, in s; nan where nothing tells it."""
    if not (np.ptp(pair.case_values) and np.ptp(pair.values)):
        return math.nan
    try:
        return align.refined([pair], shift, 2 * max(pair.step, pair.case_step), window) - shift
    except align.AlignError:
        return math.nan


def compare(
    case: Record,
    measured: Record,
    pairs: list[Wanted],
    shift: float | None = None,
    window: tuple[float, float] = (-math.inf, math.inf),
    corner: float | None = None,
    clock: float = 0.0,
) -> Comparison:
    """Compares the pairs of two records.

    `shift` is the measured time less the case's, in s; without one it is found. `window` is (begin, end) in s of the
    case, `corner` that of the recorder's input filter in Hz, through which the case goes. `clock` is by which part the
    measured clock gains on the case's (1e-6: a ppm); its times are taken less so much. CompareError where it can't.
    """
    if not pairs:
        raise CompareError("no pair of channels is named")
    if not abs(clock) < 1:
        raise CompareError(f"a clock gains by a part of the time, and {clock:g} is none")
    laid, units, told = [], [], [*(f"case: {it}" for it in case.told), *(f"measured: {it}" for it in measured.told)]
    for wanted in pairs:
        pair, unit, words = laid_pair(case, measured, wanted, corner)
        laid.append(align.with_clock(pair, clock))
        units.append(unit)
        told += words
    try:
        found = align.fitted(laid, window) if shift is None else align.Shift(shift, math.nan, [])
    except align.AlignError as fault:
        raise CompareError(str(fault)) from None
    its = [_compared(*it, found.seconds, window) for it in zip(laid, pairs, units)]
    return Comparison(found, its, told + found.told + [words for it in its for words in _scaled(it)])


def _scaled(it: Compared) -> list[str]:
    """That another factor explains most of a difference that is beyond its tolerance."""
    if it.pair.free or it.within:
        return []
    case, measured = it.case, it.measured
    other = align.factor_of(case, measured)
    if 2 * measures.rms_difference(case, other * measured) > measures.rms_difference(case, measured):
        return []
    return [f"{it.name}: least squares find the factor {other * it.factor:.5g}, which explains most of the difference"]


# ---- words


# what is told of a pair: heading, width, form
COLUMNS = (
    ("factor", 9, ".5g"),
    ("RMS %", 7, ".2f"),
    ("peak %", 7, "+.2f"),
    ("beyond %", 8, ".2f"),
    ("share %", 7, ".2f"),
    ("shift us", 8, "+.1f"),
    ("ADM", 6, ".3f"),
    ("FDM", 6, ".3f"),
    ("GDM", 6, ".3f"),
)


def _shown(value: float, form: str) -> str:
    """The number in this form; what is rounded to 0 has no minus."""
    text = format(value, form)
    return format(0.0, form) if text.startswith("-") and not float(text) else text


def shift_line(found: Comparison) -> str:
    """The shift in words."""
    text = _shown(1e3 * found.shift.seconds, "+.4f")
    line = f"time of the measured record = time of the case {text[0]} {text[1:]} ms"
    if math.isfinite(found.shift.deviation):
        line += f", standard deviation {1e6 * found.shift.deviation:.1f} us"
    return line


def listing(found: Comparison) -> str:
    """What was found, as lines."""
    shift, first = found.shift, found.pairs[0]
    lines = [shift_line(found)]
    if shift.others:
        near = ", ".join(
            f"{1e3 * (it - shift.seconds):+.3f}"
            for it in sorted(shift.others, key=lambda it: abs(it - shift.seconds))[:4]
        )
        lines.append(f"periodic: shifts of {near} ms from that one fit nearly as well; --align takes another one")
    lines.append(
        f"{len(first.times)} measured samples from {first.times[0]:.6f} to {first.times[-1]:.6f} s of the case"
    )
    width = max([len("pair"), *(len(it.name) for it in found.pairs)])
    lines.append(f"{'pair':{width}}" + "".join(f"  {name:>{size}}" for name, size, _ in COLUMNS))
    for it in found.pairs:
        numbers = (it.factor, it.rms, it.peak, it.beyond, it.share, 1e6 * it.shift, *it.features)
        fields = "".join(f"  {_shown(value, form):>{size}}" for value, (_, size, form) in zip(numbers, COLUMNS))
        lines.append(f"{it.name:{width}}{fields}  {'WITHIN' if it.within else 'BEYOND'} {it.wanted.tolerance:g} %")
    beyond = sum(not it.within for it in found.pairs)
    lines.append("WITHIN" if not beyond else f"BEYOND: {beyond} of {len(found.pairs)} pairs")
    return "\n".join(lines)


def _words() -> argparse.ArgumentParser:
    words = argparse.ArgumentParser(
        prog="emtp compare",
        formatter_class=argparse.RawDescriptionHelpFormatter,
        description=__doc__.split("\n\n", maxsplit=1)[0],
        epilog="""PAIRS is a table, a line a pair, parted by commas:
    V BUS, U_L1, 1, 5          channel of the case, measured channel, factor of the measured one, tolerance in %
    I BUS-LINE, I_L1, fit      a factor that is found by least squares
Without PAIRS, channels of equal names are pairs. Times of windows are times of the case.
Exit status: 0 where all pairs are WITHIN their tolerance, 1 where one is BEYOND, 2 where the records can't be compared.""",
    )
    words.add_argument("case", metavar="CASE.cfg", help="the record of the case")
    words.add_argument("measured", metavar="MEASURED", help="the measured record, .cfg or .cff")
    words.add_argument("pairs", metavar="PAIRS", nargs="?", help="the table of pairs")
    words.add_argument(
        "--align", metavar="fit|SECONDS", default="fit", help="measured time less the case's (fit: it is found)"
    )
    words.add_argument(
        "--from", metavar="T", dest="begin", type=float, help="seconds of the case from which on it is compared"
    )
    words.add_argument(
        "--to", metavar="T", dest="end", type=float, help="seconds of the case up to which it is compared"
    )
    words.add_argument(
        "--clock", metavar="PPM", type=float, default=0.0, help="so much the measured clock gains on the case's"
    )
    words.add_argument("--lowpass", metavar="HZ", type=float, help="corner of the recorder's input filter")
    words.add_argument(
        "--tolerance", metavar="PERCENT", type=float, default=5.0, help="where PAIRS names none; %(default)s"
    )
    words.add_argument(
        "--out", metavar="FILE", help="a picture (.png) or a page (.html) of both, their difference and the band"
    )
    return words


def _checked(words: argparse.Namespace) -> tuple[float | None, tuple[float, float]]:
    """The shift that was given, if any, and the window."""
    try:
        shift = None if words.align == "fit" else _finite(words.align)
    except ValueError:
        raise CompareError(f"--align is `fit` or a number of seconds, and {words.align} isn't") from None
    window = (-math.inf if words.begin is None else words.begin, math.inf if words.end is None else words.end)
    if not window[0] < window[1]:
        raise CompareError("--from is a number of seconds below that of --to")
    if words.lowpass is not None and not 0 < words.lowpass < math.inf:
        raise CompareError("--lowpass is a number of hertz above 0")
    if not abs(words.clock) < 1e6:
        raise CompareError("--clock is a number of ppm below a million")
    if not 0 <= words.tolerance < math.inf:
        raise CompareError("--tolerance is a number of % from 0 on")
    if words.out and not words.out.endswith((".png", ".html")):
        raise CompareError(f"--out is a picture, .png, or a page, .html, and {words.out} is neither")
    return shift, window


def main(words: list[str]) -> int:
    """The command."""
    given = _words().parse_args(words)
    try:
        shift, window = _checked(given)
        case, measured = read(given.case), read(given.measured)
        pairs = (
            wanted_pairs(given.pairs, given.tolerance) if given.pairs else equal_names(case, measured, given.tolerance)
        )
        found = compare(case, measured, pairs, shift, window, given.lowpass, 1e-6 * given.clock)
        for line in found.told:
            print(f"emtp compare: {line}", file=sys.stderr)
        print(listing(found), flush=True)
        if given.out:
            from . import beside

            beside.draw(found, given.out)
    except (CompareError, RecordError) as fault:
        print(f"emtp compare: {fault}", file=sys.stderr)
        return 2
    return 0 if found.within else 1
