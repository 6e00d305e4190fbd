"""Finds where a fault was, and through what resistance: runs a case until its record lies nearest to a measured one.

    emtp locate CASE MEASURED.cfg PAIRS --vary 40,41:LENGTH=5:295 --rest 43,44:LENGTH=300 --vary 46:R=.1:100 --lowpass 1500

--vary is LINES:FIELD=LOW:HIGH, a field of lines of the case between two values; its first one may be the place. --rest
gives other lines what is left of a number: LENGTH of lines 43 and 44 is 300 less that of the first --vary. PAIRS is the
table of `emtp compare` (docs/compare.md), so are --lowpass, --align, --from and --to; a factor `fit` there leaves errors
of the instrument transformers free. The times of the case's switches have to be those of the fault.

First the case is run on a grid of values (--grid, 6 of each), then from its best point, and from each other one that is
no worse than twice as far, by the simplex of Nelder and Mead (scipy), within the bounds. Told are the values with their standard deviations,
by the jackknife over ten pieces of the time, and what else fits nearly as well.

Exit status: 0 found, each pair within its tolerance; 1 nothing lies within; 2 several fit, or it can't be judged.
"""

from __future__ import annotations

import argparse
import concurrent.futures
import itertools
import math
import os
import sys
import tempfile
from dataclasses import dataclass, field
from typing import Callable, Mapping, Sequence

import numpy as np

from . import align, compare, program, report, varied
from .configuration import RecordError
from .convert import number as real
from .deck import Deck, DeckError
from .drawing import Curve, Drawing, Mark, Pane
from .record import Record, read

Bounds = Mapping[str, tuple[float, float]]
Runs = Callable[..., object]  # by the values, a Record, or a Case that is run
FEWEST = 20  # measured samples of a pair
PIECES = 10  # of the jackknife
STEP = 2e-3  # of a range, by which derivatives are taken
FINE = 1e-4  # of a range, to which values are found
MOST_RUNS = 100  # a value and a start
SECOND = 2.0  # so many times the least misfit of the grid: a hollow there is followed as well
NEARLY, LEAST = 1.25, 0.01  # so many times the least misfit at last, and so many %, fit nearly as well
APART = 0.02  # of a range: nearer solutions are one


class LocateError(RecordError):
    """Why nothing can be found, in words."""


@dataclass(frozen=True)
class Try:
    """Values that were tried, and the RMS difference that they leave, in % of the measured curves; nan where no run came
    of them."""

    values: dict[str, float]
    rms: float


@dataclass(frozen=True)
class Fit:
    """What was found: values, their standard deviations, the RMS difference in %, that of each pair, the shift in s
    (measured time less the case's), what else fits nearly as well, and all tries, those of the grid first."""

    values: dict[str, float]
    deviations: dict[str, float]
    rms: float
    pairs: dict[str, float]
    factors: dict[str, float]
    shift: float
    others: list[Try]
    tries: list[Try] = field(repr=False)
    grid: int  # how many of them are the grid's
    told: list[str]


class _Search:
    """Runs, and what they leave beside the measured record."""

    def __init__(
        self, run: Runs, measured: Record, pairs: Sequence[compare.Wanted], vary: Bounds, shift: float | None,
        window: tuple[float, float], corner: float | None,
    ) -> None:  # fmt: skip
        self.run, self.measured, self.pairs, self.shift = run, measured, list(pairs), shift
        self.window, self.corner = window, corner
        self.names = list(vary)
        self.low = np.array([vary[name][0] for name in self.names], float)
        self.high = np.array([vary[name][1] for name in self.names], float)
        self.tries: list[Try] = []
        self.kept: list[np.ndarray] = []  # which samples of each pair count, once that is known
        self.faults: list[str] = []

    def laid(self, values: np.ndarray) -> tuple[list[align.Pair], float]:
        """The curves of a run, and the shift."""
        made = self.run(**dict(zip(self.names, values.tolist())))
        found = made if isinstance(made, Record) else made.run()  # type: ignore[attr-defined]
        its = [compare.laid_pair(found, self.measured, wanted, self.corner)[0] for wanted in self.pairs]
        return its, align.fitted(its, self.window).seconds if self.shift is None else self.shift

    def residuals(self, values: np.ndarray) -> np.ndarray:
        """Differences of all pairs, each over the root of the power of its measured curve: shape (samples of all,)."""
        laid, shift = self.laid(values)
        if not self.kept:
            self.kept = [self._inside(it, shift) for it in laid]
        parts = [difference(it, those, shift)[0] for it, those in zip(laid, self.kept)]
        found = np.concatenate(parts) / math.sqrt(len(parts))
        self.tries.append(Try(dict(zip(self.names, values.tolist())), 100 * float(np.sqrt(found @ found))))
        return found

    def _inside(self, pair: align.Pair, shift: float) -> np.ndarray:
        """The measured samples of a pair that have a partner, a little way in, so that they stay so."""
        at = pair.times - shift
        margin = 2 * float(np.median(np.diff(pair.times)))
        begin, end = max(self.window[0], pair.case_times[0]) + margin, min(self.window[1], pair.case_times[-1]) - margin
        found = np.flatnonzero((at >= begin) & (at <= end))
        if len(found) < FEWEST:
            raise LocateError(f"{len(found)} measured samples lie on the case's record and in the window")
        return found

    def tried(self, values: np.ndarray) -> float:
        """The misfit of values in %, infinite where they leave no record that can be laid beside the measured one."""
        try:
            found = self.residuals(values)
            return 100 * float(np.sqrt(found @ found))
        except LocateError:
            raise
        except (RecordError, compare.CompareError, align.AlignError, ValueError) as fault:
            self.faults.append(str(fault))
            self.tries.append(Try(dict(zip(self.names, values.tolist())), math.nan))
            return math.inf

    def inner(self, part: np.ndarray) -> np.ndarray:
        """Values by their parts of the ranges, from 1 to 2."""
        return self.low + (np.asarray(part) - 1) * (self.high - self.low)


def difference(pair: align.Pair, those: np.ndarray, shift: float) -> tuple[np.ndarray, float]:
    """Measured less case over the root of the measured power, and the factor of the measured values."""
    case, own = pair.case_at(pair.times[those] - shift), pair.values[those]
    factor = align.factor_of(case, own) if pair.free else 1.0
    power = math.sqrt(align.power_of(own)) * abs(factor) or 1.0
    return (factor * own - case) / power, factor


def fit(
    run: Runs,
    measured: Record,
    pairs: Sequence[compare.Wanted],
    vary: Bounds,
    shift: float | None = None,
    window: tuple[float, float] = (-math.inf, math.inf),
    corner: float | None = None,
    grid: int = 6,
    jobs: int = 1,
) -> Fit:
    """The values within the bounds whose run lies nearest to a measured record.

    `run(**values)` answers a Record, or a Case that is run; `vary` has (low, high) of each value. `pairs`, `shift` (found
    without one), `window` in s of the case and `corner` in Hz are as in `compare.compare`. `grid` values of each are
    tried first, `jobs` at a time. LocateError where nothing can be found.
    """
    if not vary or not all(low < high and math.isfinite(high - low) for low, high in vary.values()):
        raise LocateError("there is a value to vary at least, each with a low bound below its high one")
    if grid < 2 or grid ** len(vary) > 10_000:
        raise LocateError(f"a grid of {grid} values of {len(vary)}: 2 of each at least, and 10,000 points at most")
    if not pairs:
        raise LocateError("no pair of channels is named")
    search = _Search(run, measured, pairs, vary, shift, window, corner)
    parts = [1 + (np.arange(grid) + 0.5) / grid] * len(vary)
    points = [np.array(it) for it in itertools.product(*parts)]
    search.tried(search.inner(points[len(points) // 2]))  # fixes the samples
    search.tries.clear()
    with concurrent.futures.ThreadPoolExecutor(max(1, jobs)) as pool:
        found = list(pool.map(lambda part: search.tried(search.inner(part)), points))
    if not np.isfinite(found).any():
        raise LocateError(f"no run of the grid can be laid beside the measured record: {(search.faults or ['?'])[0]}")
    hollows = hollows_of(np.array(found).reshape((grid,) * len(vary)))
    solved = sorted((solved_from(search, points[place], 1 / grid) for place in hollows), key=lambda it: it[0])
    rms, best = solved[0]
    told = [f"the least misfit stands at the bound of {name}" for name, at in zip(vary, best) if not 1.001 < at < 1.999]
    others = others_of(search, solved)
    laid, seconds = search.laid(search.inner(best))
    alone = [difference(it, those, seconds) for it, those in zip(laid, search.kept)]
    spread = deviations_of(*slopes_of(search, best), [len(it) for it in search.kept]) * (search.high - search.low)
    names = [it.case for it in pairs]
    return Fit(
        dict(zip(vary, search.inner(best).tolist())), dict(zip(vary, spread.tolist())), rms,
        {name: 100 * math.sqrt(align.power_of(it)) for name, (it, _) in zip(names, alone)},
        {name: (wanted.factor or 1.0) * factor for name, wanted, (_, factor) in zip(names, pairs, alone)},
        seconds, others, search.tries, len(points), told,
    )  # fmt: skip


def hollows_of(misfits: np.ndarray) -> list[int]:
    """The places, in the flat order, of the grid's points with no better neighbour, that aren't more than `SECOND` times as
    far as the best; that one first."""
    found = []
    for place in np.ndindex(misfits.shape):
        near = tuple(slice(max(at - 1, 0), at + 2) for at in place)
        if misfits[place] <= min(misfits[near].min(), SECOND * misfits.min()):
            found.append((float(misfits[place]), int(np.ravel_multi_index(place, misfits.shape))))
    return [place for _, place in sorted(found)][:4]


def solved_from(search: _Search, start: np.ndarray, reach: float) -> tuple[float, np.ndarray]:
    """The least misfit from a start, in %, and the parts of the ranges that have it. It goes by the simplex of Nelder and
    Mead: waves that arrive earlier or later leave a hollow with steep, uneven sides, where slopes lead slowly."""
    from scipy.optimize import minimize

    simplex = np.vstack([start, start + np.diag(np.where(start + reach < 2, reach, -reach))])
    answer = minimize(
        lambda part: search.tried(search.inner(np.clip(part, 1, 2))), start, method="Nelder-Mead",
        bounds=[(1.0, 2.0)] * len(start),
        options={"initial_simplex": simplex, "xatol": FINE, "fatol": 1e-3, "maxfev": MOST_RUNS * len(start)},
    )  # fmt: skip
    return float(answer.fun), np.clip(answer.x, 1, 2)


def others_of(search: _Search, solved: list[tuple[float, np.ndarray]]) -> list[Try]:
    """The solutions besides the best that fit nearly as well, each once."""
    kept = [solved[0][1]]
    others = []
    for rms, part in solved[1:]:
        if rms <= NEARLY * solved[0][0] + LEAST and all(np.abs(part - it).max() > APART for it in kept):
            kept.append(part)
            others.append(Try(dict(zip(search.names, search.inner(part).tolist())), rms))
    return others


def slopes_of(search: _Search, best: np.ndarray) -> tuple[np.ndarray, np.ndarray]:
    """The derivatives of the residuals by the parts of the ranges, shape (samples, values), and the residuals."""
    own = search.residuals(search.inner(best))
    columns = []
    for place in range(len(best)):
        ends = [best.copy(), best.copy()]
        ends[0][place], ends[1][place] = max(best[place] - STEP, 1.0), min(best[place] + STEP, 2.0)
        low, high = (search.residuals(search.inner(it)) for it in ends)
        columns.append((high - low) / (ends[1][place] - ends[0][place]))
    return np.array(columns).T, own


def deviations_of(slopes: np.ndarray, left: np.ndarray, sizes: Sequence[int]) -> np.ndarray:
    """Standard deviations by the jackknife over pieces of equal time of all pairs, in parts of the ranges: shape (values,);
    nan where a piece alone tells of a value."""
    piece = np.concatenate([np.arange(size) * PIECES // size for size in sizes])
    steps = []
    for number in range(PIECES):
        others = piece != number
        own = slopes[others]
        try:
            steps.append(-np.linalg.solve(own.T @ own, own.T @ left[others]))
        except np.linalg.LinAlgError:
            return np.full(slopes.shape[1], math.nan)
    away = np.array(steps) - np.mean(steps, axis=0)
    return np.sqrt((PIECES - 1) / PIECES * (away**2).sum(axis=0))


# ---- the case of a file


@dataclass(frozen=True)
class Field:
    """A field of lines of a case that takes a value, or what is left of `whole` from it."""

    label: str
    own: varied.Varied
    low: float = math.nan
    high: float = math.nan
    whole: float | None = None


def fields_of(deck: Deck, vary: Sequence[str], rest: Sequence[str]) -> tuple[list[Field], list[Field]]:
    """The fields of the words --vary and --rest."""
    varies, rests = [], []
    for asked in vary:
        where, equals, span = asked.rpartition("=")
        try:
            low, high = (float(it) for it in span.split(":"))
        except ValueError:
            low = high = math.nan
        if not equals or not low < high:
            raise LocateError(f"--vary {asked}: it is LINES:FIELD=LOW:HIGH, as 40,41:LENGTH=5:295")
        varies.append(Field(where, _of(deck, where), low, high))
    for asked in rest:
        where, equals, whole = asked.rpartition("=")
        try:
            rests.append(Field(where, _of(deck, where), whole=float(whole)))
        except ValueError:
            raise LocateError(f"--rest {asked}: it is LINES:FIELD=NUMBER, as 43,44:LENGTH=300") from None
    if rests and not varies:
        raise LocateError("--rest is what the first --vary leaves, and there is none")
    return varies, rests


def _of(deck: Deck, where: str) -> varied.Varied:
    try:
        return varied.varied_of(deck, f"{where}=0")
    except varied.VariedError as fault:
        raise LocateError(str(fault)) from None


def text_of(value: float, width: int) -> str:
    """A number in so many columns, with as many digits as they hold."""
    for digits in range(12, 0, -1):
        text = f"{value:.{digits}g}"
        for shorter in (text, text.replace("0.", ".", 1) if abs(value) < 1 else text):
            if len(shorter) <= width and "e" not in shorter:
                return shorter if "." in shorter else (shorter + "." if len(shorter) < width else shorter)
    raise LocateError(f"{value:g} has no room in {width} columns")


class CaseFile:
    """Runs a case of a file with values in its fields."""

    def __init__(self, path: str, vary: Sequence[str], rest: Sequence[str]) -> None:
        try:
            self.deck = Deck(path)
        except DeckError as fault:
            raise LocateError(str(fault)) from None
        self.varies, self.rests = fields_of(self.deck, vary, rest)

    @property
    def bounds(self) -> dict[str, tuple[float, float]]:
        return {it.label: (it.low, it.high) for it in self.varies}

    def text(self, **values: float) -> str:
        """The case with these values, by the labels of the fields."""
        lists = [it.own for it in (*self.varies, *self.rests)]
        first = values[self.varies[0].label]
        numbers = [values[it.label] for it in self.varies] + [(it.whole or 0.0) - first for it in self.rests]
        texts = tuple(text_of(value, it.last - it.first + 1) for value, it in zip(numbers, lists))
        return varied.text_with(self.deck, lists, texts)

    def __call__(self, **values: float) -> Record:
        with tempfile.TemporaryDirectory() as room:
            with open(os.path.join(room, "tried.case"), "w", encoding="latin-1", newline="") as file:
                file.write(self.text(**values))
            ended = program.run(["run", "tried.case", "tried.cfg", "tried.dat"], room)
            if ended.status:
                raise RecordError(f"{self.deck.path}: {ended.note.strip() or f'status {ended.status}'}")
            return read(os.path.join(room, "tried.cfg"))


# ---- the command


def parser() -> argparse.ArgumentParser:
    """The words of the command."""
    made = argparse.ArgumentParser(
        prog="emtp locate", description=__doc__, formatter_class=argparse.RawDescriptionHelpFormatter
    )
    made.add_argument("case", metavar="CASE", help="the case")
    made.add_argument("measured", metavar="MEASURED", help="the measured record, a .cfg or a .cff")
    made.add_argument("pairs", metavar="PAIRS", help="the table of pairs of channels")
    made.add_argument("--vary", metavar="WHAT", action="append", required=True, help="LINES:FIELD=LOW:HIGH")
    made.add_argument(
        "--rest", metavar="WHAT", action="append", default=[], help="LINES:FIELD=NUMBER, less the first --vary"
    )
    made.add_argument("--lowpass", metavar="HZ", type=real, help="the corner of the recorder's filter")
    made.add_argument(
        "--align", metavar="S", type=real, help="the shift, measured time less the case's; default: found"
    )
    made.add_argument("--from", metavar="S", dest="begin", type=real, default=-math.inf, help="s of the case")
    made.add_argument("--to", metavar="S", dest="end", type=real, default=math.inf, help="s of the case")
    made.add_argument("--tolerance", metavar="%", type=real, default=5.0, help="of pairs without one; default: 5")
    made.add_argument(
        "--grid", metavar="N", type=int, default=6, help="values of each that are tried first; default: 6"
    )
    made.add_argument("--jobs", metavar="N", type=int, default=program.processors(), help="runs at a time")
    report.add_outputs(made)
    return made


def main(words: list[str]) -> int:
    """Runs the command."""
    its = parser().parse_args(words)
    report.checked(its, its.measured, its.case)
    try:
        pairs = compare.wanted_pairs(its.pairs, its.tolerance)
        case = CaseFile(its.case, its.vary, its.rest)
        measured = read(its.measured)
        for told in measured.told:
            print(f"{its.measured}: {told}", file=sys.stderr)
        found = fit(
            case, measured, pairs, case.bounds, its.align, (its.begin, its.end), its.lowpass, its.grid, its.jobs
        )
    except (compare.CompareError, align.AlignError, program.ProgramError) as fault:
        raise LocateError(str(fault)) from None
    print(
        f"{len(found.tries)} runs; time of the measured record = time of the case {'-' if found.shift < 0 else '+'} {1e3 * abs(found.shift):.4f} ms"
    )
    for name, value in found.values.items():
        print(f"{name} = {value:.6g}, standard deviation {found.deviations[name]:.2g}")
    print(f"RMS {found.rms:.2f} % of the measured curves")
    limits = {it.case: it.tolerance for it in pairs}
    for name, rms in found.pairs.items():
        word = "WITHIN" if rms <= limits[name] else "BEYOND"
        print(f"  {name}: {rms:.2f} %, factor {found.factors[name]:.4g}, {word} {limits[name]:g} %")
    for it in found.others:
        print(
            f"fits nearly as well, RMS {it.rms:.2f} %: "
            + ", ".join(f"{name} = {value:.6g}" for name, value in it.values.items())
        )
    for told in found.told:
        print(told)
    left(found, its)
    if any(rms > limits[name] for name, rms in found.pairs.items()):
        print("NOT FOUND: no values within the bounds leave each pair within its tolerance")
        return report.FAILS
    if found.others or found.told:
        print("NOT JUDGED: " + ("several values fit nearly as well" if found.others else "the bounds are too narrow"))
        return report.UNJUDGED
    print("FOUND")
    return report.PASSES


def left(found: Fit, its: argparse.Namespace) -> None:
    """Writes what is asked for."""
    names = list(found.values)
    if its.csv:
        rows: list[list[object]] = [[name, found.values[name], found.deviations[name]] for name in names]
        report.write_table(its.csv, ("field", "value", "standard deviation"), rows)
    if its.curves:
        report.write_table(its.curves, (*names, "RMS %"), [[*it.values.values(), it.rms] for it in found.tries])
    if its.out:
        report.draw(drawing_of(found, os.path.basename(its.measured)), its.out)


def drawing_of(found: Fit, title: str) -> Drawing:
    """The map: the misfit of the grid over the first value, a curve for each value of the others; and all later tries."""
    names = list(found.values)
    curves: dict[tuple[float, ...], list[tuple[float, float]]] = {}
    for it in found.tries[: found.grid]:
        first, *others = it.values.values()
        curves.setdefault(tuple(others), []).append((first, it.rms))
    shown = []
    for rest, points in sorted(curves.items()):
        x, y = np.array(sorted(points)).T
        label = ", ".join(f"{name} = {value:.3g}" for name, value in zip(names[1:], rest))
        shown.append(Curve(label or "grid", x, y, "%"))
    mark = Mark(found.values[names[0]], found.rms, f"{found.values[names[0]]:.5g}: {found.rms:.2f} %")
    return Drawing(title, [Pane("RMS difference, %", shown, names[0], 5.0, marks=[mark])])
