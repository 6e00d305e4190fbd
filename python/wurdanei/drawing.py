"""What a picture and a page have in common: panes with curves, bars, and what is said above them.

How curves are shared among panes is said by the numbers of web/rules.json, which the plot of the page goes by too.
"""

from __future__ import annotations

import io
import json
import re
import textwrap
from dataclasses import dataclass, field
from importlib import resources
from typing import Any

import numpy as np

from .configuration import RecordError

RULES: dict[str, Any] = json.loads(
    resources.files(__package__).joinpath("web", "rules.json").read_text(encoding="utf-8")
)
STYLES = RULES["styles"]  # kinds of lines, so that curves that lie over each other are told apart
MOST_SPANS = 5_000  # of one bar


@dataclass
class Curve:
    """A curve: x and y of shape (points,), float64, y nan where there is none."""

    name: str
    x: np.ndarray
    y: np.ndarray
    unit: str = ""  # of y
    style: int = 0  # kind of line, below `STYLES`
    stepped: bool = False  # y holds from its x to the next
    color: int | None = None  # its place among the colours; None: the next one


@dataclass
class Mark:
    """A point with a text."""

    x: float
    y: float
    text: str


@dataclass
class Band:
    """What lies between two curves: x, low and high of shape (points,), float64, without gaps."""

    x: np.ndarray
    low: np.ndarray
    high: np.ndarray
    color: int  # its place among the colours


@dataclass
class Pane:
    """Curves over one pair of axes, which have their names."""

    y_label: str
    curves: list[Curve]
    x_label: str = ""  # empty where the lowest pane has it for all
    height: float = 3.0  # inches of a picture
    marks: list[Mark] = field(default_factory=list)
    limits: list[tuple[float, str]] = field(default_factory=list)  # vertical lines, with their texts
    bands: list[Band] = field(default_factory=list)
    title: str = ""  # what is said over it
    view: tuple[float, float] | None = None  # the part of the x that is seen at first


@dataclass
class Bar:
    """When a state is 1: times from and to, in the unit of the panes' x."""

    name: str
    spans: list[tuple[float, float]]


@dataclass
class Drawing:
    """Panes under each other, bars below them."""

    title: str
    panes: list[Pane]
    bars: list[Bar] = field(default_factory=list)
    x_label: str = ""  # of all panes and bars, where they have one x
    notes: list[str] = field(default_factory=list)  # what was done to what is drawn

    def _repr_png_(self) -> bytes:
        """The picture, for a notebook."""
        from .picture import draw

        made = io.BytesIO()
        draw(self, made)
        return made.getvalue()

    @property
    def joint(self) -> bool:
        """All panes have one x."""
        return bool(self.x_label)

    @property
    def span(self) -> tuple[float, float]:
        """The least and the greatest x of all curves and bars."""
        ends = [(curve.x[0], curve.x[-1]) for pane in self.panes for curve in pane.curves if len(curve.x)]
        ends += [(bar.spans[0][0], bar.spans[-1][1]) for bar in self.bars if bar.spans]
        begin, end = min((it for it, _ in ends), default=0.0), max((it for _, it in ends), default=0.0)
        return float(begin), float(end) if end > begin else float(begin) + 1.0

    @property
    def heights(self) -> list[float]:
        """Heights of the panes and, below them, of the bars, in inches of a picture."""
        return [pane.height for pane in self.panes] + ([0.4 + 0.3 * len(self.bars)] if self.bars else [])


def base_unit(unit: str) -> tuple[float, str]:
    """How many volts or amperes a unit of a channel has, and V or A; of another unit 1 and the unit, none of PU."""
    match = re.fullmatch(r"([uµmkKMG]?)([VA])", unit)
    if match:
        return RULES["prefixes"][match[1]], match[2]
    return 1.0, "" if unit.upper() == "PU" else unit


def shown_unit(unit: str, most: float) -> tuple[float, str]:
    """By what values in V or A are divided where their greatest magnitude is `most`, and the unit that they have
    then."""
    if most >= RULES["kilo"].get(unit, np.inf):
        return 1e3, "k" + unit
    return 1.0, unit


def time_unit(span: float) -> tuple[str, float]:
    """The unit of times over so many seconds, and the seconds that it has."""
    found = next(it for it in RULES["times"] if not span >= it.get("below", np.inf))
    return found["unit"], found["seconds"]


def greatest(curves: list[Curve]) -> float:
    """The greatest magnitude of some curves."""
    return max((float(np.nanmax(np.abs(it.y), initial=0.0)) for it in curves if len(it.y)), default=0.0)


def panes_of(curves: list[Curve]) -> list[Pane]:
    """Panes of curves in V, A and other base units: one a unit, and one more for those that would lie flat in it."""
    made = []
    for unit in dict.fromkeys(curve.unit for curve in curves):
        for group in by_magnitude([curve for curve in curves if curve.unit == unit]):
            divisor, shown = shown_unit(unit, greatest(group))
            for place, curve in enumerate(group):
                curve.y, curve.unit = curve.y / divisor, shown
                curve.style = covering(curve, group[:place]) % STYLES
            made.append(Pane(shown, group))
    return made


def by_magnitude(curves: list[Curve]) -> list[list[Curve]]:
    """The curves in groups of like magnitude, the greatest first; each group in the order of the curves."""
    sizes = [greatest([curve]) for curve in curves]
    ranks, rank, most = [0] * len(curves), 0, max(sizes, default=0.0)
    for place in sorted(range(len(curves)), key=lambda place: -sizes[place]):
        if 0 < sizes[place] < most / RULES["flat"] and rank < RULES["most_panes"] - 1:
            rank, most = rank + 1, sizes[place]
        ranks[place] = rank if sizes[place] else 0
    groups = [[curve for curve, own in zip(curves, ranks) if own == wanted] for wanted in range(rank + 1)]
    return [group for group in groups if group]


def covering(curve: Curve, others: list[Curve]) -> int:
    """How many of the other curves lie over this one for much of its time, so that it has to be drawn apart from
    them."""
    if not len(curve.x):
        return 0
    step = max(1, len(curve.x) // RULES["compared"])
    x, y, beside = curve.x[::step], curve.y[::step], []
    for other in others:
        if len(other.x):
            same = len(other.x) == len(curve.x) and np.array_equal(other.x, curve.x)
            beside.append(other.y[::step] if same else np.interp(x, other.x, other.y, np.nan, np.nan))
    spreads = [np.nanmax(it) - np.nanmin(it) for it in [y, *beside] if np.isfinite(it).any()]
    near = RULES["near"] * (max(spreads, default=0.0) or 1.0)
    return sum(int(np.count_nonzero(np.abs(y - it) <= near) >= RULES["overlap"] * len(x)) for it in beside)


def is_two_valued(values: np.ndarray, unit: str) -> bool:
    """A variable without unit that is 0 or 1 throughout, which is drawn as a bar."""
    near = np.minimum(np.abs(values), np.abs(values - 1)) < RULES["two_valued"]
    return base_unit(unit)[1] == "" and len(values) > 0 and bool(near.all())


def spans_of(times: np.ndarray, states: np.ndarray) -> list[tuple[float, float]]:
    """The times from and to which a state is 1, shape (samples,) both; more than `MOST_SPANS` grow together where
    gaps are short."""
    closed = np.asarray(states) > 0.5
    edges = np.flatnonzero(np.diff(closed.astype(np.int8), prepend=0))
    begins, ends = times[edges[::2]], edges[1::2]
    stops = np.append(times[ends], times[-1]) if len(edges) % 2 else times[ends]
    if len(begins) > MOST_SPANS:
        wide = np.flatnonzero(begins[1:] - stops[:-1] > (times[-1] - times[0]) / MOST_SPANS)
        begins, stops = np.append(begins[0], begins[wide + 1]), np.append(stops[wide], stops[-1])
    return list(zip(begins.tolist(), stops.tolist()))


def thinned(curve: Curve, most: int) -> tuple[np.ndarray, np.ndarray, int]:
    """x and y of at most about `most` points of a curve, and of how many samples each the least and the greatest are
    kept.

    Of a piece with missing values one of them is kept, so that the gap shows. The piece is 1 where all points are
    kept.
    """
    size = -(-3 * len(curve.y) // max(most, 3))
    if len(curve.y) <= most or size <= 3:
        return curve.x, curve.y, 1
    kept = extremes(curve.y, size)
    if (np.diff(curve.x) < 0).any():  # one channel over another one
        kept = np.union1d(kept, extremes(curve.x, size))
    return curve.x[kept], curve.y[kept], size


def extremes(values: np.ndarray, size: int) -> np.ndarray:
    """The places of the least and the greatest of each so many values, and of a missing one: rising, shape (kept,)."""
    count = -(-len(values) // size)
    pieces = np.append(values, np.full(count * size - len(values), np.nan)).reshape(count, size)
    missing = np.isnan(pieces)
    missing.reshape(-1)[len(values) :] = False  # behind the end
    first = np.arange(count) * size
    least = first + np.where(np.isnan(pieces), np.inf, pieces).argmin(1)
    most = first + np.where(np.isnan(pieces), -np.inf, pieces).argmax(1)
    gone = (first + missing.argmax(1))[missing.any(1)]
    return np.unique(np.concatenate([least, most, gone]))


def folded(notes: list[str], width: int) -> list[str]:
    """The notes in lines of at most so many characters."""
    return [line for note in notes for line in textwrap.wrap(note, width)]


def number(value: float) -> str:
    """A number as it is told, of six digits."""
    return f"{value:.6g}"


def needs(what: str, package: str, python: str) -> RecordError:
    """The error where a package isn't there."""
    return RecordError(
        f"{what} needs {package}, which {python} doesn't have; Debian's is of /usr/bin/python3: "
        f"apt install python3-{package}"
    )
