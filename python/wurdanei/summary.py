"""What `emtp scan` and `emtp batch` print: read from a file, told, and drawn."""

from __future__ import annotations

import cmath
import math
import re
from dataclasses import dataclass, field

import numpy as np

from .configuration import RecordError
from .drawing import RULES, Curve, Drawing, Mark, Pane, number, shown_unit


@dataclass
class Summary:
    """The lines of a scan (`points`) or of a batch (`peaks`)."""

    points: list[tuple[float, complex | str]] = field(default_factory=list)  # Hz, impedance in ohm or why there is none
    resonances: list[float] = field(default_factory=list)  # Hz
    peaks: list[list[float]] = field(default_factory=list)  # of each row, channel by channel
    ended: list[tuple[int, str]] = field(default_factory=list)  # rows that ended early
    names: list[str] = field(default_factory=list)  # of the channels of a batch
    units: list[str] = field(default_factory=list)  # theirs, empty where they aren't known


def is_summary(path: str) -> bool:
    """The file holds lines of a scan or a batch."""
    try:
        with open(path, "rb") as file:
            return file.read(4).startswith((b"F ", b"ROW "))
    except OSError as fault:
        raise RecordError(f"{path}: {fault.strerror}") from None


def read_summary(path: str, channels: list[tuple[str, str]] | None, cfg: str) -> Summary:
    """The summary in a file; a batch of channels that have these names and units (`cfg` has them), where some are
    given."""
    with open(path, encoding="latin-1") as file:
        lines = file.read().split("\n")
    if lines[-1]:
        raise RecordError(f"{path} is cut: its last line has no end")
    made = Summary()
    for place, line in enumerate(lines, 1):
        try:
            read_line(made, line)
        except (ValueError, IndexError):
            raise RecordError(f"{path}: line {place} is cut, or no scan and no batch prints it") from None
    if made.points:
        return made
    if not made.peaks or not made.peaks[0]:
        raise RecordError(f"{path} has no lines of a scan or a batch with channels")
    count = len(made.peaks[0])
    known = channels if channels is not None else [(f"channel {place + 1}", "") for place in range(count)]
    made.names, made.units = [name for name, _ in known], ["" if unit.upper() == "PU" else unit for _, unit in known]
    if len(made.names) != count:
        raise RecordError(f"{path} has {count} channels, and {cfg} {len(made.names)}")
    if sum(line.startswith("MAX ") for line in lines) != count or any(len(row) != count for row in made.peaks):
        raise RecordError(f"{path} is cut, or has rows of other channels than its first one")
    return made


def real(word: str) -> float:
    """A finite number."""
    value = float(word)
    if not math.isfinite(value):
        raise ValueError
    return value


def read_line(made: Summary, line: str) -> None:
    """Adds what a line says."""
    words = line.split()
    row = re.match(r"ROW (\d+) (DONE|ENDED .*?) ?PEAKS ?(.*)$", line)
    if words[:1] == ["F"]:
        found: complex | str = complex(real(words[3]), real(words[5])) if words[2] == "RE" else " ".join(words[2:])
        made.points.append((real(words[1]), found))
    elif words[:1] == ["RESONANCE"]:
        made.resonances.append(real(words[1]))
    elif row:
        made.peaks.append([real(word) for word in row[3].split()])
        if row[2] != "DONE":
            made.ended.append((int(row[1]), row[2]))


def print_summary(summary: Summary) -> None:
    """Tells the resonances and gaps of a scan, or the greatest peaks of a batch."""
    for frequency, value in summary.points:
        if isinstance(value, str):
            print(f"{number(frequency)} Hz: {value}")
        elif frequency in summary.resonances:
            print(f"resonance at {number(frequency)} Hz: {number(abs(value))} ohm, {number(angle(value))} degrees")
    for row, words in summary.ended:
        print(f"row {row} {words}")
    for place, name in enumerate(summary.names):
        column = np.array([row[place] for row in summary.peaks])
        ranked = np.sort(column)
        named = f"{name} in {summary.units[place]}" if summary.units[place] else name
        print(
            f"{named}: greatest {number(ranked[-1])} in row {column.argmax() + 1}, at most 2 % of the rows exceed "
            f"{number(two_percent(ranked))}, half of them {number(ranked[(len(ranked) - 1) // 2])}"
        )


def angle(value: complex) -> float:
    """The angle of an impedance in degrees."""
    return math.degrees(cmath.phase(value))


def two_percent(ranked: np.ndarray) -> float:
    """The least of rising peaks that at most 2 % of the rows exceed."""
    return float(ranked[max(0, math.ceil(RULES["not_exceeded"] * len(ranked)) - 1)])


def scan_drawing(summary: Summary, title: str) -> Drawing:
    """Magnitude and angle over the frequency; a gap where there is no impedance."""
    hertz = np.array([frequency for frequency, _ in summary.points])
    values = [value if isinstance(value, complex) else complex(math.nan, math.nan) for _, value in summary.points]
    resonant = set(summary.resonances)
    marks = [
        Mark(frequency, abs(value), f"{number(frequency)} Hz")
        for frequency, value in summary.points
        if frequency in resonant and isinstance(value, complex)
    ]
    magnitude = Curve("magnitude", hertz, np.array([abs(value) for value in values]), "ohm")
    angles = Curve("angle", hertz, np.array([angle(value) for value in values]), "degrees")
    panes = [Pane("ohm", [magnitude], marks=marks), Pane("degrees", [angles], height=2.0)]
    return Drawing(title, panes, x_label="Hz")


def batch_drawing(summary: Summary, title: str) -> Drawing:
    """For each channel the share of rows that stay at or below a peak."""
    panes = []
    for place, name in enumerate(summary.names):
        ranked = np.sort([row[place] for row in summary.peaks])
        divisor, unit = shown_unit(summary.units[place], float(ranked[-1]))
        ranked = ranked / divisor
        share = 100.0 * np.arange(1, len(ranked) + 1) / len(ranked)
        limit = two_percent(ranked)
        curve = Curve(name, ranked, share, "%", stepped=True)
        label = f"peak of {name}, {unit}" if unit else f"peak of {name}"
        panes.append(Pane("% of rows", [curve], label, 2.4, limits=[(limit, f"at most 2 % exceed {number(limit)}")]))
    return Drawing(title, panes)
