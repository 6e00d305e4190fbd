"""Draws a record, or what `emtp scan` or `emtp batch` printed, and prints the extremes of what it drew.

    plot RECORD [DAT] [OUT]              a COMTRADE record, .cfg (DAT is its .dat, where it has another name) or .cff
    plot RECORD --with OTHER --offset S  two records over each other, OTHER moved by S seconds
    plot SUMMARY [OUT] [--cfg CFG]       what a scan or a batch printed, in a file; CFG names the channels of a batch

OUT is a picture, NAME.png, or one page that stands alone, NAME.html, with zoom, values under the cursor and a table
that hides and shows; without OUT it is a picture beside the first file. Times are in seconds from the first sample.
Channels of one unit stand in one pane, those that would lie flat in one of their own; states, and variables that are
0 or 1 throughout, are bars below. Where values are secondary, missing or moved, that is said; and where a record of
the program has its case of the same name beside it, whether its run has something to judge. A scan is drawn as
magnitude and angle over the frequency, its resonances marked; a batch as the share of its rows that stay at or below
a peak, with the value that 2 % of them exceed.

Pictures need matplotlib (Debian: python3-matplotlib).
"""

from __future__ import annotations

import argparse
import math
import os
from dataclasses import dataclass, replace

import numpy as np

from . import page, picture, worth
from .choice import chosen, matching
from .configuration import RecordError
from .convert import number as real

from .drawing import (
    Bar, Curve, Drawing, Mark, Pane, base_unit, is_two_valued, number, panes_of, shown_unit, spans_of, time_unit
)  # fmt: skip
from .record import Record, channel_names, listed, read
from .spectrum import peaks_of, spectrum_of
from .summary import batch_drawing, is_summary, print_summary, read_summary, scan_drawing

ENDINGS = (".png", ".html", ".htm", ".svg", ".pdf", ".jpg", ".jpeg")
TOLD_PEAKS = 5
NAMELESS = "a batch prints no names and no units; --cfg CFG, the record of a run of its case, gives them"
SEEN = 0.005  # of the greatest line of a spectrum: smaller ones can't be seen


@dataclass
class Signal:
    """A channel as it may be drawn: `times` in s and `values`, shape (samples,) both, in V, A or the channel's own
    unit."""

    name: str
    times: np.ndarray
    values: np.ndarray
    unit: str
    state: bool  # a status channel
    skew: float  # s, which the times have in them


def parser() -> argparse.ArgumentParser:
    """The words of the command."""
    made = argparse.ArgumentParser(
        prog="emtp plot", description=__doc__, formatter_class=argparse.RawDescriptionHelpFormatter
    )
    made.add_argument("files", metavar="FILE", nargs="+", help="RECORD [DAT] [OUT], or SUMMARY [OUT]")
    made.add_argument("--with", metavar="OTHER", dest="other", help="a second record over the first one")
    made.add_argument("--offset", metavar="S", type=real, default=0.0, help="s that are added to the times of OTHER")
    made.add_argument("--from", metavar="S", dest="begin", type=real, help="the first time that is drawn, in s")
    made.add_argument("--to", metavar="S", dest="end", type=real, help="the last time that is drawn, in s")
    made.add_argument(
        "--only", metavar="NAMES", action="append", help="these channels alone, between commas, with * for any text"
    )
    made.add_argument(
        "--fft", metavar="NAME", help="the spectrum of a channel between --from and --to (window of von Hann)"
    )
    made.add_argument("--xy", metavar="NAME", nargs=2, help="the second channel over the first one")
    made.add_argument("--all", action="store_true", help="a page has all samples, however many")
    made.add_argument("--cfg", metavar="CFG", help="the record that names the channels of a batch")
    return made


def main(words: list[str]) -> int:
    """Runs the command: 0 where it drew."""
    its = parser().parse_intermixed_args(words)
    first, dat, out = files_of(its.files)
    if first.lower().endswith(".csv"):
        raise RecordError(f"{first} is a table and no record; the pictures of a study's tables stand beside them")
    summary = is_summary(first)
    if summary and (dat or its.other or its.only or its.fft or its.xy or its.begin is not None or its.end is not None):
        raise RecordError(f"{first} is a summary, of which all is drawn: only OUT and --cfg may stand beside it")
    if its.offset and not its.other:
        raise RecordError("--offset moves the record behind --with, and there is none")
    if dat and dat.lower().endswith((".cfg", ".cff")):
        raise RecordError(f"{dat}: a second record stands behind --with")
    if its.cfg and not summary:
        raise RecordError("--cfg names the channels of a batch, and a record was given")
    if its.fft and its.xy:
        raise RecordError("--fft and --xy are two drawings: ask for one")
    if summary:
        drawing = summary_drawing(first, its.cfg)
    else:
        drawing = record_drawing(first, dat, its)
    write(drawing, out, its.all)
    print(f"drawn: {out}")
    return 0


def files_of(files: list[str]) -> tuple[str, str | None, str]:
    """The first file, its data where they are named, and what is drawn."""
    if len(files) > 3:
        raise RecordError(f"{len(files)} files: a record has two at most, and OUT is one")
    first, *rest = files
    out = (
        rest.pop()
        if rest and (len(rest) == 2 or rest[-1].lower().endswith(ENDINGS))
        else os.path.splitext(first)[0] + ".png"
    )
    if len(rest) > 1:
        raise RecordError(f"{rest[0]} and {rest[1]}: a record has one file of data")
    if os.path.realpath(out) in {os.path.realpath(name) for name in (first, *rest)}:
        raise RecordError(f"{out}: this would be written over what is read")
    return first, rest[0] if rest else None, out


def summary_drawing(path: str, cfg: str | None) -> Drawing:
    """The drawing of what a scan or a batch printed; its extremes are printed."""
    summary = read_summary(path, None if cfg is None else channel_names(cfg), cfg or "")
    print_summary(summary)
    title = os.path.basename(path)
    if summary.points:
        return scan_drawing(summary, title)
    drawing = batch_drawing(summary, title)
    if cfg is None:
        drawing.notes.append(NAMELESS)
        print(NAMELESS)
    return drawing


def record_drawing(path: str, dat: str | None, its: argparse.Namespace) -> Drawing:
    """The drawing of one record or two; what was drawn is printed."""
    record = read(path, dat)
    signals, notes = signals_of(record, 0.0, "", its), told_of(record, 0.0)
    names, title = record.names + record.state_names, os.path.basename(path)
    if its.other:
        other = read(its.other)
        mark = stem(its.other) if stem(its.other) != stem(path) else its.other
        signals += signals_of(other, its.offset, f" ({mark})", its)
        notes += told_of(other, its.offset)
        names += other.names + other.state_names
        title += f" and {os.path.basename(its.other)}"
    if its.only:
        chosen(its.only, names, f"{path} and {its.other}" if its.other else path)  # each word has to mean one
    signals = [within(signal, its) for signal in signals]
    if names and not any(len(signal.times) for signal in signals):
        raise RecordError(
            f"{path} has no sample in the time that is asked for; it lasts from 0 to {number(record.times[-1])} s"
        )
    if its.fft:
        signals = [one_of(its.fft, signals, path)]
        drawing = spectrum_drawing(signals[0])
    elif its.xy:
        signals = [one_of(name, signals, path) for name in its.xy]
        drawing = pair_drawing(*signals)
    else:
        drawing = times_drawing(signals)
    drawing.title, drawing.notes = title, notes + said_of(signals) + worth_of(record) + drawing.notes
    for note in drawing.notes:
        print(note)
    return drawing


def drawn(
    record: Record,
    names: tuple[str, ...],
    path: str | os.PathLike[str] | None,
    begin: float | None,
    end: float | None,
) -> Drawing:
    """The drawing of channels of a record (all without names) between two times in s; written where a path is given."""
    its = argparse.Namespace(only=list(names) or None, begin=begin, end=end)
    chosen(names, [*record.names, *record.state_names], record.path or "the record")  # each word has to mean one
    signals = [within(signal, its) for signal in signals_of(record, 0.0, "", its)]
    if not any(len(signal.times) for signal in signals):
        raise RecordError(f"{record.path or 'the record'} has no sample in the time that is asked for")
    drawing = times_drawing(signals, told=False)
    drawing.title, drawing.notes = os.path.basename(record.path) or "record", record.told + said_of(signals)
    if path is not None:
        write(drawing, os.fspath(path))
    return drawing


def write(drawing: Drawing, path: str, whole: bool = False) -> None:
    """Writes a page where the name says so, of which `whole` has all samples, else a picture."""
    if path.lower().endswith((".html", ".htm")):
        page.write(drawing, path, whole)
    else:
        picture.draw(drawing, path)


def stem(path: str) -> str:
    """The name of a file without folder and ending."""
    return os.path.splitext(os.path.basename(path))[0]


def signals_of(record: Record, shift: float, suffix: str, its: argparse.Namespace) -> list[Signal]:
    """The channels of a record that are asked for, their times moved."""
    names = record.names + record.state_names
    if its.only:
        wanted = [part.strip() for text in its.only for part in text.split(",")]
        names = [name for name in names if any(name in matching(word, names) for word in wanted)]
    signals = []
    for name in names:
        state = name not in record.names
        factor, unit = (1.0, "") if state else base_unit(record.units[record.names.index(name)])
        values = record.states(name) if state else record.channel(name) * factor
        skew = 0.0 if state else record.skew(name)
        signals.append(Signal(name + suffix, record.times + (skew + shift), values, unit, state, skew))
    return signals


def worth_of(record: Record) -> list[str]:
    """Of a record that the program wrote, that its run has something to judge, where the case of its name lies beside it."""
    told = worth.beside(record.path, record.station, record.device)
    return [told] if told else []


def told_of(record: Record, shift: float) -> list[str]:
    """What is unusual of a record that is drawn, and by how much it was moved."""
    base = os.path.basename(record.path)
    return [f"{base}: {told}" for told in record.told] + ([f"{base}: moved by {number(shift)} s"] if shift else [])


def said_of(signals: list[Signal]) -> list[str]:
    """What was done to the channels that are drawn."""
    gone = [(signal.name, int(np.isnan(signal.values).sum())) for signal in signals if not signal.state]
    missing = [f"{name} ({count})" for name, count in gone if count]
    skewed = [signal.name for signal in signals if signal.skew]
    said = [f"values are missing, and left out: {listed(missing)}"] if missing else []
    return said + ([f"drawn at the times of their skew: {listed(skewed)}"] if skewed else [])


def within(signal: Signal, its: argparse.Namespace) -> Signal:
    """The part of a signal between --from and --to."""
    slack = 1e-9 * max(1e-3, *(abs(it) for it in (its.begin or 0.0, its.end or 0.0)))
    kept = np.ones(len(signal.times), bool)
    if its.begin is not None:
        kept &= signal.times >= its.begin - slack
    if its.end is not None:
        kept &= signal.times <= its.end + slack
    return replace(signal, times=signal.times[kept], values=signal.values[kept])


def one_of(name: str, signals: list[Signal], path: str) -> Signal:
    """The one signal that a word names."""
    found = chosen([name], [signal.name for signal in signals if not signal.state], path)
    if len(found) > 1:
        raise RecordError(f"{name!r} means several channels: {listed(found)}")
    return next(signal for signal in signals if signal.name == found[0] and not signal.state)


def times_drawing(signals: list[Signal], told: bool = True) -> Drawing:
    """Curves and bars over the time; the extremes of each channel are printed where they are to be told."""
    begin = min((signal.times[0] for signal in signals if len(signal.times)), default=0.0)
    end = max((signal.times[-1] for signal in signals if len(signal.times)), default=0.0)
    unit, seconds = time_unit(end - begin)
    analog, curves, bars = [], [], []
    for signal in signals:
        curve = Curve(signal.name, signal.times * round(1 / seconds), signal.values, signal.unit)
        if signal.state or is_two_valued(signal.values, signal.unit):
            bars.append(Bar(signal.name, spans_of(curve.x, signal.values) if len(curve.x) else []))
        else:
            curves.append(curve)
        if not signal.state:
            analog.append(curve)
    panes = panes_of(curves)  # in the units that are drawn and told
    for curve in analog if told else []:
        print(extremes(curve, unit))
    return Drawing("", panes, bars, unit)


def extremes(curve: Curve, unit: str) -> str:
    """Least and greatest value of a curve over the time, with their times."""
    if not np.isfinite(curve.y).any():
        return f"{curve.name}: no values"
    low, high = int(np.nanargmin(curve.y)), int(np.nanargmax(curve.y))
    least, most = (
        f"{number(curve.y[at])} {curve.unit}".rstrip() + f" at {number(curve.x[at])} {unit}" for at in (low, high)
    )
    return f"{curve.name}: least {least}, greatest {most}"


def spectrum_drawing(signal: Signal) -> Drawing:
    """The spectrum of a signal; its greatest peaks are printed and marked."""
    made = spectrum_of(signal.times, signal.values, signal.name)
    divisor, unit = shown_unit(signal.unit, float(made.crests.max()))
    marks = []
    for hertz, crest in peaks_of(made)[:TOLD_PEAKS]:
        print(f"{signal.name}: {number(hertz)} Hz: crest {number(crest / divisor)} {unit}".rstrip())
        marks.append(Mark(hertz, crest / divisor, f"{number(hertz)} Hz"))
    told = [
        f"spectrum of {number(made.length)} s by the window of von Hann: crest values, "
        f"a line each {number(made.resolution)} Hz"
    ]
    told += [made.told] if made.told else []
    curve = Curve(signal.name, made.hertz, made.crests / divisor, unit)
    # as far as it has lines that can be seen
    end = int(np.flatnonzero(made.crests >= SEEN * made.crests.max())[-1]) + 1
    view = (0.0, float(made.hertz[min(len(made.hertz) - 1, math.ceil(1.2 * end))]))
    return Drawing("", [Pane(unit, [curve], "Hz", 4.0, marks, view=view)], notes=told)


def pair_drawing(x: Signal, y: Signal) -> Drawing:
    """One signal over the other, at the times of the first; what one of them hasn't is left out."""
    same = len(x.times) == len(y.times) and np.array_equal(x.times, y.times)
    beside = y.values if same else np.interp(x.times, y.times, y.values, np.nan, np.nan)
    over, x_unit = shown_unit(x.unit, float(np.nanmax(np.abs(x.values), initial=0.0)))
    up, y_unit = shown_unit(y.unit, float(np.nanmax(np.abs(beside), initial=0.0)))
    curve = Curve("", x.values / over, beside / up, y_unit)
    told = [] if same else [f"{y.name} is taken between its samples at the times of {x.name}"]
    return Drawing("", [Pane(f"{y.name}, {y_unit}", [curve], f"{x.name}, {x_unit}", 6.0)], notes=told)
