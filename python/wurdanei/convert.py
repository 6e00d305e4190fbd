"""Makes another COMTRADE record of a record, as a test set or a viewer takes it, or a table.

OUT is a record of two files, NAME.cfg with NAME.dat, a record of one file, NAME.cff (edition 2013), or a table,
NAME.csv, with a column of times in s and one a channel. Without --rate the samples stay those of IN, and get a
sampling rate where they are evenly spaced. With a lower rate a low-pass goes before it (cut-off at 0.4 of the rate,
see docs/record.md). A channel is named as IN has it, or by a pattern with *; several stand between commas.
"""

from __future__ import annotations

import argparse
import csv
import io
import math
import os
from datetime import datetime, timedelta
from typing import Iterable, Iterator

import numpy as np

from .choice import assigned, chosen
from .configuration import RecordError
from .record import Record, read
from .resample import at_rate, even_spacing
from .write import EPOCH, Bar, Channel, Content, put, write

MOST_SAMPLES = 50_000_000  # of a record at another rate
BLOCK = 20_000  # lines of a table that are made at once


def parser() -> argparse.ArgumentParser:
    """The words of the command."""
    made = argparse.ArgumentParser(
        prog="emtp convert", description=__doc__, formatter_class=argparse.RawDescriptionHelpFormatter
    )
    made.add_argument("record", metavar="IN", help="the record: a .cfg, with its .dat beside it, or a .cff")
    made.add_argument("out", metavar="OUT", help="what is made: .cfg, .cff or .csv")
    made.add_argument("--dat", metavar="FILE", help="the data of IN, where it isn't beside it under the same name")
    made.add_argument(
        "--form", choices=("ascii", "binary", "binary32", "float32"), default="binary", help="default: binary"
    )
    made.add_argument(
        "--year", type=int, choices=(1999, 2013), help="the edition; default: 1999 where it has what is asked"
    )
    made.add_argument("--rate", metavar="HZ", type=number, help="samples a second")
    made.add_argument(
        "--from", metavar="S", dest="begin", type=number, help="the first time, in s from the first sample of IN"
    )
    made.add_argument("--to", metavar="S", dest="end", type=number, help="the last time")
    made.add_argument("--only", metavar="NAMES", action="append", help="the channels that are taken, in this order")
    made.add_argument("--rename", metavar="NAME=NEW", action="append", default=[], help="other names of channels")
    made.add_argument(
        "--secondary",
        metavar="NAME=P/S",
        action="append",
        default=[],
        help="secondary values by a ratio, as 'V*=400000/100'",
    )
    made.add_argument(
        "--is-secondary",
        metavar="NAME=P/S",
        action="append",
        default=[],
        help="channels whose values are secondary already, as of a current transformer: 'I CT*=1200/1'",
    )
    made.add_argument(
        "--phases",
        metavar="NAME=PH[:CIRCUIT]",
        action="append",
        default=[],
        help="phase and circuit, as 'V BUSA=A:LINE 1'",
    )
    made.add_argument("--frequency", metavar="HZ", type=number, help="the line frequency")
    made.add_argument("--date", metavar="DATE", type=moment, help="of the first sample, as '2026-11-28 13:07:20.5'")
    made.add_argument("--trigger", metavar="S", type=number, help="the trigger, in s from the first sample of IN")
    made.add_argument("--station", metavar="TEXT", help="the name of the station")
    made.add_argument("--device", metavar="TEXT", help="the name of the recorder")
    return made


def number(word: str) -> float:
    """A finite number of the command line."""
    value = float(word)
    if not math.isfinite(value):
        raise ValueError
    return value


def moment(word: str) -> datetime:
    """A date of the command line."""
    try:
        made = datetime.fromisoformat(word)
        if made.tzinfo is None:
            return made
    except ValueError:
        pass
    raise argparse.ArgumentTypeError(f"{word!r} isn't of the form '2026-11-28 13:07:20.5'")


def main(words: list[str]) -> int:
    """Runs the command: 0 where OUT is made."""
    its = parser().parse_intermixed_args(words)
    if its.rate is not None and its.rate <= 0:
        raise RecordError("--rate has to be above 0")
    if its.frequency is not None and its.frequency < 0:
        raise RecordError("--frequency has to be 0 or above")
    record = read(its.record, its.dat)
    ending = os.path.splitext(its.out)[1].lower()
    if ending not in (".cfg", ".cff", ".csv"):
        raise RecordError(f"{its.out}: the name ends with none of .cfg, .cff and .csv")
    own = {os.path.realpath(name) for name in (its.record, its.dat or os.path.splitext(its.record)[0] + ".dat")}
    made = [its.out, *([os.path.splitext(its.out)[0] + ".dat"] if ending == ".cfg" else [])]
    if own & {os.path.realpath(name) for name in made}:
        raise RecordError(f"{its.out}: this would be written over the record that is read")
    content = converted(record, its)
    for told in record.told + made_up(content, record, its):
        print(f"{its.record}: {told}")
    for channel in content.channels:
        missing = int(np.isnan(channel.values).sum())
        if missing:
            print(f"{channel.name}: {missing} values are missing")
    if ending == ".csv":
        put({its.out: table(content)})
        print(f"written: {its.out}: {summary(content)}")
        return 0
    form = its.form.upper()
    year = its.year or (
        2013 if ending == ".cff" or form in ("BINARY32", "FLOAT32") or not plain_text(content) else 1999
    )
    written = write(its.out, content, form, year)
    print(f"written: {', '.join(written.files)}: {summary(content)}, COMTRADE {year}, {form}")
    for channel, multiplier in zip(content.channels, written.multipliers):
        side = f", secondary by {channel.primary:g}/{channel.secondary:g}" if channel.scaling == "S" else ""
        off = "to 24 bits" if math.isnan(multiplier) else f"to half of {multiplier:g} {channel.unit}"
        print(f"{channel.name}: {off}{side}")
    return 0


def made_up(content: Content, record: Record, its: argparse.Namespace) -> list[str]:
    """What stands in a record that nothing told, since a record has to have it."""
    found = []
    if content.start is None:
        found.append(f"no date is known: {EPOCH:%d/%m/%Y} stands for that of the first sample; --date gives it")
    if math.isnan(record.trigger) and its.trigger is None:
        found.append("no trigger is known: the first sample stands for it; --trigger gives it")
    return [] if its.out.lower().endswith(".csv") else found


def plain_text(content: Content) -> bool:
    """All names are ASCII, as edition 1999 wants."""
    its: list[Channel | Bar] = [*content.channels, *content.bars]
    named = [(it.name, it.phase, it.circuit) for it in its]
    texts = [content.station, content.device, *(text for texts in named for text in texts)]
    return all(text.isascii() for text in [*texts, *(channel.unit for channel in content.channels)])


def summary(content: Content) -> str:
    """The size of what is written."""
    rate = " and ".join(f"{hertz:.9g} Hz" for hertz, _ in content.rates) or "times as they stand"
    return (
        f"{len(content.times)} samples, {rate}, {len(content.channels)} analog and {len(content.bars)} status channels"
    )


def converted(record: Record, its: argparse.Namespace) -> Content:
    """What is written of a record, by the words of the command."""
    every = record.names + record.state_names
    names = chosen(its.only, every, record.path) if its.only else every
    renamed = assigned(its.rename, every, record.path)
    ratios = {name: ratio(word) for name, word in assigned(its.secondary, record.names, record.path).items()}
    own = {name: ratio(word) for name, word in assigned(its.is_secondary, record.names, record.path).items()}
    both = [name for name in own if name in ratios]
    if both:
        raise RecordError(f"{both[0]} is named by --secondary and by --is-secondary")
    phases = assigned(its.phases, record.names, record.path)
    kept, times = kept_times(record, its)
    channels, bars = [], []
    for name in names:
        if name not in record.names:
            bars.append(Bar(renamed.get(name, name), states_at(record, name, kept, times, its.rate)))
            continue
        place = record.names.index(name)
        phase, _, circuit = phases.get(name, f"{record.phases[place]}:{record.circuits[place]}").partition(":")
        primary, secondary = (ratios | own).get(name, record.ratio(name))
        factor = primary / secondary if name in own else 1.0
        channel = Channel(
            renamed.get(name, name), record.units[place], factor * values_at(record, name, kept, times, its.rate), phase,
            circuit, 0.0 if its.rate else record.skew(name), primary, secondary,
            "S" if name in ratios or name in own else "P", math.nan if its.rate else factor * record.multiplier(name),
        )  # fmt: skip
        channels.append(channel)
    begin = times[0]
    if its.trigger is not None and not 0 <= its.trigger <= record.times[-1] + 1e-9:
        raise RecordError(f"--trigger {its.trigger:g}: {record.path} lasts from 0 to {record.times[-1]:g} s")
    start = its.date or (record.start and record.start + timedelta(seconds=begin))
    trigger = its.trigger if its.trigger is not None else record.trigger
    frequency = its.frequency if its.frequency is not None else record.frequency
    station = record.station if its.station is None else its.station
    device = record.device if its.device is None else its.device
    trigger = 0.0 if math.isnan(trigger) else trigger - begin
    rates = rates_of(record, times, its.rate, whole=len(times) == len(record.times))
    return Content(times - begin, channels, bars, station, device, frequency, rates, start, trigger)


def ratio(word: str) -> tuple[float, float]:
    """The two sides of a ratio as 400000/100."""
    try:
        sides = [number(side) for side in word.split("/")]
        if len(sides) == 2 and min(sides) > 0:
            return sides[0], sides[1]
    except ValueError:
        pass
    raise RecordError(f"the ratio {word!r} isn't of the form PRIMARY/SECONDARY, as 400000/100")


def kept_times(record: Record, its: argparse.Namespace) -> tuple[slice, np.ndarray]:
    """Which samples are taken, and the times that are written, in s from the first sample of the record."""
    begin = record.times[0] if its.begin is None else its.begin
    end = record.times[-1] if its.end is None else its.end
    slack = 1e-9 * max(abs(begin), abs(end))
    first = int(np.searchsorted(record.times, begin - slack, "left"))
    last = int(np.searchsorted(record.times, end + slack, "right"))
    if last <= first:
        raise RecordError(
            f"{record.path}: it has no sample from {begin:g} to {end:g} s; it lasts from 0 to {record.times[-1]:g} s"
        )
    if its.rate is None:
        return slice(first, last), record.times[first:last]
    begin, end = max(begin, record.times[0]), min(end, record.times[-1])
    count = math.floor((end - begin + slack) * its.rate) + 1
    if count > MOST_SAMPLES:
        raise RecordError(f"{count} samples at {its.rate:g} Hz: more than {MOST_SAMPLES:,} aren't made")
    return slice(0, len(record.times)), begin + np.arange(count) / its.rate


def values_at(record: Record, name: str, kept: slice, times: np.ndarray, rate: float | None) -> np.ndarray:
    """The values of an analog channel that are written, shape (written samples,)."""
    values = record.channel(name)[kept]
    return values if rate is None else at_rate(record.times_of(name)[kept], values, times, rate)


def states_at(record: Record, name: str, kept: slice, times: np.ndarray, rate: float | None) -> np.ndarray:
    """The states that are written, shape (written samples,): at another rate those of the last sample before or at a
    time."""
    states = record.states(name)[kept]
    if rate is None:
        return states
    slack = 1e-9 * max(1e-3, record.times[-1])
    return states[np.maximum(np.searchsorted(record.times[kept], times + slack, "right") - 1, 0)]


def rates_of(record: Record, times: np.ndarray, rate: float | None, whole: bool) -> list[tuple[float, int]]:
    """The sampling rates that are written: the one asked for, those of the record, or that of evenly spaced samples."""
    if rate is not None:
        return [(rate, len(times))]
    if record.rates and whole:
        return record.rates
    spacing = even_spacing(times)
    if spacing is None:
        return []
    hertz = 1.0 / spacing
    near = float(f"{hertz:.9g}")  # 1 / spacing is off by the rounding of the times
    return [(near if abs(near - hertz) * times[-1] < 1e-3 else hertz, len(times))]


def table(content: Content) -> Iterator[bytes]:
    """The csv, some lines at a time: a head with names and units, a line a sample, an empty field where a value is
    missing."""
    heads = [
        it.name + f" ({it.unit}{', secondary' if it.scaling == 'S' else ''})" * bool(it.unit) for it in content.channels
    ]
    yield csv_lines([["s", *heads, *(bar.name for bar in content.bars)]])
    for at in range(0, len(content.times), BLOCK):
        part = slice(at, at + BLOCK)
        columns = [[f"{time:.12g}" for time in content.times[part]]]
        for channel in content.channels:
            columns.append(
                ["" if math.isnan(value) else f"{value:.10g}" for value in channel.values[part] * channel.share]
            )
        columns += [bar.values[part].tolist() for bar in content.bars]
        yield csv_lines(zip(*columns))


def csv_lines(rows: Iterable[Iterable]) -> bytes:
    """Lines of a csv."""
    text = io.StringIO()
    csv.writer(text, lineterminator="\n").writerows(rows)
    return text.getvalue().encode("utf-8")
