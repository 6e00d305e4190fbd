"""The peaks of a study's rows: read from what `emtp batch` printed, joined, in tables, and their statistics."""

import csv
import re
import sys
from collections.abc import Sequence
from dataclasses import dataclass
from decimal import Decimal

import numpy as np

from .parts import StudyError
from .record import Record
from .summary import two_percent
from .varied import Cases


@dataclass(frozen=True)
class Row:
    """A row's answer: how it ended, and the peak of each channel as it is written."""

    end: str  # DONE, or ENDED with step, cause and name
    peaks: tuple[str, ...]


@dataclass(frozen=True)
class Channels:
    """The channels of a study: their names, their units, and sets of them whose greatest peak is told besides, as (words,
    places)."""

    names: tuple[str, ...]
    units: tuple[str, ...]
    sets: tuple[tuple[str, tuple[int, ...]], ...] = ()

    def headings(self, base: float | None) -> list[str]:
        """A heading for each channel and each set, with its unit; of voltages `pu` where there is a base."""
        units = [*self.units, *(self.units[places[0]] for _, places in self.sets)]
        names = [*self.names, *(f"ANY {words}" for words, _ in self.sets)]
        return [f"{name} ({'pu' if base and unit == 'V' else unit})" for name, unit in zip(names, units)]

    def values(self, peaks: Sequence[Decimal | str], base: float | None) -> list[Decimal | str]:
        """The peaks of each channel and of each set; voltages over the base, where there is one."""
        found = [*peaks, *(max((peaks[place] for place in places), key=Decimal) for _, places in self.sets)]
        if not base:
            return found
        units = [*self.units, *(self.units[places[0]] for _, places in self.sets)]
        return [f"{float(it) / base:.6g}" if unit == "V" else it for it, unit in zip(found, units)]


def rows_in(lines: list[str]) -> list[Row]:
    """The rows of a batch's output."""
    found = []
    for line in lines:
        if match := re.match(r"ROW \d+ (DONE|ENDED .*?) PEAKS(.*)$", line):
            found.append(Row(match[1], tuple(match[2].split())))
    return found


def sets_of(asked: list[str], names: Sequence[str], units: Sequence[str]) -> tuple[tuple[str, tuple[int, ...]], ...]:
    """The sets of channels that are asked for: names parted by commas, or the kind that names begin with, as V."""
    found = []
    for words in asked:
        places = []
        for word in (word.strip() for word in words.split(",")):
            those = [place for place, name in enumerate(names) if word in (name, name.split(" ")[0])]
            if not those:
                raise StudyError(
                    f"--any {words}: no channel is named {word}, or of such a kind; there are {', '.join(names)}"
                )
            places += those
        if len({units[place] for place in places}) > 1:
            raise StudyError(f"--any {words}: its channels have several units")
        found.append((words, tuple(dict.fromkeys(places))))
    return tuple(found)


def greatest(column: Sequence[str]) -> tuple[str, int]:
    """The greatest of a column of peaks, as it is written, and the number of the first row that has it, from 1."""
    values = [Decimal(peak) for peak in column]
    row = values.index(max(values))
    return column[row], row + 1


def summary(rows: list[Row], channels: Channels) -> str:
    """The text of one batch of all rows, and below it a line ANY for each set of channels."""
    lines = [" ".join([f"ROW {place} {row.end} PEAKS", *row.peaks]) for place, row in enumerate(rows, 1)]
    for place in range(len(channels.names)):
        peak, row = greatest([row.peaks[place] for row in rows])
        lines.append(f"MAX {place + 1} {peak} ROW {row}")
    for words, places in channels.sets:
        peak, row = greatest([max((row.peaks[place] for place in places), key=Decimal) for row in rows])
        lines.append(f"ANY {words} {peak} ROW {row}")
    return "".join(line + "\n" for line in lines)


def write_rows(
    path: str,
    values: list[str],
    tables: list[tuple[tuple[str, ...], list[tuple[int, str]], list[Row]]],
    channels: Channels,
    base: float | None,
) -> None:
    """Writes the table of all rows. `values` are the headings of varied fields; each of `tables` has their texts, the rows of
    the table of times (number of the line, text) and what was found."""
    width = max(len(line.split()) for _, lines, _ in tables for _, line in lines)
    times = [f"{word} {place + 1}" for place in range((width + 1) // 2) for word in ("close", "open")][:width]
    with open(path, "w", encoding="utf-8", newline="") as file:
        out = csv.writer(file)
        out.writerow([*values, "row", "line", *times, "end", *channels.headings(base)])
        for texts, lines, rows in tables:
            for place, ((number, line), row) in enumerate(zip(lines, rows), 1):
                out.writerow([*texts, place, number, *line.split(), row.end, *channels.values(row.peaks, base)])


@dataclass(frozen=True)
class Statistics:
    """Of one channel over all rows: the least peak that half of them exceed at most, the least one that 2 % exceed at most,
    and the greatest with its row, from 1."""

    half: float
    seldom: float
    greatest: float
    row: int


def statistics(column: Sequence[Decimal | str]) -> Statistics:
    """The statistics of a column of peaks."""
    values = np.array(column, float)
    ranked = np.sort(values)
    return Statistics(
        float(ranked[(len(ranked) - 1) // 2]), two_percent(ranked), float(ranked[-1]), int(values.argmax()) + 1
    )


def columns_of(rows: list[Row], channels: Channels, base: float | None) -> list[list[Decimal | str]]:
    """A column of peaks for each channel and each set."""
    return [list(column) for column in zip(*(channels.values(row.peaks, base) for row in rows))]


def listing(headings: list[str], columns: list[list[Decimal | str]]) -> list[str]:
    """The statistics of each channel, a line each."""
    width = max((len(it) for it in headings), default=0)
    lines = [f"{'peaks of':{width}}  {'half exceed':>12}  {'2 % exceed':>12}  {'greatest':>12}  row"]
    for heading, column in zip(headings, columns):
        it = statistics(column)
        lines.append(f"{heading:{width}}  {it.half:12.6g}  {it.seldom:12.6g}  {it.greatest:12.6g}  {it.row}")
    return lines


def channels_of(record: Record, cases: Cases, asked: list[str]) -> Channels:
    """The channels of a record, with the names of those in whose place they stand."""
    names = tuple(cases.instead[name] + cases.since if name in cases.instead else name for name in record.names)
    units = tuple("V" if name in cases.instead else unit for name, unit in zip(record.names, record.units))
    plain = [cases.instead.get(name, name) for name in record.names]
    return Channels(names, units, sets_of(asked, plain, units))


def tell_whole(headings: list[str], cases: Cases) -> None:
    """Says on standard error which peaks aren't taken from a time on."""
    whole = [it for it in headings if cases.since not in it and not it.startswith("ANY ")]
    if cases.since and whole:
        print(f"emtp study: the peaks of {', '.join(whole)} are of the whole run", file=sys.stderr)
