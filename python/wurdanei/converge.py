"""Runs a case at its time step, at a half and at a quarter of it, and says how far its record is from that of no step.

The cards are re-timed and nothing else: lines keep their travel times, sources and switches their times, and each sample
its instant. docs/converge.md says what is printed.
"""

from __future__ import annotations

import argparse
import csv
import math
import os
import pathlib
import re
import sys
import typing
from dataclasses import dataclass
from decimal import Decimal

import numpy as np

from . import columns, deck, fields, listing, picture, program, record
from .choice import chosen
from .deck import Deck, DeckError
from .drawing import Curve, Drawing, Pane
from .measures import rms
from .record import Record, RecordError

STEPS = (1, 2, 4)  # what the time step is divided by
SAME = 1e-4  # of a quantity: differences below it are none
LEAST_ORDER = 0.5  # below it nothing is extrapolated
MOST_ORDER = 4.0
MOST_STEPS, MOST_EVERY = 1_000_000, 10**6
OFF = re.compile(r"off its characteristic in steps=[1-9]|^warning, .* isn't on the characteristic$")  # of `emtp judge`


class ConvergeError(Exception):
    """Why a case can't be run at smaller steps, in words."""


@dataclass(frozen=True)
class Quantity:
    """A number of a channel at the three time steps, and what of it the records can't resolve."""

    channel: str
    kind: str  # "peak", "RMS", "energy"
    unit: str
    values: tuple[float, float, float]
    resolution: float

    @property
    def changes(self) -> tuple[float, float]:
        """By how much it changes from a step to its half, twice."""
        first, second, third = self.values
        return second - first, third - second

    @property
    def settled(self) -> bool:
        """Its changes are below what the records resolve, or below SAME of it."""
        room = max(self.resolution, SAME * abs(self.values[2]))
        return all(abs(it) <= room for it in self.changes)

    @property
    def order(self) -> float:
        """The power of the time step by which its changes shrink; nan where one is 0 or they have opposite signs."""
        first, second = self.changes
        return math.log2(first / second) if first * second > 0 else math.nan

    @property
    def converges(self) -> bool:
        """It is settled, or its changes shrink by a power that extrapolates."""
        return self.settled or self.order >= LEAST_ORDER or self._closes_in

    @property
    def _closes_in(self) -> bool:
        """Its second change is at most half of the first one, of any sign."""
        first, second = self.changes
        return abs(second) <= max(abs(first) / 2, self.resolution)

    @property
    def limit(self) -> float:
        """What it would be without a step: by its order where that extrapolates, else its last value."""
        if self.settled or not self.order >= LEAST_ORDER:
            return self.values[2]
        return self.values[2] + self.changes[1] / (2 ** min(self.order, MOST_ORDER) - 1)

    @property
    def remains(self) -> float:
        """How far its value at the case's own step is from the limit."""
        return self.values[0] - self.limit


@dataclass(frozen=True)
class Report:
    """The quantities of a case at three time steps in s; the greatest distances in % of a channel's effective value
    between its curves; and what is told of the runs."""

    dt: float
    quantities: list[Quantity]
    curves: dict[str, tuple[float, float]]
    ended: list[str]  # runs that end early
    told: list[str]

    @property
    def open(self) -> list[Quantity]:
        """The quantities that don't converge."""
        return [it for it in self.quantities if not it.converges]

    @property
    def converges(self) -> bool:
        """All quantities do, and no run ends early."""
        return not self.open and not self.ended

    def lines(self) -> list[str]:
        """A table in words."""
        width = max([len(it.channel) for it in self.quantities] + [7])
        head = f"{'channel':{width}}  quantity  " + "".join(f"{it:>13}" for it in ("step", "half", "quarter"))
        found = [f"{head}  order  {'remains':>10}"]
        for it in self.quantities:
            values = "".join(f"{value:13.6g}" for value in it.values)
            order = "same" if it.settled else f"{it.order:.1f}" if it.converges and it.order == it.order else "-"
            rest = f"{it.remains:10.3g}" if it.converges else "open".rjust(10)
            found.append(f"{it.channel:{width}}  {it.kind:8}  {values}  {order:>5}  {rest} {it.unit}".rstrip())
        found += [
            f"{name}: from step to half the curve moves by {first:.3g} % of its effective value, to a quarter by {second:.3g} %"
            + (", which is no less" if second >= first > 100 * SAME else "")
            for name, (first, second) in self.curves.items()
        ]
        found += [f"{it.channel}: its {it.kind} doesn't converge" for it in self.open]
        return found + [f"{it}; only samples before are compared" for it in self.ended] + self.told


# ---- cases of cards


def retimed(own: Deck) -> list[str]:
    """The texts of a case at its time step, its half and its quarter. ConvergeError where the cards can't hold one."""
    line, first = own.cards("the first miscellaneous card")[0]
    other, second = own.cards("the second miscellaneous card")[0]
    step = fields.kept_of(first[:8], 12)
    until = fields.kept_of(first[8:16], 12)
    every = max(1, int(second[8:16].strip() or 0))
    steps = (2 * until + step) // (2 * step)
    if 4 * steps > MOST_STEPS:
        raise ConvergeError(f"{own.path} has {steps:,} steps, so a quarter of its step has more than {MOST_STEPS:,}")
    found = []
    for part in STEPS:
        if step % part or step // part < 1000 or every * part > MOST_EVERY:
            raise ConvergeError(f"{own.path}: {step:,} ps can't be divided by {part}")
        place = columns.FIRST.field("DELTAT")
        text = fields.fitted(Decimal(step // part).scaleb(-12), place)
        if text.kept != step // part:
            raise ConvergeError(f"{own.path}: a step of {step // part:,} ps doesn't stand in the columns of DELTAT")
        lines = list(own.lines)
        lines[line - 1] = text.text.rjust(7).ljust(8) + first.ljust(16)[8:]
        lines[other - 1] = second.ljust(16)[:8] + str(every * part).rjust(8) + second[16:]
        found.append(own.text(lines))
    return found


def stubs(shown: listing.Listing, step_s: float) -> list[int]:
    """The lines of a case whose travel time is one step: of exact arresters, which a smaller step wouldn't be."""
    found = ((it.line or 0, float(it.text("travel time").split(" ")[0])) for it in shown.of("line"))
    return [line for line, travel in found if abs(travel - step_s) < 0.5e-12]


def records_of(texts: typing.Sequence[str]) -> tuple[list[Record], list[str]]:
    """The records of cases, and which runs end early."""
    found: list[Record] = []
    ends: list[str] = []
    for part, text in zip(STEPS, texts):
        with program.room() as room:
            place = pathlib.Path(room)
            (place / "case.case").write_text(text, encoding="latin-1", newline="")
            ended = program.run(["run", "case.case", "case.cfg", "case.dat"], place)
            if ended.status not in (0, 3):
                raise ConvergeError(f"at a step of 1/{part}: {deck.refusal(ended)}")
            if ended.status == 3:
                ends.append(f"at 1/{part} of the step the run ends early, {ended.note.strip()}")
            found.append(record.read(place / "case.cfg"))
    return found, ends


# ---- what is measured


def quantities_of(records: typing.Sequence[Record], names: typing.Sequence[str]) -> list[Quantity]:
    """Peak and RMS of channels, and the energy of each pair `U A-B` and `I A-B` of them."""
    count = min(len(it.times) for it in records)
    found = []
    for name in names:
        unit = records[0].units[records[0].names.index(name)]
        curves = [it.channel(name)[:count] for it in records]
        raw = max(it.multiplier(name) for it in records)
        found.append(Quantity(name, "peak", unit, _three(float(np.abs(it).max()) for it in curves), raw))
        found.append(Quantity(name, "RMS", unit, _three(rms(it) for it in curves), raw))
    for name in names:
        if name.startswith("U ") and f"I{name[1:]}" in names:
            energies, rooms = zip(*(_energy(it, name[2:], count) for it in records))
            found.append(Quantity(name[2:], "energy", "kJ", _three(energies), max(rooms)))
    return found


def _energy(own: Record, ends: str, count: int) -> tuple[float, float]:
    """The energy in kJ that a branch takes in, and half a raw value of current or voltage of it."""
    u, i = own.channel(f"U {ends}")[:count], own.channel(f"I {ends}")[:count]
    joules = float(np.trapz(u * i, own.times[:count]))
    length = float(own.times[count - 1]) if count else 0.0
    room = own.multiplier(f"U {ends}") * rms(i) + own.multiplier(f"I {ends}") * rms(u)
    return joules / 1e3, room * length / math.sqrt(max(count, 1)) / 1e3


def _three(values: typing.Iterable[float]) -> tuple[float, float, float]:
    first, second, third = values
    return first, second, third


def curves_of(records: typing.Sequence[Record], names: typing.Sequence[str]) -> dict[str, tuple[float, float]]:
    """How far each channel's curve moves from a step to its half and from there to the quarter, in % of its RMS."""
    count = min(len(it.times) for it in records)
    found = {}
    for name in names:
        one, two, three = (it.channel(name)[:count] for it in records)
        whole = rms(three)
        if whole:
            found[name] = 100 * rms(two - one) / whole, 100 * rms(three - two) / whole
    return found


def reported(
    records: typing.Sequence[Record], dt: float, names: typing.Sequence[str], ended: list[str], told: list[str]
) -> Report:
    """The report of three records of a case, at its step, its half and its quarter, at the instants that all have."""
    if len({tuple(it.names) for it in records}) > 1:
        raise ConvergeError("the three records have other channels")
    count = min(len(it.times) for it in records)
    if not all(np.allclose(it.times[:count], records[0].times[:count], rtol=0, atol=1e-9) for it in records):
        raise ConvergeError("the three records have other instants of samples: give each case the same ones by `every`")
    return Report(dt, quantities_of(records, names), curves_of(records, names), ended, told)


def of(build: typing.Callable[[float], typing.Any], dt: float, channels: typing.Sequence[str] = ()) -> Report:
    """The report of a case that a function writes for a time step (wurdanei.case): `of(lambda dt: studied(dt, 0.05), 1e-6)`.

    The function gives each case the same instants of samples, as by `every=round(1e-6 / dt)`.
    """
    cases = [build(dt / part) for part in STEPS]
    records = [it.run(early="keep", record=True) for it in cases]  # as `emtp converge` reads them
    ended = [f"at 1/{part} of the step {it.end_of_run}" for part, it in zip(STEPS, cases) if it.end_of_run]
    told = [
        f"at 1/{part} of the step: {it}" for part, own in zip(STEPS, records) for it in own.told if it[:4] == "OFF "
    ]
    names = chosen(list(channels), records[0].names, "the case") if channels else records[0].names
    return reported(records, dt, names, ended, told)


# ---- the command


def write_csv(report: Report, path: str) -> None:
    """The table as comma-separated values."""
    with open(path, "w", encoding="utf-8", newline="") as file:
        out = csv.writer(file)
        steps = [f"{report.dt / part:g} s" for part in STEPS]
        out.writerow(["channel", "quantity", "unit", *steps, "order", "limit", "remains", "converges"])
        for it in report.quantities:
            order = "" if it.settled or math.isnan(it.order) else f"{it.order:.3g}"
            limit = [f"{it.limit:.9g}", f"{it.remains:.3g}"] if it.converges else ["", ""]
            values = [f"{value:.9g}" for value in it.values]
            out.writerow([it.channel, it.kind, it.unit, *values, order, *limit, "yes" if it.converges else "no"])


def drawing_of(report: Report) -> Drawing:
    """For each kind of quantity how far it is from its last value over the time step, in % of that."""
    panes = []
    for kind in ("peak", "RMS", "energy"):
        curves = []
        for it in (it for it in report.quantities if it.kind == kind and it.limit):
            x = np.array([1e6 * report.dt / part for part in reversed(STEPS)] + [0.0])[[3, 0, 1, 2]]
            y = 100 * (np.array([it.limit, *reversed(it.values)]) / it.limit - 1)
            curves.append(Curve(it.channel, x, y, "%"))
        if curves:
            panes.append(Pane(f"{kind}, % off", curves))
    return Drawing("what a smaller step changes", panes, x_label="time step, us")


def warnings_of(path: str) -> list[str]:
    """What `emtp show` warns of the case, a line each: among it what keeps a record from its circuit at every step."""
    folder, name = os.path.split(os.path.abspath(path))
    ended = program.run(["show", f"./{name}"], folder)
    return [] if ended.status else [f"show warns: {words}" for words in listing.read(ended.note).warnings]


def judged(texts: typing.Sequence[str]) -> list[str]:
    """What `emtp judge` says of the runs of cases at the three steps, where a point lay off its characteristic: a line each.

    Such a point is a false one, and no smaller step mends it. Nothing where there is no emtp_judge, or nothing to judge.
    """
    found: list[str] = []
    for part, text in zip(STEPS, texts if program.has_judge() else ()):
        with program.room() as room:
            (pathlib.Path(room) / "case.case").write_text(text, encoding="latin-1", newline="")
            if program.run(["judge", "--count", "case.case"], room).note == "0\n":
                return []
            ended = program.run(["judge", "case.case"], room)
        lines = () if ended.status else ended.note.splitlines()
        found += [f"at 1/{part} of the step: {it}" for it in lines if OFF.search(it)]
    return found


def _words() -> argparse.ArgumentParser:
    words = argparse.ArgumentParser(
        prog="emtp converge",
        description=__doc__.split("\n\n", maxsplit=1)[0],
        epilog="Exit status: 0 where all converges, 1 where something doesn't, 2 where it can't be run.",
    )
    words.add_argument("case", metavar="CASE")
    words.add_argument("--channels", metavar="NAMES", default="", help="names parted by commas, * for any; all of them")
    words.add_argument("--csv", metavar="FILE", help="the table as comma-separated values")
    words.add_argument("--picture", metavar="FILE", help="over the time step, as png, svg or pdf (matplotlib)")
    return words


def report_of(path: str, asked: typing.Sequence[str] = ()) -> Report:
    """The report of a case of cards."""
    own = Deck(path)
    texts = retimed(own)
    with program.room() as room:
        (pathlib.Path(room) / "case").write_text(texts[0], encoding="latin-1", newline="")
        shown = listing.read(program.run(["show", "case"], room).note)
    step = float(own.step())
    if lines := stubs(shown, step):
        raise ConvergeError(
            f"{path}: line {lines[0]} has a travel time of one step, as that before an exact arrester, which at half of the "
            "step it wouldn't be: write the case anew for each step (wurdanei.converge.of)"
        )
    records, ended = records_of(texts)
    if not records[0].names:
        raise ConvergeError(f"{path} asks for no output")
    names = chosen(list(asked), records[0].names, path) if asked else records[0].names
    return reported(records, step, names, ended, warnings_of(path) + judged(texts))


def main(words: list[str]) -> int:
    """The command."""
    given = _words().parse_args(words)
    try:
        report = report_of(given.case, [it.strip() for it in given.channels.split(",") if it.strip()])
        print("\n".join(report.lines()))
        if given.csv:
            write_csv(report, given.csv)
        if given.picture:
            picture.draw(drawing_of(report), given.picture)
    except (ConvergeError, DeckError, RecordError, program.ProgramError, fields.FieldError) as fault:
        print(f"emtp converge: {fault}", file=sys.stderr)
        return 2
    return 0 if report.converges else 1
