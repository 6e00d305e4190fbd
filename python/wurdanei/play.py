"""Makes measured voltages or currents the sources of a case.

Each channel becomes tables of the control (device 56) over the time whose sum is the measured curve, and a source of type
60 that takes the sum. Such a source has the variable of the last record, so the tables stand one step early.
docs/compare.md says how a record is played, docs/control.md and docs/cards.md have the cards.
"""

import argparse
import math
import os
import sys
from dataclasses import dataclass
from decimal import Decimal

import numpy as np

from . import program
from .deck import Deck, DeckError, refusal
from .drawing import base_unit
from .record import Record, RecordError, listed, read

POINTS = 64  # of a device
CARDS = 200  # supplemental cards of a case
TERMS = 23  # names of two characters, each with its sign, in the 69 columns of a formula
GREATEST = 4e8  # V or A: differences of two such values have their place in a point, and are in its range
LONGEST = 200_000  # points of a lead-in, far more than a case can hold
LETTERS = "ABCDEFGHIJKLMNOPQRSTUVWXYZ"


class PlayError(Exception):
    """Why a record can't be played, in words."""


@dataclass(frozen=True)
class Played:
    """What drives a node: a channel of the record, times a factor."""

    node: str
    channel: str
    factor: float = 1.0


@dataclass(frozen=True)
class Plan:
    """When a record is played: `begin` and `end` of its own time, `lead` seconds after the start of the case.

    In the lead-in its first period is repeated, from nothing on by a smooth ramp. Points stand at the record's own samples, or
    each `spacing` seconds of the case.
    """

    begin: float
    end: float
    lead: float
    frequency: float  # Hz
    spacing: Decimal | None = None


# ---- the curve


def curve(record: Record, it: Played) -> tuple[np.ndarray, np.ndarray, bool]:
    """The times (s of the record) and values (V or A) of a channel without missing ones, and whether it is a current."""
    if it.channel not in record.names:
        raise PlayError(f"the record has no channel {it.channel!r}; it has {', '.join(record.names)}")
    scale, unit = base_unit(record.units[record.names.index(it.channel)].strip())
    if unit not in ("V", "A"):
        raise PlayError(f"{it.channel} has the unit {unit or '(none)'}, and a source takes V or A")
    times, values = record.times_of(it.channel), record.channel(it.channel)
    good = np.isfinite(values)
    if 2 * good.sum() < len(values) or good.sum() < 2:
        raise PlayError(f"{len(values) - good.sum()} of the {len(values)} values of {it.channel} are missing")
    values = values[good] * scale * it.factor
    if not np.max(abs(values)) <= GREATEST:
        raise PlayError(f"{it.channel} times {it.factor:g} is above {GREATEST:g} {unit}")
    return times[good], values, unit == "A"


def points(times: np.ndarray, values: np.ndarray, plan: Plan) -> tuple[np.ndarray, np.ndarray]:
    """The points of a curve, shape (points,): their times in s of the case, which rise by 1 ns at least, and their values."""
    inside = (times > plan.begin) & (times < plan.end)
    at = np.concatenate([[plan.begin], times[inside], [plan.end]]) - plan.begin
    seen = np.interp(at + plan.begin, times, values)
    if plan.lead:
        period = 1 / plan.frequency
        first = at < period * (1 - 1e-9)
        count = int(np.ceil(plan.lead / period * (1 - 1e-9)))
        before = np.concatenate([at[first] - back * period for back in range(count, 0, -1)])
        at = np.concatenate([before, at]) + plan.lead
        seen = np.concatenate([np.tile(seen[first], count), seen])
        rise = np.clip(at / max(plan.lead - period, period / 2), 0, 1)
        seen = seen * rise * rise * (3 - 2 * rise)
        at, seen = np.append(0.0, at[at > 0]), np.append(0.0, seen[at > 0])
    if plan.spacing:
        places = float(plan.spacing) * np.arange(int(at[-1] / float(plan.spacing) * (1 + 1e-12)) + 1)
        return places, np.interp(places, at, seen)
    kept = np.append(True, np.diff(np.round(at, 9)) > 5e-10)
    return at[kept], seen[kept]


# ---- the cards


def new_names(taken: set[str], count: int) -> list[str]:
    """So many names of two characters that no variable has."""
    free = [first + second for first in LETTERS for second in "0123456789" + LETTERS if first + second not in taken]
    if len(free) < count:
        raise PlayError(f"the case leaves {len(free)} names of two characters, and {count} are needed")
    return free[:count]


def cards_of(tables: int) -> int:
    """How many supplemental cards so many tables and their sums need."""
    return tables + 1 + (-(-tables // TERMS) if tables > TERMS else 0)


def most_points(cards: int) -> int:
    """How many points of a curve so many supplemental cards can hold."""
    tables = max((count for count in range(cards + 1) if cards_of(count) <= cards and count <= TERMS**2), default=0)
    return tables * (POINTS - 1) + 1 if tables else 0


def table_cards(node: str, names: list[str], times: list[Decimal], values: list[Decimal]) -> list[str]:
    """The supplemental cards whose variable `node` is the curve that is straight between these points, `times` in s.

    Each table but the first begins at 0 and keeps its last value, so their sum is the curve, exactly.
    """
    pieces = [slice(first, first + POINTS) for first in range(0, len(times) - 1, POINTS - 1)]
    cards = []
    for number, (name, piece) in enumerate(zip(names, pieces)):
        base = values[piece][0] if number else Decimal(0)
        cards.append(f"98{name:6}56+TIMEX")
        cards += [f"{at:>16}{value - base:>16}" for at, value in zip(times[piece], values[piece])]
        cards.append(f"{'9999':>16}")
    terms, rest = names[: len(pieces)], names[len(pieces) :]
    if len(terms) > TERMS:
        groups = [terms[first : first + TERMS] for first in range(0, len(terms), TERMS)]
        cards += [f"98{name:6}  =" + "+".join(group) for name, group in zip(rest, groups)]
        terms = rest[: len(groups)]
    return [*cards, f"98{node:6}  =" + "+".join(terms)]


def source_card(node: str, current: bool, stop: Decimal | None) -> str:
    """The source that takes the variable of its node's name."""
    kind = "-1" if current else ""
    return f"60{node:6}{kind:>2}" + (f"{'':60}{float(stop):10.7g}" if stop is not None else "")


def play(deck: Deck, record: Record, wanted: list[Played], plan: Plan) -> list[str]:
    """Puts the cards into the case; what has to be told."""
    told = []
    taken = deck.variables()
    for it in wanted:
        if it.node in taken or not 1 <= len(it.node) <= 6:
            raise PlayError(
                f"{it.node} is a variable of the control already" if it.node in taken else f"{it.node!r} is no name"
            )
        taken.add(it.node)
    for it in wanted:
        if it.node not in (nodes := deck.nodes()):
            raise PlayError(f"{deck.path} has no node {it.node} on a branch or switch card; it has {listed(nodes)}")
    used = len(deck.cards("a supplemental card"))
    most = most_points((CARDS - used) // len(wanted))
    if most < 2:
        raise PlayError(
            f"{deck.path} has {used} supplemental cards of {CARDS}: too few are left for {len(wanted)} channels"
        )
    first = -deck.step()  # one step early
    for it in wanted:
        times, values, current = curve(record, it)
        at, seen = points(times, values, plan)
        if len(at) > most:
            left = plan.begin + at[most - 1] - plan.lead
            told.append(
                f"{it.channel}: left out from {left:.6f} s of the record on, since {most} of {len(at)} points fit"
            )
            at, seen = at[:most], seen[:most]
        if missing := record.missing(it.channel):
            told.append(f"{it.channel}: {missing} missing values have no points")
        size = len(at)
        names = new_names(taken, cards_of(-(-(size - 1) // (POINTS - 1))) - 1)
        taken |= set(names)
        moments = [Decimal(f"{moment:.9f}") for moment in at]
        digits = 6 if np.max(abs(seen)) < 4e7 else 4  # of 16 columns
        shown = [Decimal(f"{value:.{digits}f}") for value in seen]
        nano = Decimal("1e-9")
        cards = table_cards(it.node, names, [(moment + first).quantize(nano) for moment in moments], shown)
        deck.put("supplemental cards", [f"C {it.node} plays {it.channel}", *cards])
        stop = moments[-1] if moments[-1] < deck.end() else None
        deck.put("sources", [source_card(it.node, current, stop)])
        told.append(
            f"{it.node} is a {'current' if current else 'voltage'} source of {it.channel} times {it.factor:g}: "
            f"{size} points, {len(names) + 1} supplemental cards"
        )
        if stop is not None:
            told.append(f"{it.node}: the run ends at {deck.end()} s; from {float(stop):g} s on the source is 0")
    return told


# ---- words


def _words() -> argparse.ArgumentParser:
    words = argparse.ArgumentParser(
        prog="emtp play",
        formatter_class=argparse.RawDescriptionHelpFormatter,
        description="Makes measured voltages or currents the sources of a case.",
        epilog="""Each WHAT is NODE=CHANNEL or NODE=CHANNEL,FACTOR: a channel in V or A becomes a voltage or a current source of the
node. The case has to have the node, and no voltage source of it. Points stand at the record's samples, or, where these are
closer than the case's step, at each step.
Exit status: 0, or 2 where the record can't be played.""",
    )
    words.add_argument("case", metavar="CASE")
    words.add_argument("record", metavar="RECORD", help="the measured record, .cfg or .cff")
    words.add_argument("wanted", metavar="WHAT", nargs="+")
    words.add_argument("--out", metavar="NEW", required=True, help="the case with the sources, a new file")
    words.add_argument(
        "--from", metavar="T", dest="begin", type=float, help="seconds of the record that are played first"
    )
    words.add_argument("--to", metavar="T", dest="end", type=float, help="seconds of the record that are played last")
    words.add_argument(
        "--lead",
        metavar="CYCLES",
        type=float,
        default=5.0,
        help="lead-in: its first period again and again; %(default)s",
    )
    words.add_argument("--frequency", metavar="HZ", type=float, help="of the lead-in; that of the record")
    words.add_argument("--every", metavar="STEPS", type=int, help="a point each so many steps of the case")
    return words


def _wanted(text: str) -> Played:
    node, equals, rest = text.partition("=")
    channel, comma, factor = rest.partition(",")
    try:
        value = float(factor) if comma else 1.0
    except ValueError:
        value = math.nan
    if not equals or not node or not channel or not math.isfinite(value):
        raise PlayError(f"{text}: it is NODE=CHANNEL or NODE=CHANNEL,FACTOR")
    return Played(node, channel.strip(), value)


def planned(deck: Deck, record: Record, given: argparse.Namespace) -> tuple[Plan, list[str]]:
    """When the record is played, by the words that were given; and what has to be told."""
    begin = float(record.times[0]) if given.begin is None else given.begin
    end = float(record.times[-1]) if given.end is None else given.end
    if not record.times[0] <= begin < end <= record.times[-1]:
        raise PlayError(
            f"the record has {record.times[0]:g} to {record.times[-1]:g} s, and {begin:g} to {end:g} is no part of it"
        )
    frequency = record.frequency if given.frequency is None else given.frequency
    if not 0 <= given.lead < math.inf:
        raise PlayError("--lead is a number of cycles from 0 on")
    if given.lead and not 0 < frequency < math.inf:
        raise PlayError("the record has no line frequency: give --frequency, or --lead 0")
    if given.lead and end - begin < 1 / frequency:
        raise PlayError("the lead-in repeats the first period, and less than one is played: give --lead 0")
    lead = given.lead / frequency if given.lead else 0.0
    sampling = float(np.median(np.diff(record.times)))
    if lead >= deck.end() or lead / sampling > LONGEST:
        raise PlayError(f"the lead-in, {lead:g} s, is longer than the run, or than a case can hold")
    step = deck.step()
    every = given.every if given.every is not None else 1 if sampling < 0.999 * float(step) else 0
    if given.every is not None and every < 1:
        raise PlayError("--every is a whole number of steps from 1 on")
    told = []
    if given.frequency is not None and abs(record.frequency - frequency) > 1e-3 * record.frequency:
        told.append(
            f"the record's line frequency is {record.frequency:g} Hz, and the lead-in goes by {frequency:g} Hz: where "
            "that isn't the wave's own, it jumps between two periods"
        )
    if every * float(step) > 1.001 * sampling:
        left = 1 - sampling / (every * float(step))
        told.append(
            f"a point each {every * float(step):g} s: {100 * left:.0f} % of the samples, each {sampling:g} s, stand between points"
        )
    return Plan(begin, end, lead, frequency, every * step if every else None), told


def main(words: list[str]) -> int:
    """The command."""
    given = _words().parse_args(words)
    try:
        wanted = [_wanted(text) for text in given.wanted]
        if os.path.exists(given.out):
            raise PlayError(f"{given.out} is there already")
        deck, record = Deck(given.case), read(given.record)
        plan, told = planned(deck, record, given)
        told += play(deck, record, wanted, plan)
        with program.room() as room:
            with open(os.path.join(room, "case"), "w", encoding="latin-1", errors="replace", newline="") as file:
                file.write(deck.text())
            shown = program.run(["show", "--count", "case"], room)
        if shown.status:
            raise PlayError(f"the case with these sources isn't accepted: {refusal(shown)}")
        with open(given.out, "x", encoding="latin-1", errors="replace", newline="") as file:
            file.write(deck.text())
        print(f"{plan.begin:g} s of the record is {plan.lead:g} s of the case")
        print(*told, f"written: {given.out}", sep="\n", flush=True)
    except (PlayError, DeckError, RecordError, program.ProgramError) as fault:
        print(f"emtp play: {fault}", file=sys.stderr)
        return 2
    return 0
