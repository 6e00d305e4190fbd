"""Channels of a record as curves in V or A: one, turned round, or sums and differences of several.

    signal_of(record, "U S-L", "V")          a channel
    signal_of(record, "-I VSA-LSA", "A")     the other way round, as of a current transformer that is turned
    signal_of(record, "V S - V L", "V")      a difference; the signs stand between blanks

`U S-L` of a record that has none is the difference of the node voltages V S and V L. A variable of the control, whose
unit is PU, counts as what is wanted, and that is told.
"""

from __future__ import annotations

import re
from dataclasses import dataclass, field

import numpy as np

from .configuration import RecordError
from .drawing import base_unit
from .record import Record

SIGN = re.compile(r" ([+-]) ")
MOST_MISSING = 0.01  # of a channel's values
QUANTITIES = {"V": "a voltage (V)", "A": "a current (A)"}


@dataclass(frozen=True)
class Signal:
    """A curve: `times` in s, which rise, and `values` in V or A, both of shape (samples,) and without missing values."""

    name: str
    unit: str  # V or A
    times: np.ndarray = field(repr=False)
    values: np.ndarray = field(repr=False)
    least: float = 0.0  # the least difference of two values that the record keeps, 0 where it keeps all digits
    told: tuple[str, ...] = ()

    @property
    def step(self) -> float:
        """The time between two samples in s, of most of them."""
        return float(np.median(np.diff(self.times)))

    def at(self, times: np.ndarray) -> np.ndarray:
        """The values at these times in s, straight between the samples: shape of `times`."""
        return np.interp(times, self.times, self.values)


def names_of(text: str | None) -> list[str]:
    """The names of a word, parted by commas."""
    return [part.strip() for part in (text or "").split(",") if part.strip()]


def terms_of(text: str) -> list[tuple[float, str]]:
    """The signs and the names of a sum of channels."""
    parts = SIGN.split(text.strip())
    signs = [1.0] + [1.0 if sign == "+" else -1.0 for sign in parts[1::2]]
    found = []
    for sign, name in zip(signs, parts[::2]):
        name = name.strip()
        if name.startswith("-"):
            sign, name = -sign, name[1:].strip()
        found.append((sign, name))
    return found


def spelled(record: Record, text: str) -> list[tuple[float, str]]:
    """The channels that a text means, with their signs; the voltage of a branch may be that of its two nodes."""
    if text in record.names:
        return [(1.0, text)]
    found = []
    for sign, name in terms_of(text):
        ends = re.fullmatch(r"U (.+?)-(.+)", name)
        nodes = (
            []
            if ends is None or name in record.names
            else [(s, f"V {end}") for s, end in zip((1.0, -1.0), ends.groups())]
        )
        nodes = [(s, node) for s, node in nodes if node != "V 0"]
        there = bool(nodes) and all(node in record.names for _, node in nodes)
        found += [(sign * s, node) for s, node in nodes] if there else [(sign, name)]
    return found


def where(record: Record) -> str:
    """What an error says that it is of."""
    return record.path or "the record"


def signal_of(record: Record, text: str, unit: str) -> Signal:
    """The curve of a channel, or of several, in V or A as `unit` says.

    Up to 1 % of the values may be missing. RecordError where more are, where the record has no such channel, or where it is
    no voltage or current.
    """
    times, values, least = None, None, 0.0
    told = []
    for sign, name in spelled(record, text):
        part = record.channel(name)  # says what the record has instead
        factor, own = base_unit(record.units[record.names.index(name)].strip())
        if own in ("", "1"):
            told.append(f"{name} has no unit, and counts as {QUANTITIES[unit]}")
        elif own != unit:
            raise RecordError(f"{where(record)}: {name} is in {own}, and {QUANTITIES[unit]} is wanted")
        good = np.isfinite(part)
        gone = len(part) - int(good.sum())
        if gone > MOST_MISSING * len(part):
            raise RecordError(f"{where(record)}: {name}: {gone} of its {len(part)} values are missing")
        own_times, part = record.times_of(name)[good], part[good]
        if gone:
            told.append(f"{name}: {gone} missing values are left out, and it goes straight over them")
        if len(own_times) < 3 or not (np.diff(own_times) > 0).all():
            raise RecordError(f"{where(record)}: {name} has fewer than three samples, or their times don't rise")
        part = sign * factor * part
        if times is None or values is None:
            times, values = own_times, part
        else:
            values = values + np.interp(times, own_times, part)
        least = max(least, _least(record, name) * factor)
    assert times is not None and values is not None  # a text has a term
    return Signal(text, unit, times, values, least, tuple(told))


def _least(record: Record, name: str) -> float:
    """The least difference of two values that a record keeps of a channel, 0 where it keeps all digits."""
    step = record.multiplier(name)
    return float(step) if np.isfinite(step) else 0.0
