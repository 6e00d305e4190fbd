"""Writes COMTRADE records: editions 1999 and 2013; ASCII, BINARY, BINARY32 and FLOAT32; cfg with dat, or one cff.

    write("x.cfg", Content(times, [Channel("V BUS", "V", values)]), form="BINARY", revision=1999)

A value that is written is off by at most half the channel's multiplier, which `write` answers, and in the form
FLOAT32 by half a unit of the last of its 24 bits. Source: IEEE C37.111 of 1999 and 2013.
"""

from __future__ import annotations

import math
import os
import threading
from dataclasses import dataclass, field
from datetime import datetime, timedelta
from decimal import Decimal
from itertools import chain
from typing import Iterable, Iterator

import numpy as np

from .configuration import FORMS, MOST_CHANNELS, RecordError
from .samples import BLANK_STAMP, KINDS, MISSING

LIMITS = {"ASCII": 32_767, "BINARY": 32_767, "BINARY32": 2_147_483_647}  # greatest raw value
MARK = 99_999  # what an ASCII file says of a missing value
BLOCK = 20_000  # samples that are written at once
LONGEST = {"name": 64, "phase": 2, "circuit": 64, "unit": 32, "station": 64, "device": 64}  # characters
EPOCH = datetime(2000, 1, 1)  # of a record that has no date


@dataclass
class Channel:
    """An analog channel: primary values, shape (samples,), float64, in `unit`, nan where missing."""

    name: str
    unit: str
    values: np.ndarray
    phase: str = ""
    circuit: str = ""
    skew: float = 0.0  # s
    primary: float = 1.0  # of the instrument transformer's ratio
    secondary: float = 1.0
    scaling: str = "P"  # "P": primary values are written, "S": secondary ones
    multiplier: float = math.nan  # of primary values, to be kept where the form can; nan where it is to be chosen

    @property
    def share(self) -> float:
        """What is written over what is primary."""
        return self.secondary / self.primary if self.scaling == "S" else 1.0


@dataclass
class Bar:
    """A status channel: states, shape (samples,), 0 or 1."""

    name: str
    values: np.ndarray
    phase: str = ""
    circuit: str = ""


@dataclass
class Content:
    """What a record holds."""

    times: np.ndarray  # shape (samples,), float64, s from the first sample
    channels: list[Channel]
    bars: list[Bar] = field(default_factory=list)
    station: str = ""
    device: str = ""
    frequency: float = math.nan  # Hz, nan where unknown
    rates: list[tuple[float, int]] = field(default_factory=list)  # Hz, number of the last sample; empty: by time stamps
    start: datetime | None = None  # of the first sample
    trigger: float = 0.0  # s, on the scale of `times`


@dataclass
class Written:
    """What was written: the files; the multiplier of each channel, in primary units (nan in FLOAT32); the unit of a
    time stamp in s."""

    files: list[str]
    multipliers: list[float]
    stamp: float


def write(path: str, content: Content, form: str = "BINARY", revision: int = 1999) -> Written:
    """Writes a record; a name that ends with .cff is one file with all. The files are there whole or not at all."""
    whole = path.lower().endswith(".cff")
    check(path, content, form, revision, whole)
    multipliers = [multiplier_of(channel, form) for channel in content.channels]
    unit, stamps = time_stamps(content)
    lines = configuration(content, form, revision, multipliers, unit)
    text = "".join(line + "\r\n" for line in lines).encode("utf-8")
    pieces = data(content, form, [float(multiplier) for multiplier in multipliers], stamps)
    if whole:
        size = data_size(content, form)
        head = b"--- file type: CFG ---\r\n" + text + b"--- file type: INF ---\r\n\r\n--- file type: HDR ---\r\n\r\n"
        head += f"--- file type: DAT {form}{'' if size is None else f': {size}'} ---\r\n".encode()
        files: dict[str, Iterable[bytes]] = {path: chain([head], pieces)}
    else:
        stem, ending = os.path.splitext(path)
        files = {path: [text], stem + (".DAT" if ending.isupper() else ".dat"): pieces}
    put(files)
    own = [float(multiplier) / channel.share for multiplier, channel in zip(multipliers, content.channels)]
    return Written(list(files), [math.nan] * len(own) if form == "FLOAT32" else own, unit * 1e-6)


def check(path: str, content: Content, form: str, revision: int, whole: bool) -> None:
    """Refuses what a record of this edition and form can't hold."""

    def refuse(cause: str) -> None:
        raise RecordError(f"{path}: {cause}")

    if not whole and not path.lower().endswith(".cfg"):
        refuse("a record's name ends with .cfg, or with .cff where it is one file")
    if form not in FORMS or revision not in (1999, 2013):
        refuse(f"a record of {revision} in the form {form} isn't written")
    if revision == 1999 and (whole or form in FORMS[2:]):
        refuse(f"edition 1999 has no {'records of one file (cff)' if whole else form}; 2013 has")
    count = len(content.channels) + len(content.bars)
    if not 1 <= count <= MOST_CHANNELS:
        refuse(f"{count} channels: a record has 1 to {MOST_CHANNELS:,}")
    if not len(content.times):
        refuse("no samples")
    texts = [("station", content.station), ("device", content.device)]
    its: list[Channel | Bar] = [*content.channels, *content.bars]
    for it in its:
        texts += [("name", it.name), ("phase", it.phase), ("circuit", it.circuit)]
        if len(it.values) != len(content.times):
            refuse(f"{it.name} has {len(it.values)} values, and there are {len(content.times)} samples")
    texts += [("unit", channel.unit) for channel in content.channels]
    for what, text in texts:
        if "," in text or not text.isprintable():
            refuse(f"the {what} {text!r} has a comma or a byte that a line of a record can't hold")
        if len(text) > LONGEST[what]:
            refuse(f"the {what} {text!r} is longer than {LONGEST[what]} characters")
        if revision == 1999 and not text.isascii():
            refuse(f"the {what} {text!r} isn't ASCII, which edition 1999 wants; 2013 takes it")
    for channel in content.channels:
        if not (channel.primary > 0 and channel.secondary > 0):
            refuse(f"the ratio of {channel.name}, {channel.primary:g} to {channel.secondary:g}, isn't above 0")
        most = np.nanmax(np.abs(channel.values), initial=0.0) * max(1.0, channel.share)
        if most > (3.4e38 if form == "FLOAT32" else 1e300):
            refuse(f"a value of {channel.name} is too large for the form {form}")
    if content.rates and content.rates[-1][1] != len(content.times):
        refuse(f"the rates name {content.rates[-1][1]} samples, and there are {len(content.times)}")


def multiplier_of(channel: Channel, form: str) -> Decimal:
    """The multiplier of raw values as it is written: the channel's own one where it suffices, else the least of seven
    digits."""
    if form == "FLOAT32":
        return Decimal(1)
    most = float(np.nanmax(np.abs(channel.values), initial=0.0)) * channel.share if len(channel.values) else 0.0
    own = channel.multiplier * channel.share
    if own > 0 and most <= LIMITS[form] * own * (1 + 1e-12):
        return Decimal(repr(float(f"{own:.15g}")))
    if most == 0:
        return Decimal("0.000000001")
    multiplier = Decimal(f"{most / LIMITS[form]:.6e}")
    while float(multiplier) * LIMITS[form] < most:
        multiplier += Decimal(1).scaleb(multiplier.adjusted() - 6)
    return multiplier


def plain(value: Decimal | float) -> str:
    """A number in at most 32 characters, without an exponent where it fits."""
    value = value if isinstance(value, Decimal) else Decimal(repr(float(value)))
    text = f"{value:f}"
    text = text.rstrip("0").rstrip(".") if "." in text else text
    return text if len(text) <= 32 else f"{value.normalize():E}"


def time_stamps(content: Content) -> tuple[float, np.ndarray]:
    """The unit of a time stamp in us, a power of ten, and the stamps, whole numbers of it below 2^32 - 1.

    Beside a rate the unit is 1 us where samples stand that far apart; else it is the greatest that gives the times
    exactly, or the least that holds the last one.
    """
    times = (content.times - content.times[0]) * 1e6
    power = 0
    while times[-1] / 10.0**power > BLANK_STAMP - 1:
        power += 1
    least = power
    while times[-1] / 10.0 ** (least - 1) <= BLANK_STAMP - 1 and least > -6:
        least -= 1
    gap = np.diff(times).min(initial=math.inf)
    while power > least:
        if content.rates and gap >= 10.0**power:
            break
        scaled = times / 10.0**power
        if not content.rates and np.abs(scaled - np.round(scaled)).max() < 1e-6:
            break
        power -= 1
    return float(f"1e{power}"), np.round(times / 10.0**power).astype(np.int64)


def configuration(content: Content, form: str, revision: int, multipliers: list[Decimal], unit: float) -> list[str]:
    """The lines of the cfg."""
    channels, bars = content.channels, content.bars
    lines = [
        f"{content.station},{content.device},{revision}",
        f"{len(channels) + len(bars)},{len(channels)}A,{len(bars)}D",
    ]
    for number, (it, multiplier) in enumerate(zip(channels, multipliers), 1):
        low, high = ("-3.4E38", "3.4E38") if form == "FLOAT32" else (str(-LIMITS[form]), str(LIMITS[form]))
        fields = [
            str(number),
            it.name,
            it.phase,
            it.circuit,
            it.unit,
            plain(multiplier),
            "0",
            plain(round(it.skew * 1e6, 6)),
        ]
        lines.append(",".join([*fields, low, high, plain(it.primary), plain(it.secondary), it.scaling]))
    lines += [f"{number},{it.name},{it.phase},{it.circuit},0" for number, it in enumerate(bars, 1)]
    lines.append("" if math.isnan(content.frequency) else plain(content.frequency))
    lines.append(str(len(content.rates)))
    lines += [f"{plain(rate)},{last}" for rate, last in content.rates] or [f"0,{len(content.times)}"]
    start = content.start or EPOCH
    trigger = 0.0 if math.isnan(content.trigger) else content.trigger
    try:
        lines += [instant(start), instant(start + timedelta(microseconds=round(trigger * 1e6))), form, plain(unit)]
    except OverflowError:
        raise RecordError(f"a trigger {trigger:g} s after {start} has no date") from None
    return lines + (["0,0", "B,0"] if revision == 2013 else [])


def instant(moment: datetime) -> str:
    """Date and time to the us; strftime would give a year below 1000 less than four digits."""
    return f"{moment.day:02d}/{moment.month:02d}/{moment.year:04d},{moment:%H:%M:%S.%f}"


def raw_values(channel: Channel, form: str, multiplier: float, at: slice) -> np.ndarray:
    """Raw values of some samples, shape (some samples,), in the type that the form keeps."""
    values = channel.values[at] * channel.share
    if form == "FLOAT32":
        with np.errstate(over="ignore"):
            return values.astype(np.float32)
    missing = MARK if form == "ASCII" else MISSING[form]
    return np.where(np.isnan(values), missing, np.rint(np.nan_to_num(values) / multiplier)).astype(np.int64)


def data(content: Content, form: str, multipliers: list[float], stamps: np.ndarray) -> Iterator[bytes]:
    """The bytes of the dat, some samples at a time."""
    for first in range(0, len(stamps), BLOCK):
        at = slice(first, min(first + BLOCK, len(stamps)))
        numbers = np.arange(at.start + 1, at.stop + 1)
        columns = [
            raw_values(channel, form, multiplier, at) for channel, multiplier in zip(content.channels, multipliers)
        ]
        states = [np.asarray(bar.values[at], np.int64) for bar in content.bars]
        if form == "ASCII":
            rows = np.stack([numbers, stamps[at], *columns, *states], axis=1).tolist()
            yield "".join(",".join(map(str, row)) + "\r\n" for row in rows).encode()
            continue
        made = np.zeros(len(numbers), sample_kind(content, form))
        made["number"], made["stamp"] = numbers, stamps[at]
        for place, column in enumerate(columns):
            made["analog"][:, place] = column
        for place, state in enumerate(states):
            made["status"][:, place // 16] |= (state << (place % 16)).astype(np.uint16)
        yield made.tobytes()
    if form == "ASCII":
        yield b"\x1a"


def sample_kind(content: Content, form: str) -> np.dtype:
    """A sample of a binary form."""
    words = -(-len(content.bars) // 16)
    analog = ("analog", KINDS[form], (len(content.channels),))
    return np.dtype([("number", "<u4"), ("stamp", "<u4"), analog, ("status", "<u2", (words,))])


def data_size(content: Content, form: str) -> int | None:
    """The bytes of the data of a binary form."""
    return None if form == "ASCII" else sample_kind(content, form).itemsize * len(content.times)


def put(files: dict[str, Iterable[bytes]]) -> None:
    """Writes files, each in pieces: all beside their places, then moves them there, so that a fault leaves what was
    there before."""
    own = f"{os.getpid()}.{threading.get_ident()}.part"
    beside = {path: f"{path}.{own}" for path in files}
    try:
        for path, parts in files.items():
            with open(beside[path], "wb") as file:
                file.writelines(parts)
        for path, made in beside.items():
            os.replace(made, path)
    except OSError as fault:
        raise RecordError(f"{path}: {fault.strerror or fault}") from None
    finally:
        for made in beside.values():
            if os.path.exists(made):
                os.remove(made)
