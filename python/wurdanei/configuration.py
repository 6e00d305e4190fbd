"""The configuration (cfg) of a COMTRADE record of 1991, 1999 or 2013: its lines, read and judged.

A line that lacks what it needs, or contradicts another one, is a `RecordError` with its number; what is unusual but
lawful is told. Sources: IEEE C37.111 of 1991, 1999 and 2013 (the last is IEC 60255-24:2013).
"""

from __future__ import annotations

import math
import re
from dataclasses import dataclass
from datetime import date, datetime, timedelta

MOST_CHANNELS = 10_000  # this project's own limit, as the next two: what a hostile file may ask for stays small
MOST_RATES = 10_000
LONGEST_LINE = 65_536  # bytes

FORMS = ("ASCII", "BINARY", "BINARY32", "FLOAT32")
NUMBER = re.compile(r"[+-]?(\d+\.?\d*|\.\d+)([eE][+-]?\d+)?", re.ASCII)
MOMENT = re.compile(r"(\d{1,2})/(\d{1,2})/(\d{4}|\d{2}),(\d{1,2}):(\d{1,2}):(\d{1,2})(?:\.(\d{0,9}))?", re.ASCII)


class RecordError(ValueError):
    """A record that can't be read or written: the file, the line or byte, and the cause, in words."""


@dataclass(frozen=True)
class Analog:
    """An analog channel as its line has it: value = multiplier times raw value + offset."""

    name: str
    phase: str
    circuit: str
    unit: str
    multiplier: float
    offset: float
    skew: float  # s; how much later than the sample's time the channel is sampled
    low: float  # range of raw values, nan where blank
    high: float
    primary: float  # of the instrument transformer's ratio; 1 where nothing is said
    secondary: float
    scaling: str  # "P" primary values, "S" secondary ones, "" where nothing is said
    line: int


@dataclass(frozen=True)
class State:
    """A status channel as its line has it."""

    name: str
    phase: str
    circuit: str
    line: int
    normal: int | None = None  # the state of a sound network, where one is given


@dataclass(frozen=True)
class Moment:
    """An instant of the configuration, to the ns, and with how many decimals of a second it is written."""

    nanoseconds: int  # since the begin of year 1
    decimals: int
    leap: bool = False  # it lies in a leap second, 23:59:60

    def clock(self) -> datetime:
        """The instant to the µs."""
        return datetime.min + timedelta(microseconds=self.nanoseconds // 1000)


@dataclass(frozen=True)
class Clock:
    """What edition 2013 says of the recorder's clock, as it stands there: the time code (hours from UTC) and the local
    one, the quality, and whether a leap second is in the record (1: added, 2: taken out; 0 or 3: none, unknown)."""

    code: str = ""
    local: str = ""
    quality: str = ""
    leap: str = ""


@dataclass
class Configuration:
    """What a cfg says; `told` is what of it is unusual but lawful."""

    path: str
    station: str
    device: str
    revision: int
    analogs: list[Analog]
    states: list[State]
    frequency: float  # Hz, nan where blank
    rates: list[tuple[float, int]]  # Hz and the number of the last sample; one of 0 Hz where time stamps are the times
    rates_line: int  # the line of the last rate
    first: Moment | None
    trigger: Moment | None
    form: str
    unit: float  # s, of a time stamp; nan where two lines contradict each other
    why: str  # what contradicts, or may be cut, so that no time may come from the stamps; else empty
    told: list[str]
    clock: Clock = Clock()
    lenient: bool = False  # what recorders write against the standard is read, and told
    counts: bool = False  # the numbers behind the rates may be those of their own samples

    @property
    def samples(self) -> int:
        """How many samples the data has to have."""
        return self.rates[-1][1]


class Lines:
    """The lines of a text, one after the other, as fields between commas without the blanks around them."""

    def __init__(
        self, path: str, data: bytes, before: int, base: int, lenient: bool = False, encoding: str | None = None
    ):
        self.path, self.data, self.base = path, data, base
        self.lenient, self.encoding = lenient, encoding
        self.told: list[str] = []
        self.at = 3 if data.startswith(b"\xef\xbb\xbf") else 0  # a mark of UTF-8
        self.number = before  # of the line that was read last
        self.open = False  # whether that line lacks its end
        self.foreign = False  # whether a line is no UTF-8

    def fault(self, cause: str) -> RecordError:
        """An error at the line that was read last."""
        return RecordError(f"{self.path}: line {self.number}: {cause}")

    def allows(self, cause: str) -> bool:
        """Whether what is against the standard is read all the same; then it is told, with the line."""
        if self.lenient:
            tell(self.told, f"{self.path}: line {self.number}: {cause}")
        return self.lenient

    def next(self, what: str) -> list[str]:
        """The fields of the next line, which has to be there."""
        if self.at >= len(self.data):
            raise RecordError(f"{self.path}: line {self.number + 1} is missing: {what}")
        self.number += 1
        end = self.data.find(b"\n", self.at, self.at + LONGEST_LINE + 1)
        self.open = end < 0
        if self.open:
            end = len(self.data)
        if end - self.at > LONGEST_LINE:
            raise self.fault(f"longer than {LONGEST_LINE:,} bytes, so this is no configuration of a record")
        line, start = self.data[self.at : end], self.at
        self.at = end + 1
        strange = re.search(rb"[\x00-\x08\x0b-\x1f\x7f]", line.rstrip(b"\r\x1a"))
        if strange:
            place = self.base + start + strange.start() + 1
            if strange[0] == b"\r":
                raise self.fault(f"byte {place} of the file is a carriage return alone, which ends no line")
            raise self.fault(
                f"byte {place} of the file is 0x{strange[0][0]:02X}, so this is no configuration of a record"
            )
        return [field.strip() for field in self.decoded(line.rstrip(b"\r\x1a")).split(",")]

    def decoded(self, line: bytes) -> str:
        """A line's text: in the encoding that is named, else UTF-8 (2013), else Windows-1252, as recorders write it."""
        try:
            text = line.decode(self.encoding or "utf-8")
        except UnicodeDecodeError:
            if self.encoding:
                raise self.fault(f"it isn't written in {self.encoding}") from None
            self.foreign, text = True, line.decode("cp1252", "replace")
        control = re.search("[\x80-\x9f]", text)
        if control:
            raise self.fault(f"it has the control character U+{ord(control[0]):04X}")
        return text

    def rest(self) -> bytes:
        """What stands behind the lines that were read, without blanks."""
        return self.data[self.at : self.at + 1000].strip(b" \t\r\n\x1a")


def real(lines: Lines, word: str, what: str, blank: float | None = None) -> float:
    """A finite number; of a blank field `blank`, where that is lawful."""
    if not word and blank is not None:
        return blank
    value = float(word) if NUMBER.fullmatch(word) else math.nan
    if not math.isfinite(value):
        raise lines.fault(f"{what} is {'blank' if not word else f'no number: {word[:40]!r}'}")
    return value


def whole(lines: Lines, word: str, what: str) -> int:
    """A whole number from 0 on, of at most ten digits."""
    if not re.fullmatch(r"[0-9]{1,10}", word):
        raise lines.fault(
            f"{what} is {'blank' if not word else f'no whole number of at most ten digits: {word[:40]!r}'}"
        )
    return int(word)


def sized(lines: Lines, fields: list[str], count: int, what: str) -> list[str]:
    """The fields of a line that has so many; blank ones behind them don't count."""
    while len(fields) > count and not fields[-1]:
        fields = fields[:-1]
    if len(fields) != count:
        raise lines.fault(f"{what} has {len(fields)} fields, not {count}")
    return fields


def read_configuration(
    path: str, data: bytes, before: int = 0, base: int = 0, lenient: bool = False, encoding: str | None = None
) -> Configuration:
    """The configuration that `data`, the bytes of a cfg, holds; so many lines and bytes of the file stand before
    them."""
    lines = Lines(path, data, before, base, lenient, encoding)
    told = lines.told
    station, device, revision = head(lines, told)
    analogs, states = channel_counts(lines)
    channels = [analog(lines, revision, told) for _ in range(analogs)]
    bars = [state(lines, revision, told) for _ in range(states)]
    frequency = real(lines, lines.next("the line frequency")[0], "the line frequency", math.nan)
    if frequency < 0:
        raise lines.fault(f"the line frequency is below 0: {frequency:g}")
    rates, counts = sampling_rates(lines, told)
    rates_line = lines.number
    first, trigger = moments(lines, revision, told)
    form = lines.next("the form of the data")[0].upper()
    if form not in FORMS:
        raise lines.fault(f"the form of the data is {form[:40]!r}, none of {', '.join(FORMS)}")
    if form in FORMS[2:] and revision != 2013:
        told.append(f"the form {form} is of edition 2013, and the record is of {revision}")
    unit, why, clock = stamp_unit(lines, revision, first, trigger, told)
    if lines.foreign:
        told.append(f"{path} has letters that are no UTF-8: they are read as Windows-1252")
    if lines.rest():
        told.append(f"what stands behind line {lines.number} of {path} isn't read")
    return Configuration(
        path, station, device, revision, channels, bars, frequency, rates, rates_line, first, trigger, form, unit, why,
        told, clock, lenient, counts,
    )  # fmt: skip


def head(lines: Lines, told: list[str]) -> tuple[str, str, int]:
    """Station, device and edition: line 1."""
    fields = lines.next("station, device and edition")
    if len(fields) < 2:
        raise lines.fault("no station and device, so this is no configuration of a record")
    while len(fields) > 3 and not fields[-1]:
        fields = fields[:-1]
    if len(fields) > 3 and lines.allows("the name of the station has a comma"):
        fields = [",".join(fields[:-2]), *fields[-2:]]
    if len(fields) > 3:
        raise lines.fault(f"station, device and edition have {len(fields)} fields, not 3")
    year = fields[2] if len(fields) == 3 else ""
    if year == "2001":
        told.append("edition 2001 (IEC 60255-24) is read as 1999, whose form it has")
        year = "1999"
    if year not in ("", "1991", "1999", "2013"):
        raise lines.fault(f"the edition is {year[:40]!r}, none of 1991, 1999 and 2013")
    return fields[0], fields[1], int(year or 1991)


def channel_counts(lines: Lines) -> tuple[int, int]:
    """The numbers of analog and of status channels: line 2."""
    fields = sized(lines, lines.next("the numbers of channels"), 3, "the line of the numbers of channels")
    match = re.fullmatch(r"(\d{1,7}),(\d{1,7})[aA],(\d{1,7})[dD]", ",".join(fields), re.ASCII)
    if not match:
        raise lines.fault(f"no numbers of channels, as 3,2A,1D: {','.join(fields)[:40]!r}")
    both, analogs, states = (int(word) for word in match.groups())
    if both != analogs + states:
        raise lines.fault(f"{both} channels, and {analogs} analog and {states} status ones: the sum differs")
    if both > MOST_CHANNELS:
        raise lines.fault(f"{both} channels: more than {MOST_CHANNELS:,} aren't read")
    return analogs, states


def analog(lines: Lines, revision: int, told: list[str]) -> Analog:
    """The line of an analog channel."""
    count = 10 if revision == 1991 else 13
    fields = lines.next("an analog channel")
    if revision == 1991 and len(fields) >= 13 and fields[12]:
        raise lines.fault(
            "an analog channel has 13 fields, as from 1999 on: line 1 has to name the edition, as ..,1999"
        )
    if len(fields) == count - 1 == 12 and lines.allows(
        "nothing says whether the channel is primary or secondary (P, S)"
    ):
        fields.append("")
    fields = sized(lines, fields, count, "an analog channel")
    multiplier = real(lines, fields[5], "the multiplier")
    offset = real(lines, fields[6], "the offset")
    skew = real(lines, fields[7], "the skew", 0.0)
    low, high = (real(lines, fields[at], "the range", math.nan) for at in (8, 9))
    primary, secondary, scaling = 1.0, 1.0, ""
    if revision != 1991:
        primary = real(lines, fields[10], "the primary side of the ratio", 0.0)
        secondary = real(lines, fields[11], "the secondary side of the ratio", 0.0)
        scaling = fields[12].upper()
        if scaling not in ("", "P", "S"):
            raise lines.fault(f"the channel is {fields[12][:40]!r}, neither P (primary) nor S (secondary)")
        known = primary > 0 and secondary > 0
        if scaling == "S" and not known:
            raise lines.fault("the channel has secondary values (S), and no ratio to its primary side")
        words = "the channel has a ratio, and nothing says whether its values are primary or secondary"
        if not scaling and known and primary != secondary and not lines.allows(words):
            raise lines.fault(words)
        if not known:
            primary = secondary = 1.0
    if not scaling:
        one = "of edition 1991 nothing says" if revision == 1991 else "of some channels nothing says"
        tell(told, f"{one} whether values are primary or secondary: they are taken as they stand")
    name, phase, circuit, unit = fields[1:5]
    return Analog(
        name, phase, circuit, unit, multiplier, offset, skew * 1e-6, low, high, primary, secondary, scaling, lines.number
    )  # fmt: skip


def state(lines: Lines, revision: int, told: list[str]) -> State:
    """The line of a status channel."""
    fields = lines.next("a status channel")
    if len(fields) == 3 and revision != 1991:
        three = lines.allows("a status channel has 3 fields, as those of edition 1991")
    else:
        three = revision == 1991
    if three:
        fields = sized(lines, fields, 3, "a status channel")
        fields = [*fields[:2], "", "", fields[2]]
    fields = sized(lines, fields + [""] * (len(fields) == 4), 5, "a status channel")
    if fields[4] not in ("", "0", "1"):
        raise lines.fault(f"the normal state is {fields[4][:40]!r}, neither 0 nor 1")
    return State(fields[1], fields[2], fields[3], lines.number, int(fields[4]) if fields[4] else None)


def sampling_rates(lines: Lines, told: list[str]) -> tuple[list[tuple[float, int]], bool]:
    """The sampling rates, each with the number of its last sample; and whether that may be of its own samples."""
    count = whole(lines, lines.next("the number of sampling rates")[0], "the number of sampling rates")
    if count > MOST_RATES:
        raise lines.fault(f"{count} sampling rates: more than {MOST_RATES:,} aren't read")
    rates: list[tuple[float, int]] = []
    counts = False
    for _ in range(max(1, count)):
        fields = sized(lines, lines.next("a sampling rate"), 2, "a sampling rate")
        if re.fullmatch(r"\d+\.0*", fields[1]) and lines.allows("the last sample's number has a point"):
            fields[1] = fields[1].partition(".")[0]
        hertz, last = real(lines, fields[0], "the sampling rate"), whole(lines, fields[1], "the last sample's number")
        if hertz < 0:
            raise lines.fault(f"the sampling rate is below 0: {hertz:g}")
        before = rates[-1][1] if rates else 0
        if counts or 0 < last <= before and lines.allows("behind the rates stand the numbers of their own samples"):
            counts, last = True, before + last
        if last <= before:
            raise lines.fault(f"the last sample's number is {last}, and has to be above {rates[-1][1] if rates else 0}")
        if rates and (hertz == 0) != (rates[0][0] == 0):
            raise lines.fault("one sampling rate is 0 and another isn't")
        rates.append((hertz, last))
    words = f"no sampling rate is announced, and one of {rates[0][0]:g} Hz is given"
    if count == 0 and rates[0][0] > 0 and not lines.allows(words):
        raise lines.fault(words)
    if count > 0 and rates[0][0] == 0:
        tell(told, "a sampling rate of 0 Hz is given: times come from the time stamps")
    return rates if rates[0][0] > 0 else [(0.0, rates[-1][1])], counts


def moments(lines: Lines, revision: int, told: list[str]) -> tuple[Moment | None, Moment | None]:
    """The instants of the first sample and of the trigger; None where the line is blank."""
    found = []
    for what in ("the time of the first sample", "the time of the trigger"):
        text = ",".join(lines.next(what))
        if re.match(r"0{1,2}/0{1,2}/0{1,4},", text) and lines.allows(f"{what} is {text[:40]!r}, which is no date"):
            text = ""
        match = MOMENT.fullmatch(text.strip(","))
        if text.strip(", ") and not match:
            raise lines.fault(f"{what} is {text[:40]!r}, no date and time as dd/mm/yyyy,hh:mm:ss.ssssss")
        found.append((match, lines.number, what))
    month_first = revision == 1991
    both = [match for match, *_ in found if match]
    if any(int(match[1 if month_first else 2]) > 12 for match in both):
        month_first = not month_first
        order = "month first" if month_first else "day first"
        tell(told, f"dates stand {order}, against edition {revision}: another order gives no month")
    elif revision == 1991 and any(int(match[2]) <= 12 and int(match[1]) != int(match[2]) for match in both):
        tell(told, "dates are read month first, as edition 1991 has them; some recorders wrote the day first")
    made: list[Moment | None] = []
    for match, number, what in found:
        made.append(None)
        if match:
            try:
                made[-1] = moment(match, month_first)
            except (ValueError, OverflowError):
                raise RecordError(f"{lines.path}: line {number}: {what} is {match[0]!r}: there is none") from None
        else:
            tell(told, f"{what} is blank")
    return made[0], made[1]


def moment(match: re.Match, month_first: bool) -> Moment:
    """The instant that a line's text names; a year of two digits is one from 1970 to 2069."""
    month, day = (int(match[1]), int(match[2])) if month_first else (int(match[2]), int(match[1]))
    year = int(match[3])
    if len(match[3]) == 2:
        year += 1900 if year >= 70 else 2000
    hour, minute, second = (int(match[at]) for at in (4, 5, 6))
    if hour > 23 or minute > 59 or second > 60:  # 60 is a leap second
        raise ValueError
    days = (date(year, month, day) - date.min).days
    if days >= (date.max - date.min).days:
        raise OverflowError
    digits = match[7] or ""
    seconds = ((days * 24 + hour) * 60 + minute) * 60 + second
    return Moment(seconds * 10**9 + int(digits.ljust(9, "0")), len(digits), second == 60)


def stamp_unit(
    lines: Lines, revision: int, first: Moment | None, trigger: Moment | None, told: list[str]
) -> tuple[float, str, Clock]:
    """The unit of a time stamp in s, why none may be taken from it (else empty), and the clock: the lines behind the
    form.

    Stamps of 2013 are ns where the instants have more than six decimals, else µs, times the multiplier."""
    base, why = 1e-6, ""
    fine = {moment.decimals > 6 for moment in (first, trigger) if moment}
    if fine == {True, False}:
        why = (
            "one instant is written to the us and the other to the ns, so that the unit of the time stamps isn't known"
        )
    elif fine == {True} and revision != 2013:
        why = (
            f"the instants are written to the ns in edition {revision}, so that the unit of the time stamps isn't known"
        )
    elif fine == {True}:
        base = 1e-9
    if revision == 1991:
        return base, why, Clock()
    what = "the multiplier of the time stamps"
    word = lines.next(what)[0] if not lines.lenient or lines.at < len(lines.data) else ""
    if not word and lines.allows(f"{what} is blank or missing, and taken as 1"):
        word = "1"
    multiplier = real(lines, word, what)
    if multiplier <= 0:
        raise lines.fault(f"the multiplier of the time stamps is {multiplier:g}, and has to be above 0")
    if lines.open:
        tell(told, f"the last line of {lines.path} has no end: it may be cut")
        why = why or f"line {lines.number}, the multiplier of the time stamps, has no end: it may be cut"
    words: list[str] = []
    if revision == 2013:
        for what in ("time code", "quality of the clock"):
            if lines.at >= len(lines.data):
                tell(told, f"the line of the {what} is missing, which edition 2013 wants")
                break
            words += (lines.next(what) + ["", ""])[:2]
    return base * multiplier, why, Clock(*words)


def tell(told: list[str], words: str) -> None:
    """Adds what is unusual, once."""
    if words not in told:
        told.append(words)
