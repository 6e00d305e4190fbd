"""The data (dat) of a COMTRADE record: its samples in each form, as they stand in the file.

Nothing is believed before its bytes are there, and what is kept takes at most four times the bytes of the file.
Source: IEEE C37.111 of 1991, 1999 and 2013.
"""

from __future__ import annotations

import threading
import warnings
from typing import BinaryIO, Iterator

import numpy as np

from .configuration import NUMBER, Configuration, RecordError, tell

KINDS = {"BINARY": "<i2", "BINARY32": "<i4", "FLOAT32": "<f4"}
MISSING = {"BINARY": -(2**15), "BINARY32": -(2**31)}  # raw values that say that there is none
BLANK_STAMP = 0xFFFF_FFFF
BLANK = -(2**31)  # a missing value among kept whole numbers
PIECE = 1 << 20  # bytes of text that are read at a time
BLOCK = 1 << 16  # time stamps at a time, of the binary forms
PLAIN = b"0123456789,-+.eE \r\n"
SHORT = 40  # bytes of a field that an error shows
PARSING = threading.Lock()


class Samples:
    """What the data of a record holds: `count` samples."""

    count: int

    def stamps(self) -> Iterator[np.ndarray]:
        """The time stamps, some at a time and once: shape (some samples,), float64, in the record's unit, nan where
        blank."""
        raise NotImplementedError

    def raw(self, place: int) -> np.ndarray:
        """Raw values of an analog channel, shape (samples,), float64, nan where missing."""
        raise NotImplementedError

    def state(self, place: int) -> np.ndarray:
        """States of a status channel, shape (samples,), uint8, 0 or 1."""
        raise NotImplementedError

    def where(self, sample: int) -> str:
        """The file, and its line or byte at which a sample, counted from 0, stands."""
        raise NotImplementedError


def read_samples(configuration: Configuration, path: str, file: BinaryIO, start: int, size: int) -> Samples:
    """The samples in the `size` bytes of an open file that begin at the byte `start`."""
    file.seek(start)
    made = (Text if configuration.form == "ASCII" else Binary)(configuration, path, file, start, size)
    named, rates = configuration.samples, configuration.rates
    if configuration.lenient and not configuration.counts and made.count == sum(last for _, last in rates) != named:
        tell(configuration.told, f"{configuration.path}: behind the rates stand the numbers of their own samples")
        ends = np.cumsum([last for _, last in rates]).tolist()
        configuration.rates = [(hertz, end) for (hertz, _), end in zip(rates, ends)]
        named = made.count
    if made.count != named:
        raise RecordError(
            f"{path}: {made.count} samples, and line {configuration.rates_line} of {configuration.path} names {named}: "
            "one of them is cut, or of another record"
        )
    return made


class Binary(Samples):
    """Samples of the forms BINARY, BINARY32 and FLOAT32, kept as they stand in the file."""

    def __init__(self, configuration: Configuration, path: str, file: BinaryIO, start: int, size: int):
        analogs, states = configuration.analogs, configuration.states
        kind = np.dtype(
            [
                ("number", "<u4"),
                ("stamp", "<u4"),
                ("analog", KINDS[configuration.form], (len(analogs),)),
                ("status", "<u2", (-(-len(states) // 16),)),
            ]
        )
        self.path, self.start, self.width, self.missing = path, start, kind.itemsize, MISSING.get(configuration.form)
        if configuration.lenient and size % self.width == 1 and ends_with_mark(file, start, size):
            tell(configuration.told, f"{path}: an end mark (0x1A), which is of text, stands behind the last sample")
            size -= 1
        if size % self.width:
            raise RecordError(
                f"{path}: byte {start + size - size % self.width + 1}: {size % self.width} bytes stand behind the last "
                f"whole sample of {self.width} bytes: the file is cut, or has other channels than {configuration.path} "
                "names"
            )
        self.data = np.fromfile(file, kind, size // self.width)
        self.count = len(self.data)
        if self.count * self.width != size:
            raise RecordError(f"{path}: the file became shorter while it was read")
        if not rise_by_one(self.data["number"]):
            swapped = self.data.byteswap()
            if rise_by_one(swapped["number"]):
                words = "the numbers of the samples rise by 1 with their bytes the other way round: it is big-endian"
                if not configuration.lenient:
                    raise RecordError(f"{path}: {words}, which the standard doesn't have")
                self.data = swapped
            else:
                words = "the numbers of the samples don't rise by 1 throughout"
            tell(configuration.told, words)
        if len(states) % 16 and self.data["status"][:, -1].max(initial=0) >> (len(states) % 16):
            tell(
                configuration.told,
                f"{path} has states beyond the {len(states)} that {configuration.path} names: it may be another record's",
            )
        for place, channel in enumerate(analogs if configuration.form != "FLOAT32" else []):
            if channel.low >= 0 and channel.high > -MISSING[configuration.form] - 1:
                self.signed(place, f"{configuration.path}: line {channel.line}: {channel.name}", channel.high)
            column = self.data["analog"][:, place]
            tell_range(configuration, place, column[column != self.missing])

    def signed(self, place: int, what: str, high: float) -> None:
        """Refuses a channel whose range is that of numbers without sign, where some are below 0 by their sign."""
        below = np.flatnonzero(self.data["analog"][:, place] < 0)
        if len(below):
            raise RecordError(
                f"{what} ranges from 0 to {high:g}, and its raw value in the sample at {self.where(below[0])} is below "
                "0: it may be without sign, which the standard doesn't have"
            )

    def stamps(self) -> Iterator[np.ndarray]:
        for at in range(0, self.count, BLOCK):
            block = self.data["stamp"][at : at + BLOCK]
            made = block.astype(np.float64)
            made[block == BLANK_STAMP] = np.nan
            yield made

    def raw(self, place: int) -> np.ndarray:
        column = self.data["analog"][:, place]
        with np.errstate(invalid="ignore"):  # of a nan that signals
            made = column.astype(np.float64)
        made[~np.isfinite(column) if self.missing is None else column == self.missing] = np.nan
        return made

    def state(self, place: int) -> np.ndarray:
        return (self.data["status"][:, place // 16] >> (place % 16) & 1).astype(np.uint8)

    def where(self, sample: int) -> str:
        return f"{self.path}: byte {self.start + int(sample) * self.width + 1}"


def rise_by_one(numbers: np.ndarray) -> bool:
    """Whether the numbers of samples, of 32 bits as they wrap, rise by 1."""
    return len(numbers) < 2 or bool((np.diff(numbers) == 1).all())


def ends_with_mark(file: BinaryIO, start: int, size: int) -> bool:
    """Whether the last of so many bytes is the end mark of a text; the file is at its first one then."""
    file.seek(start + size - 1)
    found = file.read(1) == b"\x1a"
    file.seek(start)
    return found


def tell_range(configuration: Configuration, place: int, values: np.ndarray) -> None:
    """Tells where raw values of an analog channel lie beyond the range that its line has."""
    channel = configuration.analogs[place]
    if len(values) and (values.min() < channel.low or values.max() > channel.high):
        tell(
            configuration.told,
            f"{channel.name or f'analog {place + 1}'}: raw values from {values.min():g} to {values.max():g} lie beyond "
            f"the range of the channel, {channel.low:g} to {channel.high:g}",
        )


class Text(Samples):
    """Samples of the form ASCII: whole numbers of 32 bits, and floating ones where some aren't whole."""

    def __init__(self, configuration: Configuration, path: str, file: BinaryIO, start: int, size: int):
        self.path, self.told, self.lenient = path, configuration.told, configuration.lenient
        self.analogs = len(configuration.analogs)
        self.fields = 2 + self.analogs + len(configuration.states)
        self.marks = np.array([missing_mark(configuration.revision, channel.high) for channel in configuration.analogs])
        self.cfg = configuration.path
        self.tables: list[np.ndarray] = []  # each (samples of a piece, analog channels)
        self.bars: list[np.ndarray] = []  # each (samples of a piece, status channels), uint8
        self.stamp_pieces: list[np.ndarray] = []
        self.line = self.first_line = line_of(file, start)  # number of the next line, from 1
        self.blank_lines = False
        self.last: float | None = None  # number of the last sample
        for piece in self.pieces(file, size):
            table = self.parsed(piece)
            if not len(table):  # blank lines alone
                continue
            self.judge_numbers(table[:, 0])
            self.stamp_pieces.append(kept(table[:, 1]))
            values = table[:, 2 : 2 + self.analogs]
            values[values == self.marks] = np.nan
            self.tables.append(kept(values))
            self.bars.append(table[:, 2 + self.analogs :].astype(np.uint8))
        self.count = sum(len(piece) for piece in self.stamp_pieces)
        for place in range(self.analogs if self.tables else 0):
            values = self.raw(place)
            tell_range(configuration, place, values[np.isfinite(values)])

    def fault(self, line: int, cause: str) -> RecordError:
        """An error at a line of the data."""
        return RecordError(f"{self.path}: line {line}: {cause}")

    def pieces(self, file: BinaryIO, size: int) -> Iterator[bytes]:
        """The whole lines of the text, some at a time."""
        left, rest, most = size, b"", PIECE + 40 * self.fields
        while left:
            read = file.read(min(PIECE, left))
            if not read:
                raise RecordError(f"{self.path}: the file became shorter while it was read")
            left -= len(read)
            text, mark, behind = (rest + read).partition(b"\x1a")
            if mark and (left or behind.strip(b"\x1a \t\r\n\0")):
                tell(self.told, f"what stands behind the end mark (0x1A) of {self.path} isn't read")
            end = len(text) if mark else text.rfind(b"\n") + 1
            if end:
                yield text[:end]
            rest = text[end:]
            if mark:
                return
            if len(rest) > most:
                raise self.fault(
                    self.line, f"longer than {self.fields} fields can be, so this is no data of {self.cfg}"
                )
        if rest.strip(b" \t\r") and self.lenient:
            tell(self.told, f"the last line of {self.path} has no end: it may be cut")
            yield rest + b"\n"
        elif rest.strip(b" \t\r"):
            raise self.fault(self.line, "it has no end, and no end mark (0x1A) stands behind it: the file is cut")

    def parsed(self, piece: bytes) -> np.ndarray:
        """The numbers of whole lines, shape (lines, fields), float64, nan where a field is blank."""
        table = self.quickly(piece)
        if table is None:
            return self.carefully(piece)
        self.line += len(table)
        return table

    def quickly(self, piece: bytes) -> np.ndarray | None:
        """The numbers of lines of the usual form; None where there is any other line."""
        if piece.translate(None, PLAIN) or not piece.endswith(b"\n"):
            return None
        codes = np.frombuffer(piece, np.uint8)
        ends = np.flatnonzero((codes == ord(",")) | (codes == ord("\n")))
        lines = piece.count(b"\n")
        if len(ends) != lines * self.fields or not (codes[ends[self.fields - 1 :: self.fields]] == ord("\n")).all():
            return None
        plain = piece.replace(b"\r\n", b",").replace(b"\n", b",")
        if b"\r" in plain:
            return None
        if b",," in plain:  # twice, as the comma behind a blank may stand before another one
            plain = plain.replace(b",,", b",nan,").replace(b",,", b",nan,")
        numbers = numbers_of(plain[:-1])
        if numbers is None or len(numbers) != len(ends) or np.isinf(numbers).any():
            return None
        table = numbers.reshape(lines, self.fields)
        bars = table[:, 2 + self.analogs :]
        usual = ((bars == 0) | (bars == 1)).all() and not np.isnan(table[:, 0]).any()
        return table if usual else None

    def carefully(self, piece: bytes) -> np.ndarray:
        """The numbers of any lines, each judged: the first that is none of this record is an error."""
        rows = []
        for line in piece.splitlines():
            if line.strip():
                rows.append(self.row(line))
            else:
                self.blank_lines = True
                tell(self.told, f"{self.path} has blank lines")
            self.line += 1
        return np.array(rows, np.float64).reshape(len(rows), self.fields)

    def row(self, line: bytes) -> list[float]:
        """The numbers of one line, nan where a field is blank."""
        words = line.decode("latin-1").split(",")
        if self.lenient and len(words) == self.fields + 1 and not words[-1].strip():
            tell(self.told, f"lines of {self.path} end with a comma")
            words.pop()
        if len(words) != self.fields:
            raise self.fault(self.line, f"{len(words)} fields, and {self.cfg} asks for {self.fields}")
        numbers = []
        for place, word in enumerate(words, 1):
            word = word.strip()
            value = float(word) if NUMBER.fullmatch(word) else np.nan
            if place == 1 and not word:
                raise self.fault(self.line, "the number of the sample is blank")
            if word and (np.isinf(value) or np.isnan(value) and word.lower() != "nan"):
                raise self.fault(self.line, f"field {place} is no number: {word[:SHORT]!r}")
            if place > 2 + self.analogs and value not in (0, 1):
                raise self.fault(self.line, f"field {place} is no state, 0 or 1: {word[:SHORT]!r}")
            numbers.append(value)
        return numbers

    def judge_numbers(self, numbers: np.ndarray) -> None:
        """Tells where the numbers of samples, shape (lines of a piece,), don't rise by 1; after the greatest of 32
        bits or ten digits 0 or 1 follows."""
        before = np.concatenate([[numbers[0] - 1 if self.last is None else self.last], numbers[:-1]])
        wraps = (numbers <= 1) & ((before == 2.0**32 - 1) | (before == 1e10 - 1))
        if not ((numbers == before + 1) | wraps).all():
            tell(self.told, "the numbers of the samples don't rise by 1 throughout")
        self.last = numbers[-1]

    def stamps(self) -> Iterator[np.ndarray]:
        while self.stamp_pieces:
            yield as_kept(self.stamp_pieces.pop(0))

    def raw(self, place: int) -> np.ndarray:
        made, at = np.empty(self.count), 0
        for table in self.tables:
            made[at : at + len(table)] = as_kept(table[:, place])
            at += len(table)
        return made

    def state(self, place: int) -> np.ndarray:
        return np.concatenate([bar[:, place] for bar in self.bars])

    def where(self, sample: int) -> str:
        if self.blank_lines:
            return f"{self.path}: sample {int(sample) + 1}"
        return f"{self.path}: line {self.first_line + int(sample)}"


class Whole(Samples):
    """Samples that were computed: whole numbers of 64 bits, shape (samples, analog and then status channels)."""

    def __init__(self, table: np.ndarray, analogs: int) -> None:
        self.table, self.analogs, self.count = table, analogs, len(table)

    def stamps(self) -> Iterator[np.ndarray]:
        yield np.full(self.count, np.nan)

    def raw(self, place: int) -> np.ndarray:
        return self.table[:, place].astype(np.float64)

    def state(self, place: int) -> np.ndarray:
        return self.table[:, self.analogs + place].astype(np.uint8)

    def where(self, sample: int) -> str:
        return f"sample {int(sample) + 1}"


class Values(Samples):
    """Samples that were made of others: values of each analog channel, nan where missing, and states of each status
    channel, shape (samples,)."""

    def __init__(self, values: list[np.ndarray], states: list[np.ndarray], count: int) -> None:
        self.values, self.bars, self.count = values, states, count

    def stamps(self) -> Iterator[np.ndarray]:
        yield np.full(self.count, np.nan)

    def raw(self, place: int) -> np.ndarray:
        return self.values[place].copy()

    def state(self, place: int) -> np.ndarray:
        return self.bars[place].copy()

    def where(self, sample: int) -> str:
        return f"sample {int(sample) + 1}"


def whole_values(text: str, channels: int, whose: str) -> np.ndarray:
    """The whole numbers of lines with so many each, between blanks: shape (lines, channels), int64."""
    lines = text.count("\n")
    found = numbers_of(text, np.int64, " ") if channels and lines else np.zeros(0, np.int64)
    if found is None or not text.endswith("\n") or len(found) != lines * channels:
        count = "no" if found is None else len(found)
        raise RecordError(f"{whose} answered {count} numbers in {lines} lines, and {channels} a line are wanted")
    return found.reshape(lines, channels)


def missing_mark(revision: int, high: float) -> float:
    """The raw value that says in an ASCII file that there is none; nan where a channel of 2013 ranges beyond it."""
    if revision == 1991:
        return 999_999.0
    return np.nan if revision == 2013 and high > 99_999 else 99_999.0


def kept(values: np.ndarray) -> np.ndarray:
    """The values as whole numbers of 32 bits (`BLANK` where missing), or as they are where one isn't."""
    missing = np.isnan(values)
    filled = np.where(missing, BLANK, values)
    with np.errstate(invalid="ignore"):
        whole = filled.astype(np.int32)
    fits = (whole == filled) & (missing | (whole != BLANK))
    return whole if fits.all() else values.copy()


def as_kept(values: np.ndarray) -> np.ndarray:
    """What `kept` kept, float64, nan where missing."""
    made = values.astype(np.float64)
    if values.dtype == np.int32:
        made[values == BLANK] = np.nan
    return made


def numbers_of(text: bytes | str, kind: type = np.float64, between: str = " , ") -> np.ndarray | None:
    """The numbers between commas, or what else stands between; None where something else stands there."""
    # what is done with warnings holds for all threads: two that came to overlap would leave it so
    with PARSING, warnings.catch_warnings():
        warnings.simplefilter("error", DeprecationWarning)  # of a text that is no list of numbers
        try:
            return np.fromstring(text, kind, sep=between)
        except (DeprecationWarning, ValueError):
            return None


def line_of(file: BinaryIO, place: int) -> int:
    """The line of a file, from 1, on which a byte stands; the file is at this byte then."""
    file.seek(0)
    line, left = 1, place
    while left:
        read = file.read(min(PIECE, left))
        line, left = line + read.count(b"\n"), left - len(read)
        if not read:
            break
    return line
