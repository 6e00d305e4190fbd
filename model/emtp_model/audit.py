"""Whether two files are the record of a case."""
import re

from .cards import decimal, pieces, scaled
from .case import Case
from .fix import E9, E18
from .machine import Machine

BOUND = 64_000_000
WHOLE = re.compile(rb"[+-]?[0-9]{1,9}")
STAMP = re.compile(rb"[0-9]{1,10}")


class Differs(Exception):
    """The first difference: in the data or not, line, field and cause."""

    def __init__(self, dat: bool, line: int, field: int, cause: str):
        super().__init__(dat, line, field, cause)
        self.dat, self.line, self.field, self.cause = dat, line, field, cause

    def note(self) -> bytes:
        """What the program prints of it."""
        return b"DIFFERS %s LINE %d FIELD %d %s\n" % (
            b"DAT" if self.dat else b"CFG",
            self.line,
            self.field,
            self.cause.encode(),
        )


class Text:
    """The lines of a configuration or of data, judged one after the other."""

    def __init__(self, data: bytes, dat: bool):
        self.dat = dat
        if len(data) > BOUND:
            self.fail(0, 0, "LONG")
        self.lines = pieces(data)
        while self.lines and self.lines[-1].strip(b" \x1a") == b"":
            self.lines.pop()
        self.at = 0

    def fail(self, line, field, cause):
        raise Differs(self.dat, line, field, cause)

    def next(self):
        """The next line's fields as a Row; one that isn't there is missing at its field 1."""
        self.at += 1
        if self.at > len(self.lines):
            self.fail(self.at, 1, "MISSING")
        return Row(self, self.at, self.lines[self.at - 1])

    def finish(self):
        if self.at < len(self.lines):
            self.fail(self.at + 1, 1, "EXTRA")


class Row:
    """The fields of a line, taken in order; one that isn't there is missing."""

    def __init__(self, text: Text, number: int, line: bytes):
        self.text, self.number = text, number
        self.fields = [field.strip(b" ") for field in line.split(b",")]
        self.at = 0

    def fail(self, cause):
        self.text.fail(self.number, self.at, cause)

    def take(self):
        self.at += 1
        if self.at > len(self.fields):
            self.fail("MISSING")
        return self.fields[self.at - 1]

    def skip(self, number):
        for _ in range(number):
            self.take()

    def same(self, expected):
        if self.take() != expected:
            self.fail("WRONG")

    def spelled_whole(self, field):
        if WHOLE.fullmatch(field) is None:
            self.fail("NOTNUMBER")
        return int(field)

    def whole(self):
        return self.spelled_whole(self.take())

    def same_whole(self, expected):
        if self.whole() != expected:
            self.fail("WRONG")

    def decimal(self, scale, low, high):
        field = self.take()
        parts = decimal(field) if len(field) <= 40 else None
        if parts is None:
            self.fail("NOTNUMBER")
        value = scaled(parts, scale)
        if not low <= value <= high:
            self.fail("NOTNUMBER")
        return value

    def finish(self):
        if self.at < len(self.fields):
            self.at += 1
            self.fail("EXTRA")


def read_cfg(data: bytes, case: Case, count: int) -> tuple[list[tuple[int, int]], int]:
    """The scales (a, b) of the analog channels and the unit of the time stamps, or Differs."""
    text = Text(data, False)
    row = text.next()
    row.skip(2)
    row.same(b"1999")
    row.finish()
    analog, status = case.analog(), case.status()
    row = text.next()
    row.same_whole(len(analog) + len(status))
    for number, letter in ((len(analog), b"A"), (len(status), b"D")):
        field = row.take()
        if row.spelled_whole(field[:-1]) != number or field[-1:].upper() != letter:
            row.fail("WRONG")
    row.finish()
    scales = []
    for n, channel in enumerate(analog, 1):
        row = text.next()
        row.same_whole(n)
        row.same(case.channel_name(channel))
        row.skip(2)
        row.same(case.channel_unit(channel))
        a = row.decimal(18, -(10**28), 10**28)
        b = row.decimal(18, -(10**28), 10**28)
        row.skip(6)
        row.finish()
        scales.append((a, b))
    for n, channel in enumerate(status, 1):
        row = text.next()
        row.same_whole(n)
        row.same(case.channel_name(channel))
        row.skip(3)
        row.finish()
    text.next()  # the line frequency
    row = text.next()
    rates = row.whole()
    if not 0 <= rates <= 10:
        row.fail("NOTNUMBER")
    row.finish()
    lines = max(rates, 1)
    for n in range(1, lines + 1):
        row = text.next()
        row.skip(1)
        samples = row.whole()
        if n == lines and samples != count:
            row.fail("WRONG")
        row.finish()
    text.next()
    text.next()  # two time stamps
    row = text.next()
    if row.take().upper() != b"ASCII":
        row.fail("WRONG")
    row.finish()
    row = text.next()
    multiplier = row.decimal(6, 1, E18)
    row.finish()
    text.finish()
    return scales, multiplier


def read_dat(data: bytes, case: Case, samples: list[list[int]], cfg: tuple[list[tuple[int, int]], int]) -> None:
    """Differs where the data isn't that of the samples under this configuration."""
    scales, multiplier = cfg
    text = Text(data, True)
    first = None
    run = case.run
    for k, sample in enumerate(samples, 1):
        row = text.next()
        row.same_whole(k)
        field = row.take()
        if STAMP.fullmatch(field) is None:
            row.fail("NOTNUMBER")
        stamp = int(field)
        if first is None:
            first = stamp
        if abs((stamp - first) * multiplier - (k - 1) * run.every * run.dt) > multiplier:
            row.fail("WRONG")
        for at, value in enumerate(sample):
            if at < len(scales):
                a, b = scales[at]
                x = row.whole()
                if abs(a * x + b - value * E9) > abs(a):
                    row.fail("WRONG")
            else:
                field = row.take()
                if field not in (b"0", b"1"):
                    row.fail("NOTNUMBER")
                if int(field) != value:
                    row.fail("WRONG")
        row.finish()
    text.finish()


def audit(machine: Machine, cfg_bytes: bytes, dat_bytes: bytes) -> bytes:
    """What an audit prints, or Differs."""
    samples = machine.samples
    cfg = read_cfg(cfg_bytes, machine.case, len(samples))
    read_dat(dat_bytes, machine.case, samples, cfg)
    return b"AUDIT SAME SAMPLES %d\n" % len(samples)
