"""A table of switch times, and the runs of its rows."""
from typing import TextIO

from .cards import decimal, pieces, scaled
from .case import Case
from .fix import E18, print_fixed
from .machine import history
from .record import end_parts

BOUND = 9_000_000


class BadRow(Exception):
    """An item of the table that is refused: its line, and its place in the line from 1."""

    def __init__(self, line: int, item: int):
        super().__init__(line, item)
        self.line, self.item = line, item

    def note(self) -> bytes:
        """What the program prints of it."""
        return b"BAD ROW LINE %d ITEM %d\n" % (self.line, self.item)


def read_item(item: bytes, own: int | None, opens: bool) -> int | None:
    """The time of an item; KeyError where it is none."""
    if item == b"*":
        return own
    if item == b"-" and opens:
        return None
    parts = decimal(item)
    if parts is None:
        raise KeyError(item)
    return max(-E18, min(E18, scaled(parts, 12)))


def read_times(data: bytes, case: Case) -> list[list[int | None]]:
    """One list of times a row, two for each time switch, or BadRow."""
    if len(data) > BOUND:
        raise BadRow(0, 0)
    own = []
    for sw in case.switches:
        if sw.kind == "time":
            own += [sw.close, sw.open_at]
    rows = []
    lines = pieces(data)
    for number, line in enumerate(lines, 1):
        if line.strip(b" ") == b"" or line.startswith(b"#"):
            continue
        if len(rows) == 1000:
            raise BadRow(number, 1)
        items = [item for item in line.split(b" ") if item]
        row = []
        for at, item in enumerate(items):
            try:
                if at >= len(own):
                    raise KeyError(item)
                row.append(read_item(item, own[at], at % 2 == 1))
            except KeyError:
                raise BadRow(number, at + 1) from None
        if len(row) < len(own):
            raise BadRow(number, len(row) + 1)
        rows.append(row)
    if not rows:
        raise BadRow(len(lines) + 1, 1)
    return rows


def altered(case: Case, row: list[int | None]) -> Case:
    """The case with the times of a row."""
    switches, times = [], list(row)
    for sw in case.switches:
        if sw.kind == "time":
            fields = dict(sw.__dict__)
            fields.update(close=times.pop(0), open_at=times.pop(0))
            sw = type(sw)(**fields)
        switches.append(sw)
    fields = dict(case.__dict__)
    fields["switches"] = switches
    return Case(**fields)


def batch(case: Case, rows: list[list[int | None]], trace: TextIO | None = None) -> bytes:
    """What a batch prints."""
    out = []
    analog = len(case.analog())
    best = [None] * analog
    for number, row in enumerate(rows, 1):
        machine = history(altered(case, row), trace)
        peaks = [max(abs(sample[at]) for sample in machine.samples) for at in range(analog)]
        if machine.end is None:
            text = b"ROW %d DONE PEAKS" % number
        else:
            step, end = machine.end
            text = b"ROW %d ENDED STEP %d %s PEAKS" % (number, step, end_parts(end))
        out.append(text + b"".join(b" " + print_fixed(p, 9).encode() for p in peaks) + b"\n")
        for at, peak in enumerate(peaks):
            if best[at] is None or peak > best[at][0]:
                best[at] = (peak, number)
    for at, (peak, number) in enumerate(best, 1):
        out.append(b"MAX %d %s ROW %d\n" % (at, print_fixed(peak, 9).encode(), number))
    return b"".join(out)
