"""Lines, fields, the numbers in them, and the reasons why a card is refused."""
import re

from .fix import near

REASONS = {
    1: "ByteOutside",
    2: "PastColumn80",
    3: "NotANumber",
    4: "NotWhole",
    5: "OutOfUnitRange",
    6: "TooManyLines",
    7: "BadType",
    8: "BadName",
    9: "BadImpedance",
    10: "ShortLine",
    11: "BadPoints",
    12: "BadOrder",
    13: "UnknownName",
    14: "TwoSources",
    15: "TooMany",
    16: "MissingSection",
    17: "TooManySamples",
    18: "BadExpression",
}
(
    BYTE_OUTSIDE,
    PAST_COLUMN_80,
    NOT_A_NUMBER,
    NOT_WHOLE,
    OUT_OF_UNIT_RANGE,
    TOO_MANY_LINES,
    BAD_TYPE,
    BAD_NAME,
    BAD_IMPEDANCE,
    SHORT_LINE,
    BAD_POINTS,
    BAD_ORDER,
    UNKNOWN_NAME,
    TWO_SOURCES,
    TOO_MANY,
    MISSING_SECTION,
    TOO_MANY_SAMPLES,
    BAD_EXPRESSION,
) = range(1, 19)

MAX_LINES = 100_000
MAX_BYTES = 9_000_000


class Bad(Exception):
    """A card that is refused: its line and column from 1, and the number of the reason."""

    def __init__(self, line: int, column: int, why: int):
        super().__init__(line, column, why)
        self.line, self.column, self.why = line, column, why

    def note(self) -> str:
        """What the program prints of it."""
        return "BAD CARD LINE %d COLUMN %d REASON %d %s" % (self.line, self.column, self.why, REASONS[self.why])


class Line:
    """A line of the file: its number from 1, and its bytes."""

    def __init__(self, number: int, text: bytes):
        self.number, self.text = number, text


def pieces(data: bytes) -> list[bytes]:
    """The lines of a file: LF ends a line, and a CR just before it is dropped."""
    parts = data.split(b"\n")
    last = parts.pop()
    lines = [p[:-1] if p.endswith(b"\r") else p for p in parts]
    if last:
        lines.append(last)
    return lines


def split(data: bytes) -> list[Line]:
    """The numbered lines, or Bad where there are too many lines or bytes."""
    lines = pieces(data)
    late = []
    if len(lines) > MAX_LINES:
        late.append(MAX_LINES + 1)
    if len(data) > MAX_BYTES:
        late.append(data[:MAX_BYTES].count(b"\n") + 1)
    if late:
        raise Bad(min(late), 1, TOO_MANY_LINES)
    return [Line(n, text) for n, text in enumerate(lines, 1)]


def comment(text: bytes) -> bool:
    """Whether a line is a comment."""
    return text == b"C" or text.startswith(b"C ")


def ends_section(text: bytes) -> bool:
    """Whether a line ends a section where it may: blanks alone, or BLANK in its first columns."""
    return text.strip(b" ") == b"" or text.startswith(b"BLANK")


def line_fault(text: bytes) -> tuple[int, int] | None:
    """The first byte of a line that may not stand there, as (column, reason), or None."""
    for column, byte in enumerate(text, 1):
        if byte < 0x20 or byte > 0x7E:
            return (column, BYTE_OUTSIDE)
        if column > 80 and byte != 0x20:
            return (column, PAST_COLUMN_80)
    return None


NUMBER = re.compile(rb"([+-]?)(?:([0-9]+)(?:\.([0-9]*))?|\.([0-9]+))(?:[EeDd]([+-]?[0-9]{1,3})|([+-][0-9]{1,3}))?")
WHOLE = re.compile(rb"[+-]?[0-9]+")


def decimal(text: bytes) -> tuple[int, int, int] | None:
    """(sign, whole number, power of ten) of a spelled number, or None."""
    m = NUMBER.fullmatch(text)
    if m is None:
        return None
    sign = -1 if m.group(1) == b"-" else 1
    whole = m.group(2) or b""
    rest = m.group(3) or m.group(4) or b""
    power = int(m.group(5) or m.group(6) or 0)
    return sign, int(whole + rest), power - len(rest)


def scaled(parts: tuple[int, int, int], scale: int) -> int:
    """The value of a decimal in the unit of 10^-scale, rounded by near."""
    sign, digits, power = parts
    power += scale
    if power >= 0:
        return sign * digits * 10**power
    return near(sign * digits, 10**-power)


class Refuse:
    """Marks a blank field that is refused; `why` is the reason."""

    def __init__(self, why: int):
        self.why = why


REFUSE = Refuse(OUT_OF_UNIT_RANGE)
BLANK = object()  # answered for a blank field that has no number
FAULTY = object()  # answered for a field that was read with a fault


class Fields:
    """Reads the fields of one line, and gathers the faults of that line."""

    def __init__(self, line: Line):
        self.line = line
        self.text = line.text[:80].ljust(80, b" ")
        self.faults = []

    def fault(self, column: int, why: int) -> object:
        """Notes a fault; answers FAULTY."""
        self.faults.append((column, why))
        return FAULTY

    def judge(self) -> None:
        """Raises the fault of the least column, and there the one of the least number."""
        if self.faults:
            column, why = min(self.faults)
            raise Bad(self.line.number, column, why)

    def refuse(self, column: int, why: int) -> None:
        """Raises the least fault, this one among them."""
        self.fault(column, why)
        self.judge()

    def raw(self, first: int, last: int) -> bytes:
        """The bytes of these columns, counted from 1, both included."""
        return self.text[first - 1 : last]

    def field(self, first: int, last: int) -> bytes:
        """The same without outer blanks."""
        return self.raw(first, last).strip(b" ")

    def number(
        self, first: int, last: int, scale: int, low: int, high: int, blank: object, held: bool = False
    ) -> object:
        """A number in the unit of 10^-scale, from low to high; `blank` is answered for a blank field, or refused.
        A number that is held is replaced by the nearer end of its range."""
        text = self.field(first, last)
        if text == b"":
            if isinstance(blank, Refuse):
                return self.fault(first, blank.why)
            return blank
        parts = decimal(text)
        if parts is None:
            return self.fault(first, NOT_A_NUMBER)
        value = scaled(parts, scale)
        if low <= value <= high:
            return value
        if held:
            return low if value < low else high
        return self.fault(first, OUT_OF_UNIT_RANGE)

    def whole(self, first: int, last: int, blank: object, low: int = -(10**9), high: int = 10**9) -> object:
        """A whole number from low to high; `blank` is answered for a blank field."""
        text = self.field(first, last)
        if text == b"":
            return blank
        if WHOLE.fullmatch(text) is None:
            return self.fault(first, NOT_WHOLE)
        value = int(text)
        if abs(value) > 10**9 or not low <= value <= high:
            return self.fault(first, OUT_OF_UNIT_RANGE)
        return value

    def kind(self, first: int, last: int, blank: int | None, allowed: tuple[int, ...], why: int = BAD_TYPE) -> object:
        """A type: a whole number of `allowed`; `blank` stands for a blank field."""
        text = self.field(first, last)
        if text == b"":
            value = blank
        elif WHOLE.fullmatch(text):
            value = int(text)
        else:
            value = None
        if value is None or value not in allowed:
            return self.fault(first, why)
        return value

    def name(self, first: int) -> object:
        """A name of six columns, without outer blanks; b"" for a blank one."""
        raw = self.raw(first, first + 5)
        if b"," in raw:
            return self.fault(first, BAD_NAME)
        return raw.strip(b" ")

    def needed_name(self, first: int) -> object:
        """A name that may not be blank."""
        name = self.name(first)
        if name == b"":
            return self.fault(first, BAD_NAME)
        return name

    def asked(self) -> object:
        """Column 80: which channels the card asks for, 0 to 3."""
        text = self.field(80, 80)
        if text in (b"", b"0"):
            return 0
        if text in (b"1", b"2", b"3"):
            return int(text)
        if text.isdigit():
            return self.fault(80, OUT_OF_UNIT_RANGE)
        return self.fault(80, NOT_WHOLE)


def fine(*values: object) -> bool:
    """True where each of the values was read without a fault."""
    return all(v is not FAULTY for v in values)
