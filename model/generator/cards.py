"""Cards, the columns of their fields, and spellings of numbers."""
import random
from typing import NamedTuple, Union

E18 = 10**18

Side = Union[str, random.Random]  # where a text stands in a wider field: "left", "right" or anywhere


class Field(NamedTuple):
    """A field: its columns from 1, both included; what it holds; of a number the power of ten of its unit, and its range."""

    name: str
    first: int
    last: int
    kind: str
    scale: int = 0
    low: int = 0
    high: int = 0

    def width(self) -> int:
        """How many columns it has."""
        return self.last - self.first + 1


def number(name: str, first: int, last: int, scale: int, low: int, high: int) -> Field:
    """A number in the unit of 10^-scale."""
    return Field(name, first, last, "number", scale, low, high)


def held(name: str, first: int, last: int, low: int) -> Field:
    """A time that is replaced by the nearer end of its range."""
    return Field(name, first, last, "held", 12, low, E18)


def whole(name: str, first: int, last: int, low: int, high: int) -> Field:
    """A whole number."""
    return Field(name, first, last, "whole", 0, low, high)


def named(name: str, first: int) -> Field:
    """A name."""
    return Field(name, first, first + 5, "name")


def inputs() -> list[Field]:
    """The five signed inputs of a block or device."""
    fields = []
    for place, first in enumerate((11, 19, 27, 35, 43), 1):
        fields += [Field(f"sign{place}", first, first, "sign"), named(f"input{place}", first + 1)]
    return fields


def thirteen() -> list[Field]:
    """The fields of an output card."""
    return [Field("mark", 1, 2, "mark")] + [named(f"output{place}", 3 + 6 * place) for place in range(13)]


def source(*fields: Field) -> list[Field]:
    """The fields of a source of the network."""
    return [
        Field("type", 1, 2, "source type"),
        named("name", 3),
        whole("current", 9, 10, -(10**9), 10**9),
        *fields,
        *TIMES,
    ]


def control_source(*fields: Field) -> list[Field]:
    """The fields of a source of the control with an amplitude."""
    return [Field("type", 1, 2, "control type"), named("name", 3), AMPLITUDE, *fields, *TIMES]


def device(first: Field) -> list[Field]:
    """The fields of a device, whose first number has this form."""
    head = [Field("group", 1, 2, "group"), named("name", 3), Field("code", 9, 10, "code")]
    numbers = [first, number("B", 57, 62, 9, -E18, E18), number("C", 63, 68, 9, -E18, E18)]
    return head + inputs() + numbers + [named("D", 69), named("E", 75)]


AMPLITUDE = number("amplitude", 11, 20, 9, -E18, E18)
TIMES = [held("start", 61, 70, -E18), held("stop", 71, 80, 0)]
COSINE = [
    number("frequency", 21, 30, 6, 0, 10**13),
    number("phase", 31, 40, 9, -(10**15), 10**15),
    number("A1", 41, 50, 0, 0, 0),
]
PERIOD = number("period", 21, 30, 12, 1, E18)
ENDS = [Field("type", 1, 2, "branch type"), named("from", 3), named("to", 9)]
SWITCH_ENDS = [Field("type", 1, 2, "switch type"), named("from", 3), named("to", 9)]
COPIED = [named("copied from", 15), named("copied to", 21)]
ASKED = [Field("asked", 80, 80, "asked")]
LINE = [
    *ENDS,
    *COPIED,
    number("R", 27, 32, 6, 0, 10**12),
    Field("A", 33, 38, "line A"),
    Field("B", 39, 44, "line B"),
    number("length", 45, 50, 6, 1, 10**12),
    whole("form", 51, 52, 0, 2),
    *ASKED,
]

# Of each kind of card its fields.
FIELDS: dict[str, list[Field]] = {
    "tolerance": [number("tolerance", 25, 32, 9, 0, 10**12)],
    "first miscellaneous": [
        number("step", 1, 8, 12, 1000, 10**12),
        number("end", 9, 16, 12, 1, E18),
        number("XOPT", 17, 24, 0, 0, 0),
        number("COPT", 25, 32, 0, 0, 0),
    ],
    "second miscellaneous": [whole("printed", 1, 8, -(10**9), 10**9), whole("every", 9, 16, 0, 10**6)],
    "series": [
        *ENDS,
        *COPIED,
        number("R", 27, 32, 6, 0, 10**15),
        number("L", 33, 38, 6, 0, 10**15),
        number("C", 39, 44, 9, 0, 10**15),
        *ASKED,
    ],
    "wide series": [
        *ENDS,
        *COPIED,
        number("R", 27, 42, 6, 0, 10**15),
        number("L", 43, 58, 6, 0, 10**15),
        number("C", 59, 74, 9, 0, 10**15),
        *ASKED,
    ],
    "line": LINE,
    "second phase": LINE,
    "third phase": ENDS + ASKED,
    "resistor": [
        *ENDS,
        *COPIED,
        *(number(f"zero{first}", first, first + 5, 0, 0, 0) for first in (27, 33, 39)),
        *ASKED,
    ],
    "reactor": ENDS + COPIED + ASKED,
    "point of a resistor": [number("current", 1, 16, 9, 1, E18), number("other", 17, 32, 9, 1, E18)],
    "point of a reactor": [number("current", 1, 16, 9, 1, E18), number("other", 17, 32, 12, 1, E18)],
    "last point": [Field("last", 1, 16, "last point")],
    "vintage": [Field("vintage", 1, 12, "vintage")],
    "time switch": [
        *SWITCH_ENDS,
        held("close", 15, 24, -E18),
        held("open", 25, 34, -E18),
        number("margin", 35, 44, 9, 0, E18),
        Field("word", 55, 64, "word"),
        *ASKED,
    ],
    "valve": [
        *SWITCH_ENDS,
        number("ignition", 15, 24, 9, 0, E18),
        number("holding", 25, 34, 9, 0, E18),
        named("control", 65),
        *ASKED,
    ],
    "controlled switch": [*SWITCH_ENDS, named("control", 65), *ASKED],
    "source 11": source(AMPLITUDE),
    "source 12": source(AMPLITUDE, number("rise", 31, 40, 12, 1, E18)),
    "source 14": source(AMPLITUDE, *COSINE),
    "source 60": source(),
    "output": thirteen(),
    "control output": thirteen(),
    "control 11": control_source(),
    "control 14": control_source(*COSINE),
    "control 23": control_source(PERIOD, number("width", 31, 40, 12, 1, E18)),
    "control 24": control_source(PERIOD),
    "control 90": [Field("type", 1, 2, "control type"), named("name", 3)],
    "block": [
        whole("order", 1, 2, 0, 7),
        named("name", 3),
        *inputs(),
        number("gain", 51, 56, 12, -E18, E18),
        number("low", 57, 62, 9, -E18, E18),
        number("high", 63, 68, 9, -E18, E18),
        named("named low", 69),
        named("named high", 75),
    ],
    "coefficients": [number(f"power{power}", 10 * power + 1, 10 * power + 10, 12, -E18, E18) for power in range(8)],
    "formula": [
        Field("group", 1, 2, "group"),
        named("name", 3),
        Field("equals", 11, 11, "equals"),
        Field("expression", 12, 80, "expression"),
    ],
    "device": device(number("A", 51, 56, 9, -E18, E18)),
    "delay": device(number("A", 51, 56, 12, 0, E18)),
    "effective value": device(number("A", 51, 56, 6, 1, 10**13)),
    "point of a table": [number("x", 1, 16, 9, -E18, E18), number("y", 17, 32, 9, -E18, E18)],
    "times": [number("x", 1, 16, 12, 0, E18), number("y", 17, 32, 12, 0, E18)],
}
NUMERIC = ("number", "held", "whole", "line A", "line B")


def encoded(text: str | bytes) -> bytes:
    """The bytes of a text, one a character."""
    return text.encode("latin-1") if isinstance(text, str) else bytes(text)


class Card:
    """A card of a kind, as bytes that grow with what is put."""

    def __init__(self, kind: str, text: str | bytes = b""):
        self.kind = kind
        self.text = bytearray(encoded(text))

    def copy(self) -> "Card":
        """The same card anew."""
        return Card(self.kind, bytes(self.text))

    def fields(self) -> list[Field]:
        """Its fields; none where it is of no kind that has some."""
        return FIELDS.get(self.kind, [])

    def field(self, name: str) -> Field:
        """The field of this name."""
        return next(field for field in self.fields() if field.name == name)

    def get(self, field: Field) -> bytes:
        """What a field holds, without outer blanks."""
        return bytes(self.text[field.first - 1 : field.last]).strip()

    def over(self, first: int, text: str | bytes) -> "Card":
        """Writes from a column on, whatever it covers."""
        self.fill(first - 1)
        data = encoded(text)
        self.text[first - 1 : first - 1 + len(data)] = data
        return self

    def put(self, first: int, last: int, text: str | bytes, side: Side = "left") -> "Card":
        """Writes a text into these columns, with blanks around."""
        data = encoded(text)
        room = last - first + 1 - len(data)
        if room < 0:
            raise ValueError(f"{text!r} doesn't fit columns {first} to {last}")
        left = 0 if side == "left" else room if side == "right" else side.randint(0, room)
        return self.over(first, b" " * left + data + b" " * (room - left))

    def set(self, name: str, text: str | bytes, side: Side = "left") -> "Card":
        """Writes a text into the field of this name."""
        field = self.field(name)
        return self.put(field.first, field.last, text, side)

    def fill(self, length: int = 80) -> "Card":
        """Adds blanks up to this length."""
        self.text += b" " * (length - len(self.text))
        return self

    def strip(self) -> "Card":
        """Takes the last blanks away."""
        self.text = self.text.rstrip(b" ")
        return self


def card(kind: str, **fields: str) -> Card:
    """A card with these fields, numbers right and names left; `_` in a name stands for a blank."""
    made = Card(kind)
    for name, text in fields.items():
        name = name.strip("_").replace("_", " ")
        made.set(name, text, "right" if made.field(name).kind in NUMERIC else "left")
    return made


# ---- spellings of numbers


def plain(mantissa: int, power: int) -> tuple[str, str]:
    """The digits of mantissa * 10^power before and behind the point."""
    digits = str(mantissa)
    if power >= 0:
        return digits + "0" * power, ""
    digits = digits.rjust(1 - power, "0")
    return digits[:power], digits[power:]


def shortest(mantissa: int, power: int) -> str:
    """A short spelling of mantissa * 10^power."""
    if mantissa == 0:
        return "0"
    sign, mantissa = "-" if mantissa < 0 else "", abs(mantissa)
    while mantissa % 10 == 0:
        mantissa, power = mantissa // 10, power + 1
    best = f"{mantissa}{power:+d}" if power else str(mantissa)
    if -9 <= power <= 9:
        whole_part, rest = plain(mantissa, power)
        written = whole_part.lstrip("0") + ("." + rest if rest else "")
        best = written if len(written) <= len(best) else best
    return sign + best


def with_point(pick: random.Random, mantissa: int, power: int) -> str:
    """A spelling without an exponent."""
    whole_part, rest = plain(mantissa, power)
    if pick.random() < 0.5:
        rest = rest.rstrip("0")
    whole_part = whole_part.lstrip("0") or "0"
    if whole_part == "0" and rest and pick.random() < 0.5:
        whole_part = ""
    text = whole_part + ("." + rest if rest else pick.choice([".", ".0", "", ".", ".00"]))
    return "0" + text if pick.random() < 0.05 else text


def with_exponent(pick: random.Random, mantissa: int, power: int) -> str:
    """A spelling with the point anywhere and an exponent, which may be left out where it is 0."""
    digits = str(mantissa)
    point = 1 if pick.random() < 0.5 else pick.randint(0, len(digits))
    power += len(digits) - point
    text = digits[:point] + "." + digits[point:]
    if point == len(digits) and pick.random() < 0.3:
        text = digits
    if power == 0 and pick.random() < 0.6:
        return text
    letter = pick.choice(["E", "E", "E", "D", "e", "d", ""])
    sign = "-" if power < 0 else "+" if letter == "" or pick.random() < 0.4 else ""
    exponent = str(abs(power))
    if pick.random() < 0.3:
        exponent = exponent.rjust(pick.choice([2, 3]), "0")
    return text + letter + sign + exponent


ZEROS = ["0", "0.", ".0", "0.0", "00", "0E-5", "000", "-0", "+0.", "0D3", "0.+5", "-.0", "0-9", "0.E999"]


def spell(pick: random.Random, mantissa: int, power: int, width: int) -> str:
    """A random spelling of mantissa * 10^power within the width; of a number that doesn't fit, one of fewer digits."""
    if mantissa == 0:
        return pick.choice([text for text in ZEROS if len(text) <= width])
    size = abs(mantissa)
    for _ in range(8):
        plainly = pick.random() < 0.5 and -11 <= power <= 8
        text = with_point(pick, size, power) if plainly else with_exponent(pick, size, power)
        if mantissa < 0:
            text = "-" + text
        elif pick.random() < 0.04:
            text = "+" + text
        if len(text) <= width:
            return text
    sign = -1 if mantissa < 0 else 1
    text = shortest(sign * size, power)
    while len(text) > width and size >= 10:
        size, power = size // 10, power + 1
        text = shortest(sign * size, power)
    return text if len(text) <= width else "1"


def just_above(value: int, scale: int, width: int) -> str:
    """The least number above `value` units that can be spelled within the width."""
    if value == 0:
        text = shortest(1, -scale)
        return text if len(text) <= width else "1"
    best = None
    for digits in range(1, width + 1):
        power = max(0, len(str(value)) - digits)
        mantissa = value // 10**power + 1
        text = shortest(mantissa, power - scale)
        if len(text) <= width and (best is None or mantissa * 10**power < best[0]):
            best = (mantissa * 10**power, text)
    return best[1] if best else "9" * width


def split(value: float, digits: int) -> tuple[int, int]:
    """A number as (mantissa, power of ten) of so many digits."""
    if value == 0:
        return 0, 0
    mantissa, power = f"{value:.{digits - 1}e}".split("e")
    number_of = int(mantissa.replace(".", ""))
    power_of = int(power) - (digits - 1)
    while number_of % 10 == 0:
        number_of, power_of = number_of // 10, power_of + 1
    return number_of, power_of
