"""The one table of the cards' fields: where each stands, its unit and its range.

docs/cards.md and docs/control.md say what the fields mean; cases/scripts/rulers compares their rulers and tables with
this one. Columns count from 1, and the last one belongs to the field.
"""

from dataclasses import dataclass, replace
from typing import Any

LARGE = 10**18
CODES = (51, 52, 53, 54, 56, 57, 58, 59, 60, 62, 63, 64, 65, 66)  # of the devices

# what one of the whole number that is kept of a field is called, by the unit in which it is written and its scale
UNITS = {
    ("ohm", 6): "micro-ohm",
    ("mH", 6): "nH",
    ("uF", 9): "fF",
    ("s", 12): "ps",
    ("V", 9): "nV",
    ("A", 9): "nA",
    ("Wb", 12): "pWb",
    ("Hz", 6): "micro-hertz",
    ("degree", 9): "1e-9 degree",
    ("", 6): "1e-6",
    ("", 9): "1e-9",
    ("", 12): "1e-12",
    ("", 0): "1",
}


@dataclass(frozen=True)
class Field:
    """A field of a card.

    A number is written in `unit` and kept as a whole number of 10^-scale of it, which lies from `low` to `high`; of a
    `held` one the nearer end is taken beyond. `blank` says what a blank field means: a number, or the word for what
    it is.
    """

    name: str
    label: str  # in the legend of its card
    first: int
    last: int
    kind: str = "number"  # or whole, name, sign, text
    unit: str = ""
    scale: int = 0
    low: int = 0
    high: int = 0
    held: bool = False
    blank: str = "0"
    choices: tuple[int | str, ...] = ()  # what may stand there alone, where it isn't a range

    @property
    def width(self) -> int:
        return self.last - self.first + 1

    @property
    def kept_unit(self) -> str:
        """What one of the kept whole number is called."""
        return UNITS.get((self.unit, self.scale), "no unit") if self.kind == "number" else "whole"


@dataclass(frozen=True)
class Card:
    """A kind of card: its fields in the order of their columns, and the heading under which docs has its ruler.

    `words` are what `emtp ruler` calls it. `text` stands in each such card, from the column `text_at` on.
    """

    name: str
    page: str
    heading: str
    words: tuple[str, ...]
    fields: tuple[Field, ...]
    text: str = ""
    text_at: int = 1

    def blank(self) -> list[str]:
        """The characters of a card without its fields."""
        line = " " * (self.text_at - 1) + self.text
        return list(line.ljust(80))

    def field(self, name: str) -> Field:
        return next(field for field in self.fields if field.name == name)

    def legend(self) -> str:
        """The labels of the fields over their columns, as docs has them."""
        line = self.blank()
        for field in self.fields:
            line[field.first - 1 : field.last] = field.label.ljust(field.width, "-")
        names = [field for field in self.fields if field.name.startswith("input ")]
        for field in names:  # a point parts an input from the next one
            line[field.last] = "."
        return "".join(line).rstrip()

    def comment(self) -> str:
        """The legend as a comment above such cards: a C in column 1, and behind it the word that begins there."""
        line, first = self.legend(), min(self.fields, key=lambda field: field.first)
        last = first.last if first.first == 1 else first.first - 1  # of the first field, or of the words before it
        if last <= 2:
            return "C " + line[2:]
        word, fill = (first.label, "-") if first.first == 1 else (line[:last].rstrip(), " ")
        return f"C {word}"[:last].ljust(last, fill) + line[last:]


def with_fields(card: Card, *others: Field) -> Card:
    """The card with these fields in place of those that stand in their columns."""
    by_column = {field.first: field for field in card.fields} | {field.first: field for field in others}
    return replace(card, fields=tuple(by_column[first] for first in sorted(by_column)))


# ---- fields


def _number(
    name: str, label: str, first: int, last: int, unit: str, scale: int, low: int, high: int, **more: Any
) -> Field:
    return Field(name, label, first, last, "number", unit, scale, low, high, **more)


def _held(name: str, label: str, first: int, last: int, low: int = -LARGE, blank: str = "0") -> Field:
    return Field(name, label, first, last, "number", "s", 12, low, LARGE, True, blank)


def _whole(name: str, label: str, first: int, last: int, low: int, high: int, blank: str = "0") -> Field:
    return Field(name, label, first, last, "whole", "", 0, low, high, False, blank)


def _name(name: str, label: str, first: int, last: int = 0, blank: str = "none") -> Field:
    return Field(name, label, first, last or first + 5, "name", blank=blank)


def _zero(name: str, label: str, first: int, last: int) -> Field:
    return _number(name, label, first, last, "", 0, 0, 0)


def _type(*choices: int, label: str = "TY", blank: str = "refused") -> Field:
    return Field("type", label, 1, 2, "whole", low=min(choices), high=max(choices), blank=blank, choices=choices)


BUSES = (_name("BUS1", "BUS1", 3, blank="ground"), _name("BUS2", "BUS2", 9, blank="ground"))
COPIED = (_name("BUS3", "BUS3", 15), _name("BUS4", "BUS4", 21))
ASKED = _whole("asked", "A", 80, 80, 0, 3)
TIMES = (_held("TSTART", "TSTART", 61, 70), _held("TSTOP", "TSTOP", 71, 80, 0, "never"))
NAME = _name("name", "NAME", 3, blank="refused")


def _inputs() -> tuple[Field, ...]:
    found: list[Field] = []
    for number, first in enumerate((11, 19, 27, 35, 43), 1):
        found.append(Field(f"sign {number}", "S", first, first, "sign", blank="+"))
        found.append(_name(f"input {number}", "INPUT", first + 1))
    return tuple(found)


def _names() -> tuple[Field, ...]:
    return tuple(_name(f"name {number}", "NAME", 6 * number - 3) for number in range(1, 14))


# ---- cards

SERIES = Card(
    "series branch",
    "cards",
    "Series branch: resistance, inductance, capacitance",
    ("branch", "series"),
    (
        _type(0, blank="0"),
        *BUSES,
        *COPIED,
        _number("R", "R", 27, 32, "ohm", 6, 0, 10**15),
        _number("L", "L", 33, 38, "mH", 6, 0, 10**15),
        _number("C", "C", 39, 44, "uF", 9, 0, 10**15),
        ASKED,
    ),
)
WIDE = replace(
    SERIES,
    name="wide series branch",
    words=("branch", "wide"),
    fields=SERIES.fields[:5]
    + tuple(
        replace(SERIES.field(name), first=first, last=first + 15) for name, first in (("R", 27), ("L", 43), ("C", 59))
    )
    + (ASKED,),
)
TOLERANCE = Card(
    "tolerance",
    "cards",
    "Miscellaneous cards",
    ("tolerance",),
    (_number("tolerance", "TOLER", 25, 32, "A", 9, 0, 10**12, blank="refused"),),
    "RESIDUAL TOLERANCE",
)
FIRST = Card(
    "first miscellaneous card",
    "cards",
    "Miscellaneous cards",
    ("first",),
    (
        _number("DELTAT", "DELTAT", 1, 8, "s", 12, 1000, 10**12, blank="refused"),
        _number("TMAX", "TMAX", 9, 16, "s", 12, 1, LARGE, blank="refused"),
        _zero("XOPT", "XOPT", 17, 24),
        _zero("COPT", "COPT", 25, 32),
    ),
)
SECOND = Card(
    "second miscellaneous card",
    "cards",
    "Miscellaneous cards",
    ("second",),
    (
        _whole("IOUT", "IOUT", 1, 8, -(10**9), 10**9),
        _whole("IPLOT", "IPLOT", 9, 16, 0, 10**6),
    ),
)
# A and B of a line by its ILINE
LINE_VALUES = {
    0: (
        _number("L", "A", 33, 38, "mH", 6, 1, 10**12, blank="refused"),
        _number("C", "B", 39, 44, "uF", 9, 1, 10**12, blank="refused"),
    ),
    1: (
        _number("surge impedance", "A", 33, 38, "ohm", 6, 10, 10**15, blank="refused"),
        _number("velocity", "B", 39, 44, "", 6, 1, LARGE, blank="refused"),
    ),
    2: (
        _number("surge impedance", "A", 33, 38, "ohm", 6, 10, 10**15, blank="refused"),
        _number("travel time", "B", 39, 44, "s", 12, 1, LARGE, blank="refused"),
    ),
}


def _line(iline: int) -> tuple[Field, ...]:
    return (
        _type(-1, -2, -3),
        *BUSES,
        *COPIED,
        _number("R", "R", 27, 32, "ohm", 6, 0, 10**12),
        *LINE_VALUES[iline],
        _number("length", "LENGTH", 45, 50, "", 6, 1, 10**12, blank="refused"),
        Field("ILINE", "IL", 51, 52, "whole", low=0, high=2, choices=(0, 1, 2)),
        ASKED,
    )


LINE = Card("line", "cards", "Line", ("line",), _line(0))
LINES = {iline: replace(LINE, fields=_line(iline)) for iline in LINE_VALUES}
NONLINEAR = Card(
    "nonlinear branch",
    "cards",
    "Pseudo-nonlinear resistor and reactor",
    ("arrester", "reactor", "nonlinear"),
    (
        _type(98, 99),
        *BUSES,
        *COPIED,
        _zero("flashover", "FLASH", 27, 32),
        _zero("delay", "DELAY", 33, 38),
        _zero("jump", "JUMP", 39, 44),
        ASKED,
    ),
)
POINT = Card(
    "point of a characteristic",
    "cards",
    "Pseudo-nonlinear resistor and reactor",
    ("point",),
    (
        _number("current", "CURRENT", 1, 16, "A", 9, 1, LARGE, blank="refused"),
        _number("voltage", "VOLTAGE/FLUX", 17, 32, "V", 9, 1, LARGE, blank="refused"),
    ),
)
FLUX_POINT = with_fields(POINT, replace(POINT.fields[1], name="flux", unit="Wb", scale=12))
SWITCH = Card(
    "switch",
    "cards",
    "Switch",
    ("switch",),
    (
        _type(0, blank="0"),
        *BUSES,
        _held("T-CLOSE", "T-CLOSE", 15, 24),
        _held("T-OPEN", "T-OPEN", 25, 34, blank="never"),
        _number("margin", "MARGIN", 35, 44, "A", 9, 0, LARGE),
        Field("word", "WORD", 55, 64, "name", blank="a time switch", choices=("MEASURING",)),
        ASKED,
    ),
)
VALVE = Card(
    "valve",
    "cards",
    "Switch",
    ("valve", "controlled"),
    (
        _type(11, 13),
        *BUSES,
        _number("ignition", "IGNITION", 15, 24, "V", 9, 0, LARGE),
        _number("holding", "HOLDING", 25, 34, "A", 9, 0, LARGE),
        _name("control", "CONTRO", 65),
        ASKED,
    ),
)
SOURCE = Card(
    "source",
    "cards",
    "Source",
    ("source",),
    (
        _type(11, 12, 14, 60),
        NAME,
        _whole("kind", "KI", 9, 10, -(10**9), 10**9),
        _number("amplitude", "AMPLITUDE", 11, 20, "V", 9, -LARGE, LARGE),
        _number("frequency", "FREQUENCY", 21, 30, "Hz", 6, 0, 10**13),
        _number("phase", "T0/PHASE", 31, 40, "degree", 9, -(10**15), 10**15),
        _zero("A1", "A1", 41, 50),
        *TIMES,
    ),
)
CURRENT_SOURCE = with_fields(SOURCE, replace(SOURCE.field("amplitude"), unit="A"))
# of a ramp T0 stands where a cosine has its phase
RISE = _number("T0", "T0/PHASE", 31, 40, "s", 12, 1, LARGE, blank="refused")
OUTPUT = Card("output", "cards", "Node outputs", ("output",), (_type(0, 1, label="MK", blank="0"), *_names()))
BLOCK = Card(
    "block",
    "control",
    "Block: a transfer function with limits",
    ("block",),
    (
        _whole("order", "OR", 1, 2, 0, 7),
        NAME,
        *_inputs(),
        _number("gain", "GAIN", 51, 56, "", 12, -LARGE, LARGE, blank="1"),
        _number("low limit", "LOW", 57, 62, "", 9, -LARGE, LARGE, blank="none"),
        _number("high limit", "HIGH", 63, 68, "", 9, -LARGE, LARGE, blank="none"),
        _name("low limit's name", "LOW", 69),
        _name("high limit's name", "HIGH", 75),
    ),
)
COEFFICIENTS = Card(
    "coefficients",
    "control",
    "Block: a transfer function with limits",
    ("coefficients",),
    tuple(
        _number(f"power {power}", "POWER", 10 * power + 1, 10 * power + 10, "", 12, -LARGE, LARGE) for power in range(8)
    ),
)
TACS_SOURCE = Card(
    "control source",
    "control",
    "TACS source",
    ("tacs-source", "control-source"),
    (
        _type(11, 14, 23, 24, 90, 91, 93),
        NAME,
        _number("amplitude", "AMPLITUDE", 11, 20, "", 9, -LARGE, LARGE),
        _number("frequency", "FREQ/PER", 21, 30, "Hz", 6, 0, 10**13),
        _number("phase", "PHASE/WID", 31, 40, "degree", 9, -(10**15), 10**15),
        _zero("A1", "A1", 41, 50),
        *TIMES,
    ),
)
# of pulses and of a saw tooth times stand where a cosine has frequency and phase
PERIOD = _number("period", "FREQ/PER", 21, 30, "s", 12, 1, LARGE, blank="refused")
PULSE_WIDTH = _number("width", "PHASE/WID", 31, 40, "s", 12, 1, LARGE, blank="refused")
FORMULA = Card(
    "formula",
    "control",
    "Supplemental card: a formula",
    ("formula",),
    (
        _type(99, 88, 98, label="GR"),
        NAME,
        Field("expression", "EXPRESSION", 12, 80, "text", blank="refused"),
    ),
    "=",
    11,
)
DEVICE = Card(
    "device",
    "control",
    "Supplemental card: a device",
    ("device",),
    (
        _type(99, 88, 98, label="GR"),
        NAME,
        Field("code", "CO", 9, 10, "whole", low=51, high=66, blank="a formula", choices=CODES),
        *_inputs(),
        _number("A", "A", 51, 56, "", 9, -LARGE, LARGE),
        _number("B", "B", 57, 62, "", 9, -LARGE, LARGE),
        _number("C", "C", 63, 68, "", 9, -LARGE, LARGE),
        _name("D", "D", 69),
        _name("E", "E", 75),
    ),
)
# A of a delay, and of an effective value
DELAY = _number("A", "A", 51, 56, "s", 12, 0, LARGE)
FREQUENCY = _number("A", "A", 51, 56, "Hz", 6, 1, 10**13, blank="refused")
TABLE_POINT = Card(
    "point of a table",
    "control",
    "Supplemental card: a device",
    ("table-point",),
    (
        _number("input", "INPUT/CLOSE", 1, 16, "", 9, -LARGE, LARGE, blank="refused"),
        _number("output", "OUTPUT/OPEN", 17, 32, "", 9, -LARGE, LARGE, blank="refused"),
    ),
)
WINDOW_TIMES = with_fields(
    TABLE_POINT,
    _number("close", "INPUT/CLOSE", 1, 16, "s", 12, 0, LARGE, blank="refused"),
    _number("open", "OUTPUT/OPEN", 17, 32, "s", 12, 0, LARGE, blank="refused"),
)

# each kind of card once, in the order of docs
CARDS = (
    TOLERANCE,
    FIRST,
    SECOND,
    SERIES,
    WIDE,
    LINE,
    NONLINEAR,
    POINT,
    SWITCH,
    VALVE,
    SOURCE,
    OUTPUT,
    BLOCK,
    COEFFICIENTS,
    TACS_SOURCE,
    FORMULA,
    DEVICE,
    TABLE_POINT,
)
# fields that another kind of the same card has in place of one of the table's
OTHERS = {
    "line": LINE_VALUES[1] + LINE_VALUES[2],
    "point of a characteristic": FLUX_POINT.fields,
    "source": (RISE, CURRENT_SOURCE.field("amplitude")),
    "control source": (PERIOD, PULSE_WIDTH),
    "device": (DELAY, FREQUENCY),
    "point of a table": WINDOW_TIMES.fields,
}
END_OF_POINTS = "9999".rjust(16)
END_OF_SECTION = "BLANK"
