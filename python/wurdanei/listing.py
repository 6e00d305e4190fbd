"""Reads what `emtp show` prints of a case (docs/show.md): the records with their values and units, and the warnings."""

import re
from dataclasses import dataclass, field
from decimal import Decimal

from . import formula

NOTHING = ("never", "(always)", "(no variable)")  # of a value that isn't there
GROUND = "(ground)"
NUMBER = re.compile(r"[+-]?(\d+\.?\d*|\.\d+)([eE][+-]?\d+)?", re.ASCII)
# lines that go on with what the line before them began
CONTINUED = ("point", "numerator", "denominator")


class ListingError(ValueError):
    """Why a text is no listing."""


@dataclass(frozen=True)
class Entry:
    """An entry of a line: a name, and what stands behind its first `=`; an entry without one is a word."""

    name: str
    text: str | None

    @property
    def value(self) -> float | str | None:
        """A number without its unit or limit; a name, ground the empty one; None for what isn't there."""
        if self.text is None or self.text in NOTHING:
            return None
        if self.text == GROUND:
            return ""
        exact = self.exact
        return self.text if exact is None else float(exact)

    @property
    def exact(self) -> Decimal | None:
        """A number with all its digits; None for what is none."""
        word = (self.text or "").split(" ")[0]
        return Decimal(word) if NUMBER.fullmatch(word) else None

    @property
    def unit(self) -> str:
        """What stands behind a number."""
        return self.text.partition(" ")[2] if self.text and isinstance(self.value, float) else ""


@dataclass
class Line:
    """A record of a listing, with the lines that belong to it: the points of a characteristic, the coefficients of a
    block.

    `line` is the number of its card's line in the case, where it has one; `kind` is as `series branch` or `node`.
    """

    kind: str
    line: int | None
    entries: tuple[Entry, ...]
    number: int | None = None  # of a node, a variable, a channel
    below: list["Line"] = field(default_factory=list)

    def text(self, name: str) -> str:
        """What stands behind `name=`. Raises KeyError where nothing does."""
        for entry in self.entries:
            if entry.name == name and entry.text is not None:
                return entry.text
        raise KeyError(name)

    def __getitem__(self, name: str) -> float | str | None:
        """The value of an entry: a number, or a name; None for never, always and no variable. Names are never numbers
        here."""
        return Entry(name, self.text(name)).value

    def exact(self, name: str) -> Decimal | None:
        """The value of an entry that is a number, with all its digits; None for what is none."""
        return Entry(name, self.text(name)).exact

    def name(self, name: str) -> str | None:
        """The value of an entry that is a name, which may look like a number."""
        text = self.text(name)
        return None if text in NOTHING else "" if text == GROUND else text

    def all(self, name: str) -> list[str]:
        """What stands behind each `name=`."""
        return [entry.text for entry in self.entries if entry.name == name and entry.text is not None]

    @property
    def words(self) -> list[str]:
        """The entries that are words alone."""
        return [entry.name for entry in self.entries if entry.text is None]


@dataclass
class Listing:
    """What was read of a case. `text` is all of it, as it was printed."""

    text: str = field(repr=False)
    lines: list[Line] = field(repr=False)
    warnings: list[str]

    def of(self, *kinds: str) -> list[Line]:
        """The records of these kinds, in the order of the listing."""
        return [line for line in self.lines if line.kind in kinds]

    def one(self, kind: str) -> Line:
        """The one record of a kind, as `run`."""
        (line,) = self.of(kind)
        return line

    @property
    def nodes(self) -> list[str]:
        return [line.name("name") or "" for line in self.of("node")]

    @property
    def variables(self) -> list[str]:
        return [line.name("name") or "" for line in self.of("variable")]


def read(text: str) -> Listing:
    """The listing of a text; its warnings may stand above or below. Raises ListingError where it is none."""
    found: list[Line] = []
    warnings = []
    for number, printed in enumerate(text.split("\n"), 1):
        if printed.startswith("warning, "):
            warnings.append(printed.removeprefix("warning, "))
        elif printed:
            line = _line(printed, number)
            (found[-1].below if line.kind in CONTINUED and found else found).append(line)
    if not any(line.kind == "case" for line in found):
        raise ListingError("the text has no line `case`, so it is no listing of `emtp show`")
    return Listing(text, found, warnings)


def _line(printed: str, number: int) -> Line:
    """A line of a listing: its head, and its entries."""
    head, *rest = printed.split(", ")
    entries = tuple(Entry(name, text if equals else None) for name, equals, text in (it.partition("=") for it in rest))
    match = re.fullmatch(r"([a-z -]+?)(?: (\d+))?", head)
    if match is None:
        raise ListingError(f"line {number} is none of a listing: {printed[:80]}")
    kind, count = match[1], None if match[2] is None else int(match[2])
    if kind != "line":
        return Line(kind, None, entries, count)
    if entries and entries[0].text is None:
        return Line(entries[0].name, count, entries[1:])
    return Line(entries[0].name if entries else "line", count, entries)


def tree_of(line: Line) -> str | tuple:
    """The tree of a formula's line, as wurdanei.formula has it: numbers and names as texts, (operator, tree, ..)."""
    return formula.read(line.text("value"), deepest=100).tree
