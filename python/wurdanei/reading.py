"""What stands in the text of a case, for an editor: the kind of each line, its card with the fields that it has, what
the program read of it, what it warns of, and what it refuses.

All of that are answers of `emtp show`. Which row of the table of columns a card is goes by its type, its code or its
ILINE, in `card_of` alone. Behind a card that is refused the program is asked once more, over a text with a blameless
card in its place, so that colours and names stay; what it refuses there isn't told, since it mostly follows.

Lines and columns count from 0, and the last column is the first one behind. A column is a byte: lines are texts with a
character for each byte of UTF-8.
"""

from __future__ import annotations

import functools
import re
import typing
from collections.abc import Callable
from dataclasses import dataclass, field, replace

from . import columns, program
from .columns import Card, Field

CONTROL = ("blocks", "TACS sources", "supplemental cards", "TACS outputs", "initial conditions")
NETWORK = ("branches", "switches", "sources", "node outputs")
ROUNDS = 20  # how many refused cards are looked behind
DUE = "due: "  # before the card that is due where a case ends too early
END = "the end of a section"
COMMENT = "a comment"
HYBRID = "the card TACS HYBRID"
POINTS = "a point or the card that ends them"
TOUCHING = "two numbers touch"
WARNING = re.compile(r"^warning, (?:line (\d+)|channel (\d+))(?:, columns? (\d+)(?:-(\d+))?)?, (.*)$", re.M)
REFUSED = re.compile(r"^BAD CARD LINE (\d+) COLUMN (\d+) REASON \d+ (\w+)", re.M)
FIELD_REFUSED = re.compile(r"^refused\t(\d+)\t(\d+)-(\d+)\t(.*)$", re.M)
FIELD_TOLD = re.compile(r"^(\d+)\t[^\t\n]*\t.*\n((?:\t.*\n)*)", re.M)
# the first column of a field, and of a number its unit, its range and what it is read as
FIELD_ROW = re.compile(r"^\t(\d+)-\d+\t[^\t\n]*\t[^\t\n]*(?:\t([^\t\n]*)\t([^\t\n]*)\t([^\t\n]*))?", re.M)
OF_WHOLE_LINE = ("MissingSection", "TooManyLines")  # refusals that mean no column
OF_A_BYTE = ("ByteOutside", "PastColumn80")
# what `show --why` says of a line that is no such card at all, in its first words
OF_ANOTHER_LINE = ("a section ends with BLANK", "a comment has", "a special request card")


@dataclass(frozen=True)
class Mark:
    """What is refused or warned of: a line, its columns, the words. `code` is the reason of a refusal."""

    line: int
    first: int
    last: int
    text: str
    code: str = ""

    @property
    def refused(self) -> bool:
        return bool(self.code)


class Number(typing.NamedTuple):
    """What the program tells of a field that holds a number: its unit, its range in this unit, what it is read as.

    `value` is empty where the field is refused, or a blank one means no number.
    """

    unit: str
    span: str
    value: str


@dataclass(frozen=True)
class Section:
    """A section of a case: its first line, and the one that ends it."""

    name: str
    first: int
    last: int


@dataclass
class Reading:
    """A case as it is read: of each line its kind, its card, and the lines of the listing that it makes.

    `numbers` has what the program tells of a number, by its line from 0 and the first column of its field from 1.
    """

    lines: list[str]
    kinds: list[str]
    cards: list[Card | None]
    told: dict[int, list[str]] = field(default_factory=dict)
    marks: list[Mark] = field(default_factory=list)
    sections: list[Section] = field(default_factory=list)
    numbers: dict[tuple[int, int], Number] = field(default_factory=dict)

    def field_at(self, line: int, column: int) -> Field | None:
        """The field in whose columns a place is."""
        card = self.cards[line] if line < len(self.cards) else None
        return next((it for it in card.fields if it.first <= column + 1 <= it.last), None) if card else None

    def text_of(self, line: int, part: Field) -> str:
        """What stands in a field."""
        return self.lines[line][part.first - 1 : part.last]


def lines_of(text: str) -> list[str]:
    """The lines of a text, a character for each byte."""
    return [line.removesuffix("\r") for line in text.encode("utf-8", "surrogatepass").decode("latin-1").split("\n")]


def shown(lines: typing.Sequence[str], *words: str) -> str:
    """What `emtp show` prints of a case with these lines."""
    return _asked(lines, *words).note


def _asked(lines: typing.Sequence[str], *words: str) -> program.Ended:
    with program.memory("\n".join(lines).encode("latin-1")) as file:
        return program.run(["show", *words, program.path_of(file)], files=(file,))


def has_fields() -> bool:
    """Whether the program tells the fields of each line by itself (`show --fields`)."""
    return _has_fields(str(program.shower()))


@functools.lru_cache
def _has_fields(_: str) -> bool:
    return _asked(["BEGIN NEW DATA CASE"], "--fields").status != 1


def whole(text: str) -> int:
    """The whole number of two columns; 0 where there is none."""
    try:
        return int(text[:2])
    except ValueError:
        return 0


# ---- the cards


def card_of(kind: str, line: str, wide: bool, points: Card | None) -> Card | None:
    """The card of the table that a line of a kind is, with the fields that it has by its type.

    `wide` tells whether $VINTAGE, 1 stands before it, `points` which points may stand here.
    """
    kind_type, code = whole(line), whole(line[8:10])
    if kind == "a branch card":
        if kind_type >= 98:
            return columns.NONLINEAR
        if kind_type < 0:
            return columns.LINES.get(whole(line[50:52]), columns.LINE)
        return columns.WIDE if wide else columns.SERIES
    if kind == "a source card":
        card = columns.CURRENT_SOURCE if code < 0 else columns.SOURCE
        return columns.with_fields(card, columns.RISE) if kind_type == 12 else card
    if kind == "a TACS source" and kind_type in (23, 24):
        pulse = [columns.PULSE_WIDTH] if kind_type == 23 else []
        return columns.with_fields(columns.TACS_SOURCE, columns.PERIOD, *pulse)
    if kind == "a supplemental card":
        if not line[8:10].strip():
            return columns.FORMULA
        other = {53: columns.DELAY, 66: columns.FREQUENCY}.get(code)
        return columns.with_fields(columns.DEVICE, other) if other else columns.DEVICE
    return {
        "the card RESIDUAL TOLERANCE": columns.TOLERANCE,
        "the first miscellaneous card": columns.FIRST,
        "the second miscellaneous card": columns.SECOND,
        POINTS: points,
        "a switch card": columns.VALVE if kind_type > 0 else columns.SWITCH,
        "a node output card": columns.OUTPUT,
        "a TACS output": columns.OUTPUT,
        "a block card": columns.BLOCK,
        "a card of coefficients": columns.COEFFICIENTS,
        "a TACS source": columns.TACS_SOURCE,
    }.get(kind)


def _find_cards(it: Reading) -> None:
    """The card of each line, and the sections."""
    wide, points, names, begins = False, None, list(NETWORK), 0
    for at, (kind, line) in enumerate(zip(it.kinds, it.lines)):
        it.cards[at] = card_of(kind, line, wide, points)
        if kind == HYBRID:
            names, begins = [*CONTROL, *NETWORK], at + 1
        elif kind == "the second miscellaneous card":
            begins = at + 1
        elif kind == "a vintage card":
            wide = bool(re.search(r"1 *$", line))
        elif kind == "a branch card" and whole(line) >= 98:
            points = columns.FLUX_POINT if whole(line) == 98 else columns.POINT
        elif kind == "a supplemental card":
            points = columns.WINDOW_TIMES if line[8:10] == "57" else columns.TABLE_POINT
        elif kind == END and names:
            it.sections.append(Section(names.pop(0), begins, at))
            begins = at + 1


def _only_told(it: Reading) -> None:
    """Takes away the fields that the program doesn't read of a card, as the values of one that copies, and keeps what it tells
    of numbers."""
    for line, rows in FIELD_TOLD.findall(shown(it.lines, "--fields")):
        at, told = int(line) - 1, {int(first): Number(*rest) for first, *rest in FIELD_ROW.findall(rows)}
        firsts = set(told)
        it.numbers |= {(at, first): number for first, number in told.items() if number.span}
        card = it.cards[at] if at < len(it.cards) else None
        if card and firsts:
            it.cards[at] = replace(card, fields=tuple(part for part in card.fields if part.first in firsts))


# ---- the kinds of lines, behind a refused card too

# what stands in place of a refused card, so that the lines behind it are read as they would be behind a mended one
_BLAMELESS: dict[str, Callable[[str], str]] = {
    "the card BEGIN NEW DATA CASE": lambda line: "BEGIN NEW DATA CASE",
    "the first miscellaneous card": lambda line: "   1.E-6   1.E-3",
    "the second miscellaneous card": lambda line: "       1       1",
    "a block card": lambda line: f"{min(max(whole(line[:2]), 0), 7):2d}(BAD)",
    "a card of coefficients": lambda line: "        1.",
    "a branch card": lambda line: line[:2] + "(1)   (2)" if whole(line) >= 98 and not line[14:26].strip() else "C",
    "a supplemental card": lambda line: f"88(BAD)  {line[8:10]}" if line[8:10] in ("56", "57") else "C",
}


def _stand_in(lines: list[str], at: int, kind: str) -> bool:
    """Puts a blameless card in place of a refused one; whether that changes something."""
    other = _BLAMELESS.get(kind, lambda line: "C")(lines[at])
    changed = other != lines[at]
    lines[at] = other
    return changed


def read(text: str) -> Reading:
    """The lines of a text, with the card of each, as far as they are read as one."""
    lines = lines_of(text)
    it = Reading(lines, [""] * len(lines), [None] * len(lines))
    own = list(lines)
    for _ in range(ROUNDS):
        rows = [row.partition("\t")[::2] for row in shown(own, "--kinds").splitlines()]
        known = [(int(number) - 1, kind) for number, kind in rows if number.isdecimal() and not kind.startswith(DUE)]
        for at, kind in known:
            it.kinds[at] = it.kinds[at] or kind
        if not known or rows[-1][1].startswith(DUE) or not _stand_in(own, known[-1][0], it.kinds[known[-1][0]]):
            break
    for at, line in enumerate(lines):
        if line == "C" or line.startswith("C "):
            it.kinds[at] = COMMENT
    _find_cards(it)
    if has_fields():
        _only_told(it)
    return it


# ---- what is refused and warned of


def judge(it: Reading) -> None:
    """What the program reads of each line, refuses and warns of."""
    listing = shown(it.lines)
    for number, told in re.findall(r"^line (\d+), (.*)$", listing, re.M):
        it.told.setdefault(int(number) - 1, []).append(told)
    refused = REFUSED.search(listing)
    if refused:
        it.marks.append(_refusal(it, int(refused[1]), int(refused[2]), refused[3]))
    asks = re.findall(r"^line (\d+), asks for channel=(\d+)$", listing, re.M)
    asked = {channel: int(number) for number, channel in asks}
    for line, channel, first, last, what in WARNING.findall(listing):
        at = int(line or asked.get(channel, 1)) - 1
        span = (int(first) - 1, int(last or first)) if first else (0, len(it.lines[at]))
        it.marks.append(Mark(at, *span, f"channel {channel}: {what}" if channel else what))
    it.marks.sort(key=lambda mark: (mark.line, mark.first))


def _refusal(it: Reading, line: int, column: int, code: str) -> Mark:
    """The mark of a refused card, at its field, with the words of `show --why`."""
    why = shown(it.lines, "--why").splitlines()
    marked = next((at for at, row in enumerate(why) if re.match(r" *\^ ", row)), -1)
    words = " ".join(why) if marked < 0 else f"{why[marked].strip()[2:]}. {' '.join(why[marked + 1 :])}"
    at = min(line, len(it.lines)) - 1
    if line > len(it.lines) or code in OF_WHOLE_LINE or words.startswith(OF_ANOTHER_LINE):
        return Mark(at, 0, len(it.lines[at]), words, code)
    if code in OF_A_BYTE:
        return Mark(at, column - 1, column, words, code)
    place = _field_refused(it, at, column)
    if place:
        name, first, last = place
        return Mark(at, first, last, f"{name}: {words}", code)
    run = re.match(r"\s*\S*", it.lines[at][column - 1 :])
    return Mark(at, column - 1, column - 1 + max(1, run.end() if run else 1), words, code)


def _field_refused(it: Reading, at: int, column: int) -> tuple[str, int, int] | None:
    """The name and the columns of the field that is refused, where it is one."""
    card = it.cards[at]
    own = next((part for part in card.fields if part.first == column), None) if card else None
    if own:
        return own.name, own.first - 1, own.last
    told = FIELD_REFUSED.search(shown(it.lines, "--fields")) if has_fields() else None
    return (told[4], int(told[2]) - 1, int(told[3])) if told and told[4] else None
