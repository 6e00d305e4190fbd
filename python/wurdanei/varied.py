"""A case under lists of values for fields of its cards, and with its peaks taken from a time on.

Fields go by the one table of `columns`; as what a line is read says the proved program (`deck`).
"""

import itertools
import re
from dataclasses import dataclass, replace
from decimal import Decimal

from . import columns
from .deck import Deck, number

MOST_CASES = 10_000
LETTERS = "ABCDEFGHIJKLMNOPQRSTUVWXYZ"
FOREVER = "999999."  # s, before the end of what the times of a window may be


class VariedError(Exception):
    """Why a case can't be varied, in words."""


@dataclass(frozen=True)
class Varied:
    """A field of some lines, by its columns, and the texts that it gets, one after the other."""

    label: str  # as it was asked for, LINES:FIELD
    lines: tuple[int, ...]
    first: int
    last: int
    texts: tuple[str, ...]
    tied: bool = False  # it moves together with the one before it


def _card_of(deck: Deck, line: int) -> columns.Card:
    """The kind of card that stands on a line."""
    kind, text = deck.kinds.get(line, ""), deck.lines[line - 1] if 0 < line <= len(deck.lines) else ""
    simple = {
        "the card RESIDUAL TOLERANCE": columns.TOLERANCE,
        "the first miscellaneous card": columns.FIRST,
        "the second miscellaneous card": columns.SECOND,
        "a source card": columns.SOURCE,
        "a TACS source": columns.TACS_SOURCE,
        "a block card": columns.BLOCK,
        "a card of coefficients": columns.COEFFICIENTS,
        "a point or the card that ends them": columns.POINT,
    }
    if kind in simple:
        return simple[kind]
    type_of = text[:2].strip()
    if kind == "a switch card":
        return columns.VALVE if type_of in ("11", "13") else columns.SWITCH
    if kind == "a supplemental card":
        return columns.DEVICE if text[8:10].strip() else columns.FORMULA
    if kind == "a branch card":
        if type_of.startswith("-"):
            iline = text[50:52].strip()
            return columns.LINES[int(iline)] if iline in ("1", "2") else columns.LINE
        if type_of in ("98", "99"):
            return columns.NONLINEAR
        vintages = [card for at, card in deck.cards("a vintage card") if at < line]
        return columns.WIDE if vintages and vintages[-1].rstrip().endswith("1") else columns.SERIES
    raise VariedError(f"line {line} of {deck.path} has no field that can be varied: it is {kind or 'no card'}")


def _columns_of(deck: Deck, line: int, field: str) -> tuple[int, int]:
    """The columns of a field that is named so, or by its columns as 27-32."""
    if match := re.fullmatch(r"(\d{1,2})-(\d{1,2})", field):
        first, last = int(match[1]), int(match[2])
        if not 1 <= first <= last <= 80:
            raise VariedError(f"columns {field}: they lie from 1 to 80, the first one first")
        return first, last
    card = _card_of(deck, line)
    found = [it for it in card.fields if field.casefold() in (it.name.casefold(), it.label.casefold())]
    # a number goes before what has its label besides, as A of a line before the mark A in column 80
    found = [it for it in found if it.kind == "number"] or found
    if len(found) != 1:
        names = ", ".join(dict.fromkeys(_told(it) for it in card.fields if it.kind in ("number", "whole")))
        kind = card.name if card.name.endswith("card") else f"{card.name} card"
        many = f"{len(found)} fields" if found else "no field"
        raise VariedError(f"line {line}, a {kind}, has {many} named {field}; it has {names}")
    return found[0].first, found[0].last


def _told(field: columns.Field) -> str:
    """The name of a field, with its label in the ruler where this is another word."""
    return field.name if field.label.casefold() == field.name.casefold() else f"{field.name} ({field.label})"


def varied_of(deck: Deck, asked: str) -> Varied:
    """The field and its texts of LINE[,LINE..]:FIELD=TEXT[,TEXT..]."""
    where, equals, texts = asked.partition("=")
    lines, colon, field = where.partition(":")
    try:
        numbers = tuple(int(word) for word in lines.split(","))
    except ValueError:
        numbers = ()
    values = tuple(word.strip() for word in texts.split(","))
    if not (equals and colon and numbers and all(values)):
        raise VariedError(f"--vary {asked}: it is LINE[,LINE..]:FIELD=VALUE[,VALUE..], as 7,8,9:R=200.,400.")
    spans = [_columns_of(deck, line, field.strip()) for line in numbers]
    if any(not 1 <= line <= len(deck.lines) for line in numbers):
        raise VariedError(f"--vary {asked}: {deck.path} has lines 1 to {len(deck.lines)}")
    if len(set(spans)) > 1:
        raise VariedError(
            f"--vary {asked}: the field has other columns on one line than on another; give them one by one"
        )
    first, last = spans[0]
    if long := [text for text in values if len(text) > last - first + 1]:
        raise VariedError(f"--vary {asked}: {long[0]} is longer than columns {first} to {last}")
    return Varied(where, numbers, first, last, values)


def moved_of(deck: Deck, asked: str) -> list[Varied]:
    """The fields that move together, parted by semicolons: the first text of each, then the second, and so on."""
    first, *others = [varied_of(deck, it.strip()) for it in asked.split(";")]
    for it in others:
        if len(it.texts) != len(first.texts):
            raise VariedError(
                f"--vary {asked}: fields that move together have as many values, and here {len(first.texts)} and "
                f"{len(it.texts)}"
            )
    return [first, *(replace(it, tied=True) for it in others)]


def combinations(lists: list[Varied]) -> list[tuple[str, ...]]:
    """Each text of each list with each one of the others, the last list's fastest; tied lists move with the one before
    them."""
    groups: list[list[Varied]] = []
    for it in lists:
        if it.tied:
            groups[-1].append(it)
        else:
            groups.append([it])
    rows = itertools.product(*(zip(*(it.texts for it in group)) for group in groups))
    found = [tuple(itertools.chain(*row)) for row in itertools.islice(rows, MOST_CASES + 1)]
    if len(found) > MOST_CASES:
        raise VariedError(f"these are more than {MOST_CASES:,} cases")
    return found


def text_with(deck: Deck, lists: list[Varied], texts: tuple[str, ...]) -> str:
    """The case with these texts in its fields, each at the right of its columns."""
    lines = list(deck.lines)
    for it, text in zip(lists, texts):
        for line in it.lines:
            card = lines[line - 1].ljust(80)
            lines[line - 1] = (card[: it.first - 1] + text.rjust(it.last - it.first + 1) + card[it.last :]).rstrip()
    return deck.text(lines)


# ---- the cases of a study


@dataclass(frozen=True)
class Cases:
    """The cases of a study: their texts, bytes from 0 to 255; the headings of the fields that are varied, and each case's
    texts of them; and the channels that stand in place of others, by their names."""

    texts: list[str]
    headings: list[str]
    values: list[tuple[str, ...]]
    instead: dict[str, str]
    since: str = ""  # what is said behind these
    tied: tuple[bool, ...] = ()  # of each varied field, whether it moves together with the one before it

    def told(self, place: int) -> str:
        """The varied fields of a case with their texts, where there are some."""
        return ", ".join(f"{heading} = {text}" for heading, text in zip(self.headings, self.values[place]))

    def parameters(self) -> dict[str, list[float | str]]:
        """The values of each varied field that moves by itself, as numbers where they are numbers."""
        free = [place for place, tied in enumerate(self.tied) if not tied]
        return {self.headings[place]: [_value(texts[place]) for texts in self.values] for place in free}


def _value(text: str) -> float | str:
    try:
        return float(number(text))
    except ValueError:
        return text


def cases_of(path: str, vary: list[str], begin: float | None) -> Cases:
    """The case as it is, or under each combination of the values that `vary` names, or with its peaks taken from `begin`
    seconds on."""
    if not vary and begin is None:
        with open(path, encoding="latin-1", newline="") as file:
            return Cases([file.read()], [], [()], {})
    deck = Deck(path)
    lists = [it for asked in vary for it in moved_of(deck, asked)]
    instead = {} if begin is None else windowed(deck, begin)
    values = combinations(lists)
    texts = [text_with(deck, lists, it) for it in values]
    since = "" if begin is None else f" from {begin} s on"
    return Cases(texts, [it.label for it in lists], values, instead, since, tuple(it.tied for it in lists))


# ---- peaks from a time on


def windowed(deck: Deck, begin: float) -> dict[str, str]:
    """Puts a window of the control (device 57) over each node output, so that its channel is 0 before `begin` seconds.

    The node outputs go; each becomes a variable that is the node's voltage from then on. The answer: the name of each new
    channel, with the name of the channel in whose place it is. Other channels stay as they are.
    """
    outputs = deck.cards("a node output card")
    if not outputs:
        raise VariedError(f"{deck.path} asks for no node's voltage, so there is nothing to take from a time on")
    if any(card[:2].strip() == "1" for _, card in outputs):
        raise VariedError(f"{deck.path} asks for all nodes by a mark 1: --peaks-from needs their names on output cards")
    if not 0 <= Decimal(repr(begin)) < deck.end():
        raise VariedError(f"--peaks-from {begin:g} isn't within the run, 0 to {deck.end()} s")
    names = [card[at : at + 6].strip() for _, card in outputs for at in range(2, 80, 6)]
    names = list(dict.fromkeys(name for name in names if name))
    measured = {card[2:8].strip() for _, card in deck.cards("a TACS source") if card[:2].strip() == "90"}
    taken = deck.variables() | set(names)
    if clash := [name for name in names if name in deck.variables() and name not in measured]:
        raise VariedError(
            f"{clash[0]} is a variable of the control too, so its node's voltage can't be taken from a time on: "
            f"join a node of another name by a measuring switch, and ask for that one"
        )
    free = (first + second for first in LETTERS for second in "0123456789" + LETTERS if first + second not in taken)
    channels = {}
    close = f"{Decimal(repr(begin)):.12f}"
    for name in names:
        variable = next(free)
        if name not in measured:
            deck.put("TACS sources", [f"90{name}"])
        deck.put("supplemental cards", [f"98{variable:6}57+{name}", f"{close:>16}{FOREVER:>16}", f"{'9999':>16}"])
        deck.put("TACS outputs", [f"  {variable}"])
        channels[f"T {variable}"] = f"V {name}"
    deck.drop([line for line, _ in outputs])
    return channels
