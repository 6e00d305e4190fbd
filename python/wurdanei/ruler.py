"""`emtp ruler CARD`: the columns of a card, the names of its fields over them, and what each field holds."""

import argparse
import sys

from . import columns, fields
from .columns import CARDS, LINE_VALUES, OTHERS, Card, Field

TENS = "".join(f"{ten:10d}" for ten in range(1, 9))
ONES = "1234567890" * 8
KINDS = {"number": "number", "whole": "whole number", "name": "name", "sign": "sign, + or -", "text": "text"}


def cards_of(word: str) -> list[Card]:
    """The cards that a word names: `branch` all that stand among the branches, as a series branch is narrow or wide."""
    return [card for card in CARDS if word.lower() in card.words]


def range_of(field: Field) -> str:
    """What a field may hold."""
    if field.choices:
        return ", ".join(map(str, field.choices))
    if field.kind == "number":
        low, high = (fields.shown(end, field.scale) for end in (field.low, field.high))
        span = low if field.low == field.high else f"{low} to {high}"
        return f"{span} {field.unit}".rstrip() + (", the nearer end beyond" if field.held else "")
    if field.kind == "whole":
        return f"{field.low}" if field.low == field.high else f"{field.low} to {field.high}"
    return KINDS[field.kind]


def name_of(card: Card, field: Field) -> str:
    """The name of a field; of what a line has there by its ILINE alone, with these values of it."""
    kinds = [str(iline) for iline, values in LINE_VALUES.items() if field in values] if card.name == "line" else []
    return field.name + f" (ILINE {', '.join(kinds)})" * bool(kinds)


def rows_of(card: Card) -> list[tuple[str, str, str, str]]:
    """Columns, name, range and blank of each field, those that stand there on another kind of the card among them."""
    others = [it for it in dict.fromkeys(OTHERS.get(card.name, ())) if it not in card.fields]
    found = []
    for field in sorted([*card.fields, *others], key=lambda it: it.first):
        place = f"{field.first}-{field.last}" if field.first < field.last else f"{field.first}"
        found.append((place, name_of(card, field), range_of(field), field.blank))
    return found


def text_of(card: Card, comment: bool) -> str:
    """The ruler of a card; as a comment for a case its legend alone, behind a C."""
    if comment:
        return card.comment() + "\n"
    rows = [("columns", "field", "range", "blank"), *rows_of(card)]
    widths = [max(len(row[place]) for row in rows) for place in range(3)]
    table = ["  ".join([*(it.ljust(width) for it, width in zip(row, widths)), row[3]]) for row in rows]
    return "\n".join([TENS, ONES, card.legend(), "", f"{card.name} (docs/{card.page}.md, {card.heading}):", *table, ""])


def main(words: list[str]) -> int:
    """Prints the rulers of the cards that are named; exit status 2 where nothing has the name."""
    known = ", ".join(dict.fromkeys(word for card in CARDS for word in card.words))
    parser = argparse.ArgumentParser(
        prog="emtp ruler",
        description="Prints the columns of a card, the names of its fields over them, and what each field holds.",
        epilog=f"The cards: {known}.",
    )
    parser.add_argument(
        "--comment", action="store_true", help="the line alone that may stand above such cards of a case"
    )
    parser.add_argument("cards", nargs="+", metavar="CARD", help="as branch, line, switch; those below")
    given = parser.parse_args(words)
    unknown = [word for word in given.cards if not cards_of(word)]
    if unknown:
        print(f"emtp ruler: no card is called {unknown[0]}; there are {known}", file=sys.stderr)
        return 2
    found = dict.fromkeys(card.name for word in given.cards for card in cards_of(word))
    by_name = {card.name: card for card in columns.CARDS}
    print(
        "\n".join(text_of(by_name[name], given.comment).rstrip("\n") + "\n" * (not given.comment) for name in found),
        end="",
    )
    return 0
