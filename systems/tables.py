"""What the page says of the fields of cards, in the words of docs/.

Which card a line is, and which fields it has where, the program itself tells the page (`show --fields`). `tables(top)` reads
docs/cards.md and docs/control.md below the folder `top` of the repository for what these fields are: by the rulers, which name
the fields of a card over their columns, and below each the table of these fields.

It stops with ValueError where a page has another form than these.
"""
from __future__ import annotations

import re
from pathlib import Path
from typing import Any

# of a unit in which the program counts: the unit that a card is written in, and how many of the former are one of it
WRITTEN = {
    "micro-ohm": ("ohm", 6),
    "nH": ("mH", 6),
    "fF": ("µF", 9),
    "ps": ("s", 12),
    "nV": ("V", 9),
    "nA": ("A", 9),
    "pWb": ("Wb", 12),
    "micro-hertz": ("Hz", 6),
    "1e-9 degree": ("degrees", 9),
    "1e-6": ("", 6),
    "1e-9": ("", 9),
    "1e-12": ("", 12),
}
NAME = {
    "name": "a name",
    "names": "names",
    "whole": "a whole number",
    "one digit": "a digit",
    "sign": "a sign",
    "text": "text",
}


def cells(line: str) -> list[str]:
    """The cells of a line of a table."""
    return [cell.strip().replace("`", "") for cell in line.strip().strip("|").split("|")]


def spans(text: str) -> list[tuple[int, int]]:
    """The columns in a cell, first and last: '3-8, 9-14' is [(3, 8), (9, 14)]."""
    found = [(int(first), int(last or first)) for first, last in re.findall(r"(\d+)(?:-(\d+))?", text)]
    if not found or any(first > last or last > 80 for first, last in found):
        raise ValueError(f"no columns: {text}")
    return found


def named_apart(text: str, count: int) -> tuple[list[str], str]:
    """The names in a cell that names `count` fields, each with what is said of all, and the mark that parts them."""
    head, colon, rest = text.partition(": ")
    for whole in (head, text):
        for mark in ("; ", ", "):
            parts = whole.split(mark)
            if len(parts) == count or (mark == ", " and len(parts) > count > 1 and " " not in "".join(parts[:count])):
                names = parts[:count] if count > 1 else [whole]
                return [name + (colon + rest if whole == head and colon else "") for name in names], mark
    return [text] * count, ""


def parted(text: str, count: int, mark: str) -> list[str]:
    """What a cell says of `count` fields, one text a field."""
    parts = text.split(mark) if mark else [text]
    return parts if len(parts) == count else [text] * count


def range_in(text: str, power: int) -> str:
    """A range, in a unit of which one is 10 ^ power of those that its numbers count."""

    def number(text: str) -> str:
        value = float(text.replace(",", "")) / 10.0**power
        return re.sub(r"e([+-])0*", lambda match: "e" + match[1].strip("+"), f"{value:.6g}")

    return re.sub(
        r"(-?\d[\d,.]*(?:e\d+)?) to (-?\d[\d,.]*(?:e\d+)?)", lambda it: f"{number(it[1])} to {number(it[2])}", text
    )


def written(unit: str, bounds: str) -> tuple[str, str]:
    """The unit that a card is written in, and a range in it."""
    if unit in NAME:
        return NAME[unit], bounds
    known = [WRITTEN[it] for it in unit.split(", ") if it in WRITTEN]
    if not known:
        return "", bounds
    same = all(power == known[0][1] for _, power in known)
    return " or ".join(name for name, _ in known), range_in(bounds, known[0][1]) if same else ""


def field(name: str, columns: tuple[int, int], unit: str, bounds: str, blank: str) -> dict[str, Any]:
    """A field: its columns, name, the types of cards that have it, unit, range, and what a blank one means."""
    types = [int(number) for group in re.findall(r"\(((?:\d+(?:, )?)+)\)", name) for number in group.split(", ")]
    name = re.sub(r" \((?:\d+(?:, )?)+\)", "", name)
    unit, bounds = written(unit, bounds)
    # the manual names the reason of a refusal; beside a field it is enough that it is one
    reason = r"`?[A-Z][a-z]+[A-Z]\w*`?(?: at \d+)?"
    name, bounds, blank = (re.sub(rf"^{reason}|(?<=else ){reason}", "refused", it) for it in (name, bounds, blank))
    for said in (", in mH", ", in microfarad"):
        name = name.replace(said, "")
    return {
        "from": columns[0],
        "to": columns[1],
        "name": name,
        "types": types,
        "unit": unit,
        "range": bounds,
        "blank": blank,
    }


def fields_of(row: list[str], heads: list[str], wide: bool) -> list[dict[str, Any]]:
    """The fields of a line of a table of fields."""
    at = {head: cell for head, cell in zip(heads, row)}
    own = at.get("wide columns", "the same")
    columns = spans(own if wide and own != "the same" else row[1])
    said = [at.get("unit of 1", ""), at.get("range", at.get("what", "")), at.get("blank", "")]
    variants = row[0].split("; ")
    if len(columns) == 1 and len(variants) > 1 and len(said[0].split("; ")) == len(variants):
        # one place, which has another meaning in each type of card
        columns *= len(variants)
    names, mark = named_apart(row[0], len(columns))
    units, bounds, blanks = (parted(text, len(columns), mark) for text in said)
    return [field(*of) for of in zip(names, columns, units, bounds, blanks)]


def is_named(legend: str, it: dict[str, Any]) -> bool:
    """The ruler has the name of a field over its columns, or the beginning of it."""
    label = legend[it["from"] - 1 : it["to"]].strip(".").rstrip("-")
    return any(part and it["name"].upper().startswith(part.upper()) for part in label.split("/"))


def covered(legend: str, it: dict[str, Any]) -> bool:
    """The ruler names something over all columns of a field."""
    label = legend[it["from"] - 1 : it["to"]]
    return len(label) == it["to"] - it["from"] + 1 and " " not in label


def sections(text: str) -> list[tuple[str, list[str]]]:
    """The sections of a page: their headings and lines."""
    found: list[tuple[str, list[str]]] = []
    for line in text.split("\n"):
        if line.startswith("## "):
            found.append((line[3:], []))
        elif found:
            found[-1][1].append(line)
    return found


def is_legend(line: str) -> bool:
    """A line of a ruler that names fields: capital letters and dashes."""
    return "--" in line and re.fullmatch(r"[A-Z0-9/.= -]+", line) is not None


def rulers_of(lines: list[str]) -> list[str]:
    """The lines of a section's rulers that name fields, in order."""
    found, inside = [], False
    for line in lines:
        if line.startswith("```"):
            inside = not inside
        elif inside and is_legend(line):
            found.append(line)
    return found


def tables_of(lines: list[str]) -> list[list[list[str]]]:
    """The tables of a section, each a list of lines of cells, the line of heads first."""
    found: list[list[list[str]]] = []
    before = ""
    for line in lines:
        if line.startswith("|"):
            if not before.startswith("|"):
                found.append([])
            if not re.fullmatch(r"[|\s-]+", line):
                found[-1].append(cells(line))
        before = line
    return found


def line_values(table: list[list[str]]) -> list[dict[str, Any]]:
    """The fields A and B of a line, which mean what ILINE says."""
    found = []
    for place, head in enumerate(table[0]):
        match = re.fullmatch(r"([AB]) \((\d+)-(\d+)\)", head)
        if match:
            told = "; ".join(f"ILINE {row[0]}: {row[place]}" for row in table[1:])
            found.append(field(match[1], (int(match[2]), int(match[3])), "", told, "refused"))
    return found


def cards_of(heading: str, lines: list[str]) -> list[dict[str, Any]]:
    """The cards of a section, one a ruler: its ruler, its fields by columns, and what each type or code of it is."""
    legends, tables = rulers_of(lines), tables_of(lines)
    rows, extra, kinds = [], [], {}
    for table in tables:
        heads = table[0]
        if heads[:2] == ["field", "columns"]:
            rows += [(row, heads) for row in table[1:]]
        elif any(re.fullmatch(r"A \(\d+-\d+\)", head) for head in heads):
            extra += line_values(table)
        elif heads[0] in ("type", "code"):
            kinds = {int(row[0]): row[1] for row in table[1:] if row[0].isdecimal()}
    cards = []
    for number, legend in enumerate(legends, 1):
        wide = heading.startswith("Series") and number == 2
        every = [it for row, heads in rows for it in fields_of(row, heads, wide)] + extra
        kept = [it for it in every if is_named(legend, it)]
        taken = {column for it in kept for column in range(it["from"], it["to"] + 1)}
        for it in every:
            elsewhere = any(is_named(other, it) for other in legends)
            free = taken.isdisjoint(range(it["from"], it["to"] + 1))
            if it not in kept and not elsewhere and free and covered(legend, it):
                kept.append(it)
        kept.sort(key=lambda it: it["from"])
        cards.append({"card": f"{heading} {number}", "ruler": legend, "fields": kept, "kinds": kinds})
    return cards


def tables(top: Path) -> dict[str, Any]:
    """All that the page tells of cards: `cards`, by section and ruler."""
    cards: dict[str, Any] = {}
    for page in ("cards.md", "control.md"):
        for heading, lines in sections((top / "docs" / page).read_text(encoding="utf-8")):
            for card in cards_of(heading, lines):
                cards[card.pop("card")] = card
    if len(cards) < 15:
        raise ValueError(f"docs/cards.md and docs/control.md have {len(cards)} rulers alone")
    return {"cards": cards}
