"""The names in a case: of nodes and of variables of the control, on cards and in formulas."""

from __future__ import annotations

import re
from collections.abc import Iterator
from dataclasses import dataclass

from .columns import Field
from .reading import Reading, whole

NODE, VARIABLE = "node", "variable"
NODES = ("BUS1", "BUS2", "BUS3", "BUS4")
KNOWN = ("TIMEX", "ISTEP", "DELTAT", "ZERO", "PLUS1", "MINUS1")  # variables of every case
OF_NODES = ("a source card", "a node output card")
DEFINING = ("a block card", "a TACS source", "a supplemental card")
MEASURING = (90, 91, 93)  # types of sources of the control that measure at a node, and have its name
DRIVEN = 60  # type of a source of the network whose value is a variable of the node's name
WORD = re.compile(r"[A-Za-z][A-Za-z0-9]*")
# what has letters in a formula and is no name: operators between points, exponents
NO_NAME = re.compile(r"\.[A-Z]{2,5}\.|(?<![A-Za-z])[0-9.]+[EeDd][+-]?[0-9]+")


@dataclass(frozen=True)
class Name:
    """A name in a case: what it names, its line and its columns, and its field, none within a formula."""

    text: str
    kind: str
    line: int
    first: int
    last: int
    defines: bool = False
    field: Field | None = None


def is_node(part: Field, kind: str) -> bool:
    """Whether a field of a kind of card has the name of a node."""
    return part.name in NODES or kind in OF_NODES


def names_of(it: Reading) -> Iterator[Name]:
    """All names of a case, in the order of their places."""
    for at, (card, kind) in enumerate(zip(it.cards, it.kinds)):
        for part in card.fields if card else ():
            if part.name == "expression":
                yield from _names_in(it, at, part)
            elif part.kind == "name" and not part.choices and it.text_of(at, part).strip():
                yield from _names_at(it, at, kind, part)


def _names_at(it: Reading, at: int, kind: str, part: Field) -> Iterator[Name]:
    """What the name in a field names: a node, a variable, or both."""
    line = it.lines[at]
    measures = kind == "a TACS source" and whole(line) in MEASURING
    driven = kind == "a source card" and whole(line) == DRIVEN
    text, place = it.text_of(at, part).strip(), (at, part.first - 1, min(part.last, len(line)))
    node = is_node(part, kind)
    if node or measures:
        yield Name(text, NODE, *place, kind == "a source card" or part.name in NODES[:2], part)
    if not node or driven:
        yield Name(text, VARIABLE, *place, part.name == "name" and kind in DEFINING, part)


def _names_in(it: Reading, at: int, part: Field) -> Iterator[Name]:
    """The variables of a formula: its words, but functions and operators."""
    bare = NO_NAME.sub(lambda found: " " * len(found[0]), it.text_of(at, part))
    for word in WORD.finditer(bare):
        if not bare[word.end() :].lstrip().startswith("("):
            yield Name(word[0], VARIABLE, at, part.first - 1 + word.start(), part.first - 1 + word.end())


def name_at(it: Reading, line: int, column: int) -> Name | None:
    """The name at a place, or the one that ends there."""
    near = [name for name in names_of(it) if name.line == line and name.first <= column <= name.last]
    return next((name for name in near if column < name.last), near[0] if near else None)


def same(it: Reading, own: Name) -> list[Name]:
    """All names that name the same. A node that is measured, or driven by the control, is one with its variable."""
    every = [name for name in names_of(it) if name.text == own.text]
    found: dict[tuple[int, int], set[str]] = {}
    for name in every:
        if name.field:
            found.setdefault((name.line, name.first), set()).add(name.kind)
    kinds = {NODE, VARIABLE} if {NODE, VARIABLE} in found.values() else {own.kind}
    return [name for name in every if name.kind in kinds]


class NameFault(Exception):
    """Why a name can't be given, in words."""


def filled(line: str, first: int, last: int, text: str) -> str:
    """A line with a text in its columns."""
    line = line.ljust(last)
    return (line[:first] + text + line[last:]).rstrip()


def renamed(it: Reading, own: Name, new: str) -> dict[int, str]:
    """The lines that change where a name gets another one. Raises NameFault where that is no name, or one that is taken."""
    names = same(it, own)
    if not 1 <= len(new) <= 6 or "," in new or not new.isascii() or not new.isprintable():
        raise NameFault("a name has 1 to 6 characters of ASCII, no comma")
    if any(name.field is None for name in names) and not WORD.fullmatch(new):
        raise NameFault("a formula has the name, so it is a letter and then letters or digits")
    kinds = {name.kind for name in names}
    if new != own.text and (
        any(name.text == new and name.kind in kinds for name in names_of(it)) or VARIABLE in kinds and new in KNOWN
    ):
        raise NameFault(f"there is a {own.kind} {new} already")
    lines: dict[int, str] = {}
    for name in sorted(set(names), key=lambda name: (name.line, -name.first)):
        text = lines.get(name.line, it.lines[name.line])
        if name.field:
            text = filled(text, name.field.first - 1, name.field.last, new.ljust(6)[: name.field.width])
        else:
            text = text[: name.first] + new + text[name.last :]
            if len(text.rstrip()) > 80:
                raise NameFault(f"line {name.line + 1}: the formula would pass column 80")
        lines[name.line] = text
    return lines
