"""The sections of a case as the proved program reads them, and cards that are put into them.

As what each line is read is asked of `emtp show --kinds`; no rule of the cards stands here a second time.
"""

import os
import re
from collections.abc import Sequence
from decimal import ROUND_HALF_UP, Decimal

from . import program

CONTROL = ("blocks", "TACS sources", "supplemental cards", "TACS outputs", "initial conditions")
NETWORK = ("branches", "switches", "sources", "node outputs")
END = "the end of a section"
NUMBER = re.compile(r"([+-]?(?:\d+\.?\d*|\.\d+))(?:[ED]([+-]?\d{1,3})|([+-]\d{1,3}))?")


class DeckError(Exception):
    """Why a case can't be taken, in words."""


def refusal(ended: program.Ended) -> str:
    """Why a case was refused: of all that is printed of it the line with the card, or what was said last."""
    lines = [line for line in (*ended.told.splitlines(), *ended.note.splitlines()) if line.strip()]
    cards = [line for line in lines if line.startswith("BAD CARD")]
    return (cards or lines or [f"status {ended.status}"])[-1]


def kinds(path: str) -> dict[int, str]:
    """As what kind of card each line of a case is read, by its number; without comments, and up to a card that is refused."""
    folder, name = os.path.split(os.path.abspath(path))
    try:
        with open(path, "rb"):
            pass
        told = program.run(["show", "--kinds", f"./{name}"], folder)
    except OSError as fault:
        raise DeckError(f"{path}: {fault.strerror}") from None
    except program.ProgramError as fault:
        raise DeckError(str(fault)) from None
    if told.status:
        raise DeckError(f"{path}: {refusal(told)}")
    rows = [line.split("\t", 1) for line in told.note.splitlines()]
    return {int(row[0]): row[1] for row in rows if len(row) == 2 and not row[1].startswith("due: ")}


def number(field: str) -> Decimal:
    """The number of a field of a card; a blank one is 0. ValueError where it is none."""
    text = field.strip().upper()
    match = NUMBER.fullmatch(text)
    if not match and text:
        raise ValueError(field)
    return Decimal(match[1]).scaleb(int(match[2] or match[3] or 0)) if match else Decimal(0)


class Deck:
    """The lines of a case, with what they are."""

    def __init__(self, path: str) -> None:
        """Reads a case. DeckError where it can't be read, or isn't whole."""
        self.path = path
        self.kinds = kinds(path)
        with open(path, encoding="latin-1", newline="") as file:
            self.lines = [line.removesuffix("\r") for line in file.read().split("\n")]
        if self.lines[-1] == "":
            self.lines.pop()
        self.has_control = "the card TACS HYBRID" in self.kinds.values()
        self._sections = (CONTROL if self.has_control else ()) + NETWORK
        ends = [line for line, kind in self.kinds.items() if kind == END]
        if len(ends) < len(self._sections):
            raise DeckError(f"{path} isn't read to its end; `emtp show {path}` says why")
        self._ends = dict(zip(self._sections, ends))
        self._put: dict[str, list[str]] = {}
        self._dropped: set[int] = set()

    def cards(self, *wanted: str) -> list[tuple[int, str]]:
        """The cards of these kinds: number of the line, text."""
        return [(line, self.lines[line - 1]) for line, kind in self.kinds.items() if kind in wanted]

    def variables(self) -> set[str]:
        """The names that the control's cards define, and those that every case has."""
        cards = self.cards("a block card", "a TACS source", "a supplemental card")
        return {card[2:8].strip() for _, card in cards} | {"TIMEX", "ISTEP", "DELTAT", "ZERO", "PLUS1", "MINUS1"}

    def nodes(self) -> list[str]:
        """The names of the nodes, in the order of the cards of branches and switches."""
        cards = self.cards("a branch card") + self.cards("a switch card")
        names = (card[at : at + 6].strip() for _, card in cards for at in (2, 8))
        return list(dict.fromkeys(name for name in names if name))

    def step(self) -> Decimal:
        """The time step in seconds."""
        return number(self.cards("the first miscellaneous card")[0][1][:8])

    def end(self) -> Decimal:
        """The end of the run in seconds."""
        return number(self.cards("the first miscellaneous card")[0][1][8:16])

    def put(self, section: str, cards: list[str]) -> None:
        """Puts cards at the end of a section; of the control too where the case has none yet."""
        self._put.setdefault(section, []).extend(cards)

    def drop(self, lines: list[int]) -> None:
        """Leaves lines out, by their numbers."""
        self._dropped |= set(lines)

    def text(self, lines: list[str] | None = None) -> str:
        """The case with what was put into it; `lines` stand in place of its own, as many."""
        made = []
        last = self.cards("the second miscellaneous card")[0][0]
        before = {line: section for section, line in self._ends.items()}
        for place, line in enumerate(self.lines if lines is None else lines, 1):
            made += self._put.get(before.get(place, ""), [])
            if place not in self._dropped:
                made.append(line)
            if place == last and not self.has_control and any(self._put.get(section) for section in CONTROL):
                made.append("TACS HYBRID")
                for section in CONTROL:
                    made += [*self._put.get(section, []), "BLANK"]
        return "".join(line + "\n" for line in made)


def ends_of(path: str, texts: Sequence[str]) -> list[float]:
    """When the last steps of cases are, in s; they have their first miscellaneous card where the case of the path has
    its own. DeckError where one has no such time."""
    line = next((line for line, kind in kinds(path).items() if kind == "the first miscellaneous card"), 0)
    found = []
    for text in texts:
        card = (["", *text.split("\n")] + [""] * line)[line]
        try:
            step, end = number(card[:8]), number(card[8:16])
            found.append(float((end / step).to_integral_value(ROUND_HALF_UP) * step))
        except (ValueError, ArithmeticError):
            raise DeckError(f"{path}: line {line} has no end of the run") from None
    return found


def switch_cards(path: str) -> list[tuple[int, str]]:
    """The switch cards of a case: number of the line, text."""
    read = kinds(path)
    with open(path, encoding="latin-1", newline="") as file:
        lines = file.read().split("\n")
    return [(line, lines[line - 1].removesuffix("\r")) for line, kind in read.items() if kind == "a switch card"]


def time_switches(path: str) -> list[tuple[int, str]]:
    """The cards of the time switches of a case, in the order in which a table of switch times has them."""
    return [
        (line, card)
        for line, card in switch_cards(path)
        if card[:2].strip() in ("", "0", "00", "+0", "-0") and card[54:64].strip() != "MEASURING"
    ]
