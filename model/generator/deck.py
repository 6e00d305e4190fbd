"""A deck as lists of cards, one a section, and its bytes."""
import random

from .cards import Card


def coin(pick: random.Random, chance: float) -> bool:
    """True with this chance."""
    return pick.random() < chance


def begin(pick: random.Random) -> Card:
    """The first card, rarely with more behind its words."""
    more = pick.choice([""] * 16 + [" " * pick.randint(1, 61), " ANY TEXT", "S"])
    return Card("begin", "BEGIN NEW DATA CASE" + more)


def ending(pick: random.Random) -> Card:
    """A line that ends a section."""
    words = ["BLANK"] * 14 + ["BLANK CARD ENDING " + pick.choice(["BRANCHES", "SWITCHES", "SOURCES", "ALL"])] * 2
    return Card("end", pick.choice(words + ["", "", " " * pick.randint(1, 80), "BLANKET"]))


def comment(pick: random.Random) -> Card:
    """A comment."""
    long = "C " + "x" * pick.randint(60, 200)
    return Card("comment", pick.choice(["C", "C some words 1.0", long, b"C \xff\x00\x09\xc3\xa9", "C BLANK"]))


class Deck:
    """The cards of a case, section by section; `control` has five lists of cards, or is None."""

    def __init__(self) -> None:
        self.head: list[Card] = []
        self.control: list[list[Card]] | None = None
        self.branches: list[Card] = []
        self.switches: list[Card] = []
        self.sources: list[Card] = []
        self.outputs: list[Card] = []
        self.tail: list[Card] = []

    def network(self) -> list[list[Card]]:
        """The sections of the network."""
        return [self.branches, self.switches, self.sources, self.outputs]

    def cards(self, pick: random.Random, comments: float = 0) -> list[Card]:
        """All cards in their order, with comments between at this chance."""
        found = list(self.head)
        if self.control is not None:
            found.append(Card("control", pick.choice(["TACS HYBRID"] * 2 + ["TACS HYBRIDS", "TACS HYBRID   X"])))
        for section in (self.control or []) + self.network():
            found += section + [ending(pick)]
        found += self.tail
        with_comments = []
        for card in found:
            while coin(pick, comments):
                with_comments.append(comment(pick))
            with_comments.append(card)
        return with_comments


def ends_of_lines(pick: random.Random) -> str:
    """How the lines of a case end: mostly with LF."""
    return pick.choice(["LF"] * 16 + ["CRLF", "CRLF", "both", "none at the last"])


def rendered(cards: list[Card], ends: str = "LF", pick: random.Random | None = None) -> bytes:
    """The bytes of the cards."""
    found = bytearray()
    for place, card in enumerate(cards):
        found += card.text
        if ends == "CRLF" or ends == "both" and pick is not None and coin(pick, 0.5):
            found += b"\r\n"
        elif ends != "none at the last" or place < len(cards) - 1:
            found += b"\n"
    return bytes(found)
