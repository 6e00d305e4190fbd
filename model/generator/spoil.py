"""Ways to spoil the cards of a case: fields, bytes, cards, names and numbers."""
import random
from collections.abc import Callable

from .cards import NUMERIC, Card, Field, spell
from .deck import coin, comment, ending
from .texts import BAD_EXPRESSIONS, LAST_POINTS, texts

JUNK = """x .. 1. .5 -1 1E9 1E99 1E-99 0 1.E5 9999 + ABC 1,2 1+3 1E10 -1E9 -1.E10 1.E18 1E999 1-6 .000001 4E-7 5E-7 1D5 12345 BLANK
 C 99 98 -2 $ 1.0 2.0 100.""".split()
JUNK += ["1 2", "", "\xe9", "\x00"]
PIECES = "( ) + - * / . .GT. .AND. .NOT. 1 E ABS # , A ** = .OR X .5 1. D2 NONE".split() + [" "]
POINTS = ("point of a reactor", "point of a resistor", "point of a table", "times", "last point")
INSTEAD_OF_POINTS = [
    "",
    "BLANK",
    "  ",
    "x",
    "BLANK 1.0",
    " " * 12 + "9999",
    " " * 12 + "9999" + " " * 12 + "1.0",
    "$VINTAGE, 1",
]
TWO_ENDS = ("series", "wide series", "line", "reactor", "resistor", "time switch", "valve", "controlled switch")
TYPES = "11 12 14 60 13 -1 -2 -3 98 99 0 1 88 90 91 93 23 24 x 7 3".split() + [""]


class Spoiler:
    """Spoils a list of cards in place; `other` gives the cards of another case."""

    def __init__(self, pick: random.Random, cards: list[Card], other: Callable[[], list[Card]]):
        self.pick, self.cards, self.other = pick, cards, other

    def spoil(self) -> None:
        """Spoils it once, in one of the ways."""
        if not self.cards:
            self.cards.append(Card("other", "x"))
            return
        self.pick.choice(WAYS)(self)

    def any(self) -> Card:
        """Any card."""
        return self.pick.choice(self.cards)

    def some(self, fits: Callable[[Card], bool]) -> Card | None:
        """A card that fits, or None."""
        found = [card for card in self.cards if fits(card)]
        return self.pick.choice(found) if found else None

    def at(self) -> int:
        """The place of any card."""
        return self.pick.randrange(len(self.cards))

    # ---- fields

    def field(self) -> None:
        """A field gets another text: one at the ends of its range, junk, a name of the case, or any characters."""
        card = self.some(lambda card: card.fields() != [])
        if card is None:
            return
        field = self.pick.choice(card.fields())
        if field.kind == "expression":
            self.expression()
        elif field.kind == "vintage":
            card.text = bytearray(self.pick.choice(texts(field)).encode("latin-1"))
        else:
            text = self.text_for(field)[: field.width()]
            card.put(field.first, field.last, text, self.pick.choice(["left", "right", self.pick]))

    def text_for(self, field: Field) -> str | bytes:
        """Another text for a field."""
        pick, kind = self.pick, self.pick.random()
        if kind < 0.55:
            return pick.choice(texts(field, pick.randrange(3)))
        if kind < 0.7 and field.kind == "name":
            return pick.choice(self.names() + [b"NONE"])
        if kind < 0.9:
            return pick.choice(JUNK)
        return "".join(
            chr(pick.choice([*b" +-.09EA,", pick.randrange(32, 127)])) for _ in range(pick.randint(1, field.width()))
        )

    def names(self) -> list[bytes]:
        """All names of the case."""
        return [
            card.get(field)
            for card in self.cards
            for field in card.fields()
            if field.kind == "name" and card.get(field)
        ]

    def fields(self) -> None:
        """Several fields get texts at the ends of their ranges."""
        card = self.some(lambda card: len(card.fields()) > 1 and card.kind != "formula")
        for _ in range(self.pick.randint(2, 4) if card else 0):
            self.at_the_ends(card)

    def at_the_ends(self, card: Card) -> None:
        """A field of this card gets a text at the ends of its range."""
        field = self.pick.choice(card.fields())
        text = self.pick.choice(texts(field, self.pick.randrange(3)))
        card.put(field.first, field.last, text, self.pick.choice(["left", "right", self.pick]))

    def wild_number(self) -> None:
        """Numbers of points, lines and blocks become much greater or smaller."""
        pick = self.pick
        kinds = ("coefficients", "block", "point of a reactor", "point of a resistor", "line", "second phase")
        card = self.some(lambda card: card.kind in kinds)
        for _ in range(pick.randint(1, 3) if card else 0):
            field = pick.choice([field for field in card.fields() if field.kind in NUMERIC and field.kind != "whole"])
            mantissa = pick.choice([1, -1, 1, 5, pick.randint(1, 99)])
            card.put(field.first, field.last, spell(pick, mantissa, pick.randint(-12, 6), field.width()), "right")

    def equal_field(self) -> None:
        """A field becomes that of another card of its kind."""
        card = self.some(lambda card: card.fields() != [] and card.kind not in ("vintage", "formula"))
        if card is not None:
            field = self.pick.choice(card.fields())
            other = self.some(lambda other: other.kind == card.kind)
            card.put(field.first, field.last, other.get(field)[: field.width()])

    def another_type(self) -> None:
        """A card gets another type."""
        card = self.some(lambda card: card.fields() != [] and card.fields()[0].last == 2)
        if card is not None:
            card.put(1, 2, self.pick.choice(TYPES))

    def expression(self) -> None:
        """An expression becomes a bad one, or pieces of it are put in, taken out, or written over."""
        pick = self.pick
        card = self.some(lambda card: card.kind == "formula")
        if card is None:
            return
        text = bytearray(card.text[11:80].rstrip(b" "))
        if coin(pick, 0.4):
            text = bytearray(pick.choice(BAD_EXPRESSIONS).encode("latin-1"))
        else:
            for _ in range(pick.choice([1, 1, 2])):
                place = pick.randrange(len(text) + 1)
                piece = pick.choice(PIECES).encode()
                ends = [place, place + pick.randint(1, 3), place + len(piece), len(text)]
                text[place : pick.choice(ends)] = pick.choice([piece, piece, b""])
        card.put(12, 80, bytes(text[:69]))

    # ---- names

    def other_name(self) -> None:
        """A name becomes another one of the case, or an odd one."""
        card = self.some(lambda card: any(field.kind == "name" and card.get(field) for field in card.fields()))
        if card is not None:
            field = self.pick.choice([field for field in card.fields() if field.kind == "name"])
            odd = [b"NONE", b"", b"A,B", b"TIMEX", b"ZERO"]
            card.put(field.first, field.last, self.pick.choice([self.pick.choice(self.names()), self.pick.choice(odd)]))

    def same_name(self) -> None:
        """Two cards define the same variable, or feed the same node."""
        found = [card for card in self.cards if any(field.name == "name" for field in card.fields())]
        if len(found) > 1:
            one, other = self.pick.sample(found, 2)
            one.set("name", other.get(other.field("name")))

    def equal_ends(self) -> None:
        """A branch or switch has both ends at one node."""
        card = self.some(lambda card: card.kind in TWO_ENDS)
        if card is not None:
            card.set("to", card.get(card.field("from")))

    # ---- bytes and columns

    def byte(self) -> None:
        """A byte becomes one that may not stand there."""
        bytes_of = [0, 1, 9, 13, 31, 127, 128, 160, 255, 194, 44, 46]
        self.any().over(self.pick.randint(1, 82), bytes([self.pick.choice(bytes_of)]))

    def past_the_end(self) -> None:
        """Something stands behind column 80."""
        card = self.any().fill()
        card.text[80:] = self.pick.choice([b"X", b" X", b" " * 20, b"\xff", b" \xff", b"   .", b"\r", b"\x00"])

    def shift(self) -> None:
        """A card moves by one column."""
        card = self.any()
        card.text[0 : self.pick.randrange(2)] = b" " * self.pick.randrange(2)

    def inserted(self) -> None:
        """Characters that end a line, or look like it, stand in a card."""
        card = self.any()
        place = self.pick.randint(0, len(card.text))
        card.text[place:place] = self.pick.choice([b"\r", b"\n", b"\t", b"BLANK", b"C "])

    def junk(self) -> None:
        """Junk stands over any columns."""
        text = self.pick.choice(JUNK)
        self.any().over(self.pick.randint(1, 81 - len(text)), text or " ")

    # ---- cards

    def drop(self) -> None:
        """A card goes."""
        del self.cards[self.at()]

    def double(self) -> None:
        """A card stands twice."""
        place = self.at()
        self.cards.insert(self.pick.choice([place, self.at()]), self.cards[place].copy())

    def swap(self) -> None:
        """Two cards change places."""
        one = self.at()
        other = self.pick.choice([min(one + 1, len(self.cards) - 1), self.at()])
        self.cards[one], self.cards[other] = self.cards[other], self.cards[one]

    def add_comment(self) -> None:
        """A comment stands anywhere."""
        self.cards.insert(self.at(), comment(self.pick))

    def add_ending(self) -> None:
        """A section ends anywhere."""
        self.cards.insert(self.at(), self.pick.choice([ending(self.pick), Card("end", "BLANK"), Card("end")]))

    def cut(self) -> None:
        """The rest of the cards goes."""
        del self.cards[self.at() :]

    def foreign(self) -> None:
        """A card of another case stands anywhere."""
        self.cards.insert(self.at(), self.pick.choice(self.other()))

    def more(self) -> None:
        """Something stands behind the last card."""
        some = [
            Card("other", "x"),
            ending(self.pick),
            comment(self.pick),
            Card("begin", "BEGIN NEW DATA CASE"),
            self.any().copy(),
        ]
        self.cards.append(self.pick.choice(some))

    def points(self) -> None:
        """A point goes, stands twice, becomes another line, changes places, or gets another text."""
        pick = self.pick
        places = [place for place, card in enumerate(self.cards) if card.kind in POINTS]
        if not places:
            return
        place, kind = pick.choice(places), pick.randrange(5)
        if kind == 0:
            del self.cards[place]
        elif kind == 1:
            self.cards.insert(place, self.cards[place].copy())
        elif kind == 2:
            self.cards[place] = Card("other", pick.choice(INSTEAD_OF_POINTS))
        elif kind == 3 and self.cards[place].kind == "last point":
            self.cards[place].put(1, 16, pick.choice(LAST_POINTS))
        elif kind == 3 and place + 1 < len(self.cards):
            self.cards[place], self.cards[place + 1] = self.cards[place + 1], self.cards[place]
        else:
            self.at_the_ends(self.cards[place])

    def many_samples(self) -> None:
        """The record gets very many samples, and a card further on a fault, so that nothing is run."""
        pick = self.pick
        first = self.some(lambda card: card.kind == "first miscellaneous")
        second = self.some(lambda card: card.kind == "second miscellaneous")
        places = [place for place, card in enumerate(self.cards) if card.kind.startswith("source")]
        if first and second and places:
            first.set("step", pick.choice(["1.E-6", "1.E-5", "1.E-4"]))
            first.set("end", pick.choice(["1.", ".9", "10.", "100.", ".5", ".05"]))
            second.set("every", pick.choice(["1", "2", "0", "10"]))
            self.cards.insert(places[-1] + 1, Card("other", "11NONODE"))


WAYS = [Spoiler.field] * 9 + [Spoiler.expression] * 3 + [Spoiler.same_name] * 2
WAYS += [
    Spoiler.fields,
    Spoiler.wild_number,
    Spoiler.equal_field,
    Spoiler.another_type,
    Spoiler.other_name,
    Spoiler.equal_ends,
    Spoiler.byte,
    Spoiler.past_the_end,
    Spoiler.shift,
    Spoiler.inserted,
    Spoiler.junk,
    Spoiler.drop,
    Spoiler.double,
    Spoiler.swap,
    Spoiler.add_comment,
    Spoiler.add_ending,
    Spoiler.cut,
    Spoiler.foreign,
    Spoiler.more,
    Spoiler.points,
    Spoiler.many_samples,
]
