"""Reads a deck of ATP as far as it is alike, and writes the case: `emtp atp FILE.atp [--out FILE.case]`.

Each line has a fate: it is read as it is, or turned into the case's units or meaning, or left out, with why. Nothing is
guessed: a number without a point has the implied decimals of ATP's field, and one whose last digit isn't in the field's last
column is refused. docs/atp.md says what is read.

Source: ATP Rule Book, chapters II to IX, for columns and formats.
"""

import argparse
import math
import os
import re
import sys
import typing
from dataclasses import dataclass, field
from decimal import Decimal

from . import formula, program
from .case import Case
from .draft import STANDING, CaseError

READ, TURNED, LEFT = "read", "turned", "left out"
NUMBER = re.compile(r"([+-]?)(\d*)(\.?)(\d*)(?:[EeDd]([+-]?\d{1,3})|([+-]\d{1,3}))?$")
SECTIONS = ("TACS", "BRANCH", "SWITCH", "SOURCE", "OUTPUT", "PLOT")
ALIKE = (51, 52, 53, 56, 57, 59, 60, 62, 63, 64, 65, 66)  # devices of TACS with the same meaning
BRANCHES = {
    "1": "coupled R, L, C (pi)",
    "2": "coupled R, L, C (pi)",
    "3": "coupled R, L, C (pi)",
    "51": "coupled R and L",
    "52": "coupled R and L",
    "53": "coupled R and L",
    "91": "a resistance of TACS, or by time",
    "92": "an arrester that is solved by iteration: give its points as type 99",
    "93": "a nonlinear inductance that is solved by iteration: type 98 is alike",
    "94": "a component of MODELS",
    "96": "a reactor with hysteresis",
    "97": "a resistance by time",
}
ASKED = {"": "", "0": "", "1": "i", "2": "u", "3": "iu", "4": "iu"}


class AtpError(Exception):
    """Why a deck can't be read at all, in words."""


class Refused(Exception):
    """Why a card isn't taken, in words."""


@dataclass
class Fate:
    """What became of a line of a deck."""

    line: int
    text: str
    fate: str
    words: str = ""

    def __str__(self) -> str:
        return f"line {self.line}: {self.fate}{': ' if self.words else ''}{self.words}"


@dataclass
class Part:
    """What a card, or a group of them, writes into the case: which nodes and variables it makes, and which it needs."""

    lines: list[int]
    write: typing.Callable[[Case], object]
    nodes: tuple[str, ...] = ()
    variable: str = ""
    needs: tuple[str, ...] = ()  # nodes
    reads: tuple[str, ...] = ()  # variables
    switched: str = ""  # a node at which a switch has to stand
    like: tuple[str, str] | None = None
    order: int = 0


@dataclass
class Translation:
    """A deck that was read: the case, and each line's fate in the deck's order."""

    case: Case
    fates: list[Fate]
    told: list[str]

    @property
    def whole(self) -> bool:
        """Nothing was left out."""
        return all(it.fate != LEFT for it in self.fates)


class Card:
    """A line of a deck, by its columns."""

    def __init__(self, line: int, text: str) -> None:
        self.line, self.text = line, text.ljust(80)
        self.turned: list[str] = []
        self._unread = list(self.text)

    def at(self, first: int, last: int) -> str:
        self._unread[first - 1 : last] = " " * (last - first + 1)
        return self.text[first - 1 : last].strip()

    def stray(self) -> str:
        """What stands in columns that no field has, in words."""
        found = [column for column, it in enumerate(self._unread, 1) if it != " "]
        word = "".join(self._unread[found[0] - 1 :]).split(" ")[0] if found else ""
        return f"{word!r} stands in column {found[0]}, where no field is read" if found else ""

    def name(self, first: int) -> str:
        """The name in six columns; ground is blank, or TERRA."""
        self.at(first, first + 5)
        raw = self.text[first - 1 : first + 5].rstrip()
        if raw.strip() == "TERRA":
            return ""
        if raw != raw.strip():
            raise Refused(f"the name {raw!r} begins with a blank, which would be lost")
        return raw

    def number(self, first: int, last: int, decimals: int, what: str) -> Decimal | None:
        """The number of a field by its format; none where it is blank."""
        raw, word = self.text[first - 1 : last], self.at(first, last)
        if not word:
            return None
        match = NUMBER.match(word)
        if match is None or not (match[2] or match[4]):
            raise Refused(f"{what}, columns {first}-{last}: {word!r} is no number")
        exponent = int(match[5] or match[6] or 0)
        if match[3]:
            return Decimal(f"{match[1]}{match[2] or 0}.{match[4] or 0}").scaleb(exponent)
        if raw[-1] == " ":
            raise Refused(f"{what}, columns {first}-{last}: {word!r} has no point, and doesn't end in the last column")
        value = Decimal(f"{match[1]}{match[2]}").scaleb(exponent - decimals)
        if decimals:
            self.turned.append(f"{what} {word} is {value.normalize():f} by {decimals} implied decimals")
        return value

    def whole(self, first: int, last: int, what: str) -> int:
        word = self.at(first, last)
        if not re.fullmatch(r"[+-]?\d+|", word):
            raise Refused(f"{what}, columns {first}-{last}: {word!r} is no whole number")
        return int(word or 0)

    def blank(self, first: int, last: int, what: str) -> None:
        """The field has to be blank or 0."""
        word = self.at(first, last)
        if word and word.strip("0.") != "":
            raise Refused(f"{what}, columns {first}-{last}, is {word}, and has no like here")

    @property
    def asked(self) -> str:
        mark = self.at(80, 80)
        if mark not in ASKED:
            raise Refused(f"column 80 is {mark!r}")
        if mark == "4":
            self.turned.append("power and energy aren't recorded; current and voltage are")
        return ASKED[mark]


class Reader:
    """Goes through the lines of a deck once."""

    def __init__(self, text: str, smooth: float | None, rest: bool) -> None:
        self.lines = [it.rstrip("\r") for it in text.split("\n")]
        self.fates: dict[int, Fate] = {}
        self.parts: list[Part] = []
        self.told: list[str] = []
        self.smooth, self.rest = smooth, rest
        self.xopt = self.copt = Decimal(0)
        self.wide = False
        self.at = 0
        self.pending: tuple[Card, list[Card]] | None = None

    def fate(self, line: int, fate: str, words: str = "") -> None:
        self.fates[line] = Fate(line, self.lines[line - 1], fate, words)

    def next(self) -> Card | None:
        """The next line that is a card; comments and blank-marked requests have their fate."""
        while self.at < len(self.lines):
            self.at += 1
            text = self.lines[self.at - 1]
            if text.startswith("C ") or text.rstrip() == "C":
                self.fate(self.at, READ, "a comment")
            elif text == "" and self.at == len(self.lines):
                pass  # behind the last end of a line
            elif len(text) > 80 and text[80:].strip():
                self.fate(self.at, LEFT, "it is longer than 80 columns")
            else:
                return Card(self.at, text)
        return None

    # ---- the head

    def head(self) -> tuple[Decimal, Decimal, int]:
        """Step, end, and each how many steps a sample is."""
        while (card := self.next()) is not None:
            word = card.text.strip().upper()
            if word.startswith("BEGIN NEW DATA CASE"):
                self.fate(card.line, READ)
                break
            self.fate(card.line, READ if not word else LEFT, "" if not word else "it stands before BEGIN NEW DATA CASE")
        numbers: list[Card] = []
        while len(numbers) < 2:
            card = self.next()
            if card is None:
                raise AtpError("the deck ends before its miscellaneous cards")
            if card.text.startswith("$") or re.match(r"[A-Z]", card.text):
                self.fate(card.line, LEFT, "a special request, which has no like here")
            elif re.match(r" *[+-]?[\d.]", card.text):
                numbers.append(card)
            else:
                self.fate(card.line, LEFT, "no card of numbers")
        first, second = numbers
        try:
            dt, end = first.number(1, 8, 0, "DELTAT"), first.number(9, 16, 0, "TMAX")
            self.xopt = first.number(17, 24, 0, "XOPT") or Decimal(0)
            self.copt = first.number(25, 32, 0, "COPT") or Decimal(0)
            every = second.whole(9, 16, "IPLOT")
        except Refused as fault:
            raise AtpError(f"line {first.line}: {fault}") from None
        if not dt or not end or dt <= 0 or end <= 0:
            raise AtpError(f"line {first.line}: DELTAT and TMAX are above 0")
        words = [f"L is in ohm at {self.xopt:g} Hz"] * (self.xopt > 0) + [f"C is in uS at {self.copt:g} Hz"] * (
            self.copt > 0
        )
        words += ["EPSILN, TOLMAT and what stands behind aren't read"] * bool(first.at(33, 80))
        self.fate(first.line, TURNED if words else READ, "; ".join(words))
        rest = second.at(17, 80).strip("0 ")
        self.fate(second.line, TURNED if rest else READ, "the flags behind IPLOT aren't read" if rest else "")
        return dt, end, max(1, every)

    # ---- the sections

    def body(self) -> None:
        """All cards behind the head."""
        section, sorted_deck = "BRANCH", False
        while (card := self.next()) is not None:
            word = card.text.strip()
            upper = word.upper()
            if upper.startswith("BEGIN NEW DATA CASE"):
                self.fate(card.line, READ)
                return
            if word == "" or upper.startswith("BLANK"):
                self.fate(card.line, READ, "the end of a section")
                if not sorted_deck and section != "PLOT":
                    section = SECTIONS[SECTIONS.index(section) + 1]
            elif word.startswith("/"):
                sorted_deck = True
                section = self.sorted_section(card, upper[1:].split(" ")[0])
            elif upper.startswith("TACS") and section == "BRANCH" and not self.parts:
                section = "TACS"
                self.fate(card.line, READ)
            elif card.text.startswith("$"):
                self.dollar(card, upper)
            elif upper.startswith("MODELS"):
                self.skip(card, "ENDMODELS", "MODELS has no like here")
            else:
                self.guarded(card, section)
        self.broken_off()

    def broken_off(self) -> None:
        """Leaves the phases of a line out whose others aren't there."""
        if self.pending:
            for card in (self.pending[0], *self.pending[1]):
                self.fate(card.line, LEFT, "a line of three phases whose others aren't there")
        self.pending = None

    def sorted_section(self, card: Card, word: str) -> str:
        """The section that a sorting card begins."""
        if word in ("BRANCH", "SWITCH", "SOURCE", "OUTPUT", "TACS", "PLOT"):
            self.fate(card.line, READ)
            return word
        self.fate(card.line, READ if word in ("INITIAL", "REQUEST", "STATISTICS") else LEFT, f"a section {word}")
        return word

    def dollar(self, card: Card, upper: str) -> None:
        match = re.match(r"\$VINTAGE *, *([01])", upper)
        if match:
            self.wide = match[1] == "1"
            self.fate(card.line, READ)
        elif upper.startswith("$INCLUDE"):
            self.fate(card.line, LEFT, "a file that is included isn't read: put its lines here")
        else:
            self.fate(card.line, LEFT, "a request that has no like here")

    def skip(self, card: Card, end: str, words: str) -> None:
        """Leaves lines out up to one that begins so."""
        self.fate(card.line, LEFT, words)
        while (other := self.next()) is not None:
            self.fate(other.line, LEFT, words)
            if other.text.strip().upper().startswith(end):
                return

    def guarded(self, card: Card, section: str) -> None:
        """A card of a section; what isn't taken of it is its fate."""
        readers = {
            "TACS": self.tacs,
            "BRANCH": self.branch,
            "SWITCH": self.switch,
            "SOURCE": self.source,
            "OUTPUT": self.output,
        }
        read = readers.get(section)
        if read is None:
            self.fate(card.line, LEFT, f"a card of the section {section}")
            return
        count = len(self.parts)
        try:
            read(card)
            if card.line not in self.fates and card.stray():
                for part in self.parts[count:]:
                    self.leave(part, card.stray())
                del self.parts[count:]
                raise Refused(card.stray())
            if card.line not in self.fates:
                self.fate(card.line, TURNED if card.turned else READ, "; ".join(card.turned))
        except Refused as fault:
            self.fate(card.line, LEFT, str(fault))

    # ---- branches

    def ends(self, card: Card) -> tuple[str, str]:
        ends = card.name(3), card.name(9)
        if ends[0] == ends[1]:
            raise Refused("both ends are one node")
        return ends

    def like(self, card: Card) -> tuple[str, str] | None:
        found = card.name(15), card.name(21)
        return found if any(found) else None

    def add(self, card: Card, write: typing.Callable[[Case], object], **more: typing.Any) -> None:
        self.parts.append(Part([card.line], write, **more))

    def branch(self, card: Card) -> None:
        kind = card.at(1, 2)
        if self.pending and kind not in ("-2", "-3"):
            self.broken_off()
        if kind in ("", "0"):
            if card.text.upper().strip().startswith("TRANSFORMER") or card.text[2:14].strip() in (
                "TRANSF",
                "TRANSFORMER",
            ):
                self.skip_transformer(card)
                return
            self.series(card)
        elif kind in ("-1", "-2", "-3"):
            self.line(card, kind)
        elif kind in ("98", "99"):
            self.nonlinear(card, kind)
        elif re.match(r" *TRANSFORMER", card.text):
            self.skip_transformer(card)
        else:
            words = BRANCHES.get(kind, f"a branch of type {kind}")
            if kind in ("92", "93", "96", "97", "91"):
                self.skip(card, "9999", words + "; so are the lines up to 9999")
            else:
                raise Refused(words)

    def skip_transformer(self, card: Card) -> None:
        """A saturable transformer: its points up to 9999, and its windings."""
        words = "a saturable transformer: Case.transformer3 makes one of two windings"
        self.skip(card, "9999", words)
        while self.at < len(self.lines) and re.match(r" [1-9]", self.lines[self.at]):
            self.at += 1
            self.fate(self.at, LEFT, words)

    def henry(self, value: Decimal | None) -> float:
        """An inductance in mH."""
        if value is None:
            return 0.0
        return float(value) / (2 * math.pi * float(self.xopt)) * 1e3 if self.xopt > 0 else float(value)

    def farad(self, value: Decimal | None) -> float:
        """A capacitance in uF."""
        if value is None:
            return 0.0
        return float(value) / (2 * math.pi * float(self.copt)) if self.copt > 0 else float(value)

    def series(self, card: Card) -> None:
        ends, like, asked = self.ends(card), self.like(card), card.asked
        places = ((27, 42, 0), (43, 58, 0), (59, 74, 0)) if self.wide else ((27, 32, 2), (33, 38, 2), (39, 44, 2))
        r, l, c = (card.number(first, last, decimals, it) for it, (first, last, decimals) in zip("RLC", places))
        if like:
            self.add(card, lambda case: case.series(*ends, like=like, ask=asked), nodes=ends, like=like)
            return
        values: dict[str, typing.Any] = dict(r_ohm=float(r or 0), l_mh=self.henry(l), c_uf=self.farad(c))
        self.converted(card, l, c, values)
        self.add(card, lambda case: case.series(*ends, **values, ask=asked), nodes=ends)

    def converted(self, card: Card, l: Decimal | None, c: Decimal | None, values: dict[str, float]) -> None:
        """Tells an inductance or a capacitance that was given as a reactance or a susceptance."""
        if self.xopt > 0 and l:
            card.turned.append(f"{l.normalize():f} ohm are {values['l_mh']:.6g} mH")
        if self.copt > 0 and c:
            card.turned.append(f"{c.normalize():f} uS are {values['c_uf']:.6g} uF")

    def line(self, card: Card, kind: str) -> None:
        """A line of one phase, or a phase of a transposed line."""
        ends, like, asked = self.ends(card), self.like(card), card.asked
        values: dict[str, typing.Any] = {} if kind == "-3" else self.line_values(card, like)
        following = self.lines[self.at][:2] if self.at < len(self.lines) else ""
        if kind == "-1" and following != "-2":
            if like:
                self.add(card, lambda case: case.line(*ends, like=like, ask=asked), nodes=ends, like=like)
            else:
                self.add(card, lambda case: case.line(*ends, **values, ask=asked), nodes=ends)
            return
        if kind == "-1":
            self.pending = card, []
            self._phases = [(ends, asked, values, like)]
        elif self.pending is None or (kind == "-3") != (len(self._phases) == 2):
            raise Refused(f"a phase {kind} without those before it; lines of two phases have no like here")
        else:
            self._phases.append((ends, asked, values, like))
            self.pending[1].append(card)
        if kind == "-3":
            self.three_phases(card)

    def three_phases(self, card: Card) -> None:
        assert self.pending is not None
        head, others = self.pending
        self.pending = None
        phases = list(self._phases)
        a, b = ([ends[k] for ends, _, _, _ in phases] for k in (0, 1))
        sequences: list[dict[str, typing.Any]] = [
            {"like": like} if like else values for _, _, values, like in phases[:2]
        ]
        asks = [asked for _, asked, _, _ in phases]
        nodes = tuple(it for it in (*a, *b) if it)
        self.parts.append(
            Part(
                [head.line, *(it.line for it in others)],
                lambda case: case.line3(a, b, zero=sequences[0], positive=sequences[1], ask=asks),
                nodes=nodes,
            )
        )

    def line_values(self, card: Card, like: tuple[str, str] | None) -> dict[str, float]:
        """The values of a line of constant parameters."""
        if like:
            return {}
        if self.wide:
            spans = ((27, 38, 0), (39, 50, 0), (51, 62, 0), (63, 74, 0))
            iline, ipunch = card.at(75, 76), card.at(77, 78)
        else:
            spans = ((27, 32, 2), (33, 38, 2), (39, 44, 2), (45, 50, 2))
            iline, ipunch = card.at(51, 52), card.at(53, 54)
        r, a, b, length = (card.number(*span, name) for name, span in zip(("R", "A", "B", "length"), spans))
        if ipunch not in ("", "0"):
            raise Refused(f"IPUNCH {ipunch}: a frequency-dependent or a distortionless line has no like here")
        if iline not in ("", "0", "1", "2"):
            raise Refused(f"ILINE {iline} is none of 0, 1 and 2")
        if a is None or b is None or length is None:
            raise Refused("A, B and length of a line are above 0")
        values = {"length": float(length), "r_ohm": float(r or 0)}
        if iline in ("", "0"):
            own = dict(l_mh=self.henry(a), c_uf=self.farad(b))
            self.converted(card, a, b, own)
            return values | own
        if iline == "1":
            return values | dict(zc_ohm=float(a), velocity=float(b))
        return values | dict(zc_ohm=float(a), tau_us=float(b) * 1e6)

    def nonlinear(self, card: Card, kind: str) -> None:
        ends, like, asked = self.ends(card), self.like(card), card.asked
        if kind == "99":
            for first, what in (
                (27, "the flashover voltage"),
                (33, "the delay"),
                (39, "the jump"),
                (45, "the sealing voltage"),
            ):
                card.blank(first, first + 5, what)
        elif card.at(27, 38):
            card.turned.append("current and flux of the steady state aren't read: it starts at rest")
        points, lines = ([], [card.line]) if like else self.points(card)

        own: dict[str, typing.Any] = {"like": like} if like else {"points": points}
        if kind == "99":
            own["filtered"] = False

        def write(case: Case) -> None:
            if kind == "98":
                case.reactor(*ends, **own, ask=asked)
            else:
                case.arrester(*ends, **own, ask=asked)

        part = Part(lines, write, nodes=ends, like=like)
        self.parts.append(part)

    def points(self, card: Card) -> tuple[list[tuple[float, float]], list[int]]:
        """The points behind a card up to 9999, and their lines."""
        found, lines, fault = [], [card.line], ""
        while (other := self.next()) is not None:
            lines.append(other.line)
            try:
                first, second = other.number(1, 16, 0, "current"), other.number(17, 32, 0, "the other value")
            except Refused as wrong:
                fault = fault or f"line {other.line}: {wrong}"
                first = second = None
                if other.text.strip().startswith("BLANK"):
                    break
            if first == 9999:
                self.fate(other.line, READ, "the end of the points")
                break
            self.fate(other.line, READ)
            if first is not None and second is not None:
                found.append((float(first), float(second)))
            elif not fault:
                fault = f"line {other.line}: a point has two numbers"
        if fault:
            for line in lines[1:]:
                self.fate(line, LEFT, f"a point of line {card.line}")
            raise Refused(fault)
        return found, lines

    # ---- switches

    def switch(self, card: Card) -> None:
        kind, ends, asked = card.at(1, 2), self.ends(card), card.asked
        if kind in ("", "0"):
            self.time_switch(card, ends, asked)
        elif kind in ("11", "13"):
            control = card.name(65)
            if kind == "11":
                card.blank(35, 44, "the time of deionisation")
                if card.at(55, 64):
                    raise Refused(f"the word {card.at(55, 64)} of a valve has no like here")
                ignition, holding = (
                    float(card.number(first, first + 9, 0, what) or 0) for first, what in ((15, "Vig"), (25, "Ihold"))
                )
                self.add(
                    card,
                    lambda case: case.valve(*ends, ignition_v=ignition, holding_a=holding, control=control, ask=asked),
                    nodes=ends,
                    reads=(control,) if control else (),
                )
            else:
                self.add(
                    card,
                    lambda case: case.controlled(*ends, control=control, ask=asked),
                    nodes=ends,
                    reads=(control,),
                )
        else:
            raise Refused(f"a switch of type {kind}")

    def time_switch(self, card: Card, ends: tuple[str, str], asked: str) -> None:
        word = card.at(55, 64)
        if word == "MEASURING":
            card.at(15, 44)  # its times and its margin have no meaning
            self.add(card, lambda case: case.measuring(*ends, ask=asked), nodes=ends)
            return
        if word:
            raise Refused(f"{word} switches: emtp study scatters the times of time switches")
        close, opening = card.number(15, 24, 0, "Tclose"), card.number(25, 34, 0, "Topen")
        margin = float(card.number(35, 44, 0, "the current margin") or 0)
        card.blank(45, 54, "the flashover voltage")
        if opening is None:
            card.turned.append("a blank Topen is 0: it opens at its first zero")
        times: dict[str, typing.Any] = dict(
            close_s=None if close is not None and close < 0 else float(close or 0), open_s=float(opening or 0)
        )
        self.add(card, lambda case: case.switch(*ends, **times, margin_a=margin, ask=asked), nodes=ends)

    # ---- sources

    def source(self, card: Card) -> None:
        kind, node = card.at(1, 2), card.name(3)
        if kind not in ("11", "12", "14", "60"):
            words = {
                "13": "a ramp of two slopes: two ramps of type 12 as currents",
                "15": "a surge of two exponentials",
            }
            raise Refused(words.get(kind, f"a source of type {kind}"))
        current = card.whole(9, 10, "voltage or current") < 0
        amplitude, hz, phase, a1 = (
            card.number(first, first + 9, 6, what)
            for first, what in ((11, "amplitude"), (21, "frequency"), (31, "phase or T0"), (41, "A1"))
        )
        start, stop = (card.number(first, first + 9, 6, what) for first, what in ((61, "Tstart"), (71, "Tstop")))
        card.blank(51, 60, "T1")
        times: dict[str, typing.Any] = dict(start_s=max(0.0, float(start or 0)), stop_s=float(stop) if stop else None)
        value = {"amplitude_a" if current else "amplitude_v": float(amplitude or 0)}
        before = start is not None and start < 0
        if before and self.smooth is None and not self.rest:
            raise Refused(
                "it is on before 0, so ATP starts in the steady state: --smooth CYCLES lets cosines rise slowly from rest, "
                "--rest starts all at 0"
            )
        if before:
            card.turned.append("it is on before 0, and starts at rest here")
        if kind == "60":
            self.add(
                card,
                lambda case: case.driven(node, current=current, **times),
                needs=(node,),
                reads=(node,),
                order=1,
            )
        elif kind == "11":
            self.add(card, lambda case: case.step(node, **value, **times), needs=(node,), order=1)
        elif kind == "12":
            if not phase or phase <= 0:
                raise Refused("a ramp has a T0 above 0")
            card.blank(41, 50, "A1")
            rise = float(phase)
            self.add(card, lambda case: case.ramp(node, rise_s=rise, **value, **times), needs=(node,), order=1)
        else:
            self.cosine(card, node, value, hz, phase, a1, times, before)

    def cosine(
        self,
        card: Card,
        node: str,
        value: dict[str, float],
        hz: Decimal | None,
        phase: Decimal | None,
        a1: Decimal | None,
        times: dict[str, typing.Any],
        before: bool,
    ) -> None:
        if a1 is not None and a1 < 0:
            raise Refused("A1 is below 0")
        degrees = float(phase or 0)
        if a1:
            degrees *= 360 * float(hz or 0)
            card.turned.append(f"a phase of {float(phase or 0):g} s is {degrees:.9g} degrees")
        own = dict(hz=float(hz or 0), phase_deg=degrees)
        if before and self.smooth is not None and hz and not times["stop_s"]:
            cycles = self.smooth
            card.turned.append(f"its crest rises smoothly over {cycles:g} cycles")
            self.add(card, lambda case: case.smooth_cosine(node, **value, **own, cycles=cycles), needs=(node,), order=1)
        else:
            self.add(card, lambda case: case.cosine(node, **value, **own, **times), needs=(node,), order=1)

    # ---- outputs

    def output(self, card: Card) -> None:
        mark = card.at(1, 2)
        if mark == "1":
            self.add(card, lambda case: case.output_all(), order=2)
            return
        if mark not in ("", "0"):
            raise Refused(f"an output card of type {mark}: ask for branches by column 80")
        names = [name for first in range(3, 80, 6) if (name := card.name(first))]
        for name in names:
            self.parts.append(Part([card.line], _writes_output(name), needs=(name,), order=2))

    # ---- TACS

    def tacs(self, card: Card) -> None:
        kind = card.at(1, 2)
        if kind == "33":
            names = [name for first in range(3, 80, 6) if (name := card.name(first))]
            for name in names:
                self.parts.append(Part([card.line], _writes_control_output(name), reads=(name,), order=2))
        elif kind == "77":
            raise Refused("an initial condition: all starts at rest")
        elif kind in ("11", "14", "23", "24", "90", "91", "93"):
            self.tacs_source(card, kind)
        elif kind in ("88", "98", "99"):
            self.supplemental(card, int(kind))
        elif kind in ("", *"01234567"):
            self.block(card, int(kind or 0))
        else:
            raise Refused(f"a card of TACS of type {kind}")

    def tacs_source(self, card: Card, kind: str) -> None:
        name = card.name(3)
        if kind in ("90", "91", "93"):
            writers = {"90": "voltage", "91": "current", "93": "state"}
            where: dict[str, typing.Any] = dict(needs=(name,)) if kind == "90" else dict(switched=name)
            self.add(card, lambda case: getattr(case.control, writers[kind])(name), variable=name, **where)
            return
        amplitude, second, third = (
            float(card.number(first, first + 9, 0, what) or 0)
            for first, what in ((11, "amplitude"), (21, "frequency or period"), (31, "phase or width"))
        )
        start, stop = (card.number(first, first + 9, 0, what) for first, what in ((61, "Tstart"), (71, "Tstop")))
        times: dict[str, typing.Any] = dict(start_s=float(start or 0), stop_s=float(stop) if stop else None)
        writes: dict[str, typing.Callable[[Case], object]] = {
            "11": lambda case: case.control.step(name, amplitude, **times),
            "14": lambda case: case.control.cosine(name, amplitude, hz=second, phase_deg=third, **times),
            "23": lambda case: case.control.pulses(name, amplitude, period_s=second, width_s=third, **times),
            "24": lambda case: case.control.sawtooth(name, amplitude, period_s=second, **times),
        }
        self.add(card, writes[kind], variable=name)

    def inputs(self, card: Card) -> list[tuple[str, str]]:
        """The signed inputs of a block or a device."""
        found = []
        for first in (11, 19, 27, 35, 43):
            sign, name = card.at(first, first) or "+", card.name(first + 1)
            if sign not in "+-":
                raise Refused(f"the sign {sign!r} of an input")
            if name:
                found.append((sign, name))
        return found

    def block(self, card: Card, order: int) -> None:
        name, inputs = card.name(3), self.inputs(card)
        gain = float(card.number(51, 56, 0, "gain") or 1)
        limits: dict[str, typing.Any] = {}
        for side, number, named in (("low", 57, 69), ("high", 63, 75)):
            value = card.number(number, number + 5, 0, f"the {side} limit")
            limits[side] = card.name(named) or (None if value is None else float(value))
        lines, coefficients = [card.line], []
        for _ in range(2 if order else 0):
            other = self.next()
            if other is None:
                raise Refused("the deck ends before its coefficients")
            lines.append(other.line)
            row = [float(other.number(10 * k + 1, 10 * k + 10, 0, "a coefficient") or 0) for k in range(order + 1)]
            coefficients.append(row)
            self.fate(other.line, READ)
        own: dict[str, typing.Any] = dict(zip(("numerator", "denominator"), coefficients))
        reads = tuple(it for _, it in inputs) + tuple(it for it in limits.values() if isinstance(it, str))
        part = Part(
            lines, lambda case: case.control.block(name, inputs, gain=gain, **own, **limits), variable=name, reads=reads
        )
        self.parts.append(part)

    def supplemental(self, card: Card, group: int) -> None:
        name, code = card.name(3), card.at(9, 10)
        if not code:
            self.formula(card, name, group)
            return
        if not code.isdigit() or int(code) not in ALIKE:
            raise Refused(f"a device of code {code} has no like here")
        inputs, number = self.inputs(card), int(code)
        a, b, c = (float(card.number(first, first + 5, 0, it) or 0) for it, first in (("A", 51), ("B", 57), ("C", 63)))
        d, e = card.name(69), card.name(75)
        unlike = {53: (b, c, d, e), 64: (e,), 65: (a, e), 62: (e,), 66: (b, c, d, e), 59: (a, b, c, d, e)}.get(
            number, ()
        )
        if any(unlike):
            raise Refused(f"the fields behind the inputs of device {number} have another meaning here")
        lines = [card.line]
        points: list[tuple[float, float]] = []
        if number in (56, 57):
            points, lines = self.points(card)
        fields: dict[str, typing.Any] = dict(a=a, b=b, c=c, d=d, e=e, points=points, group=group)
        reads = tuple(it for _, it in inputs) + tuple(it for it in (d, e) if it)
        self.parts.append(
            Part(lines, lambda case: case.control.device(number, name, inputs, **fields), variable=name, reads=reads)
        )

    def formula(self, card: Card, name: str, group: int) -> None:
        if card.at(11, 11) != "=":
            raise Refused("a formula has its = in column 11")
        text = card.at(12, 80).upper()
        if card.text.rstrip().endswith("$"):
            raise Refused("a formula that goes on in the next line")
        try:
            read = formula.read(text)
        except formula.FormulaError as fault:
            raise Refused(f"{fault}, at character {fault.at} of the formula") from None
        self.add(
            card,
            lambda case: case.control.formula(name, text, group=group),
            variable=name,
            reads=tuple(it for it in read.names if it != name),
        )

    # ---- the case

    def made(self, dt: Decimal, end: Decimal, every: int) -> Case:
        """The case of all parts that find what they need."""
        try:
            case = Case(float(dt), float(end), every=every)
        except CaseError as fault:
            raise AtpError(str(fault)) from None
        kept = self.pruned()
        for part in sorted(kept, key=lambda it: it.order):
            try:
                part.write(case)
            except CaseError as fault:
                self.leave(part, fault.words)
        return case

    def pruned(self) -> list[Part]:
        """The parts without those that need what isn't there, until all find what they need."""
        kept, found = self.parts, True
        while found:
            nodes = {node for part in kept for node in part.nodes if node}
            variables = {part.variable for part in kept if part.variable} | set(STANDING)
            found, rest = False, []
            for part in kept:
                lacks = [f"no branch or switch that was read has the node {it}" for it in part.needs if it not in nodes]
                lacks += [f"nothing that was read defines {it}" for it in part.reads if it not in variables]
                if part.switched and part.switched not in nodes:
                    lacks.append(f"no switch that was read has the node {part.switched}")
                if lacks:
                    found = True
                    self.leave(part, lacks[0])
                else:
                    rest.append(part)
            kept = rest
        return kept

    def leave(self, part: Part, words: str) -> None:
        for line in part.lines:
            self.fate(line, LEFT, words)


def _writes_output(name: str) -> typing.Callable[[Case], object]:
    return lambda case: case.output(name)


def _writes_control_output(name: str) -> typing.Callable[[Case], object]:
    return lambda case: case.control.output(name)


def translated(text: str, smooth: float | None = None, rest: bool = False) -> Translation:
    """The case of a deck. AtpError where it has no head that could be read.

    With `smooth` cosines that are on before 0 rise over so many cycles; with `rest` all that is on before 0 begins at 0.
    """
    reader = Reader(text, smooth, rest)
    dt, end, every = reader.head()
    reader.body()
    case = reader.made(dt, end, every)
    for line in range(1, len(reader.lines) + 1):
        if line not in reader.fates and reader.lines[line - 1].strip():
            reader.fate(line, LEFT, "it stands behind the end of the case")
    told = list(case.told)
    if any(part.variable for part in reader.parts):
        told.append(
            "the control computes in the order of its cards and acts a step later, where ATP sorts them and acts at once"
        )
    return Translation(case, [reader.fates[it] for it in sorted(reader.fates)], told)


def _words() -> argparse.ArgumentParser:
    words = argparse.ArgumentParser(
        prog="emtp atp",
        description=__doc__.split("\n\n", maxsplit=1)[0],
        epilog="Exit status: 0 where all was read or turned, 1 where lines were left out, 2 where no case could be written.",
    )
    words.add_argument("deck", metavar="FILE.atp")
    words.add_argument("--out", metavar="FILE.case", help="a new file; FILE.case beside the deck without it")
    words.add_argument(
        "--smooth", metavar="CYCLES", type=float, help="cosines that are on before 0 rise so slowly from rest"
    )
    words.add_argument("--rest", action="store_true", help="what is on before 0 begins at 0, at rest")
    words.add_argument(
        "--all", action="store_true", help="prints the fate of each line, not only of those that aren't read as is"
    )
    return words


def main(words: list[str]) -> int:
    """The command."""
    given = _words().parse_args(words)
    out = given.out or os.path.splitext(given.deck)[0] + ".case"
    try:
        if given.smooth is not None and not 0 < given.smooth < math.inf:
            raise AtpError("--smooth is a number of cycles above 0")
        if os.path.exists(out):
            raise AtpError(f"{out} is there already: --out names another file")
        with open(given.deck, encoding="latin-1", newline="") as file:
            found = translated(file.read(), given.smooth, given.rest)
        found.case.write(out)
    except (AtpError, CaseError, program.ProgramError) as fault:
        print(f"emtp atp: {given.deck}: {fault}", file=sys.stderr)
        return 2
    for fate in found.fates:
        if given.all or fate.fate != READ:
            print(fate)
    for told in found.told:
        print(told)
    count = {kind: sum(it.fate == kind for it in found.fates) for kind in (READ, TURNED, LEFT)}
    print(f"{out}: {count[READ]} lines read as they are, {count[TURNED]} turned, {count[LEFT]} left out")
    return 0 if found.whole else 1
