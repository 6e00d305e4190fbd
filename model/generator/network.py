"""A random network as a deck: a tree of branches with more between its nodes, sources, switches and channels."""
import random

from .cards import Card, Side, spell, split
from .deck import Deck, begin, coin, comment, ending
from .names import names
from .numbers import MODERATE, USUAL, WILD, Number, Numbers

MOST_ASKED = 28  # channels that the cards ask for by column 80
TOLERANCES = [(1, -2), (1, -3), (1, -6), (1, -7), (1, -9), (5, -9), (0, 0), (1, 3), (1, 0), (2, -8), (1, -8)]
STEPS = [(1, -4), (1, -4), (5, -5), (1, -5), (1, -6), (25, -6), (1, -3), (37, -6), (1, -2)]
PSEUDO = {"98": "reactor", "99": "resistor"}


class Network:
    """The network of a deck. `purpose` is "phasor" or "scan" where it is for a steady state, which has few parts that
    refuse one; `defined` are the variables of the control, in order."""

    def __init__(
        self,
        pick: random.Random,
        style: str | None = None,
        nodes: int | None = None,
        steps: int | None = None,
        purpose: str | None = None,
    ):
        self.pick, self.purpose = pick, purpose
        self.style = style or pick.choice([USUAL, USUAL, MODERATE, MODERATE, WILD])
        self.numbers = Numbers(pick, self.style)
        self.size = nodes or self.random_size()
        self.steps = steps or self.random_steps()
        self.step = pick.choice([(1, -4), (1, -5), (1, -6)] if purpose == "phasor" else STEPS)
        self.frequency = pick.choice(
            [(60, 0), (60, 0), (50, 0), (1000, 0), (pick.randint(1, 99999), 0), (pick.randint(1, 999), -2)]
        )
        self.deck = Deck()
        self.copied: dict[str, list[tuple[str, str]]] = {}  # ends of cards of a type that may be copied
        self.nodes: list[str] = []
        self.fed: list[str] = []  # nodes with a voltage source
        self.sources: list[tuple[str, bool]] = []  # node, and whether it is a current source
        self.switched: list[tuple[str, str]] = []
        self.defined: list[str] = []
        self.asked = 0
        self.wide = False
        words = coin(pick, 0.7)
        taken = names(pick, self.size + 10, 0 if words else pick.choice([0.05, 0.3]), words)
        self.own, self.spare = taken[: self.size], taken[self.size :]

    def random_size(self) -> int:
        """A number of nodes: mostly small."""
        low, high = self.pick.choice([(1, 4)] * 9 + [(5, 12)] * 8 + [(13, 30)] * 2 + [(31, 60)])
        return self.pick.randint(low, high)

    def random_steps(self) -> int:
        """A number of steps: mostly few, and fewer the more nodes there are."""
        low, high = self.pick.choice([(1, 8)] * 9 + [(9, 60)] * 8 + [(61, 300)] * 3)
        return min(self.pick.randint(low, high), 12 if self.size > 30 else 60 if self.size > 12 else 300)

    @property
    def steady(self) -> bool:
        """Whether it is for a steady state."""
        return self.purpose is not None

    # ---- fields

    def side(self) -> Side:
        """Where a number stands in its field."""
        return self.pick.choice(["left", "right", "right", self.pick])

    def put(self, card: Card, name: str, value: Number) -> None:
        """Writes a number."""
        card.set(name, spell(self.pick, *value, card.field(name).width()), self.side())

    def put_name(self, card: Card, field: str, name: str) -> None:
        """Writes a name."""
        if name:
            card.set(field, name, self.pick if coin(self.pick, 0.08) else "left")

    def put_ends(self, card: Card, start: str, end: str) -> None:
        """Writes the two ends, which are nodes from here on."""
        self.put_name(card, "from", start)
        self.put_name(card, "to", end)
        self.nodes += [name for name in (start, end) if name and name not in self.nodes]

    def ask(self, card: Card, chance: float = 0.2) -> None:
        """Asks for channels by column 80."""
        if coin(self.pick, chance) and self.asked < MOST_ASKED:
            card.put(80, 80, self.pick.choice("1233"))
            self.asked += 2
        elif coin(self.pick, 0.05):
            card.put(80, 80, "0")

    def copies(self, card: Card, kind: str, start: str, end: str, chance: float) -> bool:
        """Lets the card copy an earlier one of its type, or be one that may be copied; answers whether it copies."""
        before = self.copied.setdefault(kind, [])
        copy = bool(before) and coin(self.pick, chance)
        if copy:
            first, second = self.pick.choice(before)
            self.put_name(card, "copied from", first)
            self.put_name(card, "copied to", second)
        if not copy or coin(self.pick, 0.5):
            before.append((start, end))
        return copy

    def time(self, low: float = 0.0, high: float = 1.2) -> Number:
        """A time between these parts of the whole, half of them at a step."""
        tenths = self.pick.randint(int(low * 10 * self.steps), max(1, int(high * 10 * self.steps)))
        if coin(self.pick, 0.5):
            tenths = tenths // 10 * 10
        return self.step[0] * tenths, self.step[1] - 1

    # ---- the first cards

    def head(self) -> None:
        """The cards before the branches."""
        pick, head = self.pick, self.deck.head
        if coin(pick, 0.06):
            head.append(ending(pick))
        head.append(begin(pick))
        if coin(pick, 0.22):
            head.append(Card("tolerance", "RESIDUAL TOLERANCE"))
            self.put(head[-1], "tolerance", pick.choice(TOLERANCES))
        first, second = Card("first miscellaneous"), Card("second miscellaneous")
        self.put(first, "step", self.step)
        mantissa, power = self.step[0] * self.steps, self.step[1]
        if coin(pick, 0.1):
            mantissa, power = mantissa * 10 + pick.choice([4, 5, -4, -5]) * self.step[0], power - 1
        self.put(first, "end", (mantissa, power))
        for name in ("XOPT", "COPT"):
            if coin(pick, 0.05):
                first.set(name, pick.choice(["0", "0.", "-0", "0E5", ".4", "-.4", ".49"]), self.side())
        if coin(pick, 0.8):
            second.set("printed", pick.choice(["1", "20", "0", "-1", "+5", "007"]), self.side())
        if coin(pick, 0.9):
            second.set(
                "every", str(pick.choice([1, 1, 1, 1, 1, 2, 3, 5, 10, 0, self.steps, self.steps + 1])), self.side()
            )
        head += [first, second]

    # ---- branches

    def series(self, start: str, end: str, simple: bool = False) -> None:
        """A series branch; a simple one has resistance alone."""
        pick = self.pick
        card = Card("wide series" if self.wide else "series")
        if coin(pick, 0.05):
            card.set("type", pick.choice(["0", " 0", "00"]))
        self.put_ends(card, start, end)
        if self.copies(card, "0", start, end, 0.12):
            if coin(pick, 0.1):
                card.set("R", "junk")  # isn't read
        else:
            kind = 0 if simple else pick.random()
            if kind < 0.75 or kind > 0.9:
                self.put(card, "R", self.numbers.resistance())
            if 0.45 < kind < 0.9:
                self.put(card, "L", self.numbers.inductance())
            if kind > 0.7:
                self.put(card, "C", self.numbers.capacitance())
        self.ask(card)
        self.deck.branches.append(card)

    def line_card(self, kind: str, code: str, start: str, end: str, lossless: bool = False) -> None:
        """The card of a line, or of the first or second phase of a three-phase line."""
        pick = self.pick
        card = Card(kind).set("type", code)
        self.put_ends(card, start, end)
        if not self.copies(card, code, start, end, 0.15):
            length = pick.choice([1, 2, 10, 20, 50, 100])
            form = pick.choice([0, 1, 1, 2, 2, 2])
            self.line_numbers(card, form, length)
            if not lossless and coin(pick, 0.5):
                self.put(card, "R", pick.choice([(5, -2), (1, -1), (1, 0), (pick.randint(1, 999), -2)]))
            self.put(card, "length", (length, 0))
            if form or coin(pick, 0.5):
                card.set("form", str(form), self.side())
        self.ask(card)
        self.deck.branches.append(card)

    def line_numbers(self, card: Card, form: int, length: int) -> None:
        """A and B of a line whose travel time is of some steps: L and C, impedance and speed, or impedance and time."""
        pick = self.pick
        tenths = pick.choice([10, 10, 15, 20, 25, 33, pick.randint(10, 100), pick.randint(100, 400)])
        if self.style == WILD and coin(pick, 0.1):
            tenths = pick.randint(1, 20)
        seconds = self.step[0] * 10.0 ** self.step[1] * tenths / 10
        impedance = pick.choice([(100, 0), (300, 0), (400, 0), (pick.randint(1, 999), pick.choice([0, -1, 1]))])
        if form == 2:
            self.put(card, "A", impedance)
            self.put(card, "B", (self.step[0] * tenths, self.step[1] - 1))
        elif form == 1:
            self.put(card, "A", impedance)
            self.put(card, "B", split(length / seconds, 3))
        else:
            each = seconds / length * pick.choice([1.0, 1.001, 1.01, 1.3])
            ohms = pick.choice([100.0, 300.0, 400.0, pick.uniform(10, 900)])
            self.put(card, "A", split(each * ohms * 1e3, pick.choice([2, 3, 4])))
            self.put(card, "B", split(each / ohms * 1e6, pick.choice([2, 3, 4])))

    def pseudo(self, code: str, start: str, end: str) -> None:
        """A pseudo-nonlinear branch: a resistor (99) or a reactor (98), with its points."""
        pick, kind = self.pick, PSEUDO[code]
        card = Card(kind).set("type", code)
        self.put_ends(card, start, end)
        self.ask(card, 0.4)
        self.deck.branches.append(card)
        if self.copies(card, code, start, end, 0.2):
            return
        if code == "99" and coin(pick, 0.1):
            card.set("zero27", pick.choice(["0", "0.", "-0."]))
        mantissa, power = self.numbers.voltage()
        if code == "98":
            mantissa, power = mantissa * self.step[0], power + self.step[1] + 1  # a flux is a voltage over some steps
        current = other = 0
        for _ in range(64 if coin(pick, 0.02) else pick.choice([1, 2, 2, 3, 4, 5, pick.randint(1, 12)])):
            current += pick.choice([1, 1, 2, 5, 10, pick.randint(1, 100)])
            other += pick.randint(1, 60)
            point = Card(f"point of a {kind}")
            self.put(point, "current", (current, 0))
            self.put(point, "other", (abs(mantissa) * other, power - 1))
            self.deck.branches.append(point)
        self.deck.branches.append(last_point(pick))

    def three_phases(self, ends: list[str]) -> None:
        """A three-phase line between three nodes and three others."""
        for place, (kind, code) in enumerate((("line", "-1"), ("second phase", "-2"))):
            self.line_card(kind, code, ends[place], ends[place + 3])
        card = Card("third phase").set("type", "-3")
        self.put_ends(card, ends[2], ends[5])
        self.ask(card)
        self.deck.branches.append(card)

    def branch(self, start: str, end: str, lossless: bool) -> None:
        """A branch of a random type, or rarely a switch in its place."""
        pick, kind = self.pick, self.pick.random()
        if kind < 0.15:
            self.line_card("line", "-1", start, end, lossless)
        elif kind < 0.27 and (not self.steady or coin(pick, 0.05)):
            self.pseudo(pick.choice(["98", "99", "99"]), start, end)
        elif kind < 0.33 and start and end:
            if coin(pick, 0.7):
                self.series(start, "", simple=True)
            self.time_switch(start, end)
        else:
            self.series(start, end)

    def vintage(self) -> None:
        """A card that changes the width of the fields of series cards."""
        self.wide = not self.wide
        forms = ["$VINTAGE,%d", "$VINTAGE, %d", "$VINTAGE,   %d  "]
        self.deck.branches.append(Card("vintage", self.pick.choice(forms) % self.wide))

    def branches(self) -> None:
        """A tree over the nodes, more branches between them, perhaps a three-phase line and an island."""
        pick = self.pick
        lossless = self.steady and coin(pick, 0.9)
        if coin(pick, 0.15):
            self.vintage()
        for place, name in enumerate(self.own):
            before = self.own[max(0, place - 5) : place]
            ends = [name, pick.choice(before) if before and coin(pick, 0.8) else ""]
            pick.shuffle(ends)
            self.branch(*ends, lossless)
            if coin(pick, 0.02):
                self.vintage()
        if not self.deck.branches:
            self.series(self.own[0], "")
        for _ in range(pick.choice([0, 0, 1, self.size // 2, self.size])):
            start, end = pick.choice(self.nodes), pick.choice(self.nodes + ["", "", ""])
            if start != end:
                self.branch(start, end, lossless)
        if coin(pick, 0.02 if self.steady else 0.25):
            self.some_three_phases()
        if coin(pick, 0.05):
            self.series(self.spare[5], self.spare[6])  # an island: its matrix is singular

    def some_three_phases(self) -> None:
        """A three-phase line, mostly from nodes that are there to new ones, with branches at its ends."""
        pick = self.pick
        ends = [pick.choice(self.nodes + self.spare[:4]) for _ in range(6)]
        if coin(pick, 0.8):
            ends = [pick.choice(self.nodes) for _ in range(3)] + self.spare[:3]
        if coin(pick, 0.1):
            ends[pick.randrange(6)] = ""
        if any(ends[place] == ends[place + 3] for place in range(3)):
            return
        self.three_phases(ends)
        for name in ends:
            if name and coin(pick, 0.7):
                self.series(name, "", simple=True)

    # ---- switches

    def time_switch(self, start: str, end: str, closed: bool | None = None) -> None:
        """A time switch, or a measuring one; `closed` says whether it begins so."""
        pick = self.pick
        card = Card("time switch")
        if coin(pick, 0.05):
            card.set("type", pick.choice(["0", " 0"]))
        self.put_ends(card, start, end)
        self.switched.append((start, end))
        if closed is None and coin(pick, 0.15):
            card.set("word", "MEASURING", pick if coin(pick, 0.2) else "left")
            if coin(pick, 0.2):
                card.set("close", "junk")  # isn't read
        else:
            if closed or closed is None and coin(pick, 0.4):
                self.put(card, "close", pick.choice([(-1, 0), (-1, -12), (-1, -9), (-5, 0)]))
            elif coin(pick, 0.8):
                self.put(card, "close", self.time())
            if coin(pick, 0.7):
                self.put(
                    card, "open", pick.choice([self.time()] * 6 + [pick.choice([(1, 3), (-1, 0), (0, 0), (1, 9)])])
                )
            if coin(pick, 0.35):
                self.put(card, "margin", pick.choice([(1, -1), (1, 0), (1, 1), (1, 3), (0, 0), (1, 6), (1, -9)]))
        self.ask(card, 0.35)
        self.deck.switches.append(card)

    def other_nodes(self) -> list[str]:
        """The nodes without a voltage source, or all where each has one."""
        return [name for name in self.nodes if name not in self.fed] or self.nodes

    def switches(self) -> None:
        """Some time switches, between any nodes and to new ones."""
        pick, new = self.pick, self.spare[7]
        for _ in range(pick.choice([0, 0, 1, 1, 2, 3, 5])):
            kind, others = pick.random(), self.other_nodes()
            if kind < 0.06 and self.fed:
                ends = [pick.choice(self.fed), pick.choice(self.fed + [""])]
            elif kind < 0.4:
                ends = [pick.choice(others), pick.choice(others) if coin(pick, 0.93) else ""]
            elif kind < 0.8:
                ends = [pick.choice(others if coin(pick, 0.7) else self.nodes), new]
                if coin(pick, 0.6) and new not in self.nodes:
                    self.series(new, "", simple=True)
            else:
                ends = [pick.choice(others), pick.choice(self.spare[8:10])]
            pick.shuffle(ends)
            if ends[0] != ends[1]:
                self.time_switch(*ends, closed=pick.choice([True, False]) if self.steady else None)

    def controlled_switch(self, start: str, end: str, control: str | None) -> None:
        """A valve, or a switch that a variable drives."""
        pick = self.pick
        if control is None or coin(pick, 0.5):
            card = Card("valve").set("type", "11")
            self.put_ends(card, start, end)
            for name, values in (
                ("ignition", [(1, 0), (1, -3), (5, 1), (1, 2)]),
                ("holding", [(1, 0), (1, -3), (5, 1), (1, -1)]),
            ):
                if coin(pick, 0.4):
                    self.put(card, name, pick.choice(values))
            if control and coin(pick, 0.5):
                self.put_name(card, "control", control)
        else:
            card = Card("controlled switch").set("type", "13")
            self.put_ends(card, start, end)
            self.put_name(card, "control", control)
        self.switched.append((start, end))
        self.ask(card, 0.35)
        self.deck.switches.append(card)

    def controlled_switches(self) -> None:
        """Some valves and controlled switches."""
        pick = self.pick
        for _ in range(pick.choice([0, 1, 1, 2])):
            ends = [pick.choice(self.other_nodes()), pick.choice(self.nodes + ["", self.spare[9]])]
            pick.shuffle(ends)
            controls = self.defined + ["PLUS1", "ZERO", "TIMEX"]
            if ends[0] != ends[1]:
                self.controlled_switch(*ends, pick.choice(controls) if self.defined or coin(pick, 0.5) else None)

    # ---- sources

    def choose_sources(self) -> None:
        """Which nodes have sources; their cards are written once the control is known."""
        pick = self.pick
        if self.purpose == "scan":
            self.sources = [(pick.choice(self.nodes), True)]
            return
        if coin(pick, 0.04):
            return
        self.fed = pick.sample(self.nodes, min(len(self.nodes), pick.choice([1, 1, 1, 2, 3])))
        if self.own[0] in self.nodes and self.own[0] not in self.fed:
            self.fed[0] = self.own[0]
        self.sources = [(name, False) for name in self.fed]
        self.sources += [(pick.choice(self.nodes), True) for _ in range(pick.choice([0, 0, 0, 1, 1, 2, 3]))]

    def named_sources(self) -> None:
        """More sources at nodes that have the name of a variable, which may drive them."""
        for name in self.defined:
            if name in self.nodes and name not in self.fed and coin(self.pick, 0.3):
                current = coin(self.pick, 0.5)
                self.sources.append((name, current))
                self.fed += [] if current else [name]

    def source(self, node: str, current: bool) -> None:
        """The card of one source."""
        pick = self.pick
        codes = ["11", "12", "14", "14", "14"] + ["60"] * 4 * (node in self.defined)
        code = "14" if self.steady and coin(pick, 0.97) else pick.choice(codes)
        card = Card(f"source {code}").set("type", code)
        self.put_name(card, "name", node)
        if current:
            card.set("current", pick.choice(["-1", "-1", "-2", "-9"]))
        elif coin(pick, 0.1):
            card.set("current", pick.choice([" 0", "0", "1", "00"]))
        if code != "60":
            value = self.numbers.current() if current else self.numbers.voltage()
            self.put(card, "amplitude", (0, 0) if coin(pick, 0.03) else value)
        elif coin(pick, 0.2):
            card.over(11, "junk")  # isn't read
        if code == "12":
            mantissa, power = self.time(0.1, 1)
            self.put(card, "rise", (max(1, mantissa), power))
        if code == "14":
            self.cosine(card)
        if coin(pick, 0.2):
            self.put(card, "start", pick.choice([self.time(0, 0.5), (-1, 0), (0, 0)]))
        if coin(pick, 0.15):
            self.put(card, "stop", pick.choice([self.time(0.3, 1), self.time(0.3, 1), (0, 0), (1, 2)]))
        self.deck.sources.append(card)

    def cosine(self, card: Card) -> None:
        """Frequency and phase of a cosine."""
        pick = self.pick
        some = [
            (60, 0),
            (60, 0),
            (50, 0),
            (2500, 0),
            (1000, 0),
            (pick.randint(1, 9999), pick.choice([0, -1, 1])),
            (0, 0),
        ]
        if self.steady:
            some = [self.frequency] * 19 + [(50, 0)]
        self.put(card, "frequency", pick.choice(some))
        if coin(pick, 0.01 if self.purpose == "scan" else 0.4):
            degrees = [90, -90, 120, -120, 30, 45, 360, -360]
            turned = [(degree, 0) for degree in degrees] + [(pick.randint(-9999, 9999), -1), (1, -9)]
            self.put(card, "phase", pick.choice(turned))

    # ---- channels and the last cards

    def outputs(self) -> None:
        """The output cards: all nodes, some, or none."""
        pick = self.pick
        room = 64 - self.asked - (6 if self.deck.control is not None else 0)
        kind = pick.random()
        if kind < 0.3 and len(self.nodes) <= room:
            card = Card("output").set("mark", pick.choice(["1", " 1", "1 ", "01"]))
            if coin(pick, 0.3):
                card.set("output0", "ignore")
            self.deck.outputs.append(card)
        elif kind < 0.95:
            left = pick.randint(1, max(1, min(len(self.nodes), room, 20)))
            while left > 0:
                card = Card("output")
                if coin(pick, 0.2):
                    card.set("mark", pick.choice(["0", " 0", "00"]))
                for place in range(min(left, pick.choice([1, 3, 13]))):
                    self.put_name(card, f"output{place}", pick.choice(self.nodes))
                    left -= 1
                self.deck.outputs.append(card)

    def finish(self) -> None:
        """Cards behind the last section, and blanks at the ends of cards."""
        pick = self.pick
        if coin(pick, 0.08):
            self.deck.tail.append(pick.choice([ending(pick), begin(pick), comment(pick)]))
        for section in self.deck.network():
            for card in section:
                if not coin(pick, 0.1):
                    card.strip()
                elif coin(pick, 0.2):
                    card.fill(80 + pick.randint(1, 30))
                else:
                    card.fill()


def last_point(pick: random.Random) -> Card:
    """The card behind the last point."""
    return Card("last point").put(1, 16, pick.choice(["9999", "9999.", "9999.0", "9.999E3", "09999", "+9999"]), pick)
