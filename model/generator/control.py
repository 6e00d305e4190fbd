"""A random control part for a network: sources, blocks, formulas and devices."""
from .cards import Card, split
from .deck import coin
from .expressions import Expressions
from .names import STANDING, is_word, names
from .network import Network, last_point
from .numbers import WILD, Number

CODES = [51, 52, 53, 54, 56, 57, 58, 59, 60, 62, 63, 64, 65, 66]
BLOCKS, SOURCES, EXTRAS, OUTPUTS = 0, 1, 2, 3  # places of sections of the control; the last one is empty


class Control:
    """Writes the control part of a network's deck."""

    def __init__(self, network: Network):
        self.network, self.pick = network, network.pick
        self.sections: list[list[Card]] = [[], [], [], [], []]
        network.deck.control = self.sections
        self.defined = network.defined
        self.pool = [name for name in names(self.pick, 60, words=True) if name not in network.nodes]
        self.odd = names(self.pick, 12, odd=0.9)

    # ---- names

    def new_name(self) -> str:
        """A name that isn't a variable or node yet; rarely an odd one."""
        while True:
            name = self.pick.choice(self.odd) if coin(self.pick, 0.04) else self.pool.pop()
            if name not in self.defined and name not in STANDING and name not in self.network.nodes:
                return name

    def free_nodes(self) -> list[str]:
        """The nodes whose names aren't variables."""
        return [name for name in self.network.nodes if name not in self.defined and name not in STANDING]

    def variable(self, like_a_node: float) -> str:
        """A name for a variable, at this chance that of a node, and so the variable of a source of type 60."""
        nodes = self.free_nodes()
        return self.pick.choice(nodes) if nodes and coin(self.pick, like_a_node) else self.new_name()

    def any_variable(self) -> str:
        """A name to refer to."""
        return self.pick.choice(self.defined if self.defined and coin(self.pick, 0.8) else list(STANDING))

    def inputs(self, card: Card, least: int, most: int, preferred: list[str]) -> None:
        """Signed inputs of a block or device."""
        pick = self.pick
        number = pick.randint(least, most)
        if coin(pick, 0.6):
            number = min(number, 2)
        places = range(1, number + 1) if coin(pick, 0.8) else sorted(pick.sample(range(1, 6), number))
        for place in places:
            card.set(f"sign{place}", pick.choice(" ++-"))
            name = pick.choice(preferred) if preferred and coin(pick, 0.5) else self.any_variable()
            self.network.put_name(card, f"input{place}", name)

    # ---- the whole

    def write(self) -> None:
        """All sections."""
        pick = self.pick
        for _ in range(pick.choice([0, 1, 1, 2, 3, 4, 6])):
            self.source()
        blocks, extras = [], []
        for found, number in ((blocks, pick.choice([0, 1, 1, 2, 3, 5])), (extras, pick.choice([0, 1, 1, 2, 3, 5, 8]))):
            for _ in range(number):
                found.append(self.variable(0.2))
                self.defined.append(found[-1])
        for name in blocks:
            self.block(name, blocks)
        for name in extras:
            group = pick.choice(["98", "98", "99", "88"])
            if coin(pick, 0.6):
                self.device(group, name)
            else:
                self.formula(group, name)
        self.outputs()

    def outputs(self) -> None:
        """Channels of some variables."""
        pick = self.pick
        if self.defined and coin(pick, 0.85):
            card = Card("control output")
            if coin(pick, 0.2):
                card.set("mark", pick.choice(["0", " 0"]))
            for place in range(pick.randint(1, min(6, len(self.defined)))):
                self.network.put_name(card, f"output{place if coin(pick, 0.8) else place + 1}", self.any_variable())
            self.sections[OUTPUTS].append(card)
        elif coin(pick, 0.3):
            self.sections[OUTPUTS].append(Card("control output").set("output0", pick.choice(STANDING)))

    # ---- sources

    def source(self) -> None:
        """A source: of the network's values, or a curve."""
        pick, nodes = self.pick, self.free_nodes()
        switched = [name for ends in self.network.switched for name in ends if name in nodes]
        kind = pick.random()
        if kind < 0.3 and nodes or kind < 0.45 and switched:
            card = Card("control 90").set("type", "90" if kind < 0.3 else pick.choice(["91", "93"]))
            name = pick.choice(nodes if kind < 0.3 else switched)
            if coin(pick, 0.1):
                card.over(11, "not read")
        else:
            name, card = self.variable(0.3), self.curve(pick.choice(["11", "11", "14", "14", "23", "24"]))
        self.network.put_name(card, "name", name)
        self.defined.append(name)
        self.sections[SOURCES].append(card)

    def curve(self, code: str) -> Card:
        """A source with an amplitude."""
        pick, network = self.pick, self.network
        card = Card(f"control {code}").set("type", code)
        amplitudes = [(1, 0), (8, 0), (-1, 0), (100, 0), (pick.randint(-999, 999), pick.randint(-3, 2))]
        network.put(card, "amplitude", pick.choice(amplitudes))
        if code == "14":
            network.put(card, "frequency", pick.choice([(60, 0), (1000, 0), (pick.randint(1, 9999), 0)]))
            if coin(pick, 0.5):
                network.put(card, "phase", (pick.randint(-360, 360), 0))
        if code == "11" and coin(pick, 0.1):
            card.over(21, "not read")
        if code in ("23", "24"):
            network.put(card, "period", self.some_time(0.05, 0.6))
        if code == "23":
            network.put(card, "width", self.some_time(0.02, 0.4))
        if coin(pick, 0.2):
            network.put(card, "start", pick.choice([network.time(0, 0.5), (-1, 0), (-3, -4)]))
        if coin(pick, 0.15):
            network.put(card, "stop", network.time(0.3, 1))
        return card

    def some_time(self, low: float, high: float) -> Number:
        """A time that isn't 0."""
        mantissa, power = self.network.time(low, high)
        return max(1, mantissa), power

    # ---- blocks

    def block(self, name: str, blocks: list[str]) -> None:
        """A block, with its coefficients where it has an order."""
        pick, network = self.pick, self.network
        card = Card("block")
        order = pick.choice([0, 0, 0, 1, 1, 1, 2, 2, 3, pick.randint(0, 7)])
        if order or coin(pick, 0.3):
            card.set("order", str(order), network.side())
        network.put_name(card, "name", name)
        self.inputs(card, 0, 4, blocks)
        if coin(pick, 0.5):
            some = [
                (1, 0),
                (-1, 0),
                (2, 0),
                (5, -1),
                (1, 1),
                (pick.randint(-99, 99), pick.randint(-2, 1)),
                (0, 0),
                (1, 6),
            ]
            network.put(card, "gain", pick.choice(some))
        self.limits(card)
        self.sections[BLOCKS].append(card)
        if order:
            self.sections[BLOCKS] += self.coefficients(order)

    def limits(self, card: Card) -> None:
        """The limits of a block: numbers, names or none."""
        pick, put = self.pick, self.network.put
        mantissa, power = pick.choice([(5, -1), (1, 0), (3, 0), (6, 0), (10, 0), (100, 0)])
        kind = pick.random()
        if kind < 0.3:
            put(card, "low", (-mantissa, power))
        elif kind < 0.4:
            put(card, "low", (pick.choice([-1, 1]) * mantissa, power))
        elif kind < 0.45:
            put(card, "low", (mantissa, power))
        if kind < 0.3 or 0.4 <= kind < 0.55:
            put(card, "high", (mantissa, power))
        if coin(pick, 0.1):
            self.network.put_name(card, "named low", pick.choice([self.any_variable(), "MINUS1", "ZERO"]))
        if coin(pick, 0.1):
            self.network.put_name(card, "named high", pick.choice([self.any_variable(), "PLUS1", "DELTAT"]))

    def coefficients(self, order: int) -> list[Card]:
        """Numerator and denominator of a block: mostly delays of some steps one behind another."""
        pick = self.pick
        seconds = self.network.step[0] * 10.0 ** self.network.step[1] * pick.choice([0.5, 1, 3, 10, 30, 100, 1000])
        bottom = [1.0]
        for _ in range(order):
            delay = seconds * pick.choice([1, 0.5, 2])
            bottom = [one + delay * before for one, before in zip(bottom + [0.0], [0.0] + bottom)]
        if coin(pick, 0.12):
            bottom[0] = 0.0
        if coin(pick, 0.05):
            bottom = [pick.uniform(-1, 1) for _ in range(order + 1)]
        top = [value * pick.choice([1, 1, 0, 0.5, -1, 2]) for value in bottom[: pick.randint(1, order + 1)]]
        if coin(pick, 0.8):
            top[0] = 1.0
        cards = [self.polynomial(top), self.polynomial(bottom)]
        if order < 7 and coin(pick, 0.1):
            cards[0].set("power7", "junk")  # isn't read
        return cards

    def polynomial(self, values: list[float]) -> Card:
        """One card of coefficients."""
        card = Card("coefficients")
        for power, value in enumerate(values):
            number = split(value, self.pick.choice([1, 2, 3, 5]))
            if number[0] or coin(self.pick, 0.4):
                self.network.put(card, f"power{power}", number)
        return card

    # ---- formulas and devices

    def formula(self, group: str, name: str) -> None:
        """A formula over the variables whose names are words of expressions."""
        card = Card("formula").set("group", group).set("equals", "=")
        self.network.put_name(card, "name", name)
        words = [word for word in self.defined + list(STANDING) if is_word(word)]
        card.over(12, Expressions(self.pick, words, self.network.style == WILD).text())
        self.sections[EXTRAS].append(card)

    def device(self, group: str, name: str) -> None:
        """A device of a random code, with its points."""
        pick, network = self.pick, self.network
        code = pick.choice(CODES)
        kind = "delay" if code in (53, 54) else "effective value" if code == 66 else "device"
        card = Card(kind).set("group", group).set("code", str(code))
        network.put_name(card, "name", name)
        self.inputs(card, 0 if coin(pick, 0.1) else 1, 5, [])
        self.device_numbers(card, code)
        if code in (51, 52, 60) or code in (58, 62, 64, 65) and coin(pick, 0.5):
            network.put_name(card, "D", self.any_variable())
        if code == 58 and coin(pick, 0.4):
            network.put_name(card, "E", self.any_variable())
        self.sections[EXTRAS].append(card)
        if code == 56:
            self.sections[EXTRAS] += self.table()
        if code == 57:
            self.sections[EXTRAS] += self.times()

    def device_numbers(self, card: Card, code: int) -> None:
        """A, B and C of a device."""
        pick, network = self.pick, self.network

        def some() -> Number:
            return pick.choice([(1, 0), (0, 0), (-1, 0), (5, 0), (pick.randint(-99, 99), pick.randint(-3, 2))])

        if code in (53, 54):
            tenths = pick.choice([0, 1, 2, 3, pick.randint(0, 20)]) * 10 + pick.choice([0, 0, 0, 4, 5])
            if coin(pick, 0.9):
                network.put(card, "A", (network.step[0] * tenths, network.step[1] - 1))
        elif code == 66:
            steps = pick.choice([1, 2, 3, pick.randint(1, 40)]) * pick.choice([1, 1, 1.3, 0.7, 2.1])
            hertz = 1 / (network.step[0] * 10.0 ** network.step[1] * steps)
            network.put(card, "A", (1, 7) if coin(pick, 0.05) else split(hertz, pick.choice([1, 2, 3, 4])))
        elif code in (51, 52, 60, 63, 64) and coin(pick, 0.7):
            network.put(card, "A", some())
        if code in (51, 52) and coin(pick, 0.5):
            network.put(card, "B", some())
        if coin(pick, 0.05):
            network.put(card, "C", some())

    def table(self) -> list[Card]:
        """The points of device 56."""
        pick = self.pick
        x, y = pick.randint(-50, 5), pick.randint(-50, 50)
        cards = []
        for _ in range(pick.choice([2, 2, 3, 4, pick.randint(2, 10)])):
            cards.append(Card("point of a table"))
            self.network.put(cards[-1], "x", (x, -1))
            self.network.put(cards[-1], "y", (y, pick.choice([-1, 0])))
            x, y = x + pick.randint(1, 40), y + pick.randint(-40, 40)
        return cards + [last_point(pick)]

    def times(self) -> list[Card]:
        """The times of device 57."""
        pick, network = self.pick, self.network
        third = max(1, network.steps // 3)
        tenths, cards = 0, []
        for _ in range(pick.choice([1, 1, 2, 3, 5])):
            cards.append(Card("times"))
            for name, least in (("x", 0), ("y", 1)):
                tenths += pick.randint(least, third) * 10 + pick.choice([0, 0, 3])
                network.put(cards[-1], name, (network.step[0] * tenths, network.step[1] - 1))
        return cards + [last_point(pick)]
