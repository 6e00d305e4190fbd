"""Random cases by wurdanei.case, read back by what `emtp show` lists of them.

    cd python && python3 -m tests.roundtrip COUNT [FIRST] [--methods]

writes COUNT cases from the seeds FIRST (1), FIRST + 1 .. on, with every method of a card among them, and looks for
each value that was given in the listing: a number within half of the last digit that stands in its columns. These
columns are written here once more, by hand from docs/cards.md and docs/control.md. Exit status 0 where all are found,
else 1.
"""

import argparse
import collections
import math
import random
import sys
import typing
from dataclasses import dataclass
from decimal import Decimal

from wurdanei import formula, listing
from wurdanei.case import Case, CaseError, Refused

Interval = tuple[float, float]
SHAPES = {11: "step", 12: "ramp", 14: "cosine", 23: "pulse", 24: "sawtooth", 60: "driven"}
LETTERS = "ABCDEFGHIJKLMNOPQRSTUVWXYZ"


@dataclass(frozen=True)
class Number:
    """A value that was given, the columns in which it stands, and the decimals that are kept of it."""

    value: float | Decimal
    first: int
    last: int
    places: int

    def within(self, card: str) -> Interval:
        """Between which numbers it may be, as its columns have so many digits."""
        text = card[self.first - 1 : self.last].strip()
        half = 0.5 * 10.0**-self.places
        if text:
            half += 0.5 * 10.0 ** last_power(text)
        value = float(self.value)
        half += 1e-14 * abs(value)
        return value - half, value + half


@dataclass
class Expected:
    """A record that has to be listed: its kind, what is named, the numbers, and what is made of several of them."""

    kind: str
    named: dict[str, str | None]
    numbers: dict[str, Number]
    made: typing.Callable[[list[str]], dict[str, Interval]] | None = None  # of the cards from its own one on
    words: tuple[str, ...] = ()
    inputs: list[str] | None = None
    tree: str | tuple | None = None
    below: "list[Expected] | None" = None
    copies: int | None = None  # the place of the branch that it copies


def last_power(text: str) -> int:
    """The power of ten of the last digit of a number on a card."""
    mantissa, power = text, 0
    for place in range(1, len(text)):
        if text[place] in "+-" and text[place - 1] not in "E":
            mantissa, power = text[:place], int(text[place:])
    if "E" in mantissa:
        mantissa, exponent = mantissa.split("E")
        power = int(exponent)
    return power - len(mantissa.partition(".")[2])


def times(*factors: Interval) -> Interval:
    """The interval of a product of numbers that aren't negative."""
    return math.prod(it[0] for it in factors), math.prod(it[1] for it in factors)


def divided(a: Interval, b: Interval) -> Interval:
    return a[0] / b[1], a[1] / b[0]


def root(a: Interval) -> Interval:
    return math.sqrt(max(0.0, a[0])), math.sqrt(a[1])


class Maker:
    """Makes one random case, and keeps what was given."""

    def __init__(self, seed: int) -> None:
        self.pick = random.Random(seed)
        self.done: collections.Counter[str] = collections.Counter()
        self.branches: list[Expected] = []
        self.modes: list[tuple[int, int, Expected]] = []
        self.switches: list[Expected] = []
        self.sources: list[Expected] = []
        self.control_sources: list[Expected] = []
        self.blocks: list[Expected] = []
        self.extras: list[Expected] = []
        self.channels: list[str] = []
        self.nodes = self.random_names(14, 'ABCXYZ0129 .-_=+()"')
        self.variables = self.random_names(14, LETTERS + "0129")
        self.variables = [it for it in self.variables if it[0].isalpha() and it not in formula.FUNCTIONS]
        self.odd = [it for it in self.random_names(6, "AB19 .-_+") if it[0] not in "+-"]
        self.fresh = list(self.variables + [it for it in self.odd if it not in self.variables])
        self.driven_nodes: set[str] = set()
        self.case = self.head()

    # ---- random values

    def random_names(self, count: int, letters: str) -> list[str]:
        found: dict[str, None] = {}
        while len(found) < count:
            name = "".join(self.pick.choice(letters) for _ in range(self.pick.randint(1, 6)))
            if name == name.strip():
                found[name] = None
        return list(found)

    def number(self, low: float, high: float, digits: int = 9) -> float:
        """A number between two, as likely in each decade, of one digit or more."""
        value = math.exp(self.pick.uniform(math.log(low), math.log(high)))
        return min(high, max(low, float(f"{value:.{self.pick.randint(1, digits)}g}")))

    def maybe(self, low: float, high: float, digits: int = 9) -> float:
        return self.pick.choice([0.0, self.number(low, high, digits)])

    def signed(self, low: float, high: float, digits: int = 9) -> float:
        return self.pick.choice([-1, 1]) * self.number(low, high, digits)

    def asked(self) -> str:
        return self.pick.choice(["", "", "", "i", "u", "iu"])

    def ends(self) -> tuple[str, str]:
        return tuple(self.pick.sample(self.nodes + [""], 2))

    def three(self) -> tuple[list[str], list[str]]:
        names = self.pick.sample(self.nodes, 6)
        return names[:3], names[3:]

    # ---- the head

    def head(self) -> Case:
        pick = self.pick
        dt = pick.choice([1e-6, 1e-5, 2e-5, self.number(1e-7, 1e-3, 4), self.number(1e-2, 0.5, 3)])
        steps = pick.randint(1, 5000)
        self.dt, self.end, self.every = dt, float(f"{dt * steps:.5g}"), pick.randint(1, 50)
        self.tolerance = pick.choice([None, self.number(1e-6, 100.0)])
        self.iout = pick.randint(-9, 9)
        remark = pick.choice(["", "A case, and\nanother line"])
        return Case(dt, self.end, self.every, tolerance_a=self.tolerance, iout=self.iout, remark=remark)

    # ---- branches

    def bus(self, ends: tuple[str, str]) -> dict[str, str | None]:
        return {"BUS1": ends[0], "BUS2": ends[1]}

    def add_branch(self, found: Expected, ask: str) -> None:
        self.branches.append(found)
        ends = found.named["BUS1"] or "0", found.named["BUS2"] or "0"
        self.channels += [f"{letter} {ends[0]}-{ends[1]}" for key, letter in (("i", "I"), ("u", "U")) if key in ask]

    def series(self) -> None:
        ends, ask = self.ends(), self.asked()
        values = (self.maybe(1e-4, 1e8), self.maybe(1e-3, 1e8), self.maybe(1e-6, 1e5))
        self.case.series(*ends, r_ohm=values[0], l_mh=values[1], c_uf=values[2], form="plain", ask=ask)
        self.add_branch(self.series_expected(ends, values), ask)

    def series_expected(self, ends: tuple[str, str], values: typing.Sequence[float | Decimal]) -> Expected:
        """Narrow or wide columns, as the card has them."""
        card = self.case._draft.contents.branches[-1].cards[0]
        wide = card.kind.name.startswith("wide")
        places = ((27, 42), (43, 58), (59, 74)) if wide else ((27, 32), (33, 38), (39, 44))
        numbers = {n: Number(v, *at, k) for n, v, at, k in zip("RLC", values, places, (6, 6, 9))}
        return Expected("series branch", self.bus(ends), numbers)

    def line_values(self) -> dict[str, float]:
        """The values of a line or a sequence, by one of the three ways."""
        own: dict[str, float] = {"length": self.number(1, 500, 4)}
        if self.pick.random() < 0.8:
            own["r_ohm"] = self.number(1e-4, 0.5, 5)
        tau = self.number(1.01, 30, 5) * self.dt
        zc = self.number(10, 800, 5)
        kind = self.pick.randrange(3)
        if kind == 0:
            velocity = own["length"] / tau
            own |= {"l_mh": float(f"{zc / velocity * 1e3:.5g}"), "c_uf": float(f"{1e6 / zc / velocity:.5g}")}
        elif kind == 1:
            own |= {"zc_ohm": zc, "velocity": float(f"{own['length'] / tau:.6g}")}
        else:
            own |= {"zc_ohm": zc, "tau_us": tau * 1e6}
        return own

    @staticmethod
    def line_made(own: dict[str, float], prefix: str) -> typing.Callable[[list[str]], dict[str, Interval]]:
        """Surge impedance, travel time and resistance, which the columns keep but for a part of 2e-5, of 2e-4 the last."""
        if "l_mh" in own:
            zc = math.sqrt(1e3 * own["l_mh"] / own["c_uf"])
            tau = own["length"] * math.sqrt(1e-9 * own["l_mh"] * own["c_uf"])
        else:
            zc = own["zc_ohm"]
            tau = own["length"] / own["velocity"] if "velocity" in own else 1e-6 * own["tau_us"]
        r = own["length"] * own.get("r_ohm", 0.0)

        def made(cards: list[str]) -> dict[str, Interval]:
            rows = (
                ("surge impedance", zc, 2e-5, 5e-7),
                ("R", r, 2e-4, 1e-6 * own["length"]),
                ("travel time", tau, 2e-5, 1e-12),
            )
            return {f"{prefix}{name}": (v * (1 - part) - more, v * (1 + part) + more) for name, v, part, more in rows}

        return made

    def line(self) -> None:
        ends, ask, own = self.ends(), self.asked(), self.line_values()
        self.case.line(*ends, **own, ask=ask)
        self.add_branch(Expected("line", self.bus(ends), {}, self.line_made(own, "")), ask)

    def line3(self) -> None:
        (a, b), zero, positive = self.three(), self.line_values(), self.line_values()
        asks = [self.asked() for _ in range(3)]
        if self.pick.random() < 0.5:
            positive["length"] = zero["length"]
            if "velocity" in positive:  # its travel time is that of the other length no longer
                positive["velocity"] = float(f"{positive['length'] / self.dt / 7:.5g}")
            if "c_uf" in positive:
                positive = {"length": zero["length"], "zc_ohm": 300.0, "tau_us": self.dt * 9e6}
        self.case.line3(a, b, zero=zero, positive=positive, ask=asks)
        self.add_phases(a, b, asks)
        first = len(self.branches) - 3
        self.modes.append((first, 0, Expected("modes", {}, {}, self.line_made(zero, "zero "))))
        self.modes.append((first, 1, Expected("modes", {}, {}, self.line_made(positive, "positive "))))

    def add_phases(self, a: list[str], b: list[str], asks: list[str]) -> None:
        count = len({first for first, _, _ in self.modes}) + 1
        for phase, (one, other, ask) in enumerate(zip(a, b, asks), 1):
            named = self.bus((one, other)) | {"three-phase line": str(count), "phase": str(phase)}
            self.add_branch(Expected("phase of a line", named, {}), ask)

    def points(self, flux: bool) -> list[tuple[float, float]]:
        found, current, other = [], 0.0, 0.0
        for _ in range(self.pick.choice([1, 2, 3, self.pick.randint(1, 64)])):
            current += self.number(1e-3, 1e3)
            other += self.number(1e-2, 10) if flux else self.number(1, 1e4)
            found.append((float(f"{current:.9g}"), float(f"{other:.9g}")))
        return found

    def nonlinear(self, kind: str, method: str, flux: bool) -> None:
        ends, ask, points = self.ends(), self.asked(), self.points(flux)
        getattr(self.case, method)(*ends, points=points, ask=ask)
        name, places = ("flux", 12) if flux else ("voltage", 9)
        below = [
            Expected("point", {}, {"current": Number(x, 1, 16, 9), name: Number(y, 17, 32, places)}) for x, y in points
        ]
        self.add_branch(Expected(kind, self.bus(ends) | {"points": str(len(points))}, {}, below=below), ask)

    def arrester(self) -> None:
        self.nonlinear("nonlinear resistor", "arrester", False)

    def reactor(self) -> None:
        self.nonlinear("nonlinear reactor", "reactor", True)

    def copy(self) -> None:
        """A branch with the values of an earlier one."""
        methods = {
            "series branch": "series",
            "line": "line",
            "nonlinear resistor": "arrester",
            "nonlinear reactor": "reactor",
        }
        sources = [place for place, it in enumerate(self.branches) if it.kind in methods]
        if not sources:
            return
        like = self.branches[self.pick.choice(sources)]
        # of several the first one is copied; of a line also the first phase of three
        place = next(
            place
            for place, it in enumerate(self.branches)
            if self.bus_of(it) == self.bus_of(like)
            and (it.kind == like.kind or like.kind == "line" and it.named.get("phase") == "1")
        )
        if self.branches[place].kind != like.kind:
            return
        like = self.branches[place]
        ends, ask = self.ends(), self.asked()
        getattr(self.case, methods[like.kind])(*ends, like=self.bus_of(like), ask=ask)
        self.add_branch(Expected(like.kind, self.bus(ends), {}, copies=place), ask)

    def copy3(self) -> None:
        """A three-phase line with the values of an earlier one."""
        firsts = sorted({first for first, _, _ in self.modes})
        if not firsts:
            return
        first = self.pick.choice(firsts)
        ends = [self.bus_of(self.branches[first + phase]) for phase in (0, 1)]
        kinds = ("line", "phase of a line")
        alike = [
            [place for place, it in enumerate(self.branches) if self.bus_of(it) == own and it.kind in kinds]
            for own in ends
        ]
        if alike != [[first], [first + 1]]:
            return  # another branch has the same ends
        (a, b), asks = self.three(), [self.asked() for _ in range(3)]
        names = [[it.named[bus] for it in self.branches[first : first + 3]] for bus in ("BUS1", "BUS2")]
        self.case.line3(a, b, like=tuple(names), ask=asks)
        self.add_phases(a, b, asks)
        place = len(self.branches) - 3
        self.branches[place].copies, self.branches[place + 1].copies = first, first + 1
        for phase in (0, 1):
            self.modes.append((place, phase, Expected("modes", {}, {}, copies=first)))

    @staticmethod
    def bus_of(found: Expected) -> tuple[str, str]:
        return found.named["BUS1"], found.named["BUS2"]

    # ---- switches

    def add_switch(self, found: Expected) -> None:
        self.switches.append(found)

    def switch(self) -> None:
        ends, ask = self.ends(), self.asked()
        close_s = self.pick.choice([None, self.signed(1e-6, 1e-2), self.number(1e-6, 1e4)])
        open_s = self.pick.choice([None, self.number(1e-6, 1e-1), self.signed(1e-6, 1e4)])
        margin = self.maybe(1e-3, 1e5)
        self.case.switch(*ends, close_s=close_s, open_s=open_s, margin_a=margin, ask=ask)
        self.switch_expected(ends, close_s, open_s, margin, ask)

    def switch_expected(self, ends, close_s, open_s, margin, ask) -> None:
        named: dict[str, str | None] = {**self.bus(ends), "asked": ask}
        numbers = {
            "T-CLOSE": Number(-1.0 if close_s is None else close_s, 15, 24, 12),
            "margin": Number(margin, 35, 44, 9),
        }
        if open_s is None:
            named["T-OPEN"] = None
        else:
            numbers["T-OPEN"] = Number(open_s, 25, 34, 12)
        self.add_switch(Expected("time switch", named, numbers))

    def poles(self) -> None:
        (a, b), ask = self.three(), self.asked()
        close_s, open_s = self.number(1e-5, 1e-2, 5), self.pick.choice([None, self.number(1e-3, 1e-1, 5)])
        later, margin = (0.0, self.number(1e-5, 1e-3, 4), self.number(1e-5, 1e-3, 4)), self.maybe(1e-2, 10)
        self.case.poles(a, b, close_s=close_s, open_s=open_s, later_s=later, margin_a=margin, ask=ask)
        for k in range(3):
            opening = None if open_s is None else open_s + later[k]
            self.switch_expected((a[k], b[k]), close_s + later[k], opening, margin, ask)

    def measuring(self) -> None:
        ends, ask = self.ends(), self.asked()
        self.case.measuring(*ends, ask=ask)
        self.add_switch(Expected("measuring switch", {**self.bus(ends), "asked": ask}, {}))

    def valve(self) -> None:
        ends, ask = self.ends(), self.asked()
        ignition, holding = self.maybe(1e-3, 1e6), self.maybe(1e-3, 1e4)
        control = self.pick.choice(["", self.variable()])
        self.case.valve(*ends, ignition_v=ignition, holding_a=holding, control=control, ask=ask)
        numbers = {"ignition": Number(ignition, 15, 24, 9), "holding": Number(holding, 25, 34, 9)}
        self.add_switch(Expected("valve", {**self.bus(ends), "control": control or None, "asked": ask}, numbers))

    def controlled(self) -> None:
        ends, ask, control = self.ends(), self.asked(), self.variable()
        self.case.controlled(*ends, control=control, ask=ask)
        self.add_switch(Expected("controlled switch", {**self.bus(ends), "control": control, "asked": ask}, {}))

    # ---- sources

    def node(self) -> str:
        """A node that is there and has no voltage source yet; a branch is made where there is none."""
        while not (found := [name for name in self.case.nodes if name not in self.driven_nodes]):
            try:
                self.series()
            except CaseError:
                continue  # out of the range of an impedance
        return self.pick.choice(found)

    def source_of(self, method: str, kind: int, **own: Number) -> None:
        node = self.node()
        current = self.pick.random() < 0.5
        amplitude = self.signed(1e-3, 1e8)
        start, stop = self.pick.choice([0.0, self.signed(1e-6, 1e-1)]), None
        if self.pick.random() < 0.4:
            stop = max(start, 0.0) + self.number(1e-5, 1.0, 4)
        words = {name.partition(" ")[0]: number.value for name, number in own.items()}
        words |= {"amplitude_a" if current else "amplitude_v": amplitude, "start_s": start, "stop_s": stop}
        getattr(self.case, method)(node, **words)
        if not current:
            self.driven_nodes.add(node)
        numbers = {"amplitude": Number(amplitude, 11, 20, 9), "TSTART": Number(start, 61, 70, 12)}
        numbers |= {name.partition(" ")[2]: number for name, number in own.items()}
        self.sources.append(self.source_expected(node, current, kind, stop, numbers))

    def source_expected(
        self, node: str, current: bool, kind: int, stop: float | None, numbers: dict[str, Number]
    ) -> Expected:
        named: dict[str, str | None] = {"NAME": node}
        if stop is None:
            named["TSTOP"] = None
        else:
            numbers["TSTOP"] = Number(stop, 71, 80, 12)
        return Expected("current source" if current else "voltage source", named, numbers, words=(SHAPES[kind],))

    def step(self) -> None:
        self.source_of("step", 11)

    def ramp(self) -> None:
        self.source_of("ramp", 12, **{"rise_s T0": Number(self.number(1e-7, 1.0), 31, 40, 12)})

    def cosine(self) -> None:
        phase = self.pick.choice([0.0, self.pick.uniform(-359, 359), float(self.pick.randint(-720, 720))])
        self.source_of(
            "cosine",
            14,
            **{"hz frequency": Number(self.number(1e-3, 1e6), 21, 30, 6), "phase_deg angle": Number(phase, 31, 40, 9)},
        )

    def driven(self) -> None:
        node, current = self.node(), self.pick.random() < 0.5
        if node in self.case._draft.contents.variables:
            return
        self.case.control.step(node, 1.0)
        self.control_sources.append(self.control_expected(node, 11, None, {"amplitude": Number(1.0, 11, 20, 9)}))
        start, stop = self.maybe(1e-5, 1e-2), self.pick.choice([None, 0.5])
        self.case.driven(node, current=current, start_s=start, stop_s=stop)
        if not current:
            self.driven_nodes.add(node)
        found = self.source_expected(node, current, 60, stop, {"TSTART": Number(start, 61, 70, 12)})
        found.named["control"] = node
        self.sources.append(found)

    # ---- outputs

    def output(self) -> None:
        names = [self.node() for _ in range(self.pick.choice([1, 2, 3, 15]))]
        self.case.output(*names)

    def control_output(self) -> None:
        self.case.control.output(*(self.variable() for _ in range(self.pick.choice([1, 2, 14]))))

    # ---- the control

    def variable(self) -> str:
        """A variable, perhaps one that isn't there yet."""
        return self.pick.choice([*self.variables, "TIMEX", "PLUS1"])

    def new(self) -> str:
        """A name that no card defines yet; those that others may read come first."""
        name = self.fresh.pop(0) if self.fresh else ""
        return name or self.case._draft.unused("Q")

    def inputs(self, least: int = 0) -> tuple[list[str | tuple[str, str]], list[str]]:
        """Inputs as they are given, and as they are listed."""
        given: list[str | tuple[str, str]] = []
        listed = []
        for _ in range(self.pick.randint(least, 5)):
            sign, name = self.pick.choice("+-"), self.variable()
            given.append(self.pick.choice([sign + name, (sign, name)] + ([name] if sign == "+" else [])))
            listed.append(sign + name)
        return given, listed

    def control_source(self) -> None:
        pick, name = self.pick, self.new()
        kind = pick.choice([11, 14, 23, 24])
        amplitude, start, stop = self.signed(1e-3, 1e8), pick.choice([0.0, self.signed(1e-6, 1e-1)]), None
        if pick.random() < 0.4:
            stop = max(start, 0.0) + self.number(1e-5, 1.0, 4)
        numbers = {"amplitude": Number(amplitude, 11, 20, 9), "TSTART": Number(start, 61, 70, 12)}
        words: dict[str, float] = {}
        if kind == 14:
            words = {"hz": self.number(1e-3, 1e6), "phase_deg": float(pick.randint(-359, 359))}
            numbers |= {"frequency": Number(words["hz"], 21, 30, 6), "angle": Number(words["phase_deg"], 31, 40, 9)}
        elif kind != 11:
            words = {"period_s": self.number(1e-6, 1.0)} | ({"width_s": self.number(1e-7, 1.0)} if kind == 23 else {})
            numbers |= {
                key[:-2]: Number(value, *((21, 30) if key[0] == "p" else (31, 40)), 12) for key, value in words.items()
            }
        method = {11: "step", 14: "cosine", 23: "pulses", 24: "sawtooth"}[kind]
        getattr(self.case.control, method)(name, amplitude, **words, start_s=start, stop_s=stop)
        self.control_sources.append(self.control_expected(name, kind, stop, numbers))

    def control_expected(self, name: str, kind: int, stop: float | None, numbers: dict[str, Number]) -> Expected:
        found = self.source_expected(name, False, kind, stop, numbers)
        found.kind = "control source"
        return found

    def measured(self) -> None:
        """The voltage of a node, the current or the state of a switch."""
        node = self.node()
        if node in self.case._draft.contents.variables:
            return
        kind = self.pick.choice(["voltage", "current", "state"])
        at = [place for place, it in enumerate(self.switches, 1) if node in (it.named["BUS1"], it.named["BUS2"])]
        if kind != "voltage" and not at:
            return
        getattr(self.case.control, kind)(node)
        word = "voltage of a node" if kind == "voltage" else f"{kind} of a switch"
        named: dict[str, str | None] = {"NAME": node, "TSTOP": None}
        named |= {"node": node} if kind == "voltage" else {"switch": str(at[0])}
        self.control_sources.append(Expected("control source", named, {}, words=(word,)))

    def block(self) -> None:
        pick, name, (given, listed) = self.pick, self.new(), self.inputs()
        # only of a large step high powers have coefficients that their columns hold and the range of a block allows
        large = self.dt > 5e-3
        order = pick.choice([2, 5, 6, 7] if large else [0, 1, 2, pick.randint(1, 7)])
        gain = pick.choice([1.0, self.signed(1e-3, 1e4, 4)])
        tau = self.dt * self.number(5 if large else 0.5, 20, 3)
        bottom = [float(f"{math.comb(order, k) * tau**k:.5g}") for k in range(order + 1)] if order else [1.0]
        bottom = [it if it >= 1e-9 else 0.0 for it in bottom]
        top = (
            [
                float(f"{pick.uniform(0, 1) * it:.4g}") if it > 1e-8 else 0.0
                for it in bottom[: pick.randint(1, order + 1)]
            ]
            if order
            else [1.0]
        )
        named: dict[str, str | None] = {"NAME": name, "order": str(order)}
        numbers = {"gain": Number(gain, 51, 56, 12)}
        words, limits = [], {}
        for side, first, value in (("low", 57, -self.number(1, 1e4, 4)), ("high", 63, self.number(1, 1e4, 4))):
            kind = pick.randrange(3)
            limits[side] = (None, value, self.variable())[kind]
            if kind == 0:
                words.append(f"no {side} limit")
            elif kind == 1:
                numbers[f"fixed {side} limit"] = Number(value, first, first + 5, 9)
            else:
                named[f"variable {side} limit"] = limits[side]
        self.case.control.block(name, given, gain=gain, numerator=top, denominator=bottom, **limits)
        below = []
        for word, values in (("numerator", top), ("denominator", bottom)):
            own = {
                f"s^{k}": Number(values[k] if order and k < len(values) else 0.0, 10 * k + 1, 10 * k + 10, 12)
                for k in range(8)
            }
            below.append(Expected(word, {}, own))
        self.blocks.append(Expected("block", named, numbers, words=tuple(words), inputs=listed, below=below))

    def expression(self, depth: int) -> tuple[str, str | tuple]:
        """The text of a random formula, and its tree."""
        pick = self.pick
        kind = pick.randrange(7) if depth else pick.randrange(2)
        if kind == 0:
            name = pick.choice([*self.variables, "TIMEX"])
            return name, name
        if kind == 1:
            value = self.number(1e-6, 1e6, 6)
            text = pick.choice([f"{value:.9f}".rstrip("0"), f"{value:.6E}"])
            return text, text
        blank = pick.choice(["", " "])
        if kind == 2:
            function = pick.choice(formula.FUNCTIONS)
            text, tree = self.expression(depth - 1)
            return f"{function}({text})", (function, tree)
        if kind == 3:
            text, tree = self.expression(depth - 1)
            return f"(.NOT.{blank}({text}))", (".NOT.", tree)
        if kind == 4:
            text, tree = self.expression(depth - 1)
            return f"(-{blank}({text}))", ("-", tree)
        operator = pick.choice(["+", "-", "*", "/", *formula.RELATIONS, ".AND.", ".OR."])
        (one, left), (other, right) = self.expression(depth - 1), self.expression(depth - 1)
        return f"({one}{blank}{operator}{blank}{other})", (operator, left, right)

    def formula(self) -> None:
        group = self.pick.choice([99, 88, 98])
        text, tree = self.expression(self.pick.randint(0, 4))
        if len(text.replace(" ", "")) > 69:
            return
        name = self.new()
        self.case.control.formula(name, text, group=group)
        self.extras.append(Expected("formula", {"NAME": name, "card": str(group)}, {}, tree=tree))

    def device(self) -> None:
        pick, name, (given, listed) = self.pick, self.new(), self.inputs()
        code = pick.choice([51, 52, 53, 54, 56, 57, 58, 59, 60, 62, 63, 64, 65, 66])
        group = pick.choice([99, 88, 98])
        values = {key: pick.choice([0.0, self.signed(1e-3, 1e5, 4)]) for key in "abc"}
        names = {key: pick.choice(["", self.variable()]) for key in "de"}
        places = {"A": 9, "B": 9, "C": 9}
        if code in (51, 52, 60):
            names["d"] = self.variable()
        if code in (53, 54):
            values["a"], places["A"] = abs(values["a"]) * self.dt / 1e3, 12
        if code == 66:
            values["a"], places["A"] = self.number(1e-2, 1e5, 4), 6
        points: list[tuple[float, float]] = []
        if code == 56:
            at = -self.number(1, 1e5)
            for _ in range(pick.randint(2, 12)):
                points.append((float(f"{at:.9g}"), self.signed(1e-3, 1e6)))
                at += self.number(1, 1e4)
        if code == 57:
            at = 0.0
            for _ in range(pick.randint(1, 8)):
                close = at + self.number(1e-6, 1e-2, 4)
                at = close + self.number(1e-6, 1e-2, 4)
                points.append((close, at))
        self.device_call(code, name, given, values, names, points, group)
        numbers = {
            key: Number(values[key.lower()], first, first + 5, places[key])
            for key, first in (("A", 51), ("B", 57), ("C", 63))
        }
        kinds = ("close", "open", 12) if code == 57 else ("input", "output", 9)
        below = [
            Expected("point", {}, {kinds[0]: Number(x, 1, 16, kinds[2]), kinds[1]: Number(y, 17, 32, kinds[2])})
            for x, y in points
        ]
        named = {"NAME": name, "card": str(group), "code": str(code), "D": names["d"] or None, "E": names["e"] or None}
        self.extras.append(
            Expected("device", named | {"points": str(len(points))}, numbers, inputs=listed, below=below)
        )

    def device_call(self, code, name, given, values, names, points, group) -> None:
        """By its own method, where this says all that was picked, else by the common one."""
        control, a, d, e = self.case.control, values["a"], names["d"], names["e"]
        own: dict[int, tuple[str, dict]] = {
            51: ("gate", {"by": d, "above": a, "outside": True}),
            52: ("level_gate", {"by": d, "above": a, "outside": True}),
            53: ("delay", {"time_s": a}),
            54: ("delayed_pulse", {"time_s": a}),
            56: ("table", {"points": points}),
            57: ("window", {"times_s": points}),
            58: ("integral", {"run": d, "reset": e}),
            59: ("derivative", {}),
            60: ("selector", {"by": d, "at": a}),
            62: ("sample_hold", {"sample": d}),
            63: ("extreme", {"least": True}),
            64: ("peak_hold", {"least": True, "reset": d}),
            65: ("counter", {"reset": d}),
            66: ("effective", {"hz": a}),
        }
        if self.pick.random() < 0.5:
            control.device(code, name, given, **values, **names, points=points, group=group)
            return
        method, words = own[code]
        getattr(control, method)(name, given, **words, group=group)
        self.done[method] += 1
        # what the method doesn't say is 0 or nothing
        values |= {"b": 1.0 if code in (51, 52) else 0.0, "c": 0.0}
        values["a"] = -1.0 if code in (63, 64) else a if code in (51, 52, 53, 54, 60, 66) else 0.0
        names |= {"d": d if code in (51, 52, 58, 60, 62, 64, 65) else "", "e": e if code == 58 else ""}

    # ---- the whole

    METHODS = (
        *("series", "series", "line", "line3", "arrester", "reactor", "copy", "copy", "copy3"),
        *("switch", "switch", "poles", "measuring", "valve", "controlled"),
        *("step", "ramp", "cosine", "driven", "output"),
        *("control_source", "measured", "block", "formula", "device", "device", "control_output"),
    )

    def make(self) -> None:
        """Some cards of each kind in a random order; those that are refused are left out."""
        for _ in range(self.pick.choice([3, 10, 25, 40])):
            method = self.pick.choice(self.METHODS)
            before = vars(self.case._draft.contents).copy() | {"kept": self.case._draft.contents.copied()}
            try:
                getattr(self, method)()
                self.done[method] += 1
            except CaseError as fault:
                assert vars(self.case._draft.contents) == vars(
                    before["kept"]
                ), f"{method} left something behind: {fault}"
                self.done[f"refused {method}"] += 1
        self.close()

    def close(self) -> None:
        """Variables that are read and not there yet are made, and too many channels are asked for less."""
        for name in self.variables:
            if name not in self.case._draft.contents.variables:
                self.case.control.step(name, 2.5)
                self.control_sources.append(
                    self.control_expected(name, 11, None, {"amplitude": Number(2.5, 11, 20, 9)})
                )
        if self.pick.random() < 0.2 and self.case.nodes:
            self.case.output_all()
            self.done["output_all"] += 1


def fault_of(expected: Expected, line: listing.Line, cards: list[str]) -> str | None:
    """What of a record isn't listed as it was given."""
    if line.kind != expected.kind:
        return f"is a {line.kind}"
    for name, value in expected.named.items():
        if name != "asked" and line.name(name) != value:
            return f"{name} is {line.text(name)}, and {value!r} was given"
    ranges = {name: number.within(cards[0]) for name, number in expected.numbers.items()}
    ranges |= expected.made(cards) if expected.made else {}
    for name, (low, high) in ranges.items():
        value = line.exact(name)
        if name == "angle" and isinstance(value, Decimal):
            value += 360 * round((Decimal((low + high) / 2) - value) / 360)  # listed from 0 to 360 degrees
        unit = (
            1e-6
            if name.endswith(("impedance", " R")) or name == "R" and expected.made
            else 1e-12
            if expected.made
            else 0.0
        )
        if not isinstance(value, Decimal) or not low - unit <= float(value) <= high + unit:
            return f"{name} is {line.text(name)}, and {(low + high) / 2!r} was given"
    if missing := [word for word in expected.words if word not in line.words]:
        return f"has no {missing[0]}"
    if expected.inputs is not None and line.all("input") != expected.inputs:
        return f"has other inputs than {expected.inputs}"
    if expected.tree is not None and not same_tree(listing.tree_of(line), expected.tree):
        return f"is another formula than {expected.tree}"
    below = expected.below or []
    if expected.below is not None and len(below) != len(line.below):
        return f"has {len(line.below)} lines below it"
    for number, (own, found) in enumerate(zip(below, line.below), 1):
        # a block of order 0 has no cards of coefficients
        fault = fault_of(own, found, [""] if expected.named.get("order") == "0" else cards[number:])
        if fault:
            return f"{own.kind} {number} {fault}"
    return None


def same_tree(one: str | tuple, other: str | tuple) -> bool:
    """Two trees of a formula are the same, numbers to the last decimal that is kept."""
    if isinstance(one, tuple) and isinstance(other, tuple):
        return len(one) == len(other) and one[0] == other[0] and all(map(same_tree, one[1:], other[1:]))
    if isinstance(one, tuple) or isinstance(other, tuple):
        return False
    if other[0].isalpha():
        return one == other
    return abs(Decimal(one) - Decimal(other)) <= Decimal("5.1e-10")


def faults_of(maker: Maker, found: listing.Listing) -> list[str]:
    """What of a case isn't listed as it was given."""
    case, faults = maker.case, []
    texts = case.text(plain=True).split("\n")
    pairs: list[tuple[Expected, listing.Line, str]] = []
    branches = found.of("series branch", "line", "phase of a line", "nonlinear resistor", "nonlinear reactor")
    switches = found.of("time switch", "measuring switch", "valve", "controlled switch")
    sections = [
        (maker.branches, branches, "branch"),
        (maker.switches, switches, "switch"),
        (maker.sources, found.of("voltage source", "current source"), "source"),
        (maker.control_sources, found.of("control source"), "control source"),
        (maker.blocks, found.of("block"), "block"),
        (maker.extras, found.of("device", "formula"), "supplemental card"),
    ]
    for expected, lines, what in sections:
        if len(expected) != len(lines):
            faults.append(f"{len(lines)} of kind {what}, and {len(expected)} were given")
        pairs += [(one, line, f"{what} {number}") for number, (one, line) in enumerate(zip(expected, lines), 1)]
    for one, line, what in pairs:
        fault = fault_of(one, line, texts[(line.line or 1) - 1 :])
        faults += [f"{what} {fault}"] if fault else []
    faults += mode_faults(maker, found, branches, texts)
    faults += copy_faults(maker, found, branches)
    faults += head_faults(maker, found, texts)
    faults += channel_faults(maker, found)
    return faults


def mode_faults(maker: Maker, found: listing.Listing, branches: list[listing.Line], texts: list[str]) -> list[str]:
    faults = []
    modes = found.of("modes")
    firsts = sorted({first for first, _, _ in maker.modes})
    if [int(line.text("first branch")) for line in modes] != [first + 1 for first in firsts]:
        return ["the three-phase lines have other first branches"]
    for first, phase, expected in maker.modes:
        line = modes[firsts.index(first)]
        if expected.copies is not None:
            other, names = modes[firsts.index(expected.copies)], ("surge impedance", "R", "travel time")
            sequence = ("zero", "positive")[phase]
            if any(line[f"{sequence} {name}"] != other[f"{sequence} {name}"] for name in names):
                faults.append(f"three-phase line {firsts.index(first) + 1} hasn't the values that it copies")
        else:
            fault = fault_of(expected, line, texts[(branches[first].line or 1) - 1 :])
            faults += [f"modes of branch {first + 1} {fault}"] if fault else []
    return faults


def copy_faults(maker: Maker, found: listing.Listing, branches: list[listing.Line]) -> list[str]:
    """What each branch copies, and that it has the same values."""
    faults = []
    listed = {line.line: int(line.text("copies line")) for line in found.of("copies line")}
    given = {}
    for own, line in zip(maker.branches, branches):
        if own.copies is None:
            continue
        other = branches[own.copies]
        given[line.line] = other.line
        values = [
            [(e.name, e.text) for e in it.entries if e.name not in ("BUS1", "BUS2", "three-phase line")]
            for it in (line, other)
        ]
        if values[0] != values[1] or [it.entries for it in line.below] != [it.entries for it in other.below]:
            faults.append(f"line {line.line} hasn't the values of line {other.line}")
    return faults if listed == given else [*faults, f"copies {listed}, and {given} were given"]


def head_faults(maker: Maker, found: listing.Listing, texts: list[str]) -> list[str]:
    run, first, second = found.one("run"), found.one("first miscellaneous card"), found.one("second miscellaneous card")
    expected = [
        (run, "DELTAT", Number(maker.dt, 1, 8, 12), first.line),
        (first, "TMAX", Number(maker.end, 9, 16, 12), first.line),
        (
            run,
            "tolerance",
            Number(0.01 if maker.tolerance is None else maker.tolerance, 25, 32, 9),
            (first.line or 2) - 1,
        ),
    ]
    faults = []
    for line, name, number, at in expected:
        low, high = number.within("" if maker.tolerance is None and name == "tolerance" else texts[(at or 1) - 1])
        if not low <= float(line[name]) <= high:
            faults.append(f"{name} is {line.text(name)}, and {number.value} was given")
    if (int(run.text("IPLOT")), int(second.text("IOUT"))) != (maker.every, maker.iout):
        faults.append("IPLOT or IOUT is another one")
    if int(run.text("steps").split(" ")[0]) != maker.case.steps:
        faults.append(f"steps are {run.text('steps')}, and the case says {maker.case.steps}")
    return faults


def channel_faults(maker: Maker, found: listing.Listing) -> list[str]:
    """The channels of the record are those that the case names, and those of branches and switches what was asked."""
    names = [line.text("name") for line in found.of("channel")]
    case = maker.case
    asked = list(maker.channels)
    states = []
    for own in maker.switches:
        ends, ask = f"{own.named['BUS1'] or '0'}-{own.named['BUS2'] or '0'}", own.named["asked"] or ""
        asked += [f"{letter} {ends}" for key, letter in (("i", "I"), ("u", "U")) if key in ask]
        states += [f"S {ends}"] if ask else []
    form = case._form(plain=True)
    own, own_states = [channel.own for channel in form.channels], [name for name, _ in form.states]
    faults = [] if names == own + own_states else [f"channels {names}, and the case names {own}"]
    if [name for name in own if name[0] in "IU"] != asked or own_states != states:
        faults.append("the case names other currents and voltages of branches than were asked for")
    return faults


def tried(seed: int) -> tuple[Maker, list[str]]:
    """The case of a seed, and what of it isn't listed as it was given."""
    maker = Maker(seed)
    maker.make()
    try:
        return maker, faults_of(maker, maker.case.show(plain=True))
    except Refused as fault:
        return maker, [str(fault)]
    except CaseError as fault:  # too many channels, or no node
        maker.done[f"refused case: {fault.words.lstrip('0123456789 ')[:24]}"] += 1
        return maker, []


def main(words: list[str]) -> int:
    parser = argparse.ArgumentParser(prog="python3 -m tests.roundtrip", description=(__doc__ or "").splitlines()[0])
    parser.add_argument("count", type=int, help="how many cases")
    parser.add_argument("first", type=int, nargs="?", default=1, help="the seed of the first one")
    parser.add_argument("--methods", action="store_true", help="say how often each method wrote a card or refused to")
    given = parser.parse_args(words)
    done: collections.Counter[str] = collections.Counter()
    bad = 0
    for seed in range(given.first, given.first + given.count):
        maker, faults = tried(seed)
        done += maker.done
        bad += bool(faults)
        for fault in faults[:3]:
            print(f"seed {seed}: {fault}")
    for name, number in sorted(done.items()) if given.methods else []:
        print(f"{number:7} {name}")
    print(f"tests.roundtrip: {given.count} cases, {bad} of them not listed as they were given")
    return 1 if bad else 0


if __name__ == "__main__":
    sys.exit(main(sys.argv[1:]))
