"""The cards of the network: branches, switches, sources, outputs. docs/cards.md has what each of them means."""

import math
import typing
from decimal import Decimal

from . import columns, fields, inductance, line_values
from .columns import Card
from .draft import Asked, Branch, CaseError, Contents, Draft, Source, Switch, Written, joined, writes
from .fields import Fitted
from .inductance import LEAST_OHM, MOST_OHM, Inductance

ASKED = {"": 0, "i": 1, "u": 2, "iu": 3, "ui": 3}
MOST_NODES, MOST_BRANCHES, MOST_SWITCHES, MOST_SOURCES, MOST_POINTS = 1000, 5000, 500, 500, 64
NEVER_V = 1e9  # the ignition voltage of a valve that never closes: no voltage of a run passes it
Number = float | Decimal
Points = typing.Sequence[tuple[Number, Number]]
Three = typing.Sequence[str]
Ends = tuple[str, str]


class Network:
    """Writes the cards of the network.

    `a` and `b` are names of nodes, of six characters at most; ground is the empty name. `ask` is what of a branch or
    a switch the record has: "i" its current from a to b, "u" its voltage, "iu" both; of a switch its state besides.
    """

    _draft: Draft

    # ---- branches

    @writes
    def series(
        self,
        a: str,
        b: str = "",
        *,
        r_ohm: float = 0.0,
        l_mh: float = 0.0,
        c_uf: float = 0.0,
        peak_a: float | None = None,
        form: str | None = None,
        like: Ends | None = None,
        ask: str = "",
    ) -> None:
        """Resistance, inductance and capacitance in series, of which each may be absent.

        An inductance is written as a series branch where that keeps a current to 1e-4 over the run and has the range for
        `peak_a`, the greatest current to come in A (100 kA without it), else by its flux, as a reactor of one point,
        which `told` says; `form` is "plain" or "flux" where it shan't be chosen. A capacitance of which a single branch
        would be off by more than 1e-5 is written as several side by side. Nodes that this takes have names of their
        own; channels are named by a and b all the same. `like` are the ends of an earlier series branch whose values
        are taken. Ranges: 0 to 1e9 ohm, 0 to 1e9 mH, 0 to 1e6 uF.
        """
        if like is not None:
            self._without(r_ohm=r_ohm, l_mh=l_mh, c_uf=c_uf, peak_a=peak_a or 0.0)
            self._series_copy(a, b, like, ask)
            return
        if form not in (None, "plain", "flux"):
            raise CaseError(f"form is 'plain' or 'flux', and here {form!r}")
        self._series(a, b, (r_ohm, l_mh, c_uf), ask, peak_a, form)

    def _series(
        self, a: str, b: str, values: tuple[float, float, float], ask: str, peak_a: float | None, form: str | None
    ) -> None:
        """One series branch of these R, L and C, in the form that serves it."""
        ends = self._ends(a, b)
        draft, name = self._draft, joined(ends)
        kind, fitted = self._series_values(values, name)
        kept = r, l, c = fitted[0].kept, fitted[1].kept, fitted[2].kept
        fields.exact(inductance.PEAK_A if peak_a is None else peak_a, "peak_a")
        found = None
        if l:
            found = inductance.judged(name, draft.dt_ps, draft.steps, kept, peak_a or inductance.PEAK_A, form)
            draft.contents.inductances.append(found)
        by_flux = found is not None and found.form == "flux"
        if by_flux and not c and 0 < r < LEAST_OHM:  # a branch of its own would be below the least impedance
            draft.tell(
                f"{name}: its R, {values[0]:g} ohm, is left out beside the inductance, since it is below 1e-5 ohm"
            )
            values, kept, r = (0.0, *values[1:]), (0, l, c), 0
        if by_flux and not inductance.has_slope(draft.dt_ps, l):
            raise CaseError(
                f"dt / (2 L) of {values[1]:g} mH has to lie from 1e-12 to 1e5 S with a step of {draft.dt:g} s"
            )
        z = inductance.impedance(draft.dt_ps, r, 0 if by_flux else l, c)
        if not (LEAST_OHM <= z <= MOST_OHM or by_flux and z == 0):
            raise CaseError(
                f"R + 2 L / dt + dt / (2 C) is {z / 1e6:g} ohm with a step of {draft.dt:g} s, "
                "and has to lie from 1e-5 to 1e9 ohm"
            )
        texts = {it: fit.text if fit.kept else "" for it, fit in zip("RLC", fitted)}
        cards = [draft.written(kind, self._bus(ends) | texts | asking(ask))]
        given = dict(values=values, peak_a=peak_a, form=form)
        instead = self._instead(ends, values, kept, ask, found if by_flux else None)
        barred = ""
        if inductance.impedance(draft.dt_ps, *kept) > MOST_OHM:
            barred = (
                f"{name}: as a series branch, which steady(), scan() and plain=True take, {found.why if found else ''}"
            )
        self._branch("series", ends, ask, cards, l_mh=values[1], given=given, instead=instead, barred=barred)

    def _instead(
        self,
        ends: Ends,
        values: tuple[float, float, float],
        kept: tuple[int, int, int],
        ask: str,
        flux: Inductance | None,
    ) -> Contents | None:
        """What stands for a series branch where one card isn't exact enough: a reactor, what is left of the branch, and
        pieces of its capacitance, one behind the other; the first of them has the current, an open valve the voltage.
        """
        (r, l, c), draft = kept, self._draft
        parts = inductance.pieces(draft.dt_ps, c) if c else []
        if c and (left := inductance.off(draft.dt_ps, parts, c)) > 10 * inductance.OFF:
            draft.tell(
                f"{joined(ends)}: {values[2]:g} uF are {100 * float(left):.3g} % off, by dt / (2 C) in whole micro-ohm"
            )
        single = c if len(parts) < 2 else 0
        rest = (values[0] if r else 0.0, values[1] if l and not flux else 0.0, values[2] if single else 0.0)
        links = [name for name, there in (("flux", flux), ("rest", any(rest)), ("pieces", parts[1:])) if there]
        if links == ["rest"]:
            return None
        with draft.aside() as aside:
            nodes = [ends[0], *(draft.unused("L.") for _ in links[1:]), ends[1]]
            for place, (link, own) in enumerate(zip(links, zip(nodes, nodes[1:]))):
                asked = "i" * (place == 0 and "i" in ask) + "u" * (len(links) == 1 and "u" in ask)
                if link == "flux":
                    amperes, webers = (Decimal(it.numerator) / it.denominator for it in inductance.point(l))
                    self._nonlinear("reactor", "98", *own, [(amperes, webers)], None, asked)
                elif link == "rest":
                    self._plain(own, rest, asked)
                else:
                    self._side_by_side(own, parts, asked)
            for branch in aside.branches:
                branch.asked_as = ends
            if "u" in ask and len(links) > 1:
                self._watched(ends)
        made = f"; made for it: {', '.join(nodes[1:-1])}" if links[1:] else ""
        if flux:
            draft.tell(f"{flux}{made}")
        if parts[1:]:
            draft.tell(
                f"{joined(ends)}: {values[2]:g} uF stand as {len(parts)} capacitances side by side, since dt / (2 C) in "
                f"whole micro-ohm is that of {100 * float(inductance.off(draft.dt_ps, [c], c)):.2g} % another one"
                + (made if not flux else "")
            )
        return aside

    def _plain(self, ends: Ends, values: tuple[Number, Number, Number], ask: str) -> None:
        """A series branch of one card."""
        kind, fitted = self._series_values(values, joined(ends))
        texts = {it: fit.text if fit.kept else "" for it, fit in zip("RLC", fitted)}
        self._branch("series", ends, ask, [self._draft.written(kind, self._bus(ends) | texts | asking(ask))])

    def _side_by_side(self, ends: Ends, parts: list[int], ask: str) -> None:
        """Capacitances of so many fF between two nodes; of the first one's current theirs is a fixed multiple."""
        for place, part in enumerate(parts):
            c_uf = Decimal(part).scaleb(-9)
            self._plain(ends, (0.0, 0.0, c_uf), ask if place == 0 else "")
        self._draft.contents.branches[-len(parts)].factor = sum(parts) / parts[0]

    def _watched(self, ends: Ends) -> None:
        """A valve that never closes, for the voltage between two nodes."""
        texts = {"type": "11"} | self._bus(ends) | asking("u")
        texts["ignition"] = self._draft.number(columns.VALVE, "ignition", NEVER_V, joined(ends)).text
        self._switch(Switch("valve", ends, ASKED["u"], self._draft.written(columns.VALVE, texts), made=True))

    def _series_values(self, values: tuple[Number, Number, Number], name: str) -> tuple[Card, list[Fitted]]:
        """The fields of R, L and C: narrow ones where these hold the values whole with a blank between them, else wide
        ones."""
        try:
            narrow = [fields.fitted(value, columns.SERIES.field(it), 5) for it, value in zip("RLC", values)]
            if all(it.loss == 0 for it in narrow):
                return columns.SERIES, narrow
        except fields.FieldError:
            pass  # judged by the wide fields
        return columns.WIDE, [self._draft.number(columns.WIDE, it, value, name) for it, value in zip("RLC", values)]

    def _series_copy(self, a: str, b: str, like: Ends, ask: str) -> None:
        copied = self._copied("series", like)
        ends = self._ends(a, b)
        card = self._draft.written(columns.SERIES, self._bus(ends) | copying(like) | asking(ask))
        if copied.instead is None:
            self._branch("series", ends, ask, [card], l_mh=copied.l_mh, given=copied.given)
        else:
            self._series(a, b, copied.given["values"], ask, copied.given["peak_a"], copied.given["form"])
            self._draft.contents.branches[-1].cards = [card]  # of the plain form

    @writes
    def line(
        self,
        a: str,
        b: str,
        *,
        length: float = 1.0,
        r_ohm: float = 0.0,
        l_mh: float | None = None,
        c_uf: float | None = None,
        zc_ohm: float | None = None,
        velocity: float | None = None,
        tau_us: float | None = None,
        like: Ends | None = None,
        ask: str = "",
    ) -> None:
        """A line of one phase, given by l_mh and c_uf, by zc_ohm and velocity, or by zc_ohm and tau_us.

        `r_ohm`, `l_mh` and `c_uf` are those of a unit of length, whichever unit `length` has; `velocity` is in
        lengths a second; `tau_us` is the travel time of the whole line in us, at least a time step. `like` are the
        ends of an earlier line, or of the first phase of a three-phase line, whose values are taken.
        """
        ends = self._ends(a, b)
        mode = dict(length=length, r_ohm=r_ohm, l_mh=l_mh, c_uf=c_uf, zc_ohm=zc_ohm, velocity=velocity, tau_us=tau_us)
        given = {key: value for key, value in mode.items() if value is not None}
        card, steps = self._mode("-1", ends, given if like is None else self._like(given, like), ask)
        self._branch("line", ends, ask, [card], steps=steps)

    @writes
    def line3(
        self,
        a: Three,
        b: Three,
        *,
        length: float = 1.0,
        zero: typing.Mapping[str, typing.Any] | None = None,
        positive: typing.Mapping[str, typing.Any] | None = None,
        like: tuple[Three, Three] | None = None,
        ask: str | Three = "",
    ) -> None:
        """A transposed line of three phases, from the nodes a[0], a[1], a[2] to b[0], b[1], b[2].

        `zero` and `positive` are the values of the two sequences: each a mapping with the words of `line` (r_ohm with
        l_mh and c_uf, zc_ohm and velocity, or zc_ohm and tau_us; `length` where it isn't the common one; or `like`
        alone). `like` are the ends of an earlier three-phase line, as (a, b), whose values are taken. `ask` is one
        text for all phases, or three.
        """
        a, b, asks = (
            three_names(a, "a"),
            three_names(b, "b"),
            [ask] * 3 if isinstance(ask, str) else three_names(ask, "ask"),
        )
        if like is not None:
            if zero is not None or positive is not None:
                raise CaseError("a line that copies has no values of its own: give like, or zero and positive")
            others = three_names(like[0], "like[0]"), three_names(like[1], "like[1]")
            zero, positive = ({"like": (others[0][k], others[1][k])} for k in (0, 1))
        if zero is None or positive is None:
            raise CaseError("a three-phase line has the values of two sequences: give zero and positive")
        ends = [self._ends(one, other) for one, other in zip(a, b)]
        cards, steps = [], []
        for phase, (name, values) in enumerate((("zero", zero), ("positive", positive))):
            values = dict(values)
            where = values.pop("like", None)
            given = {"length": length} | values if where is None else self._like(values, where)
            card, own = self._mode(("-1", "-2")[phase], ends[phase], given, asks[phase], f"{name} sequence: ")
            cards.append(card)
            steps.append(own)
        texts = {"type": "-3"} | self._bus(ends[2]) | asking(asks[2])
        cards.append(self._draft.written(columns.LINE, texts))
        for kind, own, asked, card, count in zip(("line", "second", "third"), ends, asks, cards, [*steps, 0]):
            self._branch(kind, own, asked, [card], steps=count)

    def _mode(self, kind: str, ends: Ends, given: dict, ask: str, what: str = "") -> tuple[Written, int]:
        """The card -1 or -2 of these values, and the whole steps of its travel time."""
        texts = {"type": kind} | self._bus(ends) | asking(ask)
        if "like" in given:
            copied = self._copied("line" if kind == "-1" else "second", given["like"])
            return self._draft.written(columns.LINE, texts | copying(given["like"])), copied.steps
        unknown = given.keys() - {"length", "r_ohm", "l_mh", "c_uf", "zc_ohm", "velocity", "tau_us"}
        if unknown:
            raise CaseError(f"{what}a line has no {', '.join(sorted(unknown))}")
        values = {key: value for key, value in given.items() if key not in ("length", "r_ohm")}
        forms = {
            frozenset(["l_mh", "c_uf"]): 0,
            frozenset(["zc_ohm", "velocity"]): 1,
            frozenset(["zc_ohm", "tau_us"]): 2,
        }
        iline = forms.get(frozenset(values))
        if iline is None:
            raise CaseError(
                f"{what}a line is given by l_mh and c_uf, by zc_ohm and velocity, or by zc_ohm and tau_us, "
                f"and here by {' and '.join(values) or 'nothing'}"
            )
        fitted, iline = self._line_fields(iline, given, what, joined(ends))
        steps = self._judged_line(iline, *(it.kept for it in fitted.values()), what)
        texts |= {key: it.text for key, it in fitted.items() if it.kept} | {"ILINE": str(iline) if iline else ""}
        return self._draft.written(columns.LINES[iline], texts), steps

    def _line_fields(self, iline: int, given: dict, what: str, name: str) -> tuple[dict[str, Fitted], int]:
        """R, A, B and length of a line, by their fields in this order, and its ILINE: as they are given where their columns
        hold that, else with the length in a unit that keeps surge impedance and travel time better."""
        card = columns.LINES[iline]
        first = given["l_mh"] if iline == 0 else given["zc_ohm"]
        second = (given.get("c_uf"), given.get("velocity"), given.get("tau_us"))[iline]
        if iline == 2:
            second = fields.exact(second, "tau_us").scaleb(-6)
        names = ["R", *(field.name for field in columns.LINE_VALUES[iline]), "length"]
        values = [given.get("r_ohm", 0.0), first, second, given.get("length", 1.0)]
        r, one, other, length = (float(fields.exact(value, key)) for key, value in zip(names, values))
        if not (r >= 0 and min(one, other, length) > 0):
            return {key: self._draft.number(card, key, value, what + name) for key, value in zip(names, values)}, iline
        surge, travel = line_values.of_fields(iline, one, other, length)
        own = None
        try:
            fitted = {key: fields.roomy(value, card.field(key)) for key, value in zip(names, values)}
            own = line_values.made(iline, fitted, surge, travel, r * length)
        except fields.FieldError:
            pass  # a digit too many for six columns, or a range, which is judged below
        if own is None or own.cost > fields.KEEPS:
            other_unit = line_values.best(surge, travel, r * length)
            if other_unit is not None and (own is None or other_unit.cost < own.cost):
                lost = other_unit.surge, other_unit.travel, other_unit.resistance
                self._draft.contents.lines.append(line_values.Rescaled(name, *lost))
                return {key: other_unit.fields[key] for key in ("R", *list(other_unit.fields)[:3])}, other_unit.iline
        return {key: self._draft.number(card, key, value, what + name) for key, value in zip(names, values)}, iline

    def _judged_line(self, iline: int, r: int, first: int, second: int, length: int, what: str) -> int:
        """The whole steps of the travel time of a line of these kept values; what is out of its range is refused."""
        total = r * length / 1e6  # micro-ohm
        if iline == 0:
            zc = math.sqrt(first / second * 1e6) * 1e6  # nH over fF
            tau = length * math.sqrt(first * 1e-9 * second * 1e-15) * 1e6  # ps
        else:
            zc, tau = first, length / second * 1e12 if iline == 1 else second
        if not (LEAST_OHM * (1 - 1e-9) <= zc and zc + total / 4 <= MOST_OHM * (1 + 1e-9)):
            raise CaseError(f"{what}the surge impedance, {zc / 1e6:g} ohm, has to lie from 1e-5 to 1e9 ohm")
        if tau < self._draft.dt_ps * (1 - 1e-9) - 1:
            raise CaseError(
                f"{what}the travel time, {tau / 1e6:g} us, is below the time step, {self._draft.dt_ps / 1e6:g} us"
            )
        if total / 4 > zc:
            self._draft.tell(
                f"{what}a quarter of the resistance, {total / 4e6:g} ohm, is above the surge impedance, {zc / 1e6:g} ohm: "
                "waves turn their sign on the way; cut the line into shorter ones"
            )
        return int(tau // self._draft.dt_ps)

    @writes
    def reactor(self, a: str, b: str = "", *, points: Points = (), like: Ends | None = None, ask: str = "") -> None:
        """A nonlinear reactor: 1 to 64 points of current in A and flux in Wb, both rising strictly.

        The characteristic is odd, goes straight from point to point, from the origin to the first one, and on beyond
        the last. `like` are the ends of an earlier one whose points are taken.
        """
        self._nonlinear("reactor", "98", a, b, points, like, ask)

    def _nonlinear(self, kind: str, type_: str, a: str, b: str, points: Points, like: Ends | None, ask: str) -> None:
        ends = self._ends(a, b)
        texts = {"type": type_} | self._bus(ends) | asking(ask)
        if like is not None:
            if len(points):
                raise CaseError("a branch that copies has no points of its own: give like or points")
            self._copied(kind, like)
            self._branch(kind, ends, ask, [self._draft.written(columns.NONLINEAR, texts | copying(like))])
            return
        cards = [self._draft.written(columns.NONLINEAR, texts), *self._characteristic(kind, points)]
        self._branch(kind, ends, ask, cards)

    def _characteristic(self, kind: str, points: Points) -> list[Written]:
        """The cards of the points of a characteristic, and the one that ends them."""
        card, other, scale = (columns.POINT, "voltage", 9) if kind == "resistor" else (columns.FLUX_POINT, "flux", 12)
        kept = self._draft.pairs(card, ("current", other), points, 1, MOST_POINTS)
        before = (0, 0)
        for number, (now, _) in enumerate(kept, 1):
            if not (now[0] > before[0] and now[1] > before[1]):
                raise CaseError(f"point {number}: current and {other} have to rise from point to point")
            ratio = (now[1] - before[1]) / (now[0] - before[0]) * 10.0 ** (9 - scale)  # ohm or H
            if kind == "resistor" and not 1e-5 * (1 - 1e-6) <= ratio <= 1e9 * (1 + 1e-6):
                raise CaseError(f"point {number}: the slope, {ratio:g} ohm, has to lie from 1e-5 to 1e9 ohm")
            if kind == "reactor" and not 1e-12 * (1 - 1e-6) <= self._draft.dt / 2 / ratio <= 1e5 * (1 + 1e-6):
                slope = self._draft.dt / 2 / ratio
                raise CaseError(f"point {number}: dt / 2 over the slope, {slope:g} S, has to lie from 1e-12 to 1e5 S")
            before = now
        return [written for _, written in kept] + [self._draft.ending()]

    # ---- switches

    @writes
    def switch(
        self,
        a: str,
        b: str = "",
        *,
        close_s: float | None = None,
        open_s: float | None = None,
        margin_a: float = 0.0,
        ask: str = "",
    ) -> Switch:
        """A time switch: it closes at `close_s`, and is closed from the start without it.

        From `open_s` on, never without it, it opens at the next zero of its current, or where the current is at most
        `margin_a`. Answers the switch, to which `tied` ties others.
        """
        return self._time_switch(self._ends(a, b), close_s, open_s, margin_a, ask)

    def _time_switch(
        self, ends: Ends, close_s: float | None, open_s: float | None, margin_a: float, ask: str
    ) -> Switch:
        name = joined(ends)
        closing = -1.0 if close_s is None else close_s
        texts = self._bus(ends) | asking(ask)
        texts["T-CLOSE"] = self._draft.number(columns.SWITCH, "T-CLOSE", closing, name).text
        if open_s is not None:
            texts["T-OPEN"] = self._draft.number(columns.SWITCH, "T-OPEN", open_s, name).text
        margin = self._draft.number(columns.SWITCH, "margin", margin_a, name)
        texts["margin"] = margin.text if margin.kept else ""
        card = self._draft.written(columns.SWITCH, texts)
        return self._switch(Switch("time", ends, ASKED[ask], card, close_s=float(closing), open_s=open_s))

    @writes
    def measuring(self, a: str, b: str = "", *, ask: str = "i") -> None:
        """A switch that is always closed: it joins its nodes, and measures the current between them."""
        ends = self._ends(a, b)
        card = self._draft.written(columns.SWITCH, self._bus(ends) | {"word": "MEASURING"} | asking(ask))
        self._switch(Switch("measuring", ends, ASKED[ask], card))

    @writes
    def valve(
        self,
        a: str,
        b: str = "",
        *,
        ignition_v: float = 0.0,
        holding_a: float = 0.0,
        control: str = "",
        ask: str = "",
    ) -> None:
        """A valve from a to b: it closes where its voltage is above 0 and at least `ignition_v` and its control, if
        it has one, is above 0; it opens where its current is below `holding_a`."""
        ends = self._ends(a, b)
        texts = {"type": "11"} | self._bus(ends) | asking(ask) | self._control(control)
        for field, value in (("ignition", ignition_v), ("holding", holding_a)):
            found = self._draft.number(columns.VALVE, field, value, joined(ends))
            texts[field] = found.text if found.kept else ""
        self._switch(Switch("valve", ends, ASKED[ask], self._draft.written(columns.VALVE, texts), control))

    @writes
    def controlled(self, a: str, b: str = "", *, control: str, ask: str = "") -> None:
        """A switch that is closed exactly where the variable `control` was above 0 in the step before."""
        ends = self._ends(a, b)
        if not control:
            raise CaseError("a controlled switch has a control: the name of a variable")
        card = self._draft.written(
            columns.VALVE, {"type": "13"} | self._bus(ends) | self._control(control) | asking(ask)
        )
        self._switch(Switch("controlled", ends, ASKED[ask], card, control))

    def _control(self, name: str) -> dict[str, str]:
        return {"control": fields.named(name, columns.VALVE.field("control"))} if name else {}

    def _switch(self, switch: Switch) -> Switch:
        self._draft.bounded(self._draft.contents.switches, MOST_SWITCHES, "switches")
        self._draft.contents.switches.append(switch)
        self._seen(switch.ends)
        return switch

    # ---- sources

    @writes
    def step(
        self,
        node: str,
        *,
        amplitude_v: float | None = None,
        amplitude_a: float | None = None,
        start_s: float = 0.0,
        stop_s: float | None = None,
    ) -> None:
        """A source of constant amplitude from `start_s` to `stop_s`: of voltage, or of current into its node."""
        self._source(11, node, amplitude_v, amplitude_a, start_s, stop_s)

    @writes
    def ramp(
        self,
        node: str,
        *,
        rise_s: float,
        amplitude_v: float | None = None,
        amplitude_a: float | None = None,
        start_s: float = 0.0,
        stop_s: float | None = None,
    ) -> None:
        """A source that rises straight to its amplitude within `rise_s` from `start_s` on, and stays there."""
        rise = self._draft.number(columns.with_fields(columns.SOURCE, columns.RISE), "T0", rise_s, node)
        self._source(12, node, amplitude_v, amplitude_a, start_s, stop_s, {"T0": rise.text})

    @writes
    def cosine(
        self,
        node: str,
        *,
        hz: float,
        amplitude_v: float | None = None,
        amplitude_a: float | None = None,
        phase_deg: float = 0.0,
        start_s: float = 0.0,
        stop_s: float | None = None,
    ) -> None:
        """A source of crest amplitude_v or amplitude_a times cos(2 pi hz t + phase), t from the start of the case.

        Every case starts at rest: `smooth_cosine` rises slowly, and rings less.
        """
        self._draft.sampled(node, hz)
        texts = {
            "frequency": self._draft.number(columns.SOURCE, "frequency", hz, node).text,
            "phase": self._draft.number(columns.SOURCE, "phase", phase_deg, node).text,
        }
        self._source(14, node, amplitude_v, amplitude_a, start_s, stop_s, texts)

    @writes
    def driven(self, node: str, *, current: bool = False, start_s: float = 0.0, stop_s: float | None = None) -> None:
        """A source whose value is the variable of the node's name in the control, in the step before: V, or A with
        `current`."""
        self._source(60, node, None if current else 0.0, 0.0 if current else None, start_s, stop_s)

    def _source(
        self,
        kind: int,
        node: str,
        amplitude_v: float | None,
        amplitude_a: float | None,
        start_s: float,
        stop_s: float | None,
        texts: dict[str, str] | None = None,
    ) -> None:
        if (amplitude_v is None) == (amplitude_a is None):
            raise CaseError("a source has amplitude_v, as a voltage source, or amplitude_a, as a current source")
        current = amplitude_v is None
        card = columns.CURRENT_SOURCE if current else columns.SOURCE
        card = columns.with_fields(card, columns.RISE) if kind == 12 else card
        fields.named(node, card.field("name"))
        contents = self._draft.contents
        if not current and any(it.name == node and not it.current for it in contents.sources):
            raise CaseError(f"{node} has a voltage source already")
        own = (
            {"type": str(kind), "name": node, "kind": "-1" if current else ""}
            | (texts or {})
            | self._draft.times(start_s, stop_s, node)
        )
        if kind != 60:
            own["amplitude"] = self._draft.number(card, "amplitude", amplitude_a if current else amplitude_v, node).text
        self._draft.bounded(contents.sources, MOST_SOURCES, "sources")
        contents.sources.append(Source(kind, node, current, self._draft.written(card, own)))

    # ---- outputs

    @writes
    def output(self, *nodes: str) -> None:
        """The voltages of these nodes are channels of the record, `V NODE`, in this order."""
        self._draft.ask(self._draft.contents.outputs, nodes)

    @writes
    def output_all(self) -> None:
        """The voltages of all nodes are channels of the record."""
        self._draft.contents.outputs.append(Asked((), self._draft.written(columns.OUTPUT, {"type": "1"})))

    # ---- what several cards have

    def _ends(self, a: str, b: str) -> Ends:
        """The two ends of a branch or a switch, which differ."""
        for name in (a, b):
            if name != "":
                self._draft.free(fields.named(name, columns.SERIES.field("BUS1")))
        if a == b:
            raise CaseError(f"both ends are {a or 'ground'}")
        return a, b

    def _bus(self, ends: Ends) -> dict[str, str]:
        return {"BUS1": ends[0], "BUS2": ends[1]}

    def _branch(self, kind: str, ends: Ends, ask: str, cards: list[Written], **more: typing.Any) -> Branch:
        self._draft.bounded(self._draft.contents.branches, MOST_BRANCHES, "branches")
        found = Branch(kind, ends, ASKED[ask], cards, **more)
        self._draft.contents.branches.append(found)
        self._seen(ends)
        return found

    def _seen(self, ends: Ends) -> None:
        """The nodes of a card; there is room for them."""
        for name in ends:
            if name == "0":
                self._draft.tell("the node 0 is not ground, which is the empty name")
            if name and name not in self._draft.contents.nodes:
                self._draft.bounded(self._draft.contents.nodes, MOST_NODES, "nodes")
                self._draft.contents.nodes[name] = None

    def _copied(self, kind: str, like: Ends) -> Branch:
        """The first branch of this kind between these ends in this order, whose values a card takes."""
        if len(like) != 2 or not any(like):
            raise CaseError("like has the two ends of an earlier branch, of which one may be ground")
        found = [it for it in self._draft.contents.branches if it.kind == kind and it.ends == tuple(like)]
        if not found:
            raise CaseError(
                f"like: no earlier branch of this type goes from {like[0] or 'ground'} to {like[1] or 'ground'}"
            )
        return found[0]

    def _like(self, given: dict, like: Ends) -> dict:
        """What a line that copies is given; it has no values of its own."""
        self._without(
            **{key: value for key, value in given.items() if (key, value) not in (("length", 1.0), ("r_ohm", 0.0))}
        )
        return {"like": like}

    def _without(self, **values: float) -> None:
        """A branch that copies has none of these."""
        given = [key for key, value in values.items() if value]
        if given:
            raise CaseError(f"a branch that copies has no values of its own: give like, or {' and '.join(given)}")


def three_names(names: Three, what: str) -> list[str]:
    if isinstance(names, str) or len(names) != 3:
        raise CaseError(f"{what} has three names, and here {names!r}")
    return list(names)


def asking(ask: str) -> dict[str, str]:
    if not isinstance(ask, str) or ask not in ASKED:
        raise CaseError(f"ask is '', 'i' for the current, 'u' for the voltage or 'iu' for both, and here {ask!r}")
    return {"asked": str(ASKED[ask]) if ask else ""}


def copying(like: Ends) -> dict[str, str]:
    return {"BUS3": like[0], "BUS4": like[1]}
