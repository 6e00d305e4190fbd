"""Arresters whose peaks can be read: a filtered channel beside the chain of segments, and the exact arrester behind a line
of one step.

The machine's nonlinear resistor stands on one segment for a whole step, so on a steep wave its voltage is above its
characteristic for some steps. The filter is the voltage while the point lies on the characteristic, else 0. A line whose
travel time is one step parts the arrester from its node: what arrives at its end in the next step is known before, and a
current source there has the current that the characteristic has with it, without segments.

Source: this project's own (docs/modelling.md, "Arresters").
"""

import typing
from dataclasses import dataclass

import numpy as np

from . import columns, fields, form
from .control import Control
from .draft import Branch, CaseError, Contents, Written, joined, writes
from .network import ASKED, Ends, Network, Points, Three, asking, copying, three_names

PART = 0.005  # of the first point's voltage: how far off the characteristic a point may lie
MOST_EXACT_S = 1e-6  # the longest step of an exact arrester
MOST_LEAD_UH = 20.0  # what leads of arresters have at most
MOST_STRAY_NF = 0.1  # what arresters have to ground
MOST_POINTS = 30  # of a characteristic, both sides of it and a last point in a table of 64
BEYOND = 5.0  # times the last voltage: up to where a characteristic goes on beyond its last point in a table
MOST_V = 9e8


@dataclass(frozen=True)
class Off:
    """An arrester in a record: how many samples lie off its characteristic, the farthest one's distance in V, and the
    greatest voltages of all samples and of those that lie on it."""

    name: str
    samples: int
    by_v: float
    recorded_v: float
    on_v: float

    def __str__(self) -> str:
        return (
            f"OFF {self.samples} of the arrester {self.name}: so many samples lie off its characteristic, by up to "
            f"{self.by_v / 1e3:.4g} kV; greatest voltage recorded {self.recorded_v / 1e3:.5g} kV, on the characteristic "
            f"{self.on_v / 1e3:.5g} kV"
        )


class SurgeArresters(Network):
    """Writes arresters."""

    control: Control

    @writes
    def arrester(
        self,
        a: str,
        b: str = "",
        *,
        points: Points = (),
        near_uf: float | None = None,
        lead_uh: float | None = None,
        zs_ohm: float | None = None,
        filtered: bool = True,
        energy: bool = False,
        like: Ends | None = None,
        ask: str = "",
    ) -> None:
        """A nonlinear resistor: 1 to 64 points of current in A and voltage in V, both rising strictly.

        The characteristic is odd, goes straight from point to point, from the origin to the first one, and on beyond
        the last. `like` are the ends of an earlier one whose points are taken.

        To ground it has a channel `T ON1` besides (ON2 .. of further ones), the voltage while the point lies on the
        characteristic, which `batch` takes for its peaks; not with `filtered=False`. With `near_uf`, the capacitance that
        stands at `a`, with `lead_uh`, the inductance before the arrester, or with `zs_ohm`, the surge impedance of the
        line that ends here, it is exact, for steps up to 1 us and 30 points: these are then the line of one step before
        it, and written by this call alone. `energy` gives a channel `T KJ1`, the energy in kJ.
        """
        ends, moves = self._ends(a, b), False
        if like is not None:
            if len(points):
                raise CaseError("a branch that copies has no points of its own: give like or points")
            copied = self._copied("resistor", like)
            points, moves = copied.given["points"], bool(copied.beside or copied.instead)
        self._characteristic("resistor", points)  # judged before anything is made of them
        given = {"points": tuple(points)}
        stub = [it for it in (near_uf, lead_uh, zs_ohm) if it is not None]
        if len(stub) > 1 or any(not fields.exact(it, "near_uf, lead_uh or zs_ohm") > 0 for it in stub):
            raise CaseError("near_uf, lead_uh and zs_ohm have to be above 0, and one alone is given")
        if stub and b:
            self._draft.tell(f"{joined(ends)}: the exact arrester stands to ground alone, so this one has segments")
        why = self._inexact(points, 2 + 2 * energy) if stub and not b else "none is asked for"
        if stub and not b and why:
            self._draft.tell(f"{joined(ends)}: no exact arrester, but one with segments, since {why}")
        instead = None if why else self._exact(a, points, near_uf, lead_uh, zs_ohm, energy, ask)
        at = self._before(a, near_uf, lead_uh, instead)
        whole = self._resistor_cards((at, b), points, ask)
        texts = {"type": "99"} | self._bus((at, b)) | asking(ask)
        cards = whole if like is None else [self._draft.written(columns.NONLINEAR, texts | copying(like))]
        found = self._branch("resistor", (at, b), ask, cards, whole=whole * moves, given=given, instead=instead)
        if at != a:
            found.asked_as = ends
        if instead is None:
            self._filter(found, points, filtered, energy)

    def _resistor_cards(self, ends: Ends, points: Points, ask: str) -> list[Written]:
        """The cards of a nonlinear resistor with its points."""
        texts = {"type": "99"} | self._bus(ends) | asking(ask)
        return [self._draft.written(columns.NONLINEAR, texts), *self._characteristic("resistor", points)]

    # ---- the filter

    def _filter(self, branch: Branch, points: Points, filtered: bool, energy: bool) -> None:
        """Puts what measures an arrester beside it: its voltage while that lies on the characteristic, and its energy."""
        if not (filtered or energy):
            return
        draft, (a, b) = self._draft, branch.ends
        if b:
            if energy:
                raise CaseError("the energy is that of an arrester to ground")
            draft.tell(f"{branch.name}: its peaks are as recorded, since it doesn't stand to ground")
            return
        if filtered and len(points) > MOST_POINTS:
            draft.tell(f"{branch.name}: its peaks are as recorded, since it has more than {MOST_POINTS} points")
            filtered = False
        try:
            aside = self._measured_arrester(branch, points, filtered, energy)
        except CaseError as fault:  # a limit by count
            if energy:
                raise
            draft.tell(f"{branch.name}: its peaks are as recorded, since {fault.words}")
            return
        if energy:
            branch.instead = aside
        elif filtered:
            branch.beside = aside

    def _measured_arrester(self, branch: Branch, points: Points, filtered: bool, energy: bool) -> Contents:
        """An arrester behind switches that measure its voltage and its current, with the channels that are wanted."""
        draft, a = self._draft, branch.ends[0]
        with draft.aside() as aside:
            at, through = draft.unused("FU"), draft.unused("FI")
            self.measuring(a, at, ask="")
            self.measuring(at, through, ask="")
            cards = self._resistor_cards((through, ""), points, _asked_text(branch.asked))
            moved = self._branch("resistor", (through, ""), _asked_text(branch.asked), cards, given=branch.given)
            moved.asked_as = branch.asked_as or branch.ends
            self.control.voltage(at)
            self.control.current(through)
            if filtered:
                level, on = draft.unused("FV"), draft.unused("ON")
                self.control.table(level, [through], points=_odd([(i, u) for i, u in _longer(points)]))
                least = fields.exact(_rounded(PART * float(points[0][1]), 6), "a voltage")
                self.control.formula(on, f"{at}*(ABS({at}-{level}).LT.{least:f})")
                self.control.output(on)
                branch.filtered = moved.filtered = f"T {on}"
            if energy:
                self._energy(f"{at}*.001*{through}")
        for switch in aside.switches:
            switch.made = True
        return aside

    def _energy(self, kilowatts: str) -> None:
        """The channel of an energy in kJ."""
        power, energy = self._draft.unused("KW"), self._draft.unused("KJ")
        self.control.formula(power, kilowatts)
        self.control.integral(energy, [power])
        self.control.output(energy)

    # ---- the exact arrester

    def _inexact(self, points: Points, cards: int, sources: int = 2) -> str:
        """Why no exact arrester of these points, which takes so many formulas, devices and sources of the control, can stand
        in this case, in words; empty where it can."""
        draft = self._draft
        if draft.dt > MOST_EXACT_S * (1 + 1e-9):
            return f"the step, {draft.dt:g} s, is above 1 us"
        if len(points) > MOST_POINTS:
            return f"it has more than {MOST_POINTS} points"
        try:
            place = columns.LINES[2].field("travel time")
            step = fields.exact(draft.dt_ps, "dt").scaleb(-12)
            whole = fields.fitted(step, place, place.width - 1).kept == draft.dt_ps
        except fields.FieldError:
            whole = False
        if not whole:
            return "a line's travel time can't be written as one step"
        there = form.run(draft.contents, 1, filters=False).contents
        if len(there.extras) + cards > form.MOST["extras"][0]:
            return f"the control has {len(there.extras)} of {form.MOST['extras'][0]} formulas and devices"
        if len(there.control_sources) + sources > form.MOST["control_sources"][0]:
            return f"the control has {len(there.control_sources)} of {form.MOST['control_sources'][0]} sources"
        return ""

    def _exact(
        self,
        a: str,
        points: Points,
        near_uf: float | None,
        lead_uh: float | None,
        zs_ohm: float | None,
        energy: bool,
        ask: str,
    ) -> Contents:
        """The exact arrester: a line of one step, whose end has the current that the characteristic has there."""
        draft, dt = self._draft, self._draft.dt
        if near_uf is not None:
            zs_ohm = 1e6 * dt / near_uf
        elif lead_uh is not None:
            zs_ohm = 1e-6 * lead_uh / dt
        zs = _of_a_line(float(zs_ohm or 0))
        text = f"{zs:.9g}"
        with draft.aside() as aside:
            at, through, end, arrives = (draft.unused(it) for it in ("EU", "EI", "EA", "EV"))
            self.measuring(a, at, ask="")
            self.measuring(at, through, ask="")
            self.line(end, through, zc_ohm=zs, tau_us=dt * 1e6, ask="i" * ("i" in ask))
            aside.branches[-1].asked_as, aside.branches[-1].factor = (a, ""), -1.0
            self.control.voltage(at)
            self.control.current(through)
            self.control.formula(arrives, f"{at}+{text}*{through}")
            self.control.table(end, [arrives], points=_odd([(u + zs * i, -i) for i, u in _longer(points, zs)]))
            self.driven(end, current=True)
            if "u" in ask:
                self.output(end)
                aside.outputs[-1].asked_as = f"U {joined((a, ''))}"
            if energy:
                self._energy(f"-({arrives}+{text}*{end})*.001*{end}")
        for switch in aside.switches:
            switch.made = True
        self._tell_stub(
            f"{joined((a, ''))}: its arrester is", zs, lead_uh is not None, near_uf is None and lead_uh is None
        )
        return aside

    def _tell_stub(self, what: str, zs: float, lead: bool, line: bool) -> None:
        """What the line of one step before an exact arrester has, and whether that is too much."""
        dt = self._draft.dt
        inductance, capacitance = zs * dt * 1e6, dt / zs * 1e9
        words = f"{what} exact, behind a line of one step of {zs:.5g} ohm, {inductance:.4g} uH and {capacitance:.4g} nF"
        words += ", of whose travel time show warns"
        if line:
            words += "; take that step off the line that ends here"
        elif lead and capacitance > MOST_STRAY_NF:
            least = (MOST_STRAY_NF * 1e-9 * inductance * 1e-6) ** 0.5
            words += f"; these nF are more than arresters have ({MOST_STRAY_NF:g}): a step of {least * 1e6:.2g} us has no more"
        elif not lead and inductance > MOST_LEAD_UH:
            least = (MOST_LEAD_UH * 1e-6 * capacitance * 1e-9) ** 0.5
            words += (
                f"; these uH are more than leads have ({MOST_LEAD_UH:g}): a step of {least * 1e6:.2g} us has no more"
            )
        self._draft.tell(words)

    def _before(self, a: str, near_uf: float | None, lead_uh: float | None, instead: Contents | None) -> str:
        """Writes the capacitance or the inductance that the line before an exact arrester is where there is no such line;
        answers the arrester's node then."""
        if near_uf is None and lead_uh is None:
            return a
        count = len(self._draft.contents.branches)
        at = a if lead_uh is None else self._draft.unused("L.")
        self._series(a, "" if lead_uh is None else at, *_of_stub(near_uf, lead_uh))
        if instead is not None:
            for branch in self._draft.contents.branches[count:]:
                branch.instead = Contents()
        return at

    @writes
    def arresters(
        self,
        a: Three,
        *,
        points: Points,
        zero_ohm: float,
        positive_ohm: float,
        sweeps: int = 3,
        ask: str | Three = "",
    ) -> None:
        """Arresters of three phases at the end of a three-phase line without capacitance, exact, by their coupled
        equations.

        `zero_ohm` and `positive_ohm` are the line's surge impedances of the sequences; its last step of travel time is
        the three-phase line of one step that this call writes, so take dt off both of its travel times. `sweeps` are
        those of Gauss and Seidel in the control; 3 leave less than 1e-3.
        """
        a = three_names(a, "a")
        asks = [ask] * 3 if isinstance(ask, str) else three_names(ask, "ask")
        if not 1 <= sweeps <= 8:
            raise CaseError("there are 1 to 8 sweeps")
        draft, why = self._draft, self._inexact(points, 3 + 6 * sweeps, 6)
        if why:
            draft.tell(f"{', '.join(a)}: no exact arresters, but ones with segments, since {why}")
            for node, asked in zip(a, asks):
                self.arrester(node, points=points, ask=asked)
            return
        zero, positive = _of_a_line(zero_ohm), _of_a_line(positive_ohm)
        own, mutual = (zero + 2 * positive) / 3, (zero - positive) / 3
        with draft.aside() as aside:
            at, through, end, arrives = ([draft.unused(it) for _ in range(3)] for it in ("EU", "EI", "EA", "EV"))
            for k in range(3):
                self.measuring(a[k], at[k], ask="")
                self.measuring(at[k], through[k], ask="")
            step_us = draft.dt * 1e6
            self.line3(
                end,
                through,
                zero=dict(zc_ohm=zero, tau_us=step_us),
                positive=dict(zc_ohm=positive, tau_us=step_us),
                ask=["i" * ("i" in it) for it in asks],
            )
            for k, branch in enumerate(aside.branches[-3:]):
                branch.asked_as, branch.factor = (a[k], ""), -1.0
            for k in range(3):
                self.control.voltage(at[k])
                self.control.current(through[k])
            for k in range(3):
                others = "+".join(through[j] for j in range(3) if j != k)
                self.control.formula(arrives[k], f"{at[k]}+{own:.9g}*{through[k]}+{mutual:.9g}*({others})")
            table = _odd([(u + own * i, -i) for i, u in _longer(points, own)])
            last = list(end)  # the variables are the currents with their sign turned
            for sweep in range(sweeps):
                for k in range(3):
                    seen, name = draft.unused("EX"), end[k] if sweep == sweeps - 1 else draft.unused("EY")
                    others = "+".join(last[j] for j in range(3) if j != k)
                    self.control.formula(seen, f"{arrives[k]}+{mutual:.9g}*({others})")
                    self.control.table(name, [seen], points=table)
                    last[k] = name
            for k in range(3):
                self.driven(end[k], current=True)
                if "u" in asks[k]:
                    self.output(end[k])
                    aside.outputs[-1].asked_as = f"U {joined((a[k], ''))}"
        for switch in aside.switches:
            switch.made = True
        for k in range(3):
            cards = self._resistor_cards((a[k], ""), points, asks[k])
            given = {"points": tuple(points)}
            instead = aside if k == 0 else Contents()
            self._branch("resistor", (a[k], ""), asks[k], cards, given=given, instead=instead)
        self._tell_stub(f"{', '.join(a)}: the arresters are", positive_ohm, False, True)

    # ---- after a run

    def _offs(self, record: typing.Any, part: float, names: dict[str, str]) -> list[Off]:
        """Of each arrester with segments, as far as the record has what that takes: its samples off the characteristic."""
        found: list[Off] = []
        for branch in self._draft.contents.branches if len(record.times) else []:
            if branch.kind != "resistor" or (branch.instead is not None and not branch.filtered):
                continue
            name = joined(branch.asked_as or branch.ends)
            if {f"U {name}", f"I {name}"} <= set(record.names):
                u, i = record.channel(f"U {name}"), record.channel(f"I {name}")
                found.append(off_of(name, u, i, branch.given["points"], part, record.multiplier(f"I {name}")))
            elif branch.filtered in record.names and names.get(branch.filtered) in record.names:
                u, on = record.channel(names[branch.filtered]), record.channel(branch.filtered)
                away = np.where(on == 0, np.abs(u), 0.0)
                least = part * float(branch.given["points"][0][1])
                bad = away > max(least, 2 * record.multiplier(names[branch.filtered]))
                level = float(np.abs(on).max())
                found.append(
                    Off(name, int(bad.sum()), max(0.0, float(away.max()) - level), float(np.abs(u).max()), level)
                )
        return found


def off_of(name: str, u: np.ndarray, i: np.ndarray, points: Points, part: float, raw: float) -> Off:
    """What of an arrester's voltage (V) and current (A), both of shape (samples,), lies off its characteristic by more than
    a part of the first point's voltage, `raw` of the current (A) allowed for, by which its values can be told apart."""
    longer = _longer(points)
    amperes, volts = np.array([0.0, *(it[0] for it in longer)]), np.array([0.0, *(it[1] for it in longer)])
    size = np.abs(u)
    low = np.interp(np.maximum(np.abs(i) - raw, 0), amperes, volts)
    high = np.interp(np.abs(i) + raw, amperes, volts)
    away = np.maximum(size - high, low - size)
    away = np.where((u * i < 0) & (np.abs(i) > raw), size + low, away)
    bad = away > part * float(points[0][1])
    return Off(name, int(bad.sum()), max(0.0, float(away.max())), float(size.max()), float(size[~bad].max(initial=0.0)))


def _longer(points: Points, zs: float = 0.0) -> list[tuple[float, float]]:
    """The points with one more, far on the straight line of the last segment."""
    own = [(float(i), float(u)) for i, u in points]
    (i0, u0), (i1, u1) = ([(0.0, 0.0)] + own)[-2:]
    slope = (i1 - i0) / (u1 - u0)
    last = min(BEYOND * u1, u1 + (MOST_V - u1 - zs * i1) / (1 + zs * slope), u1 + (MOST_V - i1) / slope)
    return [*own, (i1 + slope * (last - u1), last)] if last > u1 else own


def _odd(pairs: typing.Sequence[tuple[float, float]]) -> list[tuple[float, float]]:
    """The points of a table of the control: these, the origin, and the same of the other sign."""
    kept = [(_rounded(x, 6), _rounded(y, 9)) for x, y in pairs]
    return [*((-x, -y) for x, y in reversed(kept)), (0.0, 0.0), *kept]


def _of_stub(near_uf: float | None, lead_uh: float | None) -> tuple:
    """The values of the branch in whose place a line of one step stands, with its ask, peak and form."""
    return (0.0, 0.0 if lead_uh is None else 1e-3 * lead_uh, near_uf or 0.0), "", None, None


def _asked_text(asked: int) -> str:
    return next(text for text, number in ASKED.items() if number == asked)


def _rounded(value: float, places: int) -> float:
    return round(float(value), places)


def _of_a_line(ohm: float) -> float:
    """The surge impedance nearest to this one that a line's field holds with a blank before it, so that the line's travel
    time stays one step."""
    place = columns.LINES[2].field("surge impedance")
    return fields.fitted(float(f"{ohm:.4g}"), place, place.width - 1).kept / 1e6
