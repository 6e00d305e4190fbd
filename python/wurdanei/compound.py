"""Compound calls, which write several cards: a smooth start, a waveform by points, poles that close together, a
transformer by the control."""

from __future__ import annotations

import typing

import numpy as np

from . import columns, fields
from .ct import in_case
from .draft import CaseError, Switch, joined, writes
from .formula import FUNCTIONS
from .network import Three, three_names
from .surge_arrester import SurgeArresters

if typing.TYPE_CHECKING:
    from .data import Source3, Transformer

SUMMANDS = 10  # variables of six characters that one formula adds up at most


class Compound(SurgeArresters):
    """Writes several cards a call, through the methods of the network and the control."""

    ct = in_case  # a saturable current transformer

    # ---- sources that the control drives

    @writes
    def smooth_cosine(
        self,
        node: str,
        *,
        hz: float,
        amplitude_v: float | None = None,
        amplitude_a: float | None = None,
        phase_deg: float = 0.0,
        cycles: float = 5.0,
    ) -> None:
        """A cosine that rises smoothly from rest: its crest goes by 3 x^2 - 2 x^3 over so many cycles.

        A network that starts so is settled soon behind them, where a cosine that is there at once rings, and leaves
        an offset in inductances. The control makes it; its phase is that of `cosine`, one time step late, which is
        made up for.
        """
        if (amplitude_v is None) == (amplitude_a is None):
            raise CaseError("a source has amplitude_v, as a voltage source, or amplitude_a, as a current source")
        amplitude = amplitude_v if amplitude_v is not None else amplitude_a if amplitude_a is not None else 0.0
        fields.exact(hz, "hz"), fields.exact(cycles, "cycles"), fields.exact(phase_deg, "phase_deg")
        if not (hz > 0 and cycles > 0):
            raise CaseError("hz and cycles have to be above 0")
        wave = self._draft.unused("CO")
        self.control.cosine(wave, amplitude, hz=hz, phase_deg=_within_turn(phase_deg + 360.0 * hz * self._draft.dt))
        ramp = self._ramp(cycles / hz)
        self.control.formula(node, f"{wave}*{ramp}")
        self.driven(node, current=amplitude_v is None)

    def _ramp(self, rise_s: float) -> str:
        """The variable that rises smoothly from 0 to 1 within a time; one serves all sources of that time."""
        ramps = self._draft.contents.ramps
        if rise_s not in ramps:
            part, ramp = self._draft.unused("RA"), self._draft.unused("RB")
            time = fields.fitted(rise_s, columns.WINDOW_TIMES.field("open")).text
            self.control.formula(part, f"TIMEX/{time}*(TIMEX.LT.{time})+(TIMEX.GE.{time})")
            self.control.formula(ramp, f"{part}*{part}*(3.-2.*{part})")
            ramps[rise_s] = ramp
        return ramps[rise_s]

    @writes
    def waveform(
        self, node: str, *, times_s: typing.Sequence[float], values: typing.Sequence[float], current: bool = False
    ) -> None:
        """A source that goes straight from point to point: V, or A with `current`, at times in s that rise strictly.

        Before the first point it has the first value, behind the last one the last. In the case's first step it is 0,
        since the control begins at rest. Arrays of shape (points,), from 2 to 4,500 points: tables of the control of
        64 points each.
        """
        try:
            t, v = np.asarray(times_s, dtype=float), np.asarray(values, dtype=float)
        except (TypeError, ValueError):
            raise CaseError("the times and the values of a waveform are numbers") from None
        if t.ndim != 1 or t.shape != v.shape or not 2 <= len(t) <= 4500:
            raise CaseError(f"a waveform has 2 to 4,500 times and as many values, and here {t.shape} and {v.shape}")
        if not (np.isfinite(t).all() and np.isfinite(v).all() and (np.diff(t) > 0).all()):
            raise CaseError("the times of a waveform rise strictly, and all numbers are finite")
        pieces = []
        for first in range(0, len(t) - 1, 63):
            piece = slice(first, first + 64)
            base = 0.0 if first == 0 else v[first]
            pieces.append(self._draft.unused("W"))
            # the source reads the step before
            points = [(_rounded(a - self._draft.dt, 12), _rounded(b - base, 9)) for a, b in zip(t[piece], v[piece])]
            self.control.table(pieces[-1], "TIMEX", points=points)
        while len(pieces) > SUMMANDS:
            parts = [pieces[k : k + SUMMANDS] for k in range(0, len(pieces), SUMMANDS)]
            pieces = []
            for part in parts:
                pieces.append(self._draft.unused("W"))
                self.control.formula(pieces[-1], "+".join(part))
        self.control.formula(node, "+".join(pieces))
        self.driven(node, current=current)

    @writes
    def source3(self, a: Three, source: Source3, *, angle_deg: float = 0.0, cycles: float = 5.0) -> None:
        """A three-phase source of wurdanei.data at three nodes: branches from each phase to ground and between the phases, and
        a current into each, which rises smoothly over so many cycles.

        `angle_deg` is that of the voltage of a[0] behind the impedance; a[1] is 120 degrees behind it, a[2] 240.
        """
        a = three_names(a, "a")
        for node in a:
            self.series(node, r_ohm=source.to_ground[0], l_mh=source.to_ground[1])
        if source.between:
            for one, other in zip(a, [*a[1:], a[0]]):
                self.series(one, other, r_ohm=source.between[0], l_mh=source.between[1])
        for phase, node in enumerate(a):
            into = self._behind(node, "SC")
            degrees = angle_deg - 120.0 * phase - source.behind_deg
            self.smooth_cosine(into, amplitude_a=source.amplitude_a, hz=source.hz, phase_deg=degrees, cycles=cycles)

    def _behind(self, node: str, stem: str) -> str:
        """A node behind a measuring switch of its own, whose name the control has for what is driven there."""
        found = self._draft.unused(stem)
        self.measuring(found, node, ask="")
        self._draft.contents.switches[-1].made = True
        return found

    # ---- poles

    @writes
    def tied(
        self,
        leader: Switch,
        a: str,
        b: str = "",
        *,
        later_s: float = 0.0,
        opens_later_s: float | None = None,
        margin_a: float = 0.0,
        ask: str = "",
    ) -> Switch:
        """A time switch that closes `later_s` after another one, and opens `opens_later_s` (`later_s` without it)
        after it.

        In a batch its times follow those of its leader in each row.
        """
        if leader.kind != "time" or not any(leader is it for it in self._draft.contents.switches):
            raise CaseError("a pole is tied to a time switch of the same case, as the method switch answers it")
        later = (float(later_s), float(later_s if opens_later_s is None else opens_later_s))
        close_s, open_s = after((leader.close_s, leader.open_s), later)
        found = self._time_switch(self._ends(a, b), close_s, open_s, margin_a, ask)
        found.leader, found.later_s = leader, later
        return found

    @writes
    def poles(
        self,
        a: Three,
        b: Three,
        *,
        close_s: float | None = None,
        open_s: float | None = None,
        later_s: typing.Sequence[float] = (0.0, 0.0, 0.0),
        margin_a: float = 0.0,
        ask: str = "",
    ) -> list[Switch]:
        """The three poles of a breaker, of which the second and third are tied to the first one.

        `later_s` are the times by which each pole closes and opens after close_s and open_s; the first one is 0.
        """
        a, b = three_names(a, "a"), three_names(b, "b")
        if len(later_s) != 3 or later_s[0] != 0:
            raise CaseError("later_s has three times, of which the first is 0")
        first = self.switch(a[0], b[0], close_s=close_s, open_s=open_s, margin_a=margin_a, ask=ask)
        others = [self.tied(first, a[k], b[k], later_s=later_s[k], margin_a=margin_a, ask=ask) for k in (1, 2)]
        return [first, *others]

    # ---- transformer

    @writes
    def transformer(
        self,
        primary: str,
        secondary: str,
        *,
        ratio: float,
        l_mh: float,
        r_ohm: float = 0.0,
        behind_mh: float,
        ask: str = "",
    ) -> None:
        """An ideal ratio (secondary over primary voltage) behind a leakage l_mh and r_ohm, which is on the secondary
        side.

        The control measures the voltage of `primary` and the secondary current, and puts the other two quantities
        there one step later. That is stable where the inductance behind the primary node, as the node sees it, is
        small beside the leakage: behind_mh * ratio^2 below l_mh (each step takes the part behind_mh * ratio^2 / l_mh
        of an error back and forth). Capacitances at `primary` make it worse; a resistance across it, better. `ask` is
        as of the leakage's branch.
        """
        self._winding((primary, ""), secondary, ratio=ratio, l_mh=l_mh, r_ohm=r_ohm, behind_mh=behind_mh, ask=ask)

    def _winding(
        self,
        primary: tuple[str, str],
        secondary: str,
        *,
        ratio: float,
        l_mh: float,
        r_ohm: float,
        behind_mh: float,
        ask: str,
    ) -> None:
        """Two windings of a transformer: the primary one between two nodes, the secondary one behind its leakage to ground."""
        part = self._stable(ratio, l_mh, behind_mh)
        induced, inner = self._draft.unused("E"), self._draft.unused("X")
        drawn = {node: self._draft.unused("P") for node in primary if node}
        for node, into in drawn.items():
            self.measuring(node, into, ask="")
        self.measuring(induced, inner, ask="")
        self.series(inner, secondary, r_ohm=r_ohm, l_mh=l_mh, ask=ask)
        factor = fields.fitted(ratio, columns.TABLE_POINT.field("input")).text
        self.control.current(inner)
        volts = "-".join(self._measured(node) for node in drawn)
        self.control.formula(induced, f"{factor}*({volts})" if primary[1] else f"{factor}*{volts}")
        for sign, into in zip(("-", ""), drawn.values()):
            self.control.formula(into, f"{sign}{factor}*{inner}")
        self.driven(induced)
        for into in drawn.values():
            self.driven(into, current=True)
        self._tell_ratio(primary[0], secondary, ratio, part)

    @writes
    def transformer3(
        self, primary: Three, secondary: Three, transformer: Transformer, *, behind_mh: float, ask: str = ""
    ) -> None:
        """A three-phase transformer of wurdanei.data, of two windings a phase, each by `transformer` of this class.

        `behind_mh` is the inductance behind a primary node, as it sees it; `ask` as of the leakages' branches. A winding in
        delta goes from node k to the one before (Dyn1, YNd11) or behind it (Dyn11, YNd1).
        """
        primary, secondary = three_names(primary, "primary"), three_names(secondary, "secondary")
        next_one = 1 if transformer.group in ("Dyn11", "YNd1") else -1
        for k in range(3):
            other = (k + next_one) % 3
            one = primary[k], primary[other] if transformer.group.startswith("D") else ""
            if transformer.core_ohm:
                self.series(*one, r_ohm=transformer.core_ohm)
            if len(transformer.points) > 1:
                self.reactor(*one, points=transformer.points)
            else:
                amperes, webers = transformer.points[0]
                self.series(*one, l_mh=1e3 * webers / amperes)
            values = dict(ratio=transformer.ratio, l_mh=transformer.l_mh, r_ohm=transformer.r_ohm)
            behind = transformer.windings * behind_mh
            if transformer.group.startswith("YNd"):
                self._delta_winding(primary[k], (secondary[k], secondary[other]), **values, behind_mh=behind, ask=ask)
            else:
                self._winding(one, secondary[k], **values, behind_mh=behind, ask=ask)

    def _delta_winding(
        self,
        primary: str,
        secondary: tuple[str, str],
        *,
        ratio: float,
        l_mh: float,
        r_ohm: float,
        behind_mh: float,
        ask: str,
    ) -> None:
        """Two windings of a transformer: the primary one to ground, the secondary one between two nodes. In place of its voltage
        behind the leakage stands the current that a block of the control makes of it, beside the leakage."""
        part = self._stable(ratio, l_mh, behind_mh)
        drawn, first, second = (self._behind(node, "P") for node in (primary, *secondary))
        inner, induced = self._draft.unused("X"), self._draft.unused("E")
        self.measuring(secondary[0], inner, ask="")
        self._draft.contents.switches[-1].made = True
        self.series(inner, secondary[1], r_ohm=r_ohm, l_mh=l_mh, ask=ask)
        self._measured(primary)
        self.control.current(inner)
        # V over mH is A a ms
        self.control.block(induced, primary, numerator=[1e3 * ratio], denominator=[1e3 * r_ohm, l_mh])
        factor = fields.fitted(ratio, columns.TABLE_POINT.field("input")).text
        self.control.formula(first, induced)
        self.control.formula(second, f"-{induced}")
        self.control.formula(drawn, f"-{factor}*({induced}-{inner})")
        for node in (drawn, first, second):
            self.driven(node, current=True)
        self._tell_ratio(primary, secondary[0], ratio, part)

    def _stable(self, ratio: float, l_mh: float, behind_mh: float) -> float:
        """The part of an error that each step takes back and forth, below 1."""
        for what, value in (("ratio", ratio), ("l_mh", l_mh), ("behind_mh", behind_mh)):
            fields.exact(value, what)
        if not (ratio > 0 and l_mh > 0 and behind_mh >= 0):
            raise CaseError("ratio and l_mh have to be above 0, behind_mh not below")
        part = behind_mh * ratio**2 / l_mh
        if part >= 1:
            raise CaseError(
                f"the ratio by the control is stable where behind_mh * ratio^2, {behind_mh * ratio**2:g} mH, is below "
                f"l_mh, {l_mh:g} mH: put more of the leakage on the secondary side, or less in front of the primary node"
            )
        return part

    def _tell_ratio(self, primary: str, secondary: str, ratio: float, part: float) -> None:
        self._draft.tell(
            f"{joined((primary, secondary))}: a ratio of {ratio:g} by the control, one step late each way, which takes "
            f"{part:.2g} of an error back and forth"
        )

    def _measured(self, node: str) -> str:
        """A variable that has the voltage of a node, by a name that a formula can have."""
        if not any(it.kind == 90 and it.name == node for it in self._draft.contents.control_sources):
            self.control.voltage(node)
        if node.isalnum() and node.isascii() and node[0].isalpha() and node not in FUNCTIONS:
            return node
        name = self._draft.unused("V")
        self.control.delay(name, [("+", node)], time_s=0.0)
        return name


def after(times: tuple[float, float | None], later: tuple[float, float]) -> tuple[float, float | None]:
    """The closing and the opening time of a switch that is tied to one with these times; before 0 is from the start."""
    close_s, open_s = times
    return (close_s if close_s < 0 else close_s + later[0]), (None if open_s is None else open_s + later[1])


def _within_turn(degrees: float) -> float:
    """The same angle, above -180 and up to 180 degrees."""
    return _rounded(180.0 - (180.0 - degrees) % 360.0, 9)


def _rounded(value: float, places: int) -> float:
    """A number with the digits that its field keeps, so that no more are told as lost."""
    return round(float(value), places)
