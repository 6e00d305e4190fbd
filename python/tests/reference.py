"""A program of another make, in float64: the trapezoidal rule, lines by travelling waves, arresters iterated to the end of
each step.

It shares nothing with the machine but the circuit: nodes, ideal switches and voltage sources are solved as one system
(modified nodal analysis), an inductance keeps its current, and each arrester's current is found on its characteristic by
the exact inverse of a straight segment, in turn until none moves by more than a microampere. What differs from the
machine is so its rounding, its segments, and that a line's travel time is interpolated.
"""

import math
import typing
from dataclasses import dataclass, field

import numpy as np

Wave = typing.Callable[[float], float]
Points = typing.Sequence[tuple[float, float]]
SETTLED_A = 1e-6
SWEEPS = 2000
# the voltages of three phases over those of the modes: zero sequence, and twice the positive one
PHASES = np.array(
    [
        [1 / math.sqrt(3), 1 / math.sqrt(2), 1 / math.sqrt(6)],
        [1 / math.sqrt(3), -1 / math.sqrt(2), 1 / math.sqrt(6)],
        [1 / math.sqrt(3), 0, -2 / math.sqrt(6)],
    ]
)


@dataclass
class Answer:
    """The times of the steps in s, shape (steps,); voltages of the nodes and currents of the arresters, by their names, of
    that shape; and the arresters' energies in J."""

    times: np.ndarray = field(repr=False)
    volts: dict[str, np.ndarray] = field(repr=False)
    amperes: dict[str, np.ndarray] = field(repr=False)
    joules: dict[str, float]

    def peak(self, node: str) -> float:
        return float(np.abs(self.volts[node]).max())


@dataclass
class Line:
    """A line of one mode a phase: surge impedance with its losses lumped, and what has left each end."""

    ends: tuple[list[int], list[int]]
    z: np.ndarray
    h: np.ndarray
    whole: np.ndarray  # steps of travel time
    part: np.ndarray
    sent: list[np.ndarray]  # by end: shape (modes, room)

    @property
    def turns(self) -> np.ndarray:
        return PHASES if len(self.z) == 3 else np.ones((1, 1))


@dataclass
class Switch:
    ends: tuple[int, int]
    close_s: float
    open_s: float
    chops: bool
    closed: bool = False
    done: bool = False
    now: float = 0.0
    before: float = 0.0


class Network:
    """A circuit, by its elements; "" is ground."""

    def __init__(self, dt: float) -> None:
        self.dt = dt
        self.nodes: dict[str, int] = {}
        self.resistors: list[tuple[int, int, float]] = []
        self.inductors: list[tuple[int, int, float, float]] = []  # H, ohm
        self.capacitors: list[tuple[int, int, float]] = []
        self.lines: list[Line] = []
        self.switches: list[Switch] = []
        self.volt_sources: list[tuple[int, Wave]] = []
        self.ampere_sources: list[tuple[int, Wave]] = []
        self.arresters: list[tuple[str, int, int, np.ndarray, np.ndarray]] = []

    def node(self, name: str) -> int:
        return -1 if name == "" else self.nodes.setdefault(name, len(self.nodes))

    def r(self, a: str, b: str, ohm: float) -> None:
        self.resistors.append((self.node(a), self.node(b), ohm))

    def l(self, a: str, b: str, henry: float, ohm: float = 0.0) -> None:
        self.inductors.append((self.node(a), self.node(b), henry, ohm))

    def c(self, a: str, b: str, farad: float) -> None:
        self.capacitors.append((self.node(a), self.node(b), farad))

    def line(self, a: list[str], b: list[str], modes: list[tuple[float, float, float]]) -> None:
        """Modes of (ohm of the whole line, surge impedance in ohm, travel time in s), one or three."""
        r, z, tau = np.array(modes).T
        steps = tau / self.dt + 1e-9
        whole = np.floor(steps).astype(int)
        room = int(whole.max()) + 3
        ends = [self.node(it) for it in a], [self.node(it) for it in b]
        sent = [np.zeros((len(modes), room)) for _ in range(2)]
        part = np.maximum(0.0, steps - whole - 1e-9)
        self.lines.append(Line(ends, z + r / 4, (z - r / 4) / (z + r / 4), whole, part, sent))

    def switch(self, a: str, b: str, close_s: float, open_s: float = math.inf, chops: bool = False) -> None:
        """Closed from the start where close_s is below 0; it opens at a zero of its current, or at once where it chops."""
        self.switches.append(Switch((self.node(a), self.node(b)), close_s, open_s, chops, close_s < 0))

    def volt_source(self, a: str, wave: Wave) -> None:
        self.volt_sources.append((self.node(a), wave))

    def ampere_source(self, a: str, wave: Wave) -> None:
        self.ampere_sources.append((self.node(a), wave))

    def arrester(self, a: str, points: Points, b: str = "") -> None:
        own = np.array([(0.0, 0.0), *points])
        self.arresters.append((a, self.node(a), self.node(b), own[:, 0], own[:, 1]))

    def run(self, end: float) -> Answer:
        return _Run(self).answer(int(round(end / self.dt)))


def _incidence(ends: list[tuple[int, int]], size: int) -> np.ndarray:
    """Rows of +1 at the first end and -1 at the second one."""
    found = np.zeros((len(ends), size))
    for row, (a, b) in enumerate(ends):
        if a >= 0:
            found[row, a] += 1
        if b >= 0:
            found[row, b] -= 1
    return found


class _Run:
    """A circuit while its steps are solved."""

    def __init__(self, net: Network) -> None:
        self.net, n = net, len(net.nodes)
        dt = net.dt
        self.l_rows = _incidence([it[:2] for it in net.inductors], n)
        self.c_rows = _incidence([it[:2] for it in net.capacitors], n)
        self.r_rows = _incidence([it[:2] for it in net.resistors], n)
        self.a_rows = _incidence([it[1:3] for it in net.arresters], n)
        henry, ohm = (np.array([it[k] for it in net.inductors], float) for k in (2, 3))
        self.l_g, self.l_back = 1 / (ohm + 2 * henry / dt), 2 * henry / dt - ohm
        self.c_g = 2 * np.array([it[2] for it in net.capacitors], float) / dt
        self.l_v, self.l_i = np.zeros(len(henry)), np.zeros(len(henry))
        self.c_v, self.c_i = np.zeros(len(self.c_g)), np.zeros(len(self.c_g))
        self.amperes = np.zeros(len(net.arresters))
        self.solved: dict[tuple[bool, ...], tuple[np.ndarray, np.ndarray, np.ndarray]] = {}

    def conductances(self) -> np.ndarray:
        """The nodal matrix without sources and switches."""
        net = self.net
        r_g = 1 / np.array([it[2] for it in net.resistors], float)
        found = (self.r_rows.T * r_g) @ self.r_rows + (self.l_rows.T * self.l_g) @ self.l_rows
        found += (self.c_rows.T * self.c_g) @ self.c_rows
        for line in net.lines:
            own = (line.turns / line.z) @ line.turns.T
            for ends in line.ends:
                found[np.ix_(ends, ends)] += own
        return found

    def inverse(self) -> tuple[np.ndarray, np.ndarray, np.ndarray]:
        """Of the state of the switches: the inverse, and what each arrester's current does to all and to each other."""
        net = self.net
        key = tuple(it.closed for it in net.switches)
        if key not in self.solved:
            n = len(net.nodes)
            closed = [it.ends for it in net.switches if it.closed]
            rows = np.vstack([_incidence([(a, -1) for a, _ in net.volt_sources], n), _incidence(closed, n)])
            whole = np.block([[self.conductances(), rows.T], [rows, np.zeros((len(rows), len(rows)))]])
            inverse = np.linalg.inv(whole)
            moves = inverse[:, :n] @ self.a_rows.T
            self.solved[key] = inverse, moves, self.a_rows @ moves[:n]
        return self.solved[key]

    def step_switches(self, t: float) -> None:
        for it in self.net.switches:
            if not it.closed and not it.done and 0 <= it.close_s <= t + 1e-12:
                it.closed = it.done = True
            elif it.closed and t > it.open_s and (it.now * it.before < 0 or it.chops):
                it.closed = False

    def iterated(self, free: np.ndarray, z: np.ndarray) -> None:
        """The currents of the arresters, whose voltages would be `free` without any."""
        for _ in range(SWEEPS):
            moved = 0.0
            for k, (_, _, _, amperes, volts) in enumerate(self.net.arresters):
                u = free[k] - z[k] @ self.amperes + z[k, k] * self.amperes[k]
                levels = volts + z[k, k] * amperes
                at = min(int(np.searchsorted(levels, abs(u), "left")), len(levels) - 1) or 1
                slope = (amperes[at] - amperes[at - 1]) / (levels[at] - levels[at - 1])
                found = math.copysign(amperes[at - 1] + slope * (abs(u) - levels[at - 1]), u)
                moved = max(moved, abs(found - self.amperes[k]))
                self.amperes[k] = found
            if moved < SETTLED_A:
                return

    def answer(self, steps: int) -> Answer:
        net, n, dt = self.net, len(self.net.nodes), self.net.dt
        volts, amperes = np.zeros((steps, n)), np.zeros((steps, len(net.arresters)))
        for step in range(1, steps + 1):
            t = step * dt
            self.step_switches(t)
            l_h = self.l_g * (self.l_v + self.l_back * self.l_i)
            c_h = -(self.c_g * self.c_v + self.c_i)
            into = -self.l_rows.T @ l_h - self.c_rows.T @ c_h
            arrived = [self.arrived(line, step) for line in net.lines]
            for line, both in zip(net.lines, arrived):
                for ends, own in zip(line.ends, both):
                    np.subtract.at(into, ends, line.turns @ own)
            for a, wave in net.ampere_sources:
                into[a] += wave(t)
            inverse, moves, z = self.inverse()
            known = np.zeros(len(inverse))
            known[:n] = into
            known[n : n + len(net.volt_sources)] = [wave(t) for _, wave in net.volt_sources]
            x = inverse @ known
            if net.arresters:
                self.iterated(self.a_rows @ x[:n], z)
                x = x - moves @ self.amperes
            v = x[:n]
            self.l_v = self.l_rows @ v
            self.l_i = self.l_g * self.l_v + l_h
            self.c_v = self.c_rows @ v
            self.c_i = self.c_g * self.c_v + c_h
            for line, both in zip(net.lines, arrived):
                self.send(line, both, v, step)
            currents = iter(x[n + len(net.volt_sources) :])
            for it in net.switches:
                it.before, it.now = it.now, next(currents) if it.closed else 0.0
            volts[step - 1], amperes[step - 1] = v, self.amperes
        power = volts @ self.a_rows.T * amperes
        joules = dt * (power.sum(axis=0) - power[-1] / 2)
        names = [it[0] for it in net.arresters]
        return Answer(
            np.arange(1, steps + 1) * dt,
            {name: volts[:, k] for name, k in net.nodes.items()},
            {name: amperes[:, k] for k, name in enumerate(names)},
            dict(zip(names, joules.tolist())),
        )

    def arrived(self, line: Line, step: int) -> list[np.ndarray]:
        """What reaches each end now, of what has left it and the other one a travel time before."""
        modes, room = np.arange(len(line.z)), line.sent[0].shape[1]
        found = []
        for sent in line.sent:
            first, second = step - line.whole, step - line.whole - 1
            one = np.where(first >= 0, sent[modes, first % room], 0.0)
            other = np.where(second >= 0, sent[modes, second % room], 0.0)
            found.append((1 - line.part) * one + line.part * other)
        return found

    def send(self, line: Line, arrived: list[np.ndarray], v: np.ndarray, step: int) -> None:
        room = line.sent[0].shape[1]
        waves = []
        for ends, own in zip(line.ends, arrived):
            volts = line.turns.T @ v[ends]
            waves.append(volts / line.z + line.h * (volts / line.z + own))
        for k in (0, 1):
            line.sent[k][:, step % room] = -(1 + line.h) / 2 * waves[1 - k] - (1 - line.h) / 2 * waves[k]
