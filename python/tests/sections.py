"""Another simulator: the line of `networks` with a fault, as pi sections with matrix exponentials, all in float64.

States are the currents of all inductances and the voltages of all capacitances, in phase coordinates; the sources are an
oscillator among the states, and so are the recorder's filters. A step is a matrix exponential, so it has no error of its
own; the start is the steady state. No line of it is shared with the package.
"""

from __future__ import annotations

import numpy as np
from networks import BEHIND, E220, ENDED, LINE, PHASES, SOURCES, W, source_ohm
from scipy.linalg import expm  # type: ignore[import]

SECTIONS = {"line": 100, "behind": 20}  # of 1 and 2 km


def phase_matrix(zero: float, positive: float) -> np.ndarray:
    """The matrix of three transposed phases of its sequence values."""
    return positive * np.eye(3) + (zero - positive) / 3 * np.ones((3, 3))


class Sections:
    """A network of three phases: nodes with capacitance, branches of R and L between them or from a source."""

    def __init__(self) -> None:
        self.capacitance: list[np.ndarray] = []
        self.conductance: dict[int, np.ndarray] = {}
        self.branches: list[tuple[int, int, np.ndarray, np.ndarray, np.ndarray | None]] = []

    def node(self) -> int:
        self.capacitance.append(np.zeros((3, 3)))
        return len(self.capacitance) - 1

    def branch(self, a: int, b: int, r: np.ndarray, l: np.ndarray, volts: np.ndarray | None = None) -> int:
        """From a to b, -1 being ground, behind a source of complex crest volts."""
        self.branches.append((a, b, r, l, volts))
        return len(self.branches) - 1

    def line(self, a: int, km: float, count: int) -> list[int]:
        """Pi sections from a node on; the nodes, the first one among them."""
        part, nodes = km / count, [a]
        r, l, c = (
            phase_matrix(LINE["zero"][it], LINE["positive"][it]) * part * scale
            for it, scale in (("r_ohm", 1), ("l_mh", 1e-3), ("c_uf", 1e-6))
        )
        for _ in range(count):
            nodes.append(self.node())
            self.branch(nodes[-2], nodes[-1], r, l)
            for end in nodes[-2:]:
                self.capacitance[end] += c / 2
        return nodes

    def matrix(self) -> tuple[np.ndarray, np.ndarray]:
        """A and the complex B of x' = A x + Re(B e^jwt)."""
        nodes, branches = len(self.capacitance), len(self.branches)
        a, b = np.zeros((3 * (nodes + branches),) * 2), np.zeros(3 * (nodes + branches), complex)
        inverse = [np.linalg.inv(it) for it in self.capacitance]
        for place, (one, other, r, l, volts) in enumerate(self.branches):
            rows, turned = slice(3 * (nodes + place), 3 * (nodes + place) + 3), np.linalg.inv(l)
            a[rows, rows] -= turned @ r
            for end, sign in ((one, 1), (other, -1)):
                if end >= 0:
                    at = slice(3 * end, 3 * end + 3)
                    a[rows, at] += sign * turned
                    a[at, rows] -= sign * inverse[end]
            if volts is not None:
                b[rows] += turned @ volts
        for end, g in self.conductance.items():
            at = slice(3 * end, 3 * end + 3)
            a[at, at] -= inverse[end] @ g
        return a, b


def measured(km: int, ohm: float, fault: float, times: np.ndarray, corner: float) -> np.ndarray:
    """Voltages of S and currents into the line behind a Butterworth filter of second order, with phase A to ground at a
    whole km: V and A, shape (6, samples); times in s on an even grid, of whose half steps the fault is one."""
    net = Sections()
    nodes = net.line(net.node(), 100.0, SECTIONS["line"])
    behind = net.line(nodes[-1], BEHIND, SECTIONS["behind"])
    into = []
    for name, node in (("S", nodes[0]), ("R", nodes[-1])):
        z, k = source_ohm(name)
        volts = E220 * np.exp(1j * np.radians(np.array(list(PHASES.values())) + SOURCES[name][3]))
        into.append(net.branch(-1, node, phase_matrix(k * z.real, z.real), phase_matrix(k * z.imag, z.imag) / W, volts))
    net.branch(behind[-1], -1, ENDED.real * np.eye(3), ENDED.imag / W * np.eye(3))
    before, b = net.matrix()
    net.conductance[nodes[km]] = np.diag([1 / ohm, 0, 0])
    after, _ = net.matrix()
    size, filters = len(b), 12
    current = 3 * (len(net.capacitance) + into[0])  # of the source, which has half a section's charging current more
    looks = np.zeros((6, size))
    looks[:3, 3 * nodes[0] : 3 * nodes[0] + 3] = np.eye(3)
    looks[3:, current : current + 3] = np.eye(3)
    w = 2 * np.pi * corner
    looked = np.zeros((filters, size + filters))  # y' = slope, slope' = w^2 (u - y) - root 2 w slope
    for channel in range(6):
        y, slope = 2 * channel, 2 * channel + 1
        looked[y, size + slope] = 1
        looked[slope, size + y], looked[slope, size + slope] = -(w**2), -np.sqrt(2) * w
        looked[slope, :size] = w**2 * looks[channel]
    before, after = (np.vstack([np.hstack([a, np.zeros((size, filters))]), looked]) for a in (before, after))
    steady = np.linalg.solve(1j * W * np.eye(size + filters) - before, np.concatenate([b, np.zeros(filters)]))
    found = np.real(steady[size::2, None] * np.exp(1j * W * times))  # until the fault
    whole = np.zeros((size + filters + 2,) * 2)
    whole[:-2, :-2] = after
    whole[:size, -2], whole[:size, -1] = b.real, -b.imag  # cosine, sine
    whole[-2, -1], whole[-1, -2] = -W, W
    half = (times[1] - times[0]) / 2
    ahead = expm(whole * half)
    now = np.exp(1j * W * fault)
    state = np.concatenate([np.real(steady * now), [now.real, now.imag]])
    for number in range(round((times[-1] - fault) / half) + 1):
        place = (fault + number * half - times[0]) / (2 * half)
        if abs(place - round(place)) < 0.1:
            found[:, round(place)] = state[size : size + filters : 2]
        state = ahead @ state
    return found
