"""A three-phase source by its short-circuit power.

Its impedances of the sequences, Z0 = k Z1, stand as branches of Z0 from each phase to ground and of 3 Z1 k/(k - 1) between
the phases: the nodal matrix of such branches has the admittances Y1 and Y0 exactly, at every frequency. In place of the
voltage E behind Z1 stands the current E/Z1 into each phase.
"""

import cmath
import math
from dataclasses import dataclass

from .overhead_line import DataError


@dataclass(frozen=True)
class Source3:
    """A three-phase source: crest of its voltage from phase to ground, its impedances of the positive sequence, and
    k = X0/X1 = R0/R1."""

    hz: float
    amplitude_v: float
    r_ohm: float
    l_mh: float
    x0x1: float
    told: tuple[str, ...] = ()  # nothing of it is typical

    @property
    def z_ohm(self) -> complex:
        """The impedance of the positive sequence at its frequency."""
        return complex(self.r_ohm, 2e-3 * math.pi * self.hz * self.l_mh)

    @property
    def amplitude_a(self) -> float:
        """The crest of the current that stands in place of the voltage: that of a three-phase fault at its nodes."""
        return self.amplitude_v / abs(self.z_ohm)

    @property
    def behind_deg(self) -> float:
        """By how many degrees this current is behind the voltage."""
        return math.degrees(cmath.phase(self.z_ohm))

    @property
    def to_ground(self) -> tuple[float, float]:
        """R in ohm and L in mH of a branch from a phase to ground."""
        return self.x0x1 * self.r_ohm, self.x0x1 * self.l_mh

    @property
    def between(self) -> tuple[float, float] | None:
        """R in ohm and L in mH of a branch between two phases; none where X0 is X1."""
        if self.x0x1 == 1:
            return None
        part = 3 * self.x0x1 / (self.x0x1 - 1)
        return part * self.r_ohm, part * self.l_mh

    def lines(self) -> list[str]:
        """A table of what was made."""
        found = [
            f"E {self.amplitude_v / 1e3:.6g} kV crest, Z1 {self.r_ohm:.5g} ohm and {self.l_mh:.5g} mH, "
            f"I {self.amplitude_a / 1e3:.5g} kA crest",
            f"phase to ground {self.to_ground[0]:.5g} ohm and {self.to_ground[1]:.5g} mH",
        ]
        if self.between:
            found.append(f"phase to phase {self.between[0]:.5g} ohm and {self.between[1]:.5g} mH")
        return found


def source3(
    *,
    kv: float,
    sk_mva: float | None = None,
    ik_ka: float | None = None,
    xr: float,
    x0x1: float = 1.0,
    hz: float = 50.0,
    pu: float = 1.0,
) -> Source3:
    """A source of so many kV, phase to phase, by its short-circuit power in MVA or its short-circuit current in kA, X/R, which
    is that of both sequences, and X0/X1; its voltage is `pu` of the rated one, its impedance that of the rated one."""
    if (sk_mva is None) == (ik_ka is None):
        raise DataError("a source has sk_mva or ik_ka")
    power = math.sqrt(3) * kv * ik_ka if ik_ka is not None else float(sk_mva or 0)
    for name, value in (("kv", kv), ("short-circuit power", power), ("xr", xr), ("hz", hz), ("pu", pu)):
        if not 0 < value < math.inf:
            raise DataError(f"{name}, {value!r}, has to be a number above 0")
    if not 1 <= x0x1 < math.inf:
        raise DataError(
            f"x0x1 is {x0x1:g}: below 1 no branches of R and L between phases and ground have these impedances; put the "
            "transformer with a delta there that makes it so"
        )
    z = kv**2 / power
    x = z / math.hypot(1, 1 / xr)
    return Source3(hz, 1e3 * pu * kv * math.sqrt(2 / 3), x / xr, 1e3 * x / (2 * math.pi * hz), x0x1)
