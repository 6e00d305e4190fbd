"""A transformer of two windings by its plate: short-circuit voltage, losses, current without load.

The whole leakage stands on the secondary side, of each phase R = Pk U^2/S^2 and X = root(uk^2 - (Pk/S)^2) U^2/S, of a winding in
delta three times that; on the primary side, across each winding, the magnetising inductance U^2/(w S im), im = root(i0^2 - (P0/S)^2), with or without a knee,
and the resistance U^2/P0 of the core's losses. The ratio is made by the control (`Case.transformer`).
"""

import math
from dataclasses import dataclass

from .overhead_line import DataError

GROUPS = ("YNyn0", "Dyn1", "Dyn11", "YNd1", "YNd11")


@dataclass(frozen=True)
class Transformer:
    """A transformer's values a phase: `ratio` of secondary to primary winding, leakage on the secondary side, what is across a
    primary winding: losses in ohm (none where 0) and points (A, Wb)."""

    group: str
    ratio: float
    r_ohm: float
    l_mh: float
    core_ohm: float
    points: tuple[tuple[float, float], ...]
    told: tuple[str, ...] = ()

    @property
    def most_behind_mh(self) -> float:
        """Up to where the inductance behind the primary node leaves the ratio by the control stable, in mH."""
        return self.l_mh / self.ratio**2 / self.windings

    @property
    def windings(self) -> int:
        """How often the inductance behind a node counts for a primary winding: that of a delta is thrice that of its star."""
        return 3 if self.group.startswith("D") else 1

    def lines(self) -> list[str]:
        """A table of what was made, and what is told."""
        (amperes, webers), knee = self.points[0], len(self.points) > 1
        return [
            f"{self.group}, a winding: ratio {self.ratio:.6g}, leakage {self.r_ohm:.5g} ohm and {self.l_mh:.5g} mH on the "
            f"secondary side",
            f"across a primary winding {webers / amperes:.5g} H{' up to the knee' if knee else ''}"
            + (f" and {self.core_ohm:.5g} ohm" if self.core_ohm else ""),
            f"stable by the control up to {self.most_behind_mh:.4g} mH behind each primary node",
            *self.told,
        ]


def transformer(
    *,
    mva: float,
    kv: tuple[float, float],
    uk: float,
    pk_kw: float = 0.0,
    i0: float,
    p0_kw: float = 0.0,
    knee: float | None = None,
    saturated: float | None = None,
    group: str = "YNyn0",
    hz: float = 50.0,
) -> Transformer:
    """A transformer of so many MVA and (primary, secondary) kV, phase to phase; `uk` and `i0` as parts of 1, losses in kW.

    `knee` is the flux of saturation in units of the rated one (1.1 to 1.25 of large cores), `saturated` the inductance
    beyond it in units of the leakage, seen from the primary side (2.5 without it, which is typical and not of the
    plate). `group` is one of YNyn0, Dyn1, Dyn11, YNd1 and YNd11: stars are grounded, and the secondary side of a 1 is 30
    degrees behind, of an 11 ahead.
    """
    if group not in GROUPS:
        raise DataError(f"group is one of {', '.join(GROUPS)}, and here {group!r}")
    primary, secondary = kv
    for name, value in (("mva", mva), ("kv", min(kv)), ("uk", uk), ("i0", i0), ("hz", hz)):
        if not 0 < value < math.inf:
            raise DataError(f"{name}, {value!r}, has to be a number above 0")
    ur, active = pk_kw / (1e3 * mva), p0_kw / (1e3 * mva)
    if not (0 <= ur < uk < 1 and 0 <= active < i0 < 1):
        raise DataError("uk and i0 are parts of 1, above what the losses are of the rated power")
    w = 2 * math.pi * hz
    delta = group.startswith("D")
    base = secondary**2 / mva * (3 if group.startswith("YNd") else 1)  # of a secondary winding
    x = math.sqrt(uk**2 - ur**2) * base
    across = primary**2 / mva * (3 if delta else 1)  # of a winding
    volts = primary * 1e3 * math.sqrt(2) * (1 if delta else 1 / math.sqrt(3))
    magnetising = math.sqrt(i0**2 - active**2)
    henry = across / magnetising / w
    flux = volts / w
    amperes = flux / henry
    points, told = [(amperes, flux)], []
    ratio = secondary / primary * (math.sqrt(3) if group.startswith("YNd") else 1 / math.sqrt(3) if delta else 1)
    if knee is not None:
        if not knee > 0.5:
            raise DataError("knee is the flux of saturation in units of the rated one")
        air = (2.5 if saturated is None else saturated) * x / w / ratio**2
        points = [(knee * amperes, knee * flux), (knee * amperes + knee * flux / air, 2 * knee * flux)]
        if saturated is None:
            told.append("beyond the knee a typical inductance, 2.5 of the leakage: `saturated` has the plate's")
    rounded = tuple((float(f"{i:.9g}"), float(f"{it:.9g}")) for i, it in points)
    core_ohm = across / active if active else 0.0
    return Transformer(group, ratio, ur * base, 1e3 * x / w, core_ohm, rounded, tuple(told))
