"""Capacitor banks, shunt reactors and cables by their nameplates; surge impedances of bus bars and towers.

Sources: the definitions of rated power and voltage; for a cable's coaxial modes L. M. Wedepohl, D. J. Wilcox, Proceedings
of the IEE 120 (1973), 253 to 260; for a bus bar the images; for a tower M. A. Sargent, M. Darveniza, IEEE Transactions
PAS-88 (1969), 680 to 687 (cone), and T. Hara, O. Yamamoto, IEE Proceedings C 143 (1996), 283 to 289 (cylinder).
"""

import cmath
import math
import typing
from dataclasses import dataclass

from .overhead_line import EPSILON, MU, DataError, surface_impedance


def _above(**values: float) -> None:
    """All of these are above 0."""
    for name, value in values.items():
        if not (isinstance(value, (int, float)) and 0 < value < math.inf):
            raise DataError(f"{name}, {value!r}, has to be a number above 0")


@dataclass(frozen=True)
class Bank:
    """A capacitor bank: `c_uf` from each phase to ground in star, or to the next phase in delta, and the crest of its rated
    current in a phase's lead."""

    c_uf: float
    amplitude_a: float
    delta: bool
    told: tuple[str, ...] = ()  # nothing of it is typical

    def lines(self) -> list[str]:
        """A table of what was made."""
        where = "between two phases" if self.delta else "from a phase to ground"
        return [f"{self.c_uf:.6g} uF {where}, rated current {self.amplitude_a:.5g} A crest in a lead"]


def bank(mvar: float, kv: float, *, hz: float = 50.0, delta: bool = False) -> Bank:
    """A three-phase bank of so many Mvar at so many kV, phase to phase: C = Q/(w U^2) in star, a third of it in delta."""
    _above(mvar=mvar, kv=kv, hz=hz)
    c_uf = 1e6 * mvar / (2 * math.pi * hz * kv**2)
    return Bank(c_uf / 3 if delta else c_uf, 1e3 * math.sqrt(2 / 3) * mvar / kv, delta)


@dataclass(frozen=True)
class Reactor:
    """A shunt reactor: `l_mh` and `r_ohm` from each phase to ground, the crest of its rated current, and the points (A, Wb)
    for `Case.reactor`; without a knee there is one point, the same inductance by its flux."""

    l_mh: float
    r_ohm: float
    amplitude_a: float
    points: tuple[tuple[float, float], ...]
    told: tuple[str, ...] = ()

    def lines(self) -> list[str]:
        """A table of what was made, and what is told."""
        head = f"{self.l_mh:.6g} mH and {self.r_ohm:.4g} ohm from a phase to ground, {self.amplitude_a:.5g} A crest"
        return [head, *(f"{amperes:10.6g} A  {webers:8.6g} Wb" for amperes, webers in self.points), *self.told]


def reactor(
    mvar: float,
    kv: float,
    *,
    hz: float = 50.0,
    knee: float | None = None,
    saturated: float | None = None,
    loss: float = 0.0,
) -> Reactor:
    """A three-phase shunt reactor of so many Mvar at so many kV, phase to phase: L = U^2/(w Q).

    `knee` is the flux at which it saturates, in units of that of rated voltage, and `saturated` its inductance beyond in
    units of the one below (0.3 without it, which is typical of gapped cores and not of the plate); `loss` is the loss over the rated power, as R in series.
    """
    _above(mvar=mvar, kv=kv, hz=hz)
    w = 2 * math.pi * hz
    henry = kv**2 / (w * mvar)
    amperes = 1e3 * math.sqrt(2 / 3) * mvar / kv
    if not 0 <= loss < 1:
        raise DataError("loss is a part of the rated power, from 0 to below 1")
    points, told = [(amperes, henry * amperes)], []
    if knee is not None:
        beyond = 0.3 if saturated is None else saturated
        _above(knee=knee, saturated=beyond)
        if beyond >= 1:
            raise DataError("saturated is below 1: the inductance beyond the knee is less than before")
        first = (knee * amperes, knee * henry * amperes)
        points = [first, (2 * first[0], first[1] * (1 + beyond))]
        if saturated is None:
            told.append(
                "beyond the knee a typical inductance of gapped cores, 0.3 of that below: `saturated` has the plate's"
            )
    rounded = tuple((float(f"{i:.9g}"), float(f"{flux:.9g}")) for i, flux in points)
    return Reactor(1e3 * henry, loss * w * henry, amperes, rounded, tuple(told))


@dataclass(frozen=True)
class Cable:
    """A cable of one core with a grounded screen, a km: the coaxial mode between core and screen, as `Case.line` takes it,
    with its surge impedance and its velocity in km/s."""

    r_ohm: float
    l_mh: float
    c_uf: float
    surge_ohm: float
    km_s: float

    @property
    def values(self) -> dict[str, float]:
        """The words of `Case.line`."""
        return dict(r_ohm=self.r_ohm, l_mh=self.l_mh, c_uf=self.c_uf)

    @property
    def told(self) -> tuple[str, ...]:
        """What isn't in these values."""
        return ("the coaxial mode alone, at one frequency: earth, and cables beside it, are left out",)

    def lines(self) -> list[str]:
        """A table of what was made."""
        return [
            f"R {self.r_ohm:.5g} ohm/km  L {self.l_mh:.5g} mH/km  C {1e3 * self.c_uf:.5g} nF/km  Z {self.surge_ohm:.5g} ohm  "
            f"{self.km_s:.6g} km/s",
            *self.told,
        ]


def cable(
    *,
    core_mm: float,
    screen_mm: float,
    core_ohm_km: float,
    screen_ohm_km: float,
    screen_thick_mm: float = 0.2,
    permittivity: float = 2.4,
    hz: float = 1e5,
) -> Cable:
    """A cable of one core, by the radius of the core and the inner radius of the screen in mm, and their resistances to
    direct current in ohm/km; `permittivity` is that of the insulation (2.3 to 2.5 of cross-linked polyethylene).

    Semiconducting layers count as insulation of more: take permittivity * ln(screen/core) / ln(outer/inner radius of the
    insulation itself). Resistance and inductance are those at `hz`, 100 kHz for switching surges. The earth, and what one
    cable does to its neighbours outside of the screens, are left out.
    """
    _above(core_mm=core_mm, screen_mm=screen_mm, core_ohm_km=core_ohm_km, screen_ohm_km=screen_ohm_km)
    _above(screen_thick_mm=screen_thick_mm, permittivity=permittivity, hz=hz)
    if screen_mm <= core_mm:
        raise DataError(f"the screen's inner radius, {screen_mm:g} mm, is above the core's, {core_mm:g} mm")
    ratio = math.log(screen_mm / core_mm)
    core = surface_impedance(0.0, 1e-3 * core_mm, core_ohm_km, hz)
    area = math.pi * ((screen_mm + screen_thick_mm) ** 2 - screen_mm**2) * 1e-6
    depth = 1e-3 * screen_ohm_km * area  # its resistivity
    skin = complex(1, 1) / math.sqrt(depth / (math.pi * hz * MU))
    thick = skin * 1e-3 * screen_thick_mm
    # the inner surface of a thin screen: m rho coth(m d) / (2 pi q)
    screen = 1e3 * depth * skin / (2e-3 * math.pi * screen_mm) * (1 / cmath.tanh(thick) if thick.real < 30 else 1)
    z = core + screen + 2e3j * math.pi * hz * MU / (2 * math.pi) * ratio
    l_mh = 1e3 * z.imag / (2 * math.pi * hz)
    c_uf = 1e9 * 2 * math.pi * EPSILON * permittivity / ratio
    surge = math.sqrt(1e3 * l_mh / c_uf)
    return Cable(z.real, l_mh, c_uf, surge, 1 / math.sqrt(1e-9 * l_mh * c_uf))


def busbar_ohm(height_m: float, radius_mm: float, bundle: int = 1, spacing_m: float = 0.0) -> float:
    """The surge impedance of a bus bar or a wire over ground: 60 ohm ln(2 h/r), r the equivalent radius of a bundle."""
    _above(height_m=height_m, radius_mm=radius_mm)
    r = 1e-3 * radius_mm
    if bundle > 1:
        _above(spacing_m=spacing_m)
        circle = spacing_m / (2 * math.sin(math.pi / bundle))
        r = (bundle * r * circle ** (bundle - 1)) ** (1 / bundle)
    if 2 * height_m <= r:
        raise DataError("the wire is above ground")
    return math.sqrt(MU / EPSILON) / (2 * math.pi) * math.log(2 * height_m / r)


def tower_ohm(height_m: float, radius_m: float, form: typing.Literal["cone", "cylinder"] = "cone") -> float:
    """The surge impedance of a tower that is struck at its top: of a cone of this radius at its foot, 60 ohm ln(root 2
    root(1 + (h/r)^2)), or of a cylinder, 60 ohm (ln(2 root 2 h/r) - 2)."""
    _above(height_m=height_m, radius_m=radius_m)
    if form == "cone":
        return 60 * math.log(math.sqrt(2) * math.hypot(1, height_m / radius_m))
    if form == "cylinder":
        value = 60 * (math.log(2 * math.sqrt(2) * height_m / radius_m) - 2)
        if value <= 0:
            raise DataError("the formula of a cylinder is for towers that are high beside their radius")
        return value
    raise DataError(f"form is 'cone' or 'cylinder', and here {form!r}")
