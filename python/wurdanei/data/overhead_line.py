"""The constants of an overhead line from its tower: impedances and capacitances a km, and those of its sequences.

Each wire of a bundle counts by itself. Inside it Bessel functions give resistance and inductance (a tube, whose inner
radius comes from its geometric mean radius where that is given); outside, images in the earth do, and the earth's return
path by Carson's series or by Deri's complex depth. Bundles are joined and ground wires, which are at ground everywhere, left
out (Kron). A transposed line has the means of the diagonal and of the rest.

Sources: J. R. Carson, Bell System Technical Journal 5 (1926), 539 to 554; A. Deri, G. Tevan, A. Semlyen, A. Castanheira,
IEEE Transactions PAS-100 (1981), 3686 to 3693; S. A. Schelkunoff, Bell System Technical Journal 13 (1934), 532 to 579, for
tubes; H. W. Dommel, EMTP Theory Book (1986), chapter 4.
"""

import math
import typing
from dataclasses import dataclass, field

import numpy as np
from scipy import optimize, special

MU = 4e-7 * math.pi  # H/m
EPSILON = 8.8541878128e-12  # F/m
MOST_TERMS = 60  # of Carson's series, far more than 1e-12 takes below its bound
SERIES_UP_TO = 5.0  # of Carson's parameter a; above it the asymptotic series is as good
EARTHS = ("carson", "deri")


class DataError(ValueError):
    """Why no values are made of a tower, a plate or a data sheet, in words."""


@dataclass(frozen=True)
class Conductor:
    """A wire or a bundle: its place on the tower in m, the middle of the bundle; the outer radius of a wire in mm; its
    resistance in ohm/km at the frequency `r_hz` (0, direct current, without it), at its temperature.

    `gmr_mm` is the geometric mean radius of a wire, that of a solid one without it. A bundle has so many wires on a circle
    with `spacing_m` from each to the next. `sag_m` lowers the mean height by two thirds of itself.
    """

    x_m: float
    y_m: float
    radius_mm: float
    r_ohm_km: float
    gmr_mm: float | None = None
    bundle: int = 1
    spacing_m: float = 0.0
    sag_m: float = 0.0
    r_hz: float = 0.0

    def __post_init__(self) -> None:
        if not (self.radius_mm > 0 and self.r_ohm_km > 0 and self.bundle >= 1 and self.r_hz >= 0):
            raise DataError("a wire has a radius and a resistance above 0, and a bundle one wire or more")
        if self.gmr_mm is not None and not 0 < self.gmr_mm <= self.radius_mm:
            raise DataError(f"gmr_mm, {self.gmr_mm:g}, lies above 0 and at most at the radius, {self.radius_mm:g} mm")
        if self.bundle > 1 and not self.spacing_m > 2e-3 * self.radius_mm:
            raise DataError("the wires of a bundle stand apart: spacing_m is above two radii")
        if not self.height_m > 1e-3 * self.radius_mm + self.circle_m:
            raise DataError(f"the mean height, {self.height_m:g} m, has to be above ground")

    @property
    def height_m(self) -> float:
        """The mean height over a span."""
        return self.y_m - 2 * self.sag_m / 3

    @property
    def circle_m(self) -> float:
        """The radius of the circle on which the wires of a bundle stand."""
        return self.spacing_m / (2 * math.sin(math.pi / self.bundle)) if self.bundle > 1 else 0.0

    def places(self) -> np.ndarray:
        """The places of the wires: shape (bundle, 2), x and mean height in m."""
        turn = 2 * math.pi * (np.arange(self.bundle) + (0.5 if self.bundle % 2 == 0 else 0.25)) / self.bundle
        circle = self.circle_m * np.stack([np.cos(turn), np.sin(turn)], axis=1)
        return circle + np.array([self.x_m, self.height_m])

    def tube(self) -> tuple[float, float, float]:
        """Inner and outer radius in m of the tube that has the wire's mean radius, and the inductance in H/m that a solid
        wire lacks where its mean radius is below that of one."""
        r = 1e-3 * self.radius_mm
        mean = math.exp(-0.25) * r if self.gmr_mm is None else 1e-3 * self.gmr_mm
        if mean <= math.exp(-0.25) * r:
            return 0.0, r, MU / (2 * math.pi) * math.log(math.exp(-0.25) * r / mean)
        if mean >= tube_mean_radius(0.999, 1.0) * r:
            return 0.999 * r, r, 0.0
        part = optimize.brentq(lambda it: tube_mean_radius(it, 1.0) - mean / r, 1e-6, 0.999, xtol=1e-12)
        return float(part) * r, r, 0.0

    def internal(self, hz: float) -> complex:
        """The impedance in ohm/km inside one wire."""
        inner, outer, more = self.tube()
        direct = self.r_ohm_km
        if self.r_hz:
            for _ in range(50):
                direct *= self.r_ohm_km / surface_impedance(inner, outer, direct, self.r_hz).real
        return surface_impedance(inner, outer, direct, hz) + 2j * math.pi * hz * more * 1e3


def tube_mean_radius(inner: float, outer: float) -> float:
    """The geometric mean radius of a tube (of a solid wire with an inner radius of 0)."""
    if inner <= 0:
        return math.exp(-0.25) * outer
    q, r = inner * inner, outer * outer
    return outer * math.exp(-(q * q / (r - q) ** 2 * math.log(outer / inner) - (3 * q - r) / (4 * (r - q))))


def surface_impedance(inner: float, outer: float, direct_ohm_km: float, hz: float) -> complex:
    """The impedance in ohm/km of a tube's outer surface, its resistance to direct current given; radii in m."""
    if hz <= 0:
        return complex(direct_ohm_km)
    area = math.pi * (outer * outer - inner * inner)
    rho = 1e-3 * direct_ohm_km * area
    m = np.sqrt(2j * math.pi * hz * MU / rho)
    whole = rho * m / (2 * math.pi * outer)
    far = m * outer
    if inner == 0:
        ratio = special.ive(0, far) / special.ive(1, far)
    else:
        near = m * inner
        back = np.exp(near.real + near - far.real - far)  # of what the scaled functions leave out
        above = special.ive(0, far) * special.kve(1, near) + special.kve(0, far) * special.ive(1, near) * back
        below = special.ive(1, far) * special.kve(1, near) - special.kve(1, far) * special.ive(1, near) * back
        ratio = above / below
    return complex(1e3 * whole * ratio)


# ---- the earth


def carson(hz: float, rho_ohm_m: float, height_sum_m: np.ndarray, x_m: np.ndarray) -> np.ndarray:
    """What the earth's return path adds, ohm/km, to the impedance over an ideal earth, by Carson's series.

    `height_sum_m` are the sums of the two heights, `x_m` the distances across, both of one shape; the diagonal has the
    height twice, and 0.
    """
    distance = np.hypot(height_sum_m, x_m)
    angle = np.arctan2(np.abs(x_m), height_sum_m)
    a = 4e-4 * math.pi * math.sqrt(5) * distance * math.sqrt(hz / rho_ohm_m)
    near, far = _series(np.minimum(a, SERIES_UP_TO), angle), _asymptotic(np.maximum(a, SERIES_UP_TO), angle)
    return 8e-4 * math.pi * hz * np.where(a <= SERIES_UP_TO, near, far)


def _series(a: np.ndarray, angle: np.ndarray) -> np.ndarray:
    """P + j Q of Carson's series, for a up to some 5."""
    b = {1: math.sqrt(2) / 6, 2: 1 / 16}
    c = {2: 1.3659315156584124}  # ln 2 - Euler's constant + 1.25
    p = np.full_like(a, math.pi / 8)
    q = 0.5 * (0.6159315156584124 - np.log(a))  # ln 2 - Euler's constant + 0.5
    for k in range(1, MOST_TERMS + 1):
        sign = 1 if (k - 1) // 4 % 2 == 0 else -1
        if k > 2:
            b[k] = abs(b[k - 2]) / (k * (k + 2)) * sign
        if k > 2 and k % 2 == 0:
            c[k] = c[k - 2] + 1 / k + 1 / (k + 2)
        power, cosine, sine = b[k] * a**k, np.cos(k * angle), np.sin(k * angle)
        if k % 4 == 1:
            p, q = p - power * cosine, q + power * cosine
        elif k % 4 == 2:
            p = p + power * ((c[k] - np.log(a)) * cosine + angle * sine)
            q = q - math.pi / 4 * power * cosine
        elif k % 4 == 3:
            p, q = p + power * cosine, q + power * cosine
        else:
            p = p - math.pi / 4 * power * cosine
            q = q - power * ((c[k] - np.log(a)) * cosine + angle * sine)
    return p + 1j * q


def _asymptotic(a: np.ndarray, angle: np.ndarray) -> np.ndarray:
    """P + j Q for a above some 5."""
    cosines = {k: np.cos(k * angle) / a**k for k in (1, 2, 3, 5, 7)}
    p = cosines[1] - math.sqrt(2) * cosines[2] + cosines[3] + 3 * cosines[5] - 45 * cosines[7]
    q = cosines[1] - cosines[3] + 3 * cosines[5] + 45 * cosines[7]
    return (p + 1j * q) / math.sqrt(2)


def deri(hz: float, rho_ohm_m: float, height_sum_m: np.ndarray, x_m: np.ndarray) -> np.ndarray:
    """The same by images at the complex depth of Deri."""
    depth = np.sqrt(rho_ohm_m / (2j * math.pi * hz * MU))
    image, deep = np.hypot(height_sum_m, x_m), np.sqrt((height_sum_m + 2 * depth) ** 2 + x_m**2)
    return 1j * hz * MU * 1e3 * np.log(deep / image)


# ---- the line


@dataclass(frozen=True)
class Overhead:
    """The constants of an overhead line: `z` in ohm/km and `y` in S/km, complex, of shape (3, 3) at `hz`, `zero` and
    `positive` as `Case.line3` takes them, r_ohm, l_mh and c_uf a km, and what is told."""

    hz: float
    rho_ohm_m: float
    earth: str
    z: np.ndarray = field(repr=False)
    y: np.ndarray = field(repr=False)
    zero: dict[str, float] = field(repr=False)
    positive: dict[str, float] = field(repr=False)
    phases: tuple[Conductor, ...] = field(repr=False)
    ground_wires: tuple[Conductor, ...] = field(repr=False)
    told: tuple[str, ...] = ()

    @property
    def surge_ohm(self) -> tuple[float, float]:
        """The surge impedances of zero and positive sequence, by L and C alone."""
        zero, positive = (math.sqrt(1e3 * it["l_mh"] / it["c_uf"]) for it in (self.zero, self.positive))
        return zero, positive

    @property
    def km_s(self) -> tuple[float, float]:
        """The velocities of zero and positive sequence in km/s, by L and C alone."""
        zero, positive = (1 / math.sqrt(1e-9 * it["l_mh"] * it["c_uf"]) for it in (self.zero, self.positive))
        return zero, positive

    def at(self, hz: float) -> "Overhead":
        """The same line at another frequency."""
        return overhead(self.phases, self.ground_wires, rho_ohm_m=self.rho_ohm_m, hz=hz, earth=self.earth)

    def cards(self, length_km: float) -> str:
        """The cards -1, -2 and -3 of a line of this length, from SA, SB, SC to RA, RB, RC."""
        from ..case import Case  # which stands on more than this module needs

        slow = length_km / max(self.km_s)
        case = Case(dt=float(f"{slow / 20:.0e}"), end=1.0 if slow > 1e-3 else float(f"{1e3 * slow:.0e}"))
        case.line3(["SA", "SB", "SC"], ["RA", "RB", "RC"], length=length_km, zero=self.zero, positive=self.positive)
        lines = case.text(rulers=True).splitlines()
        return "\n".join(line for line in lines if line[:2] in ("-1", "-2", "-3") or line.startswith("C BUS1"))

    def lines(self) -> list[str]:
        """A table of what was made."""
        wires = f"{len(self.ground_wires)} ground wire{'s' * (len(self.ground_wires) != 1)}"
        found = [f"3 phases, {wires}, {self.hz:g} Hz, earth of {self.rho_ohm_m:g} ohm m ({self.earth})"]
        for name, it, surge, speed in zip(("zero", "positive"), (self.zero, self.positive), self.surge_ohm, self.km_s):
            found.append(
                f"{name:8}  R {it['r_ohm']:.5g} ohm/km  L {it['l_mh']:.5g} mH/km  C {1e3 * it['c_uf']:.5g} nF/km  "
                f"Z {surge:.5g} ohm  {speed:.6g} km/s"
            )
        return found + list(self.told)


def overhead(
    phases: typing.Sequence[Conductor],
    ground_wires: typing.Sequence[Conductor] = (),
    *,
    rho_ohm_m: float = 100.0,
    hz: float = 50.0,
    earth: str = "carson",
) -> Overhead:
    """The constants of a line of three phases with ground wires over an earth of `rho_ohm_m`, at a frequency; `earth` is
    "carson" or "deri"."""
    phases, ground_wires = tuple(phases), tuple(ground_wires)
    if len(phases) != 3:
        raise DataError(f"a line has three phases, and here {len(phases)}")
    if not (rho_ohm_m > 0 and hz > 0):
        raise DataError("rho_ohm_m and hz have to be above 0")
    if earth not in EARTHS:
        raise DataError(f"earth is one of {', '.join(EARTHS)}, and here {earth!r}")
    z, y = constants(phases, ground_wires, rho_ohm_m, hz, earth)
    zero, positive = _sequences(z, y, hz)
    told = _told(phases, ground_wires, rho_ohm_m, hz, earth, z)
    return Overhead(hz, rho_ohm_m, earth, z, y, zero, positive, phases, ground_wires, tuple(told))


def constants(
    phases: typing.Sequence[Conductor],
    ground_wires: typing.Sequence[Conductor],
    rho_ohm_m: float,
    hz: float,
    earth: str,
) -> tuple[np.ndarray, np.ndarray]:
    """Z in ohm/km and Y in S/km of the phases, of shape (phases, phases)."""
    wires = [*phases, *ground_wires]
    places = np.concatenate([it.places() for it in wires])
    owner = np.repeat(np.arange(len(wires)), [it.bundle for it in wires])
    radius = np.repeat([1e-3 * it.radius_mm for it in wires], [it.bundle for it in wires])
    across = np.abs(places[:, None, 0] - places[None, :, 0])
    heights = places[:, None, 1] + places[None, :, 1]
    apart = np.hypot(across, places[:, None, 1] - places[None, :, 1])
    if (apart[~np.eye(len(apart), dtype=bool)] < 2 * radius.min()).any():
        raise DataError("two wires stand at one place")
    apart = apart + np.diag(radius)
    images = np.log(np.hypot(across, heights) / apart)
    path = carson if earth == "carson" else deri
    z = 1e3j * hz * MU * images + path(hz, rho_ohm_m, heights, across)
    z += np.diag([it.internal(hz) for it in wires for _ in range(it.bundle)])
    # a voltage along the line for each phase, which all its wires have; none along a ground wire
    incidence = (owner[:, None] == np.arange(len(phases))[None, :]).astype(float)
    admittance = incidence.T @ np.linalg.solve(z, incidence)
    capacitance = incidence.T @ np.linalg.solve(images / (2 * math.pi * EPSILON), incidence)
    return np.linalg.inv(admittance), 2e3j * math.pi * hz * capacitance


def _sequences(z: np.ndarray, y: np.ndarray, hz: float) -> tuple[dict[str, float], dict[str, float]]:
    """The values a km of zero and positive sequence of the transposed line."""
    found = []
    for part in (2, -1):
        own = [np.trace(it) / 3 + part * (it.sum() - np.trace(it)) / 6 for it in (z, y)]
        w = 2 * math.pi * hz
        found.append(
            dict(r_ohm=float(own[0].real), l_mh=float(1e3 * own[0].imag / w), c_uf=float(1e6 * own[1].imag / w))
        )
    return found[0], found[1]


def _told(
    phases: typing.Sequence[Conductor],
    ground_wires: typing.Sequence[Conductor],
    rho_ohm_m: float,
    hz: float,
    earth: str,
    z: np.ndarray,
) -> list[str]:
    """What the other formula of the earth would give, and what transposing leaves out."""
    other = "deri" if earth == "carson" else "carson"
    (zero, positive), (zero_other, positive_other) = (
        _sequences(it, 1j * np.eye(3), hz) for it in (z, constants(phases, ground_wires, rho_ohm_m, hz, other)[0])
    )
    names = (("zero sequence", zero, zero_other), ("positive sequence", positive, positive_other))
    words = [
        f"{name} R {100 * (b['r_ohm'] / a['r_ohm'] - 1):+.2g} %, L {100 * (b['l_mh'] / a['l_mh'] - 1):+.2g} %"
        for name, a, b in names
    ]
    mean = np.trace(z) / 3
    mutual = (z.sum() - np.trace(z)) / 6
    ideal = np.where(np.eye(3, dtype=bool), mean, mutual)
    away = float(np.abs(z - ideal).max() / np.abs(mean - mutual))
    return [
        f"by {other} in place of {earth}: {'; '.join(words)}",
        f"without transposition an impedance differs from the mean by up to {100 * away:.2g} % of the positive sequence",
    ]


def over_frequency(line: Overhead, hz: typing.Sequence[float]) -> list[str]:
    """A table of the sequences over frequency, and what one line at one frequency leaves out."""
    rows = [line.at(float(it)) for it in hz]
    found = ["       Hz  R0 ohm/km  L0 mH/km  R1 ohm/km  L1 mH/km"]
    for it in rows:
        found.append(
            f"{it.hz:9.6g}  {it.zero['r_ohm']:9.5g}  {it.zero['l_mh']:8.5g}  {it.positive['r_ohm']:9.5g}  "
            f"{it.positive['l_mh']:8.5g}"
        )
    worst = max(rows, key=lambda it: it.zero["r_ohm"] / line.zero["r_ohm"])
    found.append(
        f"a line of {line.hz:g} Hz has R0 {line.zero['r_ohm']:.4g} ohm/km and L0 {line.zero['l_mh']:.4g} mH/km at every "
        f"frequency: at {worst.hz:g} Hz R0 is {worst.zero['r_ohm'] / line.zero['r_ohm']:.3g} times that, L0 "
        f"{worst.zero['l_mh'] / line.zero['l_mh']:.3g} times, so fast waves of the zero sequence are damped too little"
    )
    return found
