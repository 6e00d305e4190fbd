"""The points of an arrester from the residual voltages of its data sheet.

A data sheet has residual voltages of impulses alone: 8/20 us, 30/60 us (switching), 1/.. us (steep). Below the least current
the points come from the rated voltage and a typical curve of zinc oxide: at 1 mA the crest of the rated voltage, at 1 A, 100 A
and 500 A as far on the way from there to the least residual voltage as the curve is. They are told as such.

Source: IEC 60099-4 for the impulses; the curve is a mean of catalogues, this project's own.
"""

import math
import typing
from dataclasses import dataclass

import numpy as np

from .overhead_line import DataError

# A, and the voltage over that of 10 kA 8/20 us
TYPICAL = np.array(
    [
        (1e-3, 0.609),
        (1.0, 0.692),
        (100.0, 0.785),
        (500.0, 0.827),
        (1e3, 0.849),
        (2e3, 0.882),
        (5e3, 0.942),
        (1e4, 1.0),
        (2e4, 1.09),
    ]
)
SWITCHING_KA = 3.0  # up to where the impulses of 30/60 us give the points of a switching surge
FORMS = ("switching", "lightning", "steep")


@dataclass(frozen=True)
class ArresterData:
    """The points (A, V) for `Case.arrester`, and which of them aren't of the data sheet."""

    points: tuple[tuple[float, float], ...]
    told: tuple[str, ...]

    def lines(self) -> list[str]:
        """A table of what was made."""
        return [f"{amperes:10.6g} A  {volts / 1e3:8.6g} kV" for amperes, volts in self.points] + list(self.told)


def arrester(
    *,
    ur_kv: float,
    lightning: typing.Mapping[float, float],
    switching: typing.Mapping[float, float] | None = None,
    steep: typing.Mapping[float, float] | None = None,
    form: str = "switching",
) -> ArresterData:
    """The points of an arrester of a rated voltage in kV, by its residual voltages in kV over crests in kA: `lightning` of
    8/20 us, `switching` of 30/60 us, `steep` of 1/.. us.

    `form` says for which surge: "switching" takes 30/60 us up to 3 kA and 8/20 us above; "lightning" 8/20 us alone; "steep"
    8/20 us times the ratio of the two at the current, or the nearest one, that both have.
    """
    if form not in FORMS:
        raise DataError(f"form is one of {', '.join(FORMS)}, and here {form!r}")
    if not ur_kv > 0 or not lightning:
        raise DataError("an arrester has a rated voltage above 0 and residual voltages of 8/20 us")
    table = {float(k): float(v) for k, v in lightning.items()}
    told = []
    if form == "switching":
        if switching:
            table = {k: v for k, v in table.items() if k > max(max(switching), SWITCHING_KA)} | {
                float(k): float(v) for k, v in switching.items()
            }
        else:
            told.append(
                "no residual voltage of 30/60 us is given, so those of 8/20 us stand for a switching surge: some 3 % high"
            )
    elif form == "steep":
        if not steep:
            raise DataError("a steep surge wants residual voltages of 1/.. us")
        at = max(steep)
        near = min(table, key=lambda it: abs(it - at))
        factor = steep[at] / table[near]
        table = {k: v * factor for k, v in table.items()}
        told.append(f"8/20 us times {factor:.4g}, that of 1/.. us at {at:g} kA over it at {near:g} kA")
    sheet = sorted((1e3 * k, 1e3 * v) for k, v in table.items())
    crest = 1e3 * math.sqrt(2) * ur_kv
    least_a, least_v = sheet[0]
    if not (least_a > 0 and least_v > crest):
        raise DataError(
            f"the least residual voltage, {least_v / 1e3:g} kV, has to be above the crest of the rated voltage, "
            f"{crest / 1e3:.5g} kV"
        )
    shape = np.interp(np.log([least_a]), np.log(TYPICAL[:, 0]), TYPICAL[:, 1])[0]
    low = [
        (float(amperes), float(crest + (part - TYPICAL[0, 1]) / (shape - TYPICAL[0, 1]) * (least_v - crest)))
        for amperes, part in TYPICAL[:4]
        if amperes < 0.9 * least_a
    ]
    points = [*((i, float(f"{u:.6g}")) for i, u in low), *((float(f"{i:.9g}"), float(f"{u:.9g}")) for i, u in sheet)]
    for (i0, u0), (i1, u1) in zip(points, points[1:]):
        if not (i1 > i0 and u1 > u0):
            raise DataError(f"residual voltages rise with the current: {u0:g} V at {i0:g} A, {u1:g} V at {i1:g} A")
    named = ", ".join(f"{i:g} A" for i, _ in low)
    told.append(f"not of the data sheet but of a typical curve: {named}; leakage and losses by them are an estimate")
    return ArresterData(tuple(points), tuple(told))
