"""Draws a comparison: both curves of each pair over the case's band, and the difference within what it may be."""

from __future__ import annotations

import os

import numpy as np

from . import page, picture
from .compare import Compared, Comparison, shift_line
from .drawing import STYLES, Band, Curve, Drawing, Pane, covering, greatest, shown_unit

CASE, MEASURED, DIFFERENCE = 0, 1, 2  # places among the colours


def draw(found: Comparison, path: str) -> None:
    """Writes the picture (.png) or the page (.html) of a comparison, and says so."""
    drawing = drawing_of(found, os.path.basename(path))
    if path.endswith(".html"):
        page.write(drawing, path, False)
    else:
        picture.draw(drawing, path)
    print(f"drawn: {path}")


def drawing_of(found: Comparison, title: str) -> Drawing:
    """Two panes a pair: the curves, and below them the measured one less the case's."""
    panes = [pane for it in found.pairs for pane in panes_of(it)]
    return Drawing(title, panes, x_label="ms of the case", notes=[shift_line(found)])


def panes_of(it: Compared) -> list[Pane]:
    """The panes of a pair."""
    at = 1e3 * it.times
    case = Curve(f"case {it.wanted.case}", at, it.case, it.unit, color=CASE)
    measured = Curve(f"measured {it.wanted.measured}", at, it.measured, it.unit, color=MEASURED)
    apart = Curve(f"{it.wanted.measured} less {it.wanted.case}", at, it.measured - it.case, it.unit, color=DIFFERENCE)
    divisor, unit = shown_unit(it.unit, greatest([case, measured]))
    for curve in (case, measured, apart):
        curve.y, curve.unit = curve.y / divisor, unit
    case.style = covering(case, [measured]) % STYLES
    (low, high), (least, most) = may_be(it), it.band
    verdict = "WITHIN" if it.within else "BEYOND"
    title = f"{it.name}: {verdict} {it.wanted.tolerance:g} %, RMS {it.rms:.2f} %, beyond the band {it.beyond:.2f} %"
    upper = Pane(unit, [measured, case], bands=[Band(at, least / divisor, most / divisor, CASE)], title=title)
    lower = Pane(unit, [apart], height=1.6, bands=[Band(at, low / divisor, high / divisor, DIFFERENCE)])
    return [upper, lower]


def may_be(it: Compared) -> tuple[np.ndarray, np.ndarray]:
    """Between what measured less case has to lie: the band about the case, and the tolerance on either side."""
    most = it.wanted.tolerance / 100 * float(np.max(abs(it.measured)))
    low, high = it.band
    return low - it.case - most, high - it.case + most
