"""Draws a picture of a drawing, by matplotlib."""

from __future__ import annotations

import os
import sys
import warnings
from typing import TYPE_CHECKING, BinaryIO

from .configuration import RecordError
from .drawing import Drawing, Pane, folded, needs, thinned

if TYPE_CHECKING:
    from matplotlib.axes import Axes
    from matplotlib.figure import Figure

LINES = ["-", "--", "-.", ":"]
POINTS = 12_000  # of a curve: several for each column of a picture's dots
DOTS = 120  # an inch
NAMED = 10  # curves of a legend, then how many more there are
ACROSS = 5  # names in a line of a legend
WIDTH = 110  # characters of a line above the panes
# those of the page in light: eight that the color-blind tell apart too, then the same once more in dashes
COLORS = ["#304878", "#9c0000", "#3c9c60", "#f018e4", "#b48400", "#540ce4", "#781830", "#307878"]
MARK = "#c2185b"


def figure_of(width: float, height: float) -> Figure:
    """An empty figure of so many inches, of no window: how a session shows its own stays as it is."""
    try:
        from matplotlib.figure import Figure
    except ImportError:
        raise needs("a picture", "matplotlib", sys.executable) from None
    return Figure(figsize=(width, height))


def draw(drawing: Drawing, path: str | BinaryIO) -> None:
    """Writes the picture; its ending says its form, png where it has none."""
    heights, notes = drawing.heights or [1.0], folded(drawing.notes, WIDTH)
    figure = figure_of(9, sum(heights) + 0.6 + 0.18 * len(notes))
    axes = figure.subplots(len(heights), 1, sharex=drawing.joint, squeeze=False, gridspec_kw={"height_ratios": heights})
    places, color = [row[0] for row in axes], 0
    for axis, pane in zip(places, drawing.panes):
        color = draw_pane(axis, pane, color)
    if drawing.bars:
        draw_bars(places[-1], drawing, color)
    if drawing.joint:
        places[-1].set_xlabel(plain(drawing.x_label))
    head = figure.suptitle(plain(drawing.title), x=0.01, ha="left", fontsize="large", fontweight="bold")
    if notes:
        figure.text(0.01, 0, "\n".join(plain(note) for note in notes), fontsize="small", va="top")
    form = os.path.splitext(path)[1][1:] if isinstance(path, str) else ""
    with warnings.catch_warnings():
        warnings.simplefilter("ignore", UserWarning)  # of the look alone, as of a legend that is higher than its pane
        figure.tight_layout(rect=(0, 0, 1, 0.99))
        how = {"bbox_inches": "tight", "bbox_extra_artists": [head], "pad_inches": 0.12}
        try:
            figure.savefig(path, dpi=DOTS, format=form or "png", **how)
        except ValueError as fault:
            raise RecordError(f"{path}: {fault}") from None


def draw_pane(axis: Axes, pane: Pane, color: int) -> int:
    """Curves, bands, marks and limits of a pane; gives the next color, so that each curve has its own."""
    for band in pane.bands:
        axis.fill_between(band.x, band.low, band.high, color=COLORS[band.color % len(COLORS)], alpha=0.22, linewidth=0)
    for curve in pane.curves:
        x, y, _ = thinned(curve, POINTS)
        own = color if curve.color is None else curve.color
        color += curve.color is None
        axis.plot(
            x,
            y,
            LINES[(curve.style + own // len(COLORS)) % len(LINES)],
            color=COLORS[own % len(COLORS)],
            label=plain(curve.name),
            linewidth=1.3 if curve.style else 0.9,
            drawstyle="steps-post" if curve.stepped else "default",
        )
    for place, text in pane.limits:
        axis.axvline(place, color=MARK, linewidth=0.9, linestyle="--", label=plain(text))
    for mark in pane.marks:
        axis.plot([mark.x], [mark.y], "o", color=MARK, markersize=4)
        axis.annotate(
            plain(mark.text),
            (mark.x, mark.y),
            textcoords="offset points",
            xytext=(4, 4),
            fontsize="small",
            clip_on=True,
        )
    if pane.marks:
        axis.margins(y=0.12)
    axis.set_ylabel(plain(pane.y_label))
    if pane.x_label:
        axis.set_xlabel(plain(pane.x_label))
    if pane.view:
        axis.set_xlim(*pane.view)
    if pane.title:
        axis.set_title(plain(pane.title), loc="left", fontsize="medium", pad=22)
    # over the pane, where it lies on no curve
    lines, names = axis.get_legend_handles_labels()
    if len(names) > NAMED:
        lines, names = lines[:NAMED], [*names[: NAMED - 1], f"{names[NAMED - 1]} and {len(names) - NAMED} more"]
    if names:
        axis.legend(
            lines,
            names,
            loc="lower left",
            bbox_to_anchor=(0, 1),
            borderaxespad=0.2,
            fontsize="small",
            ncol=ACROSS,
            frameon=False,
        )
    axis.grid(alpha=0.3)
    return color


def draw_bars(axis: Axes, drawing: Drawing, color: int) -> None:
    """The bars, the first one at the top."""
    for row, bar in enumerate(drawing.bars):
        spans = [(start, stop - start) for start, stop in bar.spans]
        axis.broken_barh(spans, (row + 0.1, 0.8), color=COLORS[(color + row) % len(COLORS)])
    axis.set_yticks([row + 0.5 for row in range(len(drawing.bars))], [plain(bar.name) for bar in drawing.bars])
    axis.set_ylim(len(drawing.bars), 0)
    axis.set_axisbelow(True)
    axis.grid(alpha=0.3, axis="x")


def plain(text: str) -> str:
    """A text as it is: a dollar begins no formula, and a leading line hides no name from the legend."""
    return ("\u200b" if text.startswith("_") else "") + text.replace("$", r"\$")
