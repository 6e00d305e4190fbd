"""A picture of a table: what was measured over one parameter as lines, over two as maps."""

from __future__ import annotations

import os
from collections.abc import Mapping, Sequence

import numpy as np

from .configuration import RecordError
from .drawing import Curve, Drawing, Pane
from .picture import DOTS, draw, figure_of, plain

MOST = 12  # columns that are drawn
Column = Sequence[float | str] | Sequence[float] | np.ndarray


def draw_table(parameters: Mapping[str, Column], measured: Mapping[str, Column], path: str) -> None:
    """Draws each measured column over the parameters, all of shape (rows,), into a picture, or a page where its name
    ends with .html and there is one parameter.

    Parameters that don't change don't count. RecordError where there are more than two, or where they are no numbers.
    """
    varied = changing(parameters)
    if wrong := [name for name, values in varied.items() if values.dtype.kind not in "biuf"]:
        raise RecordError(f"{wrong[0]} has values that are no numbers, so nothing is drawn over it")
    if not 1 <= len(varied) <= 2 or not measured:
        raise RecordError(
            f"{len(varied)} parameters change and {len(measured)} columns are measured: a picture is of one or two, and "
            "of one column at least"
        )
    shown = {name: np.asarray(values, float) for name, values in list(measured.items())[:MOST]}
    if len(varied) == 1:
        ((name, values),) = varied.items()
        order = np.argsort(values, kind="stable")
        panes = [Pane(it, [Curve("", values[order].astype(float), own[order])], name, 2.4) for it, own in shown.items()]
        drawing = Drawing(os.path.basename(path), panes)
        if path.lower().endswith((".html", ".htm")):
            from . import page

            page.write(drawing, path, True)
        else:
            draw(drawing, path)
        return
    _maps(varied, shown, path)


def changing(parameters: Mapping[str, Column]) -> dict[str, np.ndarray]:
    """The parameters that have more than one value."""
    return {name: np.asarray(values) for name, values in parameters.items() if len(set(map(str, values))) > 1}


def _maps(varied: dict[str, np.ndarray], shown: dict[str, np.ndarray], path: str) -> None:
    """A map of each column over two parameters; of rows of one place the mean."""
    (across, x), (up, y) = ((name, values.astype(float)) for name, values in varied.items())
    xs, place_x = np.unique(x, return_inverse=True)
    ys, place_y = np.unique(y, return_inverse=True)
    whole = len(xs) * len(ys) <= 4 * len(x)  # else points that lie anywhere
    figure = figure_of(7, 4.2 * len(shown))
    panes = figure.subplots(len(shown), 1, squeeze=False)
    for (name, values), (pane,) in zip(shown.items(), panes):
        if whole:
            known = np.isfinite(values)
            places = place_y * len(xs) + place_x
            count = np.bincount(places[known], minlength=len(xs) * len(ys))
            total = np.bincount(places[known], values[known], len(xs) * len(ys))
            mean = np.divide(total, count, out=np.full(len(total), np.nan), where=count > 0)
            drawn = pane.pcolormesh(xs, ys, mean.reshape(len(ys), len(xs)), shading="nearest")
        else:
            drawn = pane.scatter(x, y, c=values, s=9)
        figure.colorbar(drawn, ax=pane, label=plain(name))
        pane.set_xlabel(plain(across))
        pane.set_ylabel(plain(up))
    figure.tight_layout()
    figure.savefig(path, dpi=DOTS)
