"""Writes a drawing as one page that stands alone: the plot of emtp's own page, with its numbers packed. It has zoom, values
under the cursor, a mark, and a table of the channels that hides and shows them."""

from __future__ import annotations

import base64
import hashlib
import html
import json
import os
from importlib import resources
from typing import Any

import numpy as np

from .drawing import RULES, Band, Curve, Drawing, Pane, needs, thinned
from .resample import even_spacing

POINTS = 600_000  # of all curves of a page, where not all are asked for
SCRIPTS = ("rules.js", "plot.js", "panel.js", "page.js")
STYLES = ("plot.css", "page.css")
KEYS = (
    "Drag to zoom, double click for all; arrow keys, + - 0, m for a mark; the wheel over the numbers zooms the values; "
    "a name in the table draws that channel alone."
)


def write(drawing: Drawing, path: str, whole: bool) -> None:
    """Writes the page, with all points where `whole`; else as many as a browser takes, and its head says so."""
    curves = [curve for pane in drawing.panes for curve in pane.curves]
    packed = Packed(10**12 if whole else share_of([len(curve.y) for curve in curves]))
    picture = packed.picture(drawing)
    notes = list(drawing.notes)
    if packed.thinnest > 1:
        notes.append(
            f"thinned: of each {packed.thinnest} samples the least and the greatest are drawn; --all puts all of them "
            "into the page, --from and --to take a piece"
        )
    name = os.path.splitext(os.path.basename(path))[0]
    told = json.dumps({"name": name, "xs": packed.xs, "picture": picture}, ensure_ascii=False, allow_nan=False)
    style = "".join(part(name) for name in STYLES)
    rules = json.dumps(RULES, ensure_ascii=False)
    script = f'"use strict";\nconst RULES = {rules};\n' + "\n".join(part(name) for name in SCRIPTS)
    listed = "".join(f"<li>{untagged(note)}</li>" for note in notes)
    policy = (
        f"default-src 'none'; script-src {sum_of(script)}; style-src {sum_of(style)}; img-src data: blob:; "
        "connect-src 'none'; form-action 'none'; base-uri 'none'"
    )
    with open(path, "w", encoding="utf-8", newline="\n") as file:
        file.write(
            '<!doctype html>\n<html lang="en">\n<head>\n<meta charset="utf-8">\n'
            '<meta name="viewport" content="width=device-width, initial-scale=1">\n'
            f'<meta http-equiv="Content-Security-Policy" content="{policy}">\n'
            f'<title>{untagged(drawing.title)}</title>\n<link rel="icon" href="data:,">\n'
            f"<style>{style}</style>\n</head>\n<body>\n"
            f'<h1>{untagged(drawing.title)}</h1>\n{f"<ul class=notes>{listed}</ul>" if listed else ""}\n'
            f'<div id="panel"></div>\n<p class="hint">{KEYS}</p>\n'
            f'<script type="application/json" id="drawing">{told.replace("</", "<" + chr(92) + "/")}</script>\n'
            f"<script>{script}</script>\n</body>\n</html>\n"
        )


def part(name: str) -> str:
    """A file of the plot."""
    try:
        return resources.files(__package__).joinpath("web", name).read_text(encoding="utf-8")
    except OSError:
        raise needs("a page", f"wurdanei/web/{name}", "the package") from None


def sum_of(text: str) -> str:
    """The sum by which a page's policy lets a script or a style through."""
    return f"'sha256-{base64.b64encode(hashlib.sha256(text.encode()).digest()).decode()}'"


def share_of(sizes: list[int]) -> int:
    """How many points a curve may have so that all have `POINTS`; short curves leave theirs to the long ones."""
    left, rest = POINTS, sorted(sizes)
    while rest and rest[0] <= left // len(rest):
        left -= rest.pop(0)
    return left // len(rest) if rest else POINTS


class Packed:
    """The picture of a drawing as the plot has it, its numbers in base64: x of 64 bits, each once, or an even grid as three
    numbers; y of 32 bits, seven digits. No curve has more than about `most` points."""

    def __init__(self, most: int) -> None:
        self.most = most
        self.thinnest = 1  # of how many samples each two are drawn, at most
        self.xs: list[str | dict[str, float]] = []
        self.known: dict[bytes, int] = {}
        self.color = 0

    def picture(self, drawing: Drawing) -> dict[str, Any]:
        """The whole."""
        axes: list[dict[str, Any]] = []
        panes = []
        for pane in drawing.panes:
            if not axes or not drawing.joint:
                axes.append(axis_of(drawing, pane))
            panes.append(self.pane(pane, len(axes) - 1))
        if drawing.bars:
            if not axes:
                axes.append(axis_of(drawing, None))
            begin, end = drawing.span
            panes.append({"axis": 0, "bars": [self.bar(bar.name, bar.spans, begin, end) for bar in drawing.bars]})
        return {"title": drawing.title, "kind": "drawing", "axes": axes, "panes": panes}

    def pane(self, pane: Pane, axis: int) -> dict[str, Any]:
        """A pane over an axis."""
        made: dict[str, Any] = {"unit": pane.y_label, "axis": axis, "height": round(130 * pane.height / 3)}
        if pane.title:
            made |= {"label": pane.title}
        made["curves"] = [self.curve(curve) for curve in pane.curves]
        made["marks"] = [{"x": it.x, "y": it.y, "text": it.text} for it in pane.marks if np.isfinite(it.y)]
        made["limits"] = [{"x": x, "text": text} for x, text in pane.limits]
        if pane.bands:
            made["bands"] = [self.band(band) for band in pane.bands]
        return made

    def curve(self, curve: Curve) -> dict[str, Any]:
        """A curve, thinned where it has many points."""
        x, y, size = thinned(curve, self.most)
        self.thinnest = max(self.thinnest, size)
        color = self.next_color() if curve.color is None else curve.color
        made: dict[str, Any] = {"name": curve.name, "unit": curve.unit, "x": self.x(x), "y": floats(y), "color": color}
        made |= {"dash": curve.style} if curve.style else {}
        made |= {"steps": True} if curve.stepped else {}
        made |= {"loose": True} if len(x) > 1 and (np.diff(x) < 0).any() else {}
        return made if curve.name else made | {"name": curve.unit or "curve", "nameless": True}

    def band(self, band: Band) -> dict[str, Any]:
        """What lies between two curves."""
        low = Curve("", band.x, band.low)
        x, _, size = thinned(low, self.most)
        if size == 1:
            return {"x": self.x(x), "low": floats(band.low), "high": floats(band.high), "color": band.color}
        # of each piece the least of the lower curve and the greatest of the upper one
        count = -(-len(band.x) // size)
        pieces = [band.x[at * size] for at in range(count)]
        lows = [np.nanmin(band.low[at * size : (at + 1) * size]) for at in range(count)]
        highs = [np.nanmax(band.high[at * size : (at + 1) * size]) for at in range(count)]
        return {
            "x": self.x(np.array(pieces)), "low": floats(np.array(lows)), "high": floats(np.array(highs)), "color": band.color
        }  # fmt: skip

    def bar(self, name: str, spans: list[tuple[float, float]], begin: float, end: float) -> dict[str, Any]:
        """A state: 1 from the begin to the end of each span, 0 elsewhere."""
        x = np.array([begin, *(edge for span in spans for edge in span), end])
        values = np.array([0.0, *(value for _ in spans for value in (1.0, 0.0)), 0.0])
        return {"name": name, "x": self.x(x), "values": floats(values), "color": self.next_color()}

    def next_color(self) -> int:
        """Colours go on from pane to pane, so that each curve has its own."""
        self.color += 1
        return self.color - 1

    def x(self, values: np.ndarray) -> int:
        """The place of values among those that are kept."""
        raw = np.asarray(values, "<f8").tobytes()
        if raw not in self.known:
            spacing = even_spacing(values)
            grid = {"first": float(values[0]), "step": spacing, "count": len(values)} if spacing else None
            self.known[raw] = len(self.xs)
            self.xs.append(grid or base64.b64encode(raw).decode())
        return self.known[raw]


def axis_of(drawing: Drawing, pane: Pane | None) -> dict[str, Any]:
    """The axis of a pane; of times it says how many seconds its unit has."""
    label = (pane.x_label if pane else "") or drawing.x_label
    made: dict[str, Any] = {"label": label, "unit": label.rpartition(", ")[2] if ", " in label else label}
    seconds = {it["unit"]: it["seconds"] for it in RULES["times"]}
    if drawing.joint and label.split(" ")[0] in seconds:
        made |= {"unit": label.split(" ")[0], "seconds": seconds[label.split(" ")[0]]}
    if pane and pane.view:
        made |= {"view": list(pane.view)}
    return made


def floats(values: np.ndarray) -> str:
    """Values as floats of 32 bits, in base64."""
    return base64.b64encode(np.asarray(values, "<f4").tobytes()).decode()


def untagged(text: str) -> str:
    """A text as it is: a pointed bracket begins no tag."""
    return html.escape(text, quote=False)
