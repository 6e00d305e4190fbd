"""What the commands that judge a record leave: their exit statuses, a table (.csv), a picture or a page."""

from __future__ import annotations

import argparse
import csv
import io
import math
import os
from typing import Iterable, Sequence

import numpy as np

from .configuration import RecordError
from .drawing import Drawing
from .write import put

PASSES, FAILS, UNJUDGED = 0, 1, 2  # exit statuses


def add_outputs(parser: argparse.ArgumentParser) -> None:
    """The words that name what is written."""
    parser.add_argument("--out", metavar="FILE", help="a picture (.png, .svg, .pdf) or a page (.html)")
    parser.add_argument("--csv", metavar="FILE", help="the values as a table")
    parser.add_argument("--curves", metavar="FILE", help="the curves as a table, a line a sample")


def checked(named: argparse.Namespace, *read: str | None) -> None:
    """Refuses an output whose ending says no form, or that would be written over what is read."""
    own = {os.path.realpath(path) for path in read if path}
    own |= {os.path.splitext(path)[0] + ".dat" for path in own}
    outs = [("--out", named.out), ("--csv", named.csv), ("--curves", named.curves)]
    named_twice = [path for _, path in outs if path and sum(path == other for _, other in outs) > 1]
    if named_twice:
        raise RecordError(f"{named_twice[0]} is named twice, for two things that are written")
    for word, path in outs:
        endings = (".png", ".svg", ".pdf", ".jpg", ".html", ".htm") if word == "--out" else (".csv",)
        if path and not path.lower().endswith(endings):
            raise RecordError(f"{word} {path}: the name ends with none of {', '.join(endings)}")
        if path and os.path.realpath(path) in own:
            raise RecordError(f"{word} {path}: this would be written over what is read")


def write_table(path: str, heads: Sequence[str], rows: Iterable[Sequence[object]]) -> None:
    """Writes a table; an empty field is a number that isn't there."""
    text = io.StringIO()
    made = csv.writer(text, lineterminator="\n")
    made.writerow(heads)
    made.writerows([_field(it) for it in row] for row in rows)
    put({path: [text.getvalue().encode("utf-8")]})
    print(f"written: {path}")


def write_curves(path: str, columns: Sequence[tuple[str, np.ndarray]]) -> None:
    """Writes curves of one length, a column each."""
    write_table(path, [name for name, _ in columns], zip(*(values.tolist() for _, values in columns)))


def _field(value: object) -> object:
    if isinstance(value, float):
        return "" if math.isnan(value) else f"{value:.10g}"
    return "" if value is None else value


def draw(drawing: Drawing, path: str) -> None:
    """Writes the picture or the page."""
    from . import page, picture

    if path.lower().endswith((".html", ".htm")):
        page.write(drawing, path, False)
    else:
        picture.draw(drawing, path)
    print(f"drawn: {path}")


def numbers(text: str, word: str, counts: Sequence[int]) -> list[float]:
    """The finite numbers of a word, parted by commas, so many as one of the counts."""
    try:
        found = [float(part) for part in text.split(",")]
    except ValueError:
        found = []
    if len(found) not in counts or not all(math.isfinite(it) for it in found):
        wanted = " or ".join(str(count) for count in counts)
        raise RecordError(f"{word} {text}: it has {wanted} numbers, parted by commas")
    return found
