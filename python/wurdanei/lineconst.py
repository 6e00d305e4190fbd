"""The constants of an overhead line from a description of its tower: `emtp lineconst TOWER.toml`.

Impedances and capacitances of the phases and of the sequences, the values for `Case.line3`, the cards of a line, a table
over frequency and a picture of the tower. docs/data.md has the form of the description.
"""

import argparse
import dataclasses
import math
import sys
import tomllib
import typing

import numpy as np

from .configuration import RecordError
from .data.overhead_line import Conductor, DataError, Overhead, over_frequency, overhead
from .drawing import needs
from .fields import FieldError

KEYS = {it.name for it in dataclasses.fields(Conductor)}
HEAD = {"name", "hz", "rho_ohm_m", "earth", "length_km", "phase", "ground_wire"}


def read(path: str) -> dict[str, typing.Any]:
    """The description of a tower. DataError where it isn't one."""
    try:
        with open(path, "rb") as file:
            found = tomllib.load(file)
    except (tomllib.TOMLDecodeError, UnicodeDecodeError) as fault:
        raise DataError(f"{path}: {fault}") from None
    if unknown := found.keys() - HEAD:
        raise DataError(f"{path}: {', '.join(sorted(unknown))} isn't known; there are {', '.join(sorted(HEAD))}")
    return found


def wires(path: str, rows: typing.Any, what: str) -> list[Conductor]:
    """The conductors of a list of tables."""
    if not isinstance(rows, list) or not all(isinstance(row, dict) for row in rows):
        raise DataError(f"{path}: each conductor is a table [[{what}]]")
    found = []
    for number, row in enumerate(rows, 1):
        if unknown := row.keys() - KEYS:
            raise DataError(
                f"{path}: {what} {number}: {', '.join(sorted(unknown))} isn't known; there are {', '.join(sorted(KEYS))}"
            )
        try:
            found.append(Conductor(**row))
        except (TypeError, DataError) as fault:
            raise DataError(f"{path}: {what} {number}: {str(fault).partition('() ')[2] or fault}") from None
    return found


def line_of(path: str, given: dict[str, typing.Any]) -> Overhead:
    """The line of a description."""
    phases, others = (wires(path, given.get(it, []), it) for it in ("phase", "ground_wire"))
    values = {key: given[key] for key in ("hz", "rho_ohm_m", "earth") if key in given}
    try:
        return overhead(phases, others, **values)
    except TypeError as fault:
        raise DataError(f"{path}: {fault}") from None


def matrix(name: str, values: np.ndarray, unit: str) -> list[str]:
    """A matrix in words."""
    rows = ["  ".join(f"{it.real:10.5f} {it.imag:+10.5f}j" for it in row) for row in values]
    return [f"{name}, {unit}", *rows]


def shown(line: Overhead) -> list[str]:
    """What is printed of a line but its cards."""
    values = [
        f"{name} = dict(" + ", ".join(f"{key}={value:.6g}" for key, value in it.items()) + ")"
        for name, it in (("zero", line.zero), ("positive", line.positive))
    ]
    own = line.lines()
    return [*own[:3], *matrix("Z", line.z, "ohm/km"), *matrix("Y", 1e6 * line.y, "uS/km"), *values, *own[3:]]


def draw(line: Overhead, name: str, path: str) -> None:
    """A picture of the tower: conductors at the tower and at their mean height."""
    try:
        import matplotlib
    except ImportError:
        raise needs("a picture", "matplotlib", sys.executable) from None
    matplotlib.use("Agg")
    from matplotlib import pyplot

    figure, axis = pyplot.subplots(figsize=(6, 6))
    for wires_, colour, what in ((line.phases, "C0", "phase"), (line.ground_wires, "C2", "ground wire")):
        for number, it in enumerate(wires_):
            places = it.places() + np.array([0.0, 2 * it.sag_m / 3])
            axis.plot(places[:, 0], places[:, 1], "o", color=colour, label=what if number == 0 else None)
            axis.plot([it.x_m, it.x_m], [it.y_m - it.sag_m, it.y_m], ":", color=colour)
            axis.plot([it.x_m], [it.height_m], "_", color=colour, markersize=12)
    axis.axhline(0, color="0.4")
    axis.set_aspect("equal")
    axis.set_xlabel("m")
    axis.set_ylabel("m above ground; - is the mean height")
    axis.set_title(name)
    axis.legend(loc="lower right")
    figure.tight_layout()
    try:
        figure.savefig(path, dpi=80)
    except ValueError as fault:
        raise DataError(f"{path}: {fault}") from None
    finally:
        pyplot.close(figure)


def _words() -> argparse.ArgumentParser:
    words = argparse.ArgumentParser(
        prog="emtp lineconst",
        description=__doc__.split("\n\n", maxsplit=1)[0],
        epilog="It needs scipy, for the picture matplotlib. Exit status: 0, or 2 where the description isn't one.",
    )
    words.add_argument("tower", metavar="TOWER.toml")
    words.add_argument("--hz", metavar="F[,F..]", help="frequencies of a table, parted by commas")
    words.add_argument(
        "--rho", metavar="R", type=float, help="earth resistivity in ohm m, in place of the description's"
    )
    words.add_argument("--earth", choices=("carson", "deri"), help="the formula of the earth's return path")
    words.add_argument("--length", metavar="KM", type=float, help="length of the line whose cards are printed")
    words.add_argument("--picture", metavar="FILE", help="the tower, as png, svg or pdf")
    return words


def main(words: list[str]) -> int:
    """The command."""
    given = _words().parse_args(words)
    try:
        found = read(given.tower)
        found |= {key: it for key, it in (("rho_ohm_m", given.rho), ("earth", given.earth)) if it is not None}
        line = line_of(given.tower, found)
        print("\n".join(shown(line)))
        length = given.length if given.length is not None else found.get("length_km")
        if length is not None:
            if not (isinstance(length, (int, float)) and 0 < length < math.inf):
                raise DataError("the length is a number of km above 0")
            print(line.cards(float(length)))
        if given.hz:
            try:
                frequencies = [float(it) for it in given.hz.split(",")]
            except ValueError:
                raise DataError(f"--hz {given.hz}: frequencies in Hz, parted by commas") from None
            print("\n".join(over_frequency(line, frequencies)))
        if given.picture:
            draw(line, str(found.get("name", "")), given.picture)
    except (DataError, FieldError, RecordError) as fault:
        print(f"emtp lineconst: {fault}", file=sys.stderr)
        return 2
    return 0
