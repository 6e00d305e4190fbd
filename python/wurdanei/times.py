"""Tables of switch times: rows of scattered closing times, and the rows of a table that is there.

A switch closes at a common time of its row plus an offset of its own; one that is tied closes a while after another one, as
the main pole of a breaker does after the auxiliary pole of its insertion resistor. docs/tools.md has the form of a table.
"""

import math
import sys
from collections.abc import Sequence
from dataclasses import dataclass, field

import numpy as np

from .deck import DeckError, ends_of
from .parts import counted


class TimesError(Exception):
    """Why a table can't be made, in words."""


@dataclass(frozen=True)
class Tied:
    """The switch `pole` closes `delay` seconds after the switch `first`, give or take its own deviation, in s."""

    pole: int
    first: int
    delay: float
    sigma: float = 0.0


@dataclass(frozen=True)
class Scatter:
    """How closing times scatter: `rows` rows; a common time from `begin` on, uniform over `cycle` seconds; of each of
    `poles` (numbers of time switches, from 1) an offset of the deviation `sigma`, in s, normal or uniform; tied switches.
    """

    rows: int
    cycle: float
    sigma: float
    begin: float = 0.0
    poles: tuple[int, ...] = ()
    tied: tuple[Tied, ...] = field(default=())
    uniform: bool = False
    seed: int = 1


def tied_of(text: str) -> tuple[Tied, ...]:
    """The switches that `POLE:FIRST:DELAY[:SIGMA],..` ties."""
    found = []
    for item in text.split(","):
        words = item.split(":")
        try:
            pole, first = int(words[0]), int(words[1])
            delay, sigma = (float(word) for word in (words[2], *words[3:], "0")[: max(2, len(words) - 2)])
        except (ValueError, IndexError):
            raise TimesError(f"--after {item}: it is POLE:FIRST:DELAY or POLE:FIRST:DELAY:SIGMA, as 4:1:.01") from None
        if not (math.isfinite(delay) and 0 <= sigma < math.inf):
            raise TimesError(f"--after {item}: DELAY is a number of seconds, and SIGMA one from 0 on")
        found.append(Tied(pole, first, delay, sigma))
    return tuple(found)


def scattered(scatter: Scatter, count: int) -> list[str]:
    """The lines of a table for a case of so many time switches; equal words and seed give equal lines."""
    tied = {it.pole: it for it in scatter.tied}
    if len(tied) < len(scatter.tied):
        raise TimesError("--after ties a switch twice")
    poles = scatter.poles or tuple(pole for pole in range(1, count + 1) if pole not in tied)
    if any(not 1 <= pole <= count for pole in (*poles, *tied)):
        raise TimesError(f"the time switches of the case are 1 to {count}")
    if len(set(poles)) < len(poles) or set(poles) & set(tied):
        raise TimesError("a switch stands twice among --poles, or in --poles and --after")
    known = set(poles)
    for it in scatter.tied:
        if it.first not in known:
            raise TimesError(
                f"--after {it.pole}:{it.first}: switch {it.first} has no scattered time, or is tied behind it"
            )
        known.add(it.pole)
    chance = np.random.default_rng(scatter.seed)
    draw = _uniform if scatter.uniform else _normal
    lines = [_heading(scatter, poles, count)]
    for _ in range(scatter.rows):
        common = scatter.begin + chance.uniform(0.0, scatter.cycle)
        closes = {pole: common + draw(chance, scatter.sigma) for pole in poles}
        for it in scatter.tied:
            closes[it.pole] = closes[it.first] + it.delay + (draw(chance, it.sigma) if it.sigma else 0.0)
        lines.append(" ".join(f"{closes[pole]:.9f} *" if pole in closes else "* *" for pole in range(1, count + 1)))
    return lines


def _normal(chance: np.random.Generator, sigma: float) -> float:
    return chance.normal(0.0, sigma)


def _uniform(chance: np.random.Generator, sigma: float) -> float:
    """Between -sqrt(3) sigma and sqrt(3) sigma, whose deviation is sigma."""
    return chance.uniform(-math.sqrt(3) * sigma, math.sqrt(3) * sigma)


def _heading(scatter: Scatter, poles: tuple[int, ...], count: int) -> str:
    text = (
        f"# {counted(scatter.rows, 'row')}, poles {','.join(map(str, poles))} of {count}: from {scatter.begin} s, uniform over "
        f"{scatter.cycle} s, {'uniform' if scatter.uniform else 'normal'} by {scatter.sigma} s, seed {scatter.seed}"
    )
    for it in scatter.tied:
        text += f"; {it.pole} after {it.first} by {it.delay} s" + (f" and {it.sigma} s" if it.sigma else "")
    return text


def rows_of(path: str) -> list[tuple[int, str]]:
    """The rows of a table: each with its line's number and its text."""
    with open(path, encoding="latin-1", newline="") as file:
        lines = [line.removesuffix("\r") for line in file.read().split("\n")]
    return [(number, line) for number, line in enumerate(lines, 1) if line.strip(" ") and not line.startswith("#")]


def behind(rows: Sequence[str], end: float) -> int:
    """How many rows give times, and all of them after the end of the run, in s."""
    count = 0
    for row in rows:
        try:
            given = [float(word) for word in row.split() if word not in ("*", "-")]
        except ValueError:  # the program refuses the row
            continue
        count += bool(given) and min(given) > end + 5e-13
    return count


def tell_behind(rows: Sequence[str], path: str, texts: Sequence[str]) -> None:
    """Says on standard error in how many rows all times lie behind the end of the run; of several cases the longest run
    counts."""
    try:
        end = max(ends_of(path, texts))
    except DeckError:  # of a case that is refused the run tells more
        return
    late = behind(rows, end)
    if late:
        print(
            f"emtp study: of {late} of {counted(len(rows), 'row')} all times lie behind the end of the run, {end:g} s",
            file=sys.stderr,
        )
