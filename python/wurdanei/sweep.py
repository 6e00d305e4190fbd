"""Runs a case under many values of its parameters on all processors, and makes a table of what is measured.

    def line(r_ohm, close_s):
        case = Case(1e-6, 0.03)
        ..
        return case

    found = sweep.run(line, sweep.grid(r_ohm=[0, 200, 400], close_s=np.linspace(0, 0.01, 21)), ["V FAR"])
    found["V FAR"], found.frame(), found.draw("far.png")

A row is built, run and measured in a process of its own, of a pool, or by any executor of `concurrent.futures` that is
given, as that of a cluster. docs/study.md is the page for its users.
"""

from __future__ import annotations

import concurrent.futures
import contextlib
import csv
import hashlib
import inspect
import itertools
import json
import multiprocessing
import os
import pathlib
import sys
import time
from collections.abc import Callable, Iterable, Mapping, Sequence
from dataclasses import dataclass, field
from typing import TYPE_CHECKING, Any

import numpy as np

from . import program
from .answers import UnknownName
from .case import Case
from .chart import draw_table
from .record import Record, RecordError

if TYPE_CHECKING:
    import pandas

MOST_ROWS = 1_000_000
MOST_TRIES = 3  # of a part whose process was lost
PARTS = 8  # of each process: so the last ones end together, and a lost one loses little
LARGEST = 50  # rows of a part
ERROR, ENDED = "error", "ended"  # columns of each table

Value = float | int | str | bool
Point = dict[str, Value]
Build = Callable[..., Any]
Note = Callable[[int, Any], None]
Measure = Callable[[Record], Any] | Sequence[str] | None


class SweepError(ValueError):
    """Why a sweep can't be made, in words."""


# ---- the values of the parameters


def grid(**values: Iterable[Value]) -> list[Point]:
    """Each value of each parameter with each one of the others; that of the last parameter changes fastest."""
    lists = {name: [_plain(it) for it in its] for name, its in values.items()}
    return [dict(zip(lists, row)) for row in itertools.product(*lists.values())]


def rows(**values: Iterable[Value]) -> list[Point]:
    """The first values of all parameters together, then the second ones, and so on; there are as many of each."""
    lists = {name: [_plain(it) for it in its] for name, its in values.items()}
    if len({len(its) for its in lists.values()}) > 1:
        raise SweepError(f"the parameters have {', '.join(f'{len(its)} of {name}' for name, its in lists.items())}")
    return [dict(zip(lists, row)) for row in zip(*lists.values())]


def random(
    count: int, seed: int, **values: tuple[float, float] | Callable[[np.random.Generator], Value]
) -> list[Point]:
    """So many rows of values by chance; equal words and seed give equal rows.

    A parameter has a least and a greatest value, between which all are equally likely, or a function that draws one of a
    numpy Generator, as `lambda chance: chance.normal(0.01, 0.001)`.
    """
    chance = np.random.default_rng(seed)
    draws = {name: it if callable(it) else _uniform(name, it) for name, it in values.items()}
    return [{name: _plain(draw(chance)) for name, draw in draws.items()} for _ in range(count)]


def _uniform(name: str, ends: tuple[float, float]) -> Callable[[np.random.Generator], float]:
    low, high = ends
    if not low <= high:
        raise SweepError(f"{name} is drawn from a least to a greatest value, and here from {low} to {high}")
    return lambda chance: chance.uniform(low, high)


def _plain(value: Any) -> Value:
    """A value as Python has it, so that it can be noted and compared."""
    value = value.item() if isinstance(value, np.generic) else value
    if not isinstance(value, (bool, int, float, str)):
        raise SweepError(f"a parameter is a number or a text, and here {value!r}")
    return value


# ---- the table


@dataclass(eq=False)
class Sweep:
    """What was measured: `points` has the values of the parameters of each row, `measured` what was found of it; a row
    that couldn't be made has its error, and one whose run ended early has the words of that, else empty texts."""

    points: list[Point]
    measured: list[dict[str, Value]] = field(repr=False)
    errors: list[str] = field(repr=False)
    ends: list[str] = field(repr=False)

    def __len__(self) -> int:
        return len(self.points)

    def __repr__(self) -> str:
        return (
            f"<Sweep of {len(self)} rows over {', '.join(self.parameters)}: {', '.join(self.names)}; "
            f"{sum(map(bool, self.errors))} errors, {sum(map(bool, self.ends))} early ends>"
        )

    @property
    def parameters(self) -> list[str]:
        """The names of the parameters."""
        return list(dict.fromkeys(name for point in self.points for name in point))

    @property
    def names(self) -> list[str]:
        """The names of what was measured."""
        return list(dict.fromkeys(name for it in self.measured for name in it))

    def __getitem__(self, name: str) -> np.ndarray:
        """A column, of a parameter or of what was measured: shape (rows,); nan where a row has none."""
        tables: list[list[dict[str, Value]]] = [self.points, self.measured]
        for names, table in zip((self.parameters, self.names), tables):
            if name in names:
                return np.array([row.get(name, np.nan) for row in table])
        raise UnknownName(f"the sweep has no column {name!r}; it has {', '.join(self.parameters + self.names)}")

    def frame(self) -> pandas.DataFrame:
        """The table with a line a row: parameters, what was measured, `ended`, `error`; it needs pandas."""
        try:
            import pandas
        except ImportError:
            raise RecordError("a frame needs pandas (Debian: python3-pandas)") from None
        columns = {name: self[name] for name in self.parameters + self.names}
        return pandas.DataFrame(columns | {ENDED: self.ends, ERROR: self.errors})

    def write(self, path: str | os.PathLike[str]) -> None:
        """Writes the table as csv."""
        with open(path, "w", encoding="utf-8", newline="") as file:
            out = csv.writer(file)
            out.writerow([*self.parameters, *self.names, ENDED, ERROR])
            for point, found, ended, fault in zip(self.points, self.measured, self.ends, self.errors):
                own = [point.get(it, "") for it in self.parameters] + [found.get(it, "") for it in self.names]
                out.writerow([*own, ended, fault])

    def draw(self, path: str | os.PathLike[str], *names: str) -> None:
        """Draws columns (all that are numbers, without names) over the parameters that change: one as lines, two as a
        map."""
        own = {name: self[name] for name in names or self.names}
        own = {name: values for name, values in own.items() if names or values.dtype.kind in "biuf"}
        draw_table({name: self[name] for name in self.parameters}, own, os.fspath(path))


# ---- one row


def _row(build: Build, measure: Measure, point: Point) -> tuple[dict[str, Value], str, str]:
    """What is measured of a row, and the words of an early end and of an error."""
    try:
        case = build(**point)
        if not isinstance(case, Case):
            return _numbers(case), "", ""
        record = case.run(early="keep")
        ended = str(case.end_of_run) if case.end_of_run else ""
        if measure is None:
            measure = record.names
        if callable(measure):
            return _numbers(measure(record)), ended, ""
        return {name: float(np.max(np.abs(record.channel(name)))) for name in measure}, ended, ""
    except Exception as fault:  # a row that can't be made doesn't end the others
        return {}, "", f"{type(fault).__name__}: {fault}"


def _numbers(found: Any) -> dict[str, Value]:
    """What a function measured, as columns: a mapping as it is, one number as `value`."""
    its = found if isinstance(found, Mapping) else {"value": found}
    return {str(name): _plain(value) for name, value in its.items()}


def _part(build: Build, measure: Measure, points: list[Point]) -> list[tuple[dict[str, Value], str, str]]:
    return [_row(build, measure, point) for point in points]


_TASK: list[tuple[Build, Measure]] = []  # of a process of the pool


def _begin(build: Build, measure: Measure) -> None:
    _TASK[:] = [(build, measure)]
    program.follow()


def _part_here(points: list[Point]) -> list[tuple[dict[str, Value], str, str]]:
    try:
        return _part(*_TASK[0], points)
    except SystemExit:  # of a signal, which a pool would take for an answer
        os._exit(1)


# ---- all rows


def run(
    build: Build,
    points: Iterable[Point],
    measure: Measure = None,
    *,
    jobs: int | None = None,
    executor: concurrent.futures.Executor | None = None,
    resume: str | os.PathLike[str] | None = None,
    progress: bool | Callable[[int, int, float], None] | None = None,
) -> Sweep:
    """Builds, runs and measures a case for each row of values; answers the table.

    build: is called with the values by their names, and answers a Case, or else what was found itself: a number, or a
        mapping of names to numbers.
    points: as `grid`, `rows` or `random` makes them, or any list of mappings.
    measure: a function of the Record that answers a number or a mapping; or names of channels, whose greatest magnitude
        is measured; all channels without it.
    jobs: so many processes at a time; as many as there are processors without it.
    executor: any executor of `concurrent.futures` in place of the pool of processes. Its workers need this package and
        the program. A part whose worker is lost is given to it again, a row by itself; what is lost three times has
        that as its error.
    resume: a file in which each row is noted once it is done; where it is there already, its rows aren't run again.
    progress: a function of (rows done, all rows, seconds left), or whether standard error tells them; without it, it
        does so where it is a terminal.
    """
    its = [{str(name): _plain(value) for name, value in point.items()} for point in points]
    if not 1 <= len(its) <= MOST_ROWS:
        raise SweepError(f"a sweep has 1 to {MOST_ROWS:,} rows, and here {len(its):,}")
    if jobs is not None and jobs < 1:
        raise SweepError("jobs is at least 1")
    program.emtp()  # which has to be there, and is looked for once
    program.has_judge()
    notes = _Notes(pathlib.Path(resume), its, _sum_of(build, measure)) if resume is not None else None
    done = notes.read() if notes else {}
    left = [place for place in range(len(its)) if place not in done]
    tell = _Teller(len(left), progress)
    with program.ended_in_words(), _Nothing() if notes is None else notes.opened() as note:
        for places, found in _answers(build, measure, its, left, jobs or program.processors(), executor):
            for place, row in zip(places, found):
                done[place] = row
                note(place, row)
            tell(len(places))
    tell.end()
    ordered = [done[place] for place in range(len(its))]
    return Sweep(its, [row[0] for row in ordered], [row[2] for row in ordered], [row[1] for row in ordered])


Rows = list[tuple[dict[str, Value], str, str]]


def _answers(
    build: Build,
    measure: Measure,
    points: list[Point],
    left: list[int],
    jobs: int,
    executor: concurrent.futures.Executor | None,
) -> Iterable[tuple[list[int], Rows]]:
    """The rows that are left, part by part as they are done."""
    size = max(1, min(LARGEST, len(left) // (PARTS * jobs)))
    parts = [left[at : at + size] for at in range(0, len(left), size)]
    done, tries = False, 0
    while parts:
        tries += 1
        # at last each row by itself, so that one that ends its process is known and takes no other with it
        groups = [[part] for part in parts] if executor is None and tries == MOST_TRIES else [parts]
        lost: list[tuple[list[int], str]] = []
        for group in groups:
            for part, found in _tried(build, measure, points, group, jobs, executor):
                if isinstance(found, str):
                    lost.append((part, found))
                else:
                    done = True
                    yield part, found
        parts = [[place] for part, _ in lost for place in part]
        if lost and tries == MOST_TRIES:
            if not done:
                raise SweepError(f"no row could be run: {lost[0][1]}")
            for part, words in lost:
                yield part, [({}, "", f"its process was lost {MOST_TRIES} times: {words}")] * len(part)
            return


def _tried(
    build: Build,
    measure: Measure,
    points: list[Point],
    parts: list[list[int]],
    jobs: int,
    executor: concurrent.futures.Executor | None,
) -> Iterable[tuple[list[int], Rows | str]]:
    """The rows of each part as it is done, or why its worker was lost."""
    values = [[points[place] for place in part] for part in parts]
    own = None
    if executor is None:
        context = multiprocessing.get_context("fork")
        own = concurrent.futures.ProcessPoolExecutor(min(jobs, len(parts)), context, _begin, (build, measure))
    try:
        futures: dict[concurrent.futures.Future[Rows], list[int]] = {}
        for part, its in zip(parts, values):
            if own is not None:
                futures[own.submit(_part_here, its)] = part
            elif executor is not None:
                futures[executor.submit(_part, build, measure, its)] = part
        for future in concurrent.futures.as_completed(futures):
            try:
                found: Rows | str = future.result()
            except (Exception, concurrent.futures.CancelledError) as why:
                found = f"{type(why).__name__}: {why}"
            yield futures[future], found
    except BaseException:
        if own is not None:
            for worker in multiprocessing.active_children():
                worker.terminate()
        raise
    finally:
        if own is not None:
            own.shutdown(wait=True, cancel_futures=True)


class _Teller:
    """Says how many rows are done, and how long the others take."""

    def __init__(self, rows: int, progress: bool | Callable[[int, int, float], None] | None) -> None:
        self.rows, self.done, self.began = rows, 0, time.monotonic()
        self.shown = 0.0
        shows = sys.stderr.isatty() if progress is None else bool(progress)
        self.told = progress if callable(progress) else self._line if shows else None

    def __call__(self, rows: int) -> None:
        self.done += rows
        now = time.monotonic()
        if self.told and (now - self.shown >= 0.2 or self.done == self.rows or self.told != self._line):
            self.shown = now
            self.told(self.done, self.rows, (now - self.began) / self.done * (self.rows - self.done))

    def _line(self, done: int, rows: int, left: float) -> None:
        print(f"\r{done} of {rows} rows, {left:.0f} s left   ", end="", file=sys.stderr, flush=True)

    def end(self) -> None:
        """The line is at its end."""
        if self.told == self._line and self.done:
            print(file=sys.stderr)


class _Nothing(contextlib.AbstractContextManager[Note]):
    """Notes nothing."""

    def __enter__(self) -> Note:
        return lambda place, row: None

    def __exit__(self, *_: object) -> None:
        pass


class _Notes:
    """The file of a sweep that may be gone on with: a line of what it is of, then one a row that is done."""

    def __init__(self, path: pathlib.Path, points: list[Point], functions: str) -> None:
        self.path = path
        text = json.dumps(points, sort_keys=True)
        self.head = {"rows": len(points), "values": hashlib.sha256(text.encode()).hexdigest(), "functions": functions}

    def read(self) -> dict[int, tuple[dict[str, Value], str, str]]:
        """The rows that are noted; a last line that was cut is none."""
        try:
            lines = self.path.read_text(encoding="utf-8").split("\n")
        except FileNotFoundError:
            return {}
        try:
            head = json.loads(lines[0])
        except ValueError:
            raise SweepError(f"{self.path} is no file of a sweep") from None
        if head != self.head:
            raise SweepError(f"{self.path} is of other values or functions: remove it, or name another file")
        found = {}
        for line in lines[1:]:
            try:
                place, measured, ended, fault = json.loads(line)
            except ValueError:
                continue
            found[place] = (measured, ended, fault)
        return found

    def opened(self) -> _Writer:
        """The file, to note further rows."""
        return _Writer(self.path, self.head)


class _Writer(contextlib.AbstractContextManager[Note]):
    """The open file of a sweep's notes."""

    def __init__(self, path: pathlib.Path, head: dict[str, Any]) -> None:
        self.path, self.head = path, head

    def __enter__(self) -> Note:
        new = not self.path.exists()
        self.file = open(self.path, "a", encoding="utf-8")
        if new:
            self._line(self.head)
        else:
            self.file.write("\n")  # behind a line that may be cut
        return lambda place, row: self._line([place, *row])

    def _line(self, found: Any) -> None:
        self.file.write(json.dumps(found) + "\n")
        self.file.flush()

    def __exit__(self, *_: object) -> None:
        self.file.close()


def _sum_of(*functions: Any) -> str:
    """What tells functions apart: their names, and their texts where they are known."""
    texts = []
    for it in functions:
        try:
            texts.append(inspect.getsource(it))
        except (TypeError, OSError):
            texts.append(getattr(it, "__qualname__", repr(it)))
    return hashlib.sha256("\0".join(texts).encode()).hexdigest()


# ---- as a study


def cases(build: Build, points: Iterable[Point], folder: str | os.PathLike[str]) -> pathlib.Path:
    """Writes the case of each row into a new folder, and the list of them, whose name is answered: `emtp study --cases
    LIST` runs them by GNU parallel, on several machines by ssh too. `values.csv` beside it has the values of each."""
    its = [{str(name): _plain(value) for name, value in point.items()} for point in points]
    place = pathlib.Path(folder).resolve()
    place.mkdir(parents=True)
    names = list(dict.fromkeys(name for point in its for name in point))
    listed = []
    with open(place / "values.csv", "w", encoding="utf-8", newline="") as file:
        out = csv.writer(file)
        out.writerow(["case", *names])
        for number, point in enumerate(its, 1):
            path = place / f"row{number:06d}.case"
            build(**point).write(path)
            out.writerow([path.name, *(point.get(name, "") for name in names)])
            listed.append(path)
    (place / "list").write_text("".join(f"{it}\n" for it in listed), encoding="utf-8")
    return place / "list"
