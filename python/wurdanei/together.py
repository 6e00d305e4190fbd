"""`batch` and `scan` in parts on all processors, with the bytes of one run.

The parts are joined by what both print (docs/batch.md, docs/phasor.md): rows are counted on, and of each channel stands
its greatest peak with the first row that has it; frequencies follow each other, and each resonance is told by the one
part in which both neighbours of its line are. Where a part isn't done, or the whole isn't one that can be parted, the
program runs the whole, so that what it refuses has its own words, status and line.
"""

from __future__ import annotations

import concurrent.futures
import contextlib
import os
import re
import subprocess
import threading
import typing
from decimal import Decimal

from . import program

MOST_ROWS, LEAST_ROWS = 1000, 8  # of a batch that runs in parts
MOST_FREQUENCIES, LEAST_FREQUENCIES = 10_000, 200  # of a scan that does
MOST_BYTES = 9_000_000  # of a table
EACH = 4  # parts a processor, so that all end at about the same time
OVERLAP = 2  # frequencies that two parts of a scan have in common
NO_ROW = re.compile(rb"(#.*| *)\r?", re.S)
WHOLE = re.compile(r"0|[1-9][0-9]{0,8}")


class _NotDone(Exception):
    """A part wasn't done, or printed what isn't known."""


# ---- tables


def rows_of(words: list[str]) -> list[bytes]:
    """The rows of the table of a batch; none where the words are no batch over files that can be read again."""
    if len(words) != 3 or words[0] != "batch" or not all(map(os.path.isfile, words[1:])):
        return []
    try:
        with open(words[2], "rb") as file:
            data = file.read(MOST_BYTES + 1)
    except OSError:
        return []
    rows = [line for line in data.split(b"\n") if not NO_ROW.fullmatch(line)]
    return rows if len(data) <= MOST_BYTES and len(rows) <= MOST_ROWS else []


def joined_rows(summaries: typing.Iterable[str]) -> str:
    """What one batch prints of a table, of what those of its parts print."""
    lines: list[str] = []
    greatest: dict[int, tuple[Decimal, str, int]] = {}
    for summary in summaries:
        before = len(lines)
        for line in summary.splitlines():
            word, number, rest = (*line.split(" ", 2), "")[:3]
            if word == "ROW":
                lines.append(f"ROW {len(lines) + 1} {rest}")
            elif word == "MAX":
                peak, _, row = rest.partition(" ROW ")
                if int(number) not in greatest or Decimal(peak) > greatest[int(number)][0]:
                    greatest[int(number)] = (Decimal(peak), peak, before + int(row))
            else:
                raise _NotDone(line)
    lines += [f"MAX {channel} {peak} ROW {row}" for channel, (_, peak, row) in sorted(greatest.items())]
    return "".join(f"{line}\n" for line in lines)


# ---- scans


def frequencies_of(words: list[str]) -> range:
    """The frequencies of a scan; none where the words are no scan of a file that can be read again."""
    if (
        len(words) != 5
        or words[0] != "scan"
        or not os.path.isfile(words[1])
        or not all(map(WHOLE.fullmatch, words[2:]))
    ):
        return range(0)
    first, last, step = map(int, words[2:])
    found = range(first, last + 1, step) if step else range(0)
    return found if len(found) <= MOST_FREQUENCIES else range(0)


def spans(count: int, parts: int) -> list[range]:
    """The places of each part of a scan: each but the last has two more than are its own."""
    size = -(-(count - OVERLAP) // parts)
    return [range(at, min(count, at + size + OVERLAP)) for at in range(0, count - OVERLAP, size)]


def joined_scan(texts: list[str]) -> str:
    """What one scan prints, of what those of its parts print."""
    lines: list[str] = []
    resonances: list[str] = []
    for at, text in enumerate(texts):
        own = text.splitlines()
        frequencies = [line for line in own if line.startswith("F ")]
        resonances += [line for line in own if line.startswith("RESONANCE ")]
        if len(own) != len(frequencies) + sum(line.startswith("RESONANCE ") for line in own):
            raise _NotDone(text)
        lines += frequencies if at + 1 == len(texts) else frequencies[:-OVERLAP]
    return "".join(f"{line}\n" for line in [*lines, *resonances])


# ---- both


def _cut(rows: list[bytes], parts: int) -> list[list[bytes]]:
    """Rows in parts, each of as many or one more."""
    ends = [len(rows) * at // parts for at in range(parts + 1)]
    return [rows[first:last] for first, last in zip(ends, ends[1:])]


def _scan_of(words: list[str], frequencies: range) -> list[str]:
    return [*words[:2], str(frequencies[0]), str(frequencies[-1]), words[4]]


@contextlib.contextmanager
def _table(rows: list[bytes]) -> typing.Iterator[tuple[str, int]]:
    """A table of some rows: its name, and the descriptor by which a program inherits it."""
    with program.memory(b"".join(row + b"\n" for row in rows)) as file:
        yield program.path_of(file), file


class Parts:
    """A batch or a scan in parts: `count` of them, none where it isn't parted; and how many are done."""

    def __init__(self, words: list[str], processors: int) -> None:
        self._words = words
        self._rows: list[list[bytes]] = []
        self._spans: list[range] = []
        most = EACH * processors
        rows, frequencies = rows_of(words), frequencies_of(words)
        if processors > 1 and len(rows) >= LEAST_ROWS:
            self._rows = _cut(rows, min(most, len(rows) // 2))
        elif processors > 1 and len(frequencies) >= LEAST_FREQUENCIES:
            self._spans = [frequencies[one.start : one.stop] for one in spans(len(frequencies), most)]
        self.count = len(self._rows) + len(self._spans)
        self.done = 0
        self._processors = processors
        self._running: set[subprocess.Popen[bytes]] = set()
        self._ended = threading.Event()

    def run(self, tell: typing.Callable[[], None]) -> bytes | None:
        """What one run of the whole prints, where each part is done; `tell` is called as parts end, and between."""
        with concurrent.futures.ThreadPoolExecutor(self._processors) as pool:
            futures = [pool.submit(self._one, at) for at in range(self.count)]
            try:
                left = set(futures)
                while left:
                    ended, left = concurrent.futures.wait(left, 0.2, concurrent.futures.FIRST_COMPLETED)
                    self.done += len(ended)
                    if any(it.result() is None for it in ended):
                        return None
                    tell()
                texts = [typing.cast(bytes, it.result()).decode("latin-1") for it in futures]
                return (joined_rows(texts) if self._rows else joined_scan(texts)).encode("latin-1")
            except _NotDone:
                return None
            finally:
                self._ended.set()
                for process in list(self._running):
                    process.terminate()
                pool.shutdown(wait=True, cancel_futures=True)

    def _one(self, at: int) -> bytes | None:
        """What a part prints; none where its status isn't 0."""
        if self._spans:
            return self._printed(_scan_of(self._words, self._spans[at]))
        with _table(self._rows[at]) as (name, file):
            return self._printed([*self._words[:2], name], file)

    def _printed(self, words: list[str], file: int = -1) -> bytes | None:
        if self._ended.is_set():
            return None
        with subprocess.Popen(
            program.called(words),
            stdin=subprocess.DEVNULL,
            stdout=subprocess.PIPE,
            stderr=subprocess.DEVNULL,
            pass_fds=[file] if file >= 0 else [],
        ) as process:
            self._running.add(process)
            out, _ = process.communicate()
            self._running.discard(process)
        return out if process.returncode == 0 else None


@contextlib.contextmanager
def part_of(words: list[str], count: int) -> typing.Iterator[tuple[list[str], float, int]]:
    """A `count`-th of a batch or a scan: its words, which part it is, and a descriptor to inherit, below 0 where there is
    none. No words where there is no such part."""
    rows, frequencies = rows_of(words), frequencies_of(words)
    if len(rows) > 1:
        some = rows[: -(-len(rows) // count)]
        with _table(some) as (name, file):
            yield [*words[:2], name], len(some) / len(rows), file
    elif len(frequencies) > 1:
        places = frequencies[: -(-len(frequencies) // count)]
        yield _scan_of(words, places), len(places) / len(frequencies), -1
    else:
        yield [], 1.0, -1
