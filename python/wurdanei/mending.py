"""Ways to mend a line of a case that is refused or warned of, each tried with the program before it is offered."""

from __future__ import annotations

import re
from collections.abc import Iterator

from . import reading
from .columns import Card
from .names import filled
from .reading import Mark, Reading

NEAR = 3  # columns between a run of characters and the field that it may have been meant for
TAB = 8  # columns of a tab


def mended(it: Reading, mark: Mark) -> Iterator[tuple[str, str]]:
    """Ways to mend the line of a mark: what is done, and the line then.

    A slip that is told by its words is taken back. Else what stands at the mark goes into a blank field beside it, or is
    parted where the border of two fields lies in it; each is offered if the line isn't refused then and no numbers
    touch, with what it is read as.
    """
    line = it.lines[mark.line]
    if mark.code == "ByteOutside" and "\t" in line:
        yield "set blanks for the tab", line.replace("\t", " " * (TAB - line.index("\t") % TAB), 1)
    if "a comma" in mark.text:
        own = line[mark.first : mark.last].replace(",", ".")
        yield "write a point for the comma", line[: mark.first] + own + line[mark.last :]
    if mark.text.startswith(reading.OF_ANOTHER_LINE[0]):
        yield "write BLANK", "BLANK"
    if mark.text.startswith(reading.OF_ANOTHER_LINE[1]):
        yield "write a comment", "C " + line[1:].lstrip()
    yield from _tried(it, mark)


def _tried(it: Reading, mark: Mark) -> Iterator[tuple[str, str]]:
    """What stands at a mark in other columns, as far as the program reads it there."""
    line, card = it.lines[mark.line], it.cards[mark.line]
    if card is None:
        return
    tried = {line}
    for run in re.finditer(r"\S+", line):
        if run.start() >= mark.last or run.end() <= mark.first:
            continue
        for title, new in (*_moved(card, line, run), *_parted(card, line, run)):
            if new not in tried and (told := _read_as(it, mark.line, new)) is not None:
                yield title + (f": {told}" if told else ""), new
            tried.add(new)


def _read_as(it: Reading, at: int, new: str) -> str | None:
    """What a line is read as, the listing's words; none where it is refused, or two numbers touch."""
    lines = [*it.lines[:at], new, *it.lines[at + 1 :]]
    listing = reading.shown(lines)
    refused = reading.REFUSED.search(listing)
    touching = re.search(rf"^warning, line {at + 1}, .*{reading.TOUCHING}", listing, re.M)
    if touching or refused and int(refused[1]) == at + 1:
        return None
    told = re.findall(rf"^line {at + 1}, (.*)$", listing, re.M)
    return told[0] if told else ""


def _moved(card: Card, line: str, run: re.Match[str]) -> Iterator[tuple[str, str]]:
    """A run of characters in a blank field beside it."""
    bare = line[: run.start()] + " " * len(run[0]) + line[run.end() :]
    for part in card.fields:
        first, last = part.first - 1, part.last
        fits = part.kind in ("number", "name") and len(run[0]) <= part.width
        within = first <= run.start() and run.end() <= last
        near = first - NEAR <= run.end() and run.start() <= last + NEAR
        if fits and near and not within and not bare[first:last].strip():
            placed = run[0].ljust(part.width) if part.kind == "name" else run[0].rjust(part.width)
            yield f"{run[0]} into {part.name}, columns {part.first}-{part.last}", filled(bare, first, last, placed)


def _parted(card: Card, line: str, run: re.Match[str]) -> Iterator[tuple[str, str]]:
    """A run over the border of two fields: the left one's end stands a column too far to the right, or the right one's
    beginning too far to the left."""
    first, last = run.span()
    for border in (part.last for part in card.fields):
        if not first < border < last:
            continue
        if first > 0 and line[first - 1] == " ":
            left = line[first : border + 1]
            yield f"{left} a column to the left", line[: first - 1] + left + " " + line[border + 1 :]
        if line[last : last + 1] in ("", " "):
            right = line[border - 1 : last]
            yield f"{right} a column to the right", line[: border - 1] + " " + right + line[last + 1 :]
