"""A study over a table of switch times, of one case or of each combination of values of its fields."""

import argparse
import csv
import os
import re
import shutil
import sys
from dataclasses import dataclass
from decimal import Decimal

from . import page, parts, peaks, picture, program, times, varied
from .deck import Deck
from .parts import Means, StudyError, status_of, write_text
from .record import Record, RecordError, read
from .summary import Summary, batch_drawing
from .varied import Cases

MOST = 1000  # rows of a batch


@dataclass(frozen=True)
class Part:
    """A part of a study over a table: its name, which of the cases it runs, and its rows from one (from 0) up to another."""

    name: str
    case: int
    first: int
    last: int


def make_parts(words: argparse.Namespace, means: Means, cases: Cases, rows: list[tuple[int, str]]) -> list[Part]:
    """The parts of a table as files, or those of the study that was broken off."""
    plan = {"cases": [parts.sum_of_text(text) for text in cases.texts], "times": parts.sum_of(words.table)}
    was = parts.noted_plan(means, plan)
    each = max(1, 4 * means.jobs // len(cases.texts))
    size = was["size"] if was else max(1, min(MOST, -(-len(rows) // each)))
    spans = [(case, first) for case in range(len(cases.texts)) for first in range(0, len(rows), size)]
    names = parts.part_names(len(spans))
    made = [Part(name, case, first, min(first + size, len(rows))) for name, (case, first) in zip(names, spans)]
    if not was:
        write_text(os.path.join(means.room, "case"), cases.texts[0])
        for it in made:
            if cases.headings:
                write_text(os.path.join(means.room, it.name + ".case"), cases.texts[it.case])
            lines = "".join(line + "\n" for _, line in rows[it.first : it.last])
            write_text(os.path.join(means.room, it.name + ".times"), lines)
        parts.note_plan(means, {**plan, "size": size})
    return made


def first_record(words: argparse.Namespace, means: Means, cases: Cases) -> Record:
    """The record of the case itself, or of the first one, which has to be accepted; kept as case.cfg and case.dat."""
    cfg = os.path.join(means.room, "case.cfg")
    if not os.path.exists(cfg):
        ran = program.run(["run", "case", "made.cfg", "case.dat"], means.room)
        if ran.status not in (0, 3):
            shutil.rmtree(means.room)
            note = ran.note.strip() or parts.STATUSES.get(ran.status, f"status {ran.status}")
            told = f" with {cases.told(0)}" if cases.headings else ""
            more = "; `emtp show` says more of a case" if ran.status == 2 else ""
            raise StudyError(f"{words.case}{told}: {note}{more}")
        os.replace(os.path.join(means.room, "made.cfg"), cfg)
    return read(cfg)


def check_parts(
    words: argparse.Namespace, means: Means, cases: Cases, made: list[Part], rows: list[tuple[int, str]]
) -> None:
    """StudyError where a part isn't done, or was refused: then with the line of the whole table."""
    for it in made:
        status = status_of(means.room, it.name)
        if status is None:
            log = os.path.join(means.room, "job.log")
            raise StudyError(f"{it.name} and perhaps others aren't done; see {log}, and go on with --resume")
        note = parts.output_of(means.room, it.name)[0]
        if match := re.match(r"BAD ROW LINE (\d+) ITEM (\d+)$", note):
            line, text = rows[it.first + int(match[1]) - 1]
            shutil.rmtree(means.room)
            raise StudyError(f"{words.table}: line {line}, item {match[2]}: {wrong_items(words.case, text)}")
        if status:
            told = f" with {cases.told(it.case)}" if cases.headings else ""
            raise StudyError(
                f"{it.name}, {words.case}{told}: status {status}, {note or parts.STATUSES.get(status, '')}"
            )


def wrong_items(case: str, text: str) -> str:
    """What is wrong with a refused row of a table: how many items it has, where these are too few or too many, else its text."""
    cards = Deck(case).cards("a switch card")
    switches = sum(card[:2].strip() not in ("11", "13") and card[54:64].strip() != "MEASURING" for _, card in cards)
    items = len(text.split())
    if items == 2 * switches:
        return text
    return f"{text}: {2 * switches} items, for {switches} time switches; here {items}"


def run_table(words: argparse.Namespace, means: Means) -> None:
    """A study over a table of switch times, of one case or of each combination of values."""
    parts.need([words.case, words.table])
    rows = times.rows_of(words.table)
    if not rows:
        raise StudyError(f"{words.table} has no rows")
    cases = varied.cases_of(words.case, words.vary, words.peaks_from)
    made = make_parts(words, means, cases, rows)
    channels = peaks.channels_of(first_record(words, means, cases), cases, words.any)
    times.tell_behind([line for _, line in rows], words.case, cases.texts)
    parts.run_parts(means, [it.name for it in made], parts.VARIED if cases.headings else parts.BATCH)
    check_parts(words, means, cases, made, rows)
    found: list[list[peaks.Row]] = [[] for _ in cases.texts]
    for it in made:
        its = peaks.rows_in(parts.output_of(means.room, it.name))
        if len(its) != it.last - it.first:
            raise StudyError(f"{it.name} has {it.last - it.first} rows, and {len(its)} are answered; see {means.room}")
        found[it.case] += its
    answer(words, means, cases, rows, found, channels)


def answer(
    words: argparse.Namespace,
    means: Means,
    cases: Cases,
    rows: list[tuple[int, str]],
    found: list[list[peaks.Row]],
    channels: peaks.Channels,
) -> None:
    """Writes summaries, tables and the picture, and prints the statistics."""
    headings = channels.headings(words.base)
    peaks.tell_whole(headings, cases)
    written = []
    for place, its in enumerate(found, 1):
        name = f"summary.{place}" if cases.headings else "summary"
        write_text(os.path.join(means.room, name), peaks.summary(its, channels))
        written.append(name)
    table = os.path.join(means.room, "rows.csv")
    tables = [(texts, rows, its) for texts, its in zip(cases.values, found)]
    peaks.write_rows(table, cases.headings, tables, channels, words.base)
    first, last = (os.path.join(means.room, written[place]) for place in (0, -1))
    print(
        f"{parts.counted(sum(map(len, found)), 'row')}: {first if first == last else f'{first} to {written[-1]}'}, {table}"
    )
    if not headings:
        return
    columns = [peaks.columns_of(its, channels, words.base) for its in found]
    if cases.headings:
        write_values(os.path.join(means.room, "values.csv"), cases, headings, columns)
    for place, own in enumerate(columns):
        if cases.headings:
            print(cases.told(place))
        print("\n".join(peaks.listing(headings, own)))
    if cases.headings:
        seldom = {
            f"{heading}: 2 % exceed": [peaks.statistics(its[place]).seldom for its in columns]
            for place, heading in enumerate(headings)
        }
        parts.draw_values(cases.parameters(), seldom, os.path.join(means.room, "values"))
    else:
        draw(headings, columns[0], os.path.join(means.room, "peaks"))


def write_values(path: str, cases: Cases, headings: list[str], columns: list[list[list[Decimal | str]]]) -> None:
    """Writes the statistics of each combination of values, a line each."""
    with open(path, "w", encoding="utf-8", newline="") as file:
        out = csv.writer(file)
        told = [
            f"{heading}: {word}" for heading in headings for word in ("half exceed", "2 % exceed", "greatest", "row")
        ]
        out.writerow([*cases.headings, *told])
        for texts, its in zip(cases.values, columns):
            numbers = [peaks.statistics(column) for column in its]
            out.writerow([*texts, *(word for it in numbers for word in (it.half, it.seldom, it.greatest, it.row))])
    print(f"values: {path}")


def draw(headings: list[str], columns: list[list[Decimal | str]], stem: str) -> None:
    """The distribution of each channel's peaks: a picture, where matplotlib is there, and a page."""
    rows = [[float(it) for it in row] for row in zip(*columns)]
    try:
        summary = Summary(peaks=rows, names=headings, units=[""] * len(headings))
        drawing = batch_drawing(summary, os.path.basename(stem))
        page.write(drawing, stem + ".html", True)
        print(f"drawn: {stem}.html")
        picture.draw(drawing, stem + ".png")
        print(f"drawn: {stem}.png")
    except RecordError as fault:
        print(f"emtp study: {fault}", file=sys.stderr)
