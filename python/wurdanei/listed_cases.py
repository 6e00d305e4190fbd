"""A study over cases: the record of each, and a table of their peaks."""

import argparse
import csv
import os
import sys
from decimal import Decimal

import numpy as np

from . import parts, peaks
from .parts import Means, StudyError, status_of, write_text
from .record import read
from .varied import Cases


def run_cases(words: argparse.Namespace, means: Means, names: list[str], cases: Cases) -> None:
    """A study over cases: the record of each, and a table of their peaks."""
    plan = {"cases": [parts.sum_of_text(text) for text in cases.texts]}
    made = parts.part_names(len(cases.texts))
    if not parts.noted_plan(means, plan):
        for part, text in zip(made, cases.texts):
            write_text(os.path.join(means.room, part + ".case"), text)
        parts.note_plan(means, {**plan, "size": 1})
    parts.run_parts(means, made, parts.RUN)
    if any(status_of(means.room, part) is None for part in made):
        log = os.path.join(means.room, "job.log")
        raise StudyError(f"not all cases are done; see {log}, and go on with --resume")
    table = os.path.join(means.room, "cases.csv")
    found = [peaks_of(words, means, part, cases) for part in made]
    headings = list(dict.fromkeys(heading for it in found for heading in it))
    peaks.tell_whole(headings, cases)
    with open(table, "w", encoding="utf-8", errors="surrogateescape", newline="") as file:
        out = csv.writer(file)
        out.writerow(["case", *cases.headings, "record", "printed", *headings])
        for name, texts, part, its in zip(names, cases.values, made, found):
            note = parts.output_of(means.room, part)[0]
            out.writerow([name, *texts, part, note, *(its.get(it, "") for it in headings)])
    print(f"{parts.counted(len(made), 'case')}: {table}")
    if cases.headings and headings:
        columns = {heading: [float(it.get(heading, "nan")) for it in found] for heading in headings}
        parts.draw_values(cases.parameters(), columns, os.path.join(means.room, "cases"))
    lost = [place for place, part in enumerate(made) if status_of(means.room, part) not in (0, 3)]
    if lost:
        first = lost[0]
        which = ", ".join(it for it in (names[first], cases.told(first)) if it)
        note = parts.output_of(means.room, made[first])[0] or f"status {status_of(means.room, made[first])}"
        told = f"{len(lost)} of {parts.counted(len(made), 'case')} without a record; the first is {which}: {note}"
        if len(lost) == len(made):
            raise StudyError(told)
        print(f"emtp study: {told}", file=sys.stderr)


def peaks_of(words: argparse.Namespace, means: Means, part: str, cases: Cases) -> dict[str, Decimal | str]:
    """The greatest magnitude of each analog channel of a part's record, and of each set of channels; nothing without one."""
    if status_of(means.room, part) not in (0, 3):
        return {}
    record = read(os.path.join(means.room, part + ".cfg"))
    channels = peaks.channels_of(record, cases, words.any)
    values = [f"{Decimal(f'{np.nanmax(abs(record.channel(name))):.9g}'):f}" for name in record.names]
    return dict(zip(channels.headings(words.base), channels.values(values, words.base)))


def list_of(path: str) -> tuple[list[str], list[str]]:
    """The names of a list of cases, and their texts."""
    with open(path, encoding="utf-8", errors="surrogateescape") as file:
        names = [line.strip() for line in file if line.strip()]
    if not names:
        raise StudyError(f"{path} names no case")
    parts.need(names)
    texts = []
    for name in names:
        with open(name, encoding="latin-1", newline="") as file:
            texts.append(file.read())
    return names, texts
