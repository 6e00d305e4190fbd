"""The command line: words, files, outputs and status."""
import os
import re
import sys
from typing import TextIO

from . import audit as audit_mod
from . import batch as batch_mod
from . import phasor as phasor_mod
from .cards import Bad
from .deck import deck
from .machine import history
from .network import End
from .record import cfg, dat, end_parts, note, sample_lines
from .trial import summary, trial_deck

DONE, USAGE, BAD_CARD, ENDED, READ_FAULT, WRITE_FAULT = range(6)
REFUSED, DIFFERS, BAD_ROW = 7, 8, 9
CASE_BOUND = 9_000_001
RECORD_BOUND = 64_000_001

SAMPLES = b"judge\0--samples"  # a command of two words, as no word of a command line is

# Command: (number of words behind it, how many of them from the first are names of files)
COMMANDS = {
    b"run": (3, 3),
    b"trial": (1, 0),
    b"phasor": (1, 1),
    b"scan": (4, 1),
    b"audit": (3, 3),
    b"batch": (2, 2),
    SAMPLES: (1, 1),
}


class ReadFault(Exception):
    """A file that can't be read."""


def is_text(word: bytes) -> bool:
    """Whether a word is UTF-8."""
    try:
        word.decode("utf-8")
        return True
    except UnicodeDecodeError:
        return False


def hertz(word: bytes) -> int | None:
    """A frequency of a scan, in Hz."""
    if re.fullmatch(rb"[1-9][0-9]{0,7}", word) is None or int(word) > 10_000_000:
        return None
    return int(word)


def with_command(words: list[bytes]) -> list[bytes]:
    """The words with a command of two words as one."""
    return [SAMPLES, *words[2:]] if words[:2] == SAMPLES.split(b"\0") else words


def fits(words: list[bytes]) -> bool:
    """Whether the words are those of a command."""
    words = with_command(words)
    if not words or any(word == b"" or word.startswith(b"-") for word in words):
        return False
    if words[0] not in COMMANDS:
        return False
    number, files = COMMANDS[words[0]]
    if len(words) != number + 1:
        return False
    names = words[1 : 1 + files]
    if len(set(names)) != len(names):
        return False
    if words[0] == b"trial":
        return re.fullmatch(rb"[1-9][0-9]{0,2}", words[1]) is not None and int(words[1]) <= 900
    if words[0] == b"scan":
        f0, f1, df = (hertz(word) for word in words[2:])
        if f0 is None or f1 is None or df is None or f0 > f1:
            return False
        return (f1 - f0) // df + 1 <= 10_000
    return True


def read_file(name: bytes, bound: int) -> bytes:
    """A file, as far as the bound."""
    try:
        with open(name, "rb") as file:
            return file.read(bound)
    except (OSError, ValueError):
        raise ReadFault() from None


def outcome(words: list[bytes], trace: TextIO | None = None) -> tuple[int, list[tuple[bytes | None, bytes]]]:
    """The status, and the outputs as a list of (name of a file, bytes), where None is standard output."""
    if not fits(words):
        return USAGE, [(None, b"USAGE\n")]
    words = with_command(words)
    command = words[0]
    try:
        if command == b"trial":
            number = int(words[1])
            machine = history(deck(trial_deck(number)), trace)
            status = DONE if machine.end is None else ENDED
            return status, [(None, summary(number, machine))]
        data = read_file(words[1], CASE_BOUND)
        more = []
        if command == b"audit":
            more = [read_file(word, RECORD_BOUND) for word in words[2:4]]
        elif command == b"batch":
            more = [read_file(words[2], CASE_BOUND)]
        case = deck(data)
        if command == b"run":
            machine = history(case, trace)
            status = DONE if machine.end is None else ENDED
            return status, [(words[2], cfg(machine)), (words[3], dat(machine)), (None, note(machine))]
        if command == SAMPLES:
            machine = history(case, trace)
            return DONE, [(None, note(machine) + sample_lines(machine))]
        if command == b"phasor":
            try:
                return DONE, [(None, phasor_mod.phasor_text(case, phasor_mod.solve(case)))]
            except End as end:
                return ENDED, [(None, b"PHASOR ENDED " + end_parts(end) + b"\n")]
        if command == b"scan":
            f0, f1, df = (int(word) * 10**6 for word in words[2:])
            return DONE, [(None, phasor_mod.scan(case, f0, f1, df))]
        if command == b"audit":
            machine = history(case, trace)
            return DONE, [(None, audit_mod.audit(machine, *more))]
        rows = batch_mod.read_times(more[0], case)
        return DONE, [(None, batch_mod.batch(case, rows, trace))]
    except ReadFault:
        return READ_FAULT, []
    except Bad as bad:
        return BAD_CARD, [(None, bad.note().encode() + b"\n")]
    except phasor_mod.Refused as refused:
        return REFUSED, [(None, refused.note())]
    except audit_mod.Differs as differs:
        return DIFFERS, [(None, differs.note())]
    except batch_mod.BadRow as bad_row:
        return BAD_ROW, [(None, bad_row.note())]


def main(arguments: list[str] | None = None) -> int:
    """Does what the words say and answers the exit status; `--trace FILE` before the command writes each record to FILE."""
    words = [os.fsencode(word) for word in (sys.argv[1:] if arguments is None else arguments)]
    trace = None
    if words[:1] == [b"--trace"] and len(words) > 1:
        try:
            trace = open(words[1], "w", encoding="latin-1")
        except (OSError, ValueError) as error:
            print(f"emtp: the trace can't be written: {error}", file=sys.stderr)
            return WRITE_FAULT
        del words[:2]
    if any(not is_text(word) for word in words):
        words = []  # the program's words are texts; else it is called with none
    status, outputs = outcome(words, trace)
    if trace is not None:
        trace.close()
    for name, data in outputs:
        try:
            if name is None:
                while data:
                    data = data[os.write(1, data) :]
            else:
                with open(name, "wb") as file:
                    file.write(data)
        except (OSError, ValueError):
            return WRITE_FAULT if status in (DONE, ENDED) else status
    return status
