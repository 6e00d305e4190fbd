"""The command `emtp` of a package, on any system: what the script of that name is at the top of a checkout.

It calls the proved program with its words, passes on what that prints and its exit status, and says on standard error
what the status means, in the program's own words (`show --told`, docs/show.md).
"""

from __future__ import annotations

import contextlib
import os
import pathlib
import re
import subprocess
import sys
import time
import typing

from . import __main__ as package
from . import __version__, program, progress, together, worth

USAGE = pathlib.Path(__file__).with_name("usage.txt")
READ_FAULT, WRITE_FAULT, NO_PROGRAM = 4, 5, 70
FILES_READ = {"audit": 3, "batch": 2, "trial": 0}  # how many words behind a command name files that are read; else 1
# of a status with these commands the case was accepted, so that its warnings are counted
ACCEPTED = {"run": (0, 3, 5), "batch": (0, 5, 9), "phasor": (0, 3, 5, 7), "scan": (0, 5, 7), "judge": (0, 5)}
LONG = ("run", "batch", "scan")  # of which a terminal is told how far they are
NAME_BYTES = 255  # of a file's name at most
LEAST_STEP = 1e-9  # of a raw value; below it a channel that is 0 throughout is 0 indeed
NUMBER = re.compile(r"\s*[+-]?(\d+\.?\d*|\.\d+)([eE][+-]?\d+)?", re.ASCII)


def say(text: str | bytes) -> None:
    """Prints lines on standard error, names of files as the system has them."""
    raw = text if isinstance(text, bytes) else os.fsencode(text)
    with contextlib.suppress(OSError, ValueError):
        sys.stderr.buffer.write(raw.rstrip(b"\n") + b"\n")
        sys.stderr.buffer.flush()


def ran(words: typing.Sequence[str], captured: bool = True) -> tuple[int, bytes]:
    """The status of the program with these words, as a shell tells it, and what it prints where that is captured.

    A pipe that nobody reads stays a fault in writing. What a program for other systems says on standard error of a
    status of its own isn't passed on, since it is asked for it behind each call.
    """
    alone = program.is_one()
    with subprocess.Popen(
        program.called(words),
        stdout=subprocess.PIPE if captured else None,
        stderr=subprocess.PIPE if alone else None,
        restore_signals=False,
    ) as process:
        looked_at = words[:1] and words[0] in LONG and progress.is_terminal()
        with progress.beside(process.pid, list(words)) if looked_at else contextlib.nullcontext():
            out, told = process.communicate()
    status = process.returncode if process.returncode >= 0 else 128 - process.returncode
    if alone and told and not 1 <= status <= 9:
        say(told)
    return status, out or b""


def in_parts(words: list[str]) -> bytes | None:
    """What a batch or a scan prints, on all processors; none where it isn't one that is done in parts."""
    parts = together.Parts(words, program.processors())
    if not parts.count:
        return None
    line = progress.Line(time.monotonic())
    try:
        return parts.run(lambda: line.tell(parts.done / parts.count))
    finally:
        line.go()


def unread(words: list[str]) -> list[str]:
    """Which of the files that a command reads can't be."""
    command, *rest = words
    if command in ("show", "judge"):
        files = rest[1:2] if rest[:1] and rest[0].startswith("--") and len(rest) > 1 else rest[:1]
    else:
        files = rest[: FILES_READ.get(command, 1)]
    found = []
    for file in files:
        if not os.path.exists(file):
            found.append(f"{file} isn't there.")
        elif os.path.isdir(file):
            found.append(f"{file} is a folder.")
        elif not os.access(file, os.R_OK):
            found.append(f"{file} may not be read.")
    return found


def unmade(files: list[str]) -> list[str]:
    """Which of the outputs couldn't be made, the first one."""
    for file in files:
        folder = os.path.dirname(file) or "."
        changed = file if os.path.exists(file) else folder
        why = ""
        if not os.path.isdir(folder):
            why = "its folder isn't there"
        elif os.path.isdir(file):
            why = "it is a folder"
        elif not os.access(changed, os.W_OK):
            why = "it may not be written"
        elif len(os.fsencode(os.path.basename(file))) > NAME_BYTES:
            why = f"its name is longer than {NAME_BYTES} bytes"
        if why:
            return [f"{file} couldn't be made: {why}."]
    return []


def again(word: str) -> str:
    """A word as `show --told` takes it: a dash in front of what can't be read twice, as a pipe."""
    return f"-{word}" if os.path.exists(word) and not os.path.isfile(word) else word


def cause(words: list[str], status: int) -> list[str]:
    """What is known here of a status: which file is at fault."""
    if status == 1 and words[:1] == ["judge"]:
        return ["Behind judge stands CASE, alone or behind --samples or --count."]
    if status == READ_FAULT:
        return unread(words)
    if status == WRITE_FAULT and words[:1] == ["run"]:
        return unmade(words[2:4])
    return []


def tell(words: list[str], status: int, note: bytes) -> None:
    """Says what a status means: which file is at fault, or else what the proved program says of it."""
    known = cause(words, status)
    if known:
        say("\n".join(known))
    else:
        asked = words
        if status == 2 and words[:1] == ["judge"]:
            if not os.path.isfile(words[-1]):
                return
            asked = ["show", words[-1]]
        if status in (2, 3, 7, 8, 9):
            asked = [again(word) for word in asked]
        answered, why = ran(["show", "--told", str(status), os.fsdecode(note.removesuffix(b"\n")), *asked])
        if answered == 0 and why.strip(b"\n"):
            say(why)
        elif answered and status == 1:
            say("A word isn't UTF-8.")
    if status == 1:
        say(USAGE.read_bytes())


def warn(case: str) -> None:
    """Of an accepted case, how many warnings `show` prints, where there are some. A pipe can't be read twice."""
    if not os.path.isfile(case):
        return
    status, count = ran(["show", "--count", case])
    if status == 0 and count.strip() == b"1":
        say(f"There is 1 warning of what was read; emtp show {case} prints it.")
    elif status == 0 and count.strip() != b"0":
        say(f"There are {count.strip().decode()} warnings of what was read; emtp show {case} prints them.")


def coarsest(cfg: str, dat: str) -> None:
    """Of a record that is that of its case, to within what: a step of a raw value, beside the greatest value of its
    channel. A pipe can't be read twice."""
    if not os.path.isfile(cfg) or not os.path.isfile(dat):
        return
    rows = [_fields(line) for line in _lines(cfg)]
    channels = rows[2 : 2 + int(_number(rows[1][1]))]
    scales = [(_number(it[5]), _number(it[6])) for it in channels]
    peaks = [0.0] * len(channels)
    for line in _lines(dat):
        values = [*_fields(line)[2:], *[""] * len(channels)]  # an end mark has none
        found = (abs(a * _number(value) + b) for (a, b), value in zip(scales, values))
        peaks = [max(peak, value) for peak, value in zip(peaks, found)]
    most, worst = 0.0, ""
    for it, (a, _), peak in zip(channels, scales, peaks):
        if not peak and abs(a) > LEAST_STEP:
            say(f"{it[1]} is 0 throughout, to within {abs(a):g} {it[4]}.")
        if peak and abs(a) / peak > most:
            most, worst = abs(a) / peak, it[1]
    if most:
        told = f"Each value is right to within {100 * most:.2g} % of its channel's peak or less"
        say(f"{told}; {worst} has the coarsest steps.")


def _lines(path: str) -> typing.Iterator[str]:
    with open(path, encoding="latin-1", newline="\n") as file:
        for line in file:
            yield line.removesuffix("\n")


def _fields(line: str) -> list[str]:
    return re.split(" *, *", line)


def _number(text: str) -> float:
    """The number that a text begins with, else 0."""
    found = NUMBER.match(text.replace("D", "E").replace("d", "E"))
    return float(found[0]) if found else 0.0


def passed_on(text: bytes) -> bool:
    """Whether standard output takes a text."""
    try:
        sys.stdout.buffer.write(text)
        sys.stdout.buffer.flush()
        return True
    except (OSError, AttributeError):  # of a closed one there is no stream
        with contextlib.suppress(OSError):
            os.dup2(os.open(os.devnull, os.O_WRONLY), 1)
        return False


def call(words: list[str]) -> int:
    """A command of the proved program: its status, with what it means on standard error."""
    command = words[0] if words else ""
    asked, note = words, b""
    if command in ("show", "judge"):  # what they print may be long, and goes straight through
        status, _ = ran(words, captured=False)
        if command == "show" and words[1:2] and words[1] in ("--count", "--kinds", "--why", "--fields"):
            asked = [command, *words[2:]]
    else:
        joined = in_parts(words)
        status, note = ran(words) if joined is None else (0, joined)
        if not passed_on(note) and status in (0, 3):  # a refusal keeps its status without its note
            status, note = WRITE_FAULT, b""
    if 1 <= status <= 9:
        tell(asked, status, note)
    if command == "audit" and status == 0:
        coarsest(*words[2:4])
    if status in ACCEPTED.get(command, ()):
        warn(words[-1] if command == "judge" else words[1])
    if command == "run" and status in (0, 3):
        told = worth.told_of(words[1])
        if told:
            say(told)
    return status


def answered(text: str) -> int:
    """The status of a question to the command itself, which prints a text."""
    return 0 if passed_on(os.fsencode(text)) else WRITE_FAULT


def is_of_package(words: list[str]) -> bool:
    """Whether a command is one of the Python package; `scan` is that with --at alone."""
    if words[:1] == ["scan"]:
        return "--at" in words or words == ["scan", "--help"]
    return bool(words) and words[0] in package.COMMANDS


def main(words: list[str]) -> int:
    """Runs a command, and gives its exit status (docs/record.md); 70 where there is no program."""
    if words == ["--help"]:
        return answered(USAGE.read_text(encoding="utf-8"))
    if is_of_package(words):
        return package.main(words)
    try:
        if words == ["--version"]:
            return answered(f"emtp {__version__}, {program.origin()}\n")
        if words[:1] == ["--program"] and len(words) == 2 and words[1] in program.VARIABLES:
            return answered(f"{program.named(words[1])}\n")
        return call(words)
    except (program.ProgramError, OSError) as fault:
        say(f"emtp: {fault}")
        return NO_PROGRAM
    except KeyboardInterrupt:
        return 130


def entry() -> None:
    """The command as a program."""
    package.prepare()
    sys.exit(main(sys.argv[1:]))


if __name__ == "__main__":
    entry()
