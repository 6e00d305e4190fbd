"""How far a run, a batch or a scan is, in a line of a terminal that goes again; beside the program, which tells nothing.

    python3 -m wurdanei.progress PROCESS WORDS..   tells of a process that runs these words, until it ends

Of a run: the program keeps each value of its samples, 8 bytes, until it writes them, so that the growth of its memory
tells how fast they come. Of a batch or a scan: a twentieth of its rows or frequencies is run beside it, which tells how
much processor time the whole takes. Both are of Linux; elsewhere, and where neither can be had, the time that it has taken
stands alone.
"""

from __future__ import annotations

import contextlib
import os
import re
import subprocess
import sys
import threading
import time
import typing

from . import program, together

try:
    import resource
except ImportError:  # of Windows
    resource = None  # type: ignore[assignment]

AFTER, EVERY = 2.0, 0.5  # seconds without a line at first, and between two
TURN = 0.02  # seconds between two looks whether a process has ended
VALUE = 8  # bytes
LEAST = 8  # pages of growth that tell something
PART = 20  # one of so many rows or frequencies is run beside the whole
WIDTH = 48  # columns of the line at most


def is_terminal() -> bool:
    """Whether somebody looks at standard error."""
    return bool(sys.stderr) and sys.stderr.isatty()


class Line:
    """The line of a terminal that tells how far something is; it says nothing where standard error is none."""

    def __init__(self, began: float) -> None:
        self._began, self._told = began, False

    @property
    def spent(self) -> float:
        """The seconds since it began."""
        return time.monotonic() - self._began

    def tell(self, share: float | None) -> None:
        """Tells which part is done, once it has taken long enough."""
        if self.spent >= AFTER and is_terminal():
            self._told = True
            sys.stderr.write(f"\r{told(self.spent, share):<{WIDTH}}")
            sys.stderr.flush()

    def go(self) -> None:
        """Takes the line away."""
        if self._told:
            sys.stderr.write("\r" + " " * WIDTH + "\r")
            sys.stderr.flush()
            self._told = False


def told(spent: float, share: float | None) -> str:
    """The seconds that something has taken and, where a part above 0 is known to be done, what is left."""
    if not share:
        return f"{spent:.0f} s"
    done = min(share, 0.99)
    return f"{100 * done:.0f} %, {spent:.0f} s, some {spent / done - spent:.0f} s left"


# ---- what is known of a process


def _memory(process: int) -> int:
    """The pages that a process holds; 0 where that isn't told."""
    try:
        with open(f"/proc/{process}/statm", encoding="ascii") as file:
            return int(file.read().split()[1])
    except (OSError, ValueError, IndexError):
        return 0


def _processor_seconds(process: int) -> float:
    """The processor time that a process has taken; 0 where that isn't told."""
    try:
        with open(f"/proc/{process}/stat", encoding="ascii", errors="replace") as file:
            words = file.read().rpartition(")")[2].split()
        return (int(words[11]) + int(words[12])) / os.sysconf("SC_CLK_TCK")
    except (OSError, ValueError, IndexError):
        return 0.0


def is_there(process: int) -> bool:
    """Whether a process still runs."""
    try:
        os.kill(process, 0)
    except OSError:
        return False
    return True


def values_of(case: str) -> int:
    """How many values the record of a case has; 0 where that can't be told."""
    if not os.path.isfile(case):
        return 0
    found = re.search(r"^record, .*?, values=(\d+) of", program.run(["show", case]).note, re.M)
    return int(found[1]) if found else 0


def seconds_of(words: list[str]) -> float:
    """The processor time that a batch or a scan takes, by that of a part; 0 where that can't be told."""
    if resource is None:
        return 0.0
    with together.part_of(words, PART) as (part, share, file):
        if not part:
            return 0.0
        before = resource.getrusage(resource.RUSAGE_CHILDREN)
        given = [file] if file >= 0 else []
        subprocess.run(program.called(part), capture_output=True, pass_fds=given, check=False)
        after = resource.getrusage(resource.RUSAGE_CHILDREN)
    return (after.ru_utime + after.ru_stime - before.ru_utime - before.ru_stime) / share


class Watch:
    """What tells how far a process is that runs some words."""

    def __init__(self, process: int, words: list[str]) -> None:
        self._process, self._values, self._seconds = process, 0, 0.0
        try:
            if words[0] == "run":
                self._values = values_of(words[1])
            else:
                self._seconds = seconds_of(words)
        except program.ProgramError:
            pass  # then the time alone is told
        self._began, self._first = time.monotonic(), _memory(process)

    def share(self, spent: float) -> float | None:
        """Which part is done of what has taken so many seconds, none where that can't be told."""
        if self._seconds:
            return _processor_seconds(self._process) / self._seconds
        grown = _memory(self._process) - self._first
        if not self._values or grown < LEAST:
            return None
        whole = VALUE * self._values * (time.monotonic() - self._began) / (grown * os.sysconf("SC_PAGE_SIZE"))
        return spent / max(spent, whole)


def watch(process: int, words: list[str], ends: typing.Callable[[float], bool], began: float) -> None:
    """Tells how far a process is that began then, from two seconds on. `ends` waits so many seconds, and says whether it
    has ended."""
    if ends(max(0.0, began + AFTER - time.monotonic())):
        return
    line, its = Line(began), Watch(process, words)
    try:
        while True:
            line.tell(its.share(line.spent))
            if ends(EVERY):
                return
    finally:
        line.go()


@contextlib.contextmanager
def beside(process: int, words: list[str]) -> typing.Iterator[None]:
    """Within it a terminal tells how far a process is, by a thread."""
    ended = threading.Event()
    thread = threading.Thread(target=watch, args=(process, words, ended.wait, time.monotonic()), daemon=True)
    thread.start()
    try:
        yield
    finally:
        ended.set()
        thread.join()


def main(words: list[str]) -> int:
    """Tells of a process, which began some two seconds ago, until it ends."""
    process = int(words[0])

    def ends(seconds: float) -> bool:
        until = time.monotonic() + seconds
        while is_there(process) and time.monotonic() < until:
            time.sleep(TURN)
        return not is_there(process)

    watch(process, words[1:], ends, time.monotonic() - AFTER)
    return 0


if __name__ == "__main__":
    sys.exit(main(sys.argv[1:]))
