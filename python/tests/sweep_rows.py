"""Functions of a sweep that other processes import."""

import os
import pathlib
import signal
import time

from wurdanei.case import Case


def divider(r_ohm: float, volts: float = 100.0) -> Case:
    """A dc source behind a resistance, and 1 ohm: volts / (r_ohm + 1) at B."""
    case = Case(1e-4, 1e-3)
    case.series("A", "B", r_ohm=r_ohm)
    case.series("B", r_ohm=1)
    case.step("A", amplitude_v=volts)
    case.output("A", "B")
    return case


def product(one: float, other: float) -> float:
    """A number without a case."""
    return one * other


def slow(number: int, room: str) -> int:
    """A row that takes a while and leaves a file; row 7 ends its process the first time."""
    time.sleep(0.02)
    pathlib.Path(room, f"{number}.{os.getpid()}").touch()
    mark = pathlib.Path(room, "ended")
    if number == 7 and not mark.exists():
        mark.touch()
        os.kill(os.getpid(), signal.SIGKILL)
    return number * number
