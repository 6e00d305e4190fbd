"""Whether a run is worth a judgment: what `emtp judge` would tell of."""

from __future__ import annotations

import os

from . import program

OWN = ("EMTP", "CASE")  # station and device of the records that the program writes


def told_of(case: str) -> str:
    """Of an accepted case in a file, the sentence that says that its run has something to judge; else nothing."""
    if not os.path.isfile(case) or not program.has_judge():
        return ""
    answer = program.run(["judge", "--count", case])
    if answer.status != 0 or answer.note.strip() == "0":
        return ""
    return f"Arresters, reactors or rounded branches may be off in this run; emtp judge {case} tells by how much."


def beside(path: str, station: str, device: str) -> str:
    """The same of the case that a record of the program is of: that of the record's name, in its folder."""
    return told_of(os.path.splitext(path)[0] + ".case") if (station, device) == OWN else ""
