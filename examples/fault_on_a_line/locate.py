#!/usr/bin/env python3
"""Where on the line was the fault, and through how many ohm? docs/compare.md tells the study; it needs numpy.

    locate.py FOLDER [quick]

A run at a quarter of the step, of a line whose constants are a little off, goes through a recorder: FOLDER gets what it
'measured', the table of pairs, and the records of the case with the fault at its right and at a wrong place. Then the case is
run for places and resistances, from coarse to fine, until its record is nearest to the measured one.
"""
import itertools
import pathlib
import sys

HERE = pathlib.Path(__file__).resolve().parent
sys.path.insert(0, str(HERE.parents[1] / "python"))
from wurdanei import compare, program, record, recorder  # noqa: E402

CASE = (HERE / "fault_on_a_line.case").read_text()
OTHER = (("   2.E-5", "   5.E-6"), ("       1       4", "       1       8"), ("   2.8  .008", " 2.814  .008"))
VOLTAGES = [(f"V VS{it}", f"U_{it}", "kV", 1e6, 4e5, 100, 1) for it in "ABC"]
CURRENTS = [(f"I VS{it}-LS{it}", f"I_{it}", "A", 1.13e5, 2000, 1, -1) for it in "ABC"]
INPUTS = [recorder.Input(*it, 5e-6 * place) for place, it in enumerate(VOLTAGES + CURRENTS)]
SETTINGS = recorder.Settings(begin=0.1003, corner=1500, noise=0.002, missing=0.001, seed=7)


def run(folder: pathlib.Path, name: str, km: float, ohm: float, text: str = CASE) -> record.Record:
    """The record of the case with the fault at this place, through this resistance."""
    lines = text.splitlines()
    for line, column, value in ((40, 45, km), (41, 45, km), (43, 45, 300 - km), (44, 45, 300 - km), (46, 27, ohm)):
        card = lines[line - 1]
        lines[line - 1] = f"{card[:column - 1]}{value:6.5g}{card[column + 5:]}"
    (folder / f"{name}.case").write_text("\n".join(lines) + "\n")
    ended = program.run(["run", f"{name}.case", f"{name}.cfg", f"{name}.dat"], folder)
    if ended.status:
        sys.exit(ended.note)
    return record.read(folder / f"{name}.cfg")


def main(folder: pathlib.Path, quick: bool) -> None:
    folder.mkdir(exist_ok=True)
    other = CASE
    for old, new in OTHER:
        other = other.replace(old, new)
    recorder.write(run(folder, "other", 120, 5, other), INPUTS, SETTINGS, str(folder / "measured.cfg"))
    (folder / "pairs").write_text("".join(f"{it.source}, {it.name}, {it.factor}, 5\n" for it in INPUTS))
    run(folder, "right", 120, 5), run(folder, "wrong", 150, 5)
    measured, pairs = record.read(folder / "measured.cfg"), compare.wanted_pairs(str(folder / "pairs"), 5)

    def misfit(place: tuple[float, float]) -> float:
        """The root of the mean square of the pairs' RMS differences, in %."""
        its = compare.compare(run(folder, "tried", *place), measured, pairs, None, (0.1, 0.18), 1500).pairs
        return (sum(it.rms**2 for it in its) / len(its)) ** 0.5

    coarse = ((70, 130), (2, 8)) if quick else ((70, 100, 130, 160, 190, 220), (2, 8, 20))
    best = min((misfit(it), *it) for it in itertools.product(*coarse))
    for by in [(10, 3)] if quick else [(15, 2.5), (5, 1), (2, 0.5)]:
        near = itertools.product(*((max(0.1, at - step), at, at + step) for at, step in zip(best[1:], by)))
        best = min((misfit(it), *it) for it in near)
        print(f"RMS {best[0]:.2f} % at {best[1]:g} km and {best[2]:g} ohm", flush=True)


if __name__ == "__main__":
    main(pathlib.Path(sys.argv[1]), "quick" in sys.argv[2:])
