"""Writes what saturable current transformers make of the currents of a record, as a test set plays it.

    emtp ct x.cfg set.cfg --i 'I SA-LA,I SB-LB' --ratio 1200/1 --rct 6 --burden 2 --points .005:.35,.02:.45,.1:.52,1:.58,20:.75

writes the record with these currents as the transformer gives them, secondary, and the voltages of --v by --vt secondary
too, as a test set plays them. It prints when each transformer first errs by more than 10 % of the crest. Its magnetising
curve is --points, A:Wb of the secondary side, or --knee V,A, RMS. Exit status: 0 none errs by more, 1 one does, 2 it can't be
made.
"""

from __future__ import annotations

import argparse
import math
import os
import sys

import numpy as np

from . import report
from .configuration import RecordError
from .convert import number as real
from .convert import ratio as ratio_of
from .ct import secondary
from .draft import CaseError
from .drawing import Curve, Drawing, Pane
from .record import Record, read
from .resample import even_spacing
from .signals import names_of, signal_of
from .write import Channel, Content, write

ALLOWED = 0.1  # of the crest: the error that a transformer may have


def parser() -> argparse.ArgumentParser:
    """The words of the command."""
    made = argparse.ArgumentParser(
        prog="emtp ct", description=__doc__, formatter_class=argparse.RawDescriptionHelpFormatter
    )
    made.add_argument("record", metavar="RECORD", help="a .cfg, with its .dat beside it, or a .cff")
    made.add_argument("made", metavar="OUT", help="the record that is written, .cfg or .cff")
    made.add_argument("--i", metavar="NAMES", required=True, help="the primary currents, between commas")
    made.add_argument("--ratio", metavar="P/S", required=True, help="of the current transformers, as 1200/1")
    made.add_argument("--v", metavar="NAMES", default="", help="voltages that are written too")
    made.add_argument("--vt", metavar="P/S", default="1/1", help="of the voltage transformers, as 220000/100")
    made.add_argument("--rct", metavar="OHM", type=real, required=True, help="the resistance of the winding")
    made.add_argument("--burden", metavar="OHM", type=real, required=True, help="the resistance of the burden")
    made.add_argument("--burden-mh", metavar="MH", type=real, default=0.0, help="its inductance; default: 0")
    made.add_argument("--points", metavar="A:WB,..", help="the magnetising curve")
    made.add_argument("--knee", metavar="V,A", help="its knee, RMS")
    made.add_argument("--saturated", metavar="MH", type=real, default=1.0, help="beyond the knee; default: 1")
    made.add_argument(
        "--remanence", metavar="PART", type=real, default=0.0, help="of the flux of saturation; default: 0"
    )
    made.add_argument("--hz", type=real, default=50.0, help="the line frequency; default: 50")
    made.add_argument(
        "--form", choices=("ascii", "binary", "binary32", "float32"), default="binary", help="default: binary"
    )
    report.add_outputs(made)
    return made


def curve_of(points: str | None, knee: str | None) -> dict:
    """The magnetising curve of the words."""
    if points:
        try:
            return {"points": [tuple(float(it) for it in part.split(":", 1)) for part in points.split(",")]}
        except ValueError:
            raise RecordError(f"--points {points}: it is A:WB between commas") from None
    try:
        volts, amps = (float(it) for it in (knee or "").split(","))
    except ValueError:
        raise RecordError("the magnetising curve is --points A:WB,.. or --knee V,A") from None
    return {"knee_v": volts, "knee_a": amps}


def main(words: list[str]) -> int:
    """Runs the command."""
    its = parser().parse_args(words)
    report.checked(its, its.record)
    stems = {os.path.splitext(os.path.realpath(path))[0] for path in (its.record, its.made)}
    if len(stems) < 2:
        raise RecordError(f"{its.made}: this would be written over what is read")
    record = read(its.record)
    for told in record.told:
        print(f"{its.record}: {told}", file=sys.stderr)
    primary, other = ratio_of(its.ratio)
    names = names_of(its.i)
    values = dict(ratio=primary / other, rct_ohm=its.rct, burden_ohm=its.burden, burden_mh=its.burden_mh)
    values |= dict(saturated_mh=its.saturated, remanence=its.remanence, hz=its.hz) | curve_of(its.points, its.knee)
    channels, errors, panes, rows = [], [], [], []
    for name in names:
        signal = signal_of(record, name, "A")
        try:
            made = secondary(signal.times, signal.values, **values)
        except CaseError as fault:
            raise RecordError(str(fault)) from None
        ideal = signal.values * other / primary
        most = float(np.abs(ideal).max()) or 1.0
        error = np.abs(made - ideal) / most
        late = float(signal.times[np.argmax(error > ALLOWED)]) if (error > ALLOWED).any() else math.nan
        errors.append(late)
        print(
            f"{name}: crest {np.abs(made).max():.5g} A, {most:.5g} A without saturation; errs by {100 * error.max():.3g} % of the crest at most"
            + ("" if math.isnan(late) else f", by more than {100 * ALLOWED:g} % from {1e3 * late:.5g} ms on: SATURATES")
        )
        rows.append([name, float(np.abs(made).max()), most, float(error.max()), late])
        channels.append(Channel(name, "A", made * primary / other, primary=primary, secondary=other, scaling="S"))
        curves = [
            Curve(f"{name} by the ratio", 1e3 * signal.times, ideal, "A"),
            Curve("secondary", 1e3 * signal.times, made, "A"),
        ]
        panes.append(Pane(f"{name}, A", curves))
    sides = ratio_of(its.vt)
    voltages = [
        Channel(name, "V", signal_of(record, name, "V").values, primary=sides[0], secondary=sides[1], scaling="S")
        for name in names_of(its.v)
    ]
    content = Content(
        record.times, [*voltages, *channels], [], record.station, record.device, its.hz, _rates(record), record.start
    )
    form = its.form.upper()
    year = 2013 if its.made.lower().endswith(".cff") or form in ("BINARY32", "FLOAT32") else 1999
    print(f"written: {', '.join(write(its.made, content, form, year).files)}: all secondary, {its.ratio} and {its.vt}")
    if its.csv:
        heads = ("channel", "crest (A)", "crest by the ratio (A)", "greatest error", "error above 10 % (s)")
        report.write_table(its.csv, heads, rows)
    if its.curves:
        columns_ = [(f"{name} (A secondary)", it.values * other / primary) for name, it in zip(names, channels)]
        report.write_curves(its.curves, [("s", record.times), *columns_])
    if its.out:
        report.draw(Drawing(os.path.basename(its.record), panes, x_label="ms"), its.out)
    saturates = any(not math.isnan(it) for it in errors)
    print("SATURATES" if saturates else "DOESN'T SATURATE")
    return report.FAILS if saturates else report.PASSES


def _rates(record: Record) -> list[tuple[float, int]]:
    """The rate of a record whose samples are even."""
    spacing = even_spacing(record.times)
    return record.rates or ([] if spacing is None else [(float(f"{1 / spacing:.9g}"), len(record.times))])
