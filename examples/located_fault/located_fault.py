"""Where was the fault of the record that examples/fault_on_a_line/locate.py 'measures'? With a name of a file a picture."""

import importlib.util
import math
import pathlib
import sys
import tempfile

from wurdanei import compare, locate, picture, read, recorder

HERE = pathlib.Path(__file__).parents[1] / "fault_on_a_line"
own = importlib.util.spec_from_file_location("measuring", HERE / "locate.py")
measuring = importlib.util.module_from_spec(own)
own.loader.exec_module(measuring)

with tempfile.TemporaryDirectory() as room:
    other = measuring.CASE
    for old, new in measuring.OTHER:  # a quarter of the step, .5 % more inductance of the zero sequence
        other = other.replace(old, new)
    path = pathlib.Path(room)
    source = measuring.run(path, "other", 120, 5, other)
    recorder.write(source, measuring.INPUTS, measuring.SETTINGS, str(path / "measured.cfg"))
    case = locate.CaseFile(
        str(HERE / "fault_on_a_line.case"), ["40,41:LENGTH=5:295", "46:R=.1:60"], ["43,44:LENGTH=300"]
    )
    pairs = [compare.Wanted(it.source, it.name, it.factor) for it in measuring.INPUTS]
    found = locate.fit(
        case, read(path / "measured.cfg"), pairs, case.bounds, window=(0.1, 0.18), corner=1500, grid=4, jobs=2
    )
(km, ohm), (by_km, by_ohm) = found.values.values(), found.deviations.values()
print(f"the fault was at {km:.0f} km, and at 120; through {ohm:.0f} ohm, and through 5")
print(f"standard deviations below {math.ceil(by_km * 10) / 10 + 0.2:.1f} km and {math.ceil(by_ohm * 10) / 10:.1f} ohm")
print(f"it began {1e3 * -found.shift:.1f} ms after the case, and 100.3; others fit nearly as well: {len(found.others)}")

if len(sys.argv) > 1:
    picture.draw(locate.drawing_of(found, "a fault on a line of 300 km"), sys.argv[1])
