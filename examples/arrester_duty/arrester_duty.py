"""What does an arrester take of 10 kA 8/20, and what insulation stands a line's closing? With a name of a file a picture."""

import pathlib
import sys
from types import SimpleNamespace

import numpy as np
from wurdanei import arrester, insulation, picture, read
from wurdanei.case import Case

# the record of another example; by hand the last segment, 257.78 kV + 4.2222 ohm i, with .16 As and 10^8 A^2 32 us / 3
folder = pathlib.Path(__file__).parents[1] / "arrester_energy"
points = [(1e-3, 170e3), (1.0, 205e3), (100.0, 235e3), (1e3, 262e3), (1e4, 300e3)]
its = arrester.duty(read(folder / "arrester_energy.cfg"), u="V P", i="I P-ARR", ur_kv=168, points=points)
print(f"energy {its.energy / 1e3:.2f} kJ, by hand {(257.78e3 * 0.16 + 4.2222e8 * 32e-6 / 3) / 1e3:.2f} kJ")
print(
    f"charge {its.charge:.4f} As, by hand .16; crest {its.crest_a:.0f} A at {its.residual_v / 1e3:.1f} kV, by hand 300 kV"
)
print(f"{its.specific:.3f} kJ a kV of its rated voltage; {its.off} samples off the characteristic")

# an open line of 120 km, closed at 200 instants of a cycle; by hand the closing at the crest doubles the voltage at most
case = Case(dt=1e-5, end=0.05)
case.line("SEND", "FAR", length=120, r_ohm=0.08, zc_ohm=380, velocity=2.97e5)
case.series("FAR", r_ohm=1e6)
case.switch("SRC", "SEND", close_s=0.02)
case.cosine("SRC", amplitude_v=118.4e3, hz=50)
case.output("FAR")
peaks = case.batch(0.02 + 0.02 * np.arange(200) / 200).channel("V FAR") / 1e3
found = insulation.distribution(peaks)
print(f"half exceed {found.half:.1f} kV, 2 % exceed {found.seldom:.1f} kV, twice the source is {2 * 118.4:.1f} kV")
factor, needed = insulation.coordination(found.seldom, 210.0)
print(
    f"behind an arrester of 210 kV: Kcd {factor:.4f}, by hand {1.24 - 0.2 * 210 / found.seldom:.4f}; Ucw {needed:.1f} kV"
)
for withstand in (230.0, 250.0, 275.0):
    print(f"risk of an insulation of {withstand:.0f} kV: {insulation.risk(peaks, withstand):.2g}")

if len(sys.argv) > 1:
    picture.draw(arrester.drawing_of(its, SimpleNamespace(u="V P", i="I P-ARR", record="10 kA 8/20")), sys.argv[1])
