"""Is a breaker of 145 kV and 31.5 kA right for three lines, and for a short one? With a name of a file a picture."""

import math
import pathlib
import sys

from wurdanei import duty, picture, read, trv
from wurdanei.case import Case

E, ISC, W = 145e3 * math.sqrt(2 / 3), 31.5e3, 100 * math.pi

# three lines at the bus, the record of another example; by hand of docs/recipes.md, the delay of 5 nF is .58 us
record = read(pathlib.Path(__file__).parents[1] / "terminal_fault" / "terminal_fault.cfg")
lines = trv.evaluate(record, "U BA-0", rated_kv=145, duty="T100", kpp=1.3)
hand = 1.3 * E * (1 - math.exp(-(250 - 0.58) / 95.47))
print("\n".join(trv.lines_of(lines, "T100")))
at = abs(lines.times - 250e-6).argmin()
print(f"at 250 us: record {lines.volts[at] / 1e3:.1f} kV, by hand {hand / 1e3:.1f} kV")

# L90: the source by its network, the line of 450 ohm; by hand 450 w .9 I root 2
case = Case(dt=2e-7, end=10.6e-3)
source = duty.source(case, "S", rated_kv=145, isc_ka=31.5, duty="L90")
case.line("L", "X", zc_ohm=450, tau_us=source.line_us)
case.series("X", r_ohm=0.01)
case.series("L", r_ohm=1e6)
case.switch("S", "L", open_s=9e-3, ask="iu")
case.output("S", "L")
short = trv.evaluate(case.run(), "U S-L", rated_kv=145, duty="L90")
hand = 450 * W * 0.9 * ISC * math.sqrt(2)
print(f"line side: record {short.line.slope / 1e9:.2f} kV/us, by hand {hand / 1e9:.2f} kV/us")
print(f"its first crest is {short.line.peak:.1f} times its voltage at the zero, which a line without losses doubles")
print(f"the source's side is below its reference line by {100 * short.margin:.0f} %; passes: {short.passes}")

if len(sys.argv) > 1:
    picture.draw(trv.drawing_of([lines, short], "a breaker of 145 kV, 31.5 kA"), sys.argv[1])
