"""The impedance at a bus of a case with a source, a bank, a line, an arrester. With a name of a file a picture."""

import sys

import numpy as np
from wurdanei import picture, scan_at
from wurdanei.case import Case
from wurdanei.drawing import Curve, Drawing, Pane

case = Case(1e-6, 0.06)
case.smooth_cosine("SRC", amplitude_v=118.4e3, hz=50)
case.series("SRC", "BUS", r_ohm=0.5, l_mh=10)
case.series("BUS", c_uf=5)
case.switch("BUS", "LINE")
case.line("LINE", "FAR", zc_ohm=300, tau_us=100)
case.series("FAR", r_ohm=1000)
case.arrester("FAR", points=[(1e-3, 150e3), (1000.0, 200e3)])
case.output("BUS")
found = scan_at.scan(case, "BUS", 50, 3000, 10)

# by hand, the admittances at the bus side by side
w = 2j * np.pi * found.hz
end, turn = 1 / (1 / 1000 + 1 / 150e6), np.tan(w.imag * 100e-6)
line = 300 * (end + 300j * turn) / (300 + 1j * end * turn)
hand = 1 / (1 / (0.5 + w * 0.01) + w * 5e-6 + 1 / line)
print("   Hz  scan ohm  by hand ohm")
for place in (0, 20, 45, 100, 295):
    print(f"{found.hz[place]:5.0f}  {abs(found.ohm[place]):8.2f}  {abs(hand[place]):11.2f}")
print("resonances at " + ", ".join(f"{it:.0f}" for it in found.resonances) + " Hz")

if len(sys.argv) > 1:
    curves = [Curve("scan", found.hz, np.abs(found.ohm), "ohm"), Curve("by hand", found.hz, np.abs(hand), "ohm", 1)]
    picture.draw(Drawing("the impedance at a bus", [Pane("ohm", curves)], x_label="Hz"), sys.argv[1])
