"""A line of 420 kV from its tower, the plate of its source and the sheet of its arresters: what a closing leaves at its end."""

import sys

import numpy as np
from wurdanei.case import Case
from wurdanei.data import Conductor, arrester, overhead, source3

bundle = dict(y_m=22, sag_m=10, radius_mm=10.9, r_ohm_km=0.118, bundle=4, spacing_m=0.4)
wire = dict(y_m=44, sag_m=8, radius_mm=9, r_ohm_km=0.24)
line = overhead([Conductor(x_m=x, **bundle) for x in (-10, 0, 10)], [Conductor(x_m=x, **wire) for x in (-8, 8)])
source = source3(kv=420, sk_mva=14_500, xr=15, x0x1=1.2)
sheet = arrester(ur_kv=336, switching={0.5: 645, 1: 662, 2: 688}, lightning={5: 735, 10: 780, 20: 850})
print("\n".join([*line.lines(), *source.lines(), *sheet.told]))

case = Case(dt=5e-6, end=0.06)
case.source3(["SA", "SB", "SC"], source, angle_deg=-90, cycles=1)
case.poles(["SA", "SB", "SC"], ["LA", "LB", "LC"], close_s=0.025, later_s=(0, 0.002, 0.004))
case.line3(["LA", "LB", "LC"], ["RA", "RB", "RC"], length=200, zero=line.zero, positive=line.positive)
for phase in "ABC":
    case.series("S" + phase, c_uf=0.01)
    case.series("R" + phase, r_ohm=1e6)
    case.arrester("R" + phase, points=sheet.points)
case.output("RA", "RB", "RC")
record = case.run()

base, travel = source.amplitude_v, 200 / line.km_s[1]
for phase, channel in zip("ABC", ("T ON1", "T ON2", "T ON3")):
    print(f"phase {phase}: greatest voltage at the open end {np.abs(record.channel(channel)).max() / base:.2f} pu")
arrived = record.times[np.argmax(np.abs(record.channel("V RA")) > 1e3)]
print(f"the first wave is there {1e3 * (arrived - 0.025):.2f} ms after the closing, by hand {1e3 * travel:.2f} ms")

if len(sys.argv) > 1:
    import matplotlib.pyplot as plt
    for phase in "ABC":
        plt.plot(1e3 * record.times, record.channel("V R" + phase) / 1e3, label="R" + phase)
    plt.xlabel("ms"), plt.ylabel("kV"), plt.legend(), plt.savefig(sys.argv[1])
