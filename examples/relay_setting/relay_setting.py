"""What an overcurrent relay measures over the resistance of a fault, and which fault a setting still sees."""

import sys

import numpy as np
from wurdanei.case import Case

V, HZ, R, L, LOAD = 16.33e3, 50.0, 1.7, 13e-3, 200.0  # crest, Hz, ohm and H up to the fault, ohm
SETTING = 400.0  # A, effective
ohm, records = np.array([0.1, 2, 5, 10, 15, 20, 25, 30, 32, 35, 40]), []
for fault in ohm:
    case = Case(dt=2e-5, end=0.3, every=5)
    case.smooth_cosine("SRC", amplitude_v=V, hz=HZ, phase_deg=-90, cycles=2)
    case.series("SRC", "FEED", r_ohm=R, l_mh=L * 1e3)
    case.measuring("FEED", "BUS")
    case.series("BUS", r_ohm=LOAD)
    case.switch("BUS", "FAULT", close_s=0.1)
    case.series("FAULT", r_ohm=fault)
    case.control.current("FEED")
    case.control.effective("RMS", "FEED", hz=HZ)
    case.control.formula("TRIP", f"TRIP .OR. RMS .GT. {SETTING}")
    case.control.output("RMS", "TRIP")
    records.append(case.run())
ampere, trip = ([it.channel(name)[-1] for it in records] for name in ("T RMS", "T TRIP"))

# by hand: the source behind R and L on fault and load side by side, and backwards from the setting to the fault
hand = V / np.sqrt(2) / abs(R + 2j * np.pi * HZ * L + 1 / (1 / ohm + 1 / LOAD))
both = np.sqrt((V / np.sqrt(2) / SETTING) ** 2 - (2 * np.pi * HZ * L) ** 2) - R
print("fault ohm  measured A  by hand A  trips")
for row in zip(ohm, ampere, hand, np.where(np.array(trip) > 0, "yes", "no")):
    print("%9.1f  %10.1f  %9.1f  %s" % row)
seen = np.interp(-SETTING, -np.array(ampere), ohm)
print(f"{SETTING:g} A: {seen:.1f} ohm, by hand {1 / (1 / both - 1 / LOAD):.1f} ohm")

if len(sys.argv) > 1:
    import matplotlib.pyplot as plt
    plt.plot(ohm, ampere, "o", ohm, hand, "-", ohm, 0 * ohm + SETTING, "--")
    plt.legend(["record, A", "by hand", "setting"]), plt.xlabel("resistance of the fault, ohm"), plt.savefig(
        sys.argv[1]
    )
