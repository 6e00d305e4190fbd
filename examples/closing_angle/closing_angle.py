"""The peak at the far end of an open line over the angle at which it is closed; with a name of a file its picture."""

import sys

import numpy as np
from wurdanei.case import Case

V, HZ, KM, OHM, ZC, VELOCITY = 118.4e3, 50.0, 120.0, 0.08, 380.0, 2.97e5
case = Case(dt=1e-5, end=0.06)
case.line("SEND", "FAR", length=KM, r_ohm=OHM, zc_ohm=ZC, velocity=VELOCITY)
case.series("FAR", r_ohm=1e6)
case.switch("SRC", "SEND", close_s=0.02)
case.cosine("SRC", amplitude_v=V, hz=HZ)
case.output("FAR")
angle = np.arange(0, 181, 7.5)  # degrees behind the crest
closing = 0.02 + angle / 360 / HZ
peak = case.batch(closing).channel("V FAR") / 1e3

# by hand, wave by wave: each passage leaves e^(-R / (2 Zc)); the open end doubles a wave, the source turns its sign
passages = np.arange(1, 151, 2)[:, np.newaxis]
t = np.arange(0, 0.06, 1e-5) - passages * KM / VELOCITY  # shape (passages, times), when each wave began
size = 2 * (-1) ** (passages // 2) * np.exp(-OHM * KM / (2 * ZC)) ** passages * V * np.cos(2 * np.pi * HZ * t)
hand = np.array([abs(np.where(t >= start, size, 0).sum(axis=0)).max() for start in closing]) / 1e3

print("angle  peak kV  by hand kV")
for row in zip(angle[::4], peak[::4], hand[::4]):
    print("%5.1f  %7.1f  %10.1f" % row)
print(f"least {peak.min():.1f} kV, closed {angle[peak.argmin()]:.1f} degrees behind the crest")

if len(sys.argv) > 1:
    import matplotlib.pyplot as plt
    plt.plot(angle, peak, "o", angle, hand, "-"), plt.legend(["record", "by hand"]), plt.ylim(0)
    plt.xlabel("closing angle behind the crest, degrees"), plt.ylabel("peak at the far end, kV"), plt.savefig(
        sys.argv[1]
    )
