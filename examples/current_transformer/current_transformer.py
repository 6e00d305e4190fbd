"""When does a current transformer saturate under a current with its whole offset? With a name of a file a picture."""

import math
import sys

import numpy as np
from wurdanei import ct, picture
from wurdanei.case import Case
from wurdanei.drawing import Curve, Drawing, Pane

W, RATIO, OHM = 100 * math.pi, 1200.0, 8.0
POINTS = [(0.005, 0.35), (0.02, 0.45), (0.1, 0.52), (1.0, 0.58), (20.0, 0.75)]

# 100 kV crest behind .32 ohm and 20 mH, from the zero of the voltage: the offset decays in 62.5 ms
case = Case(dt=2.5e-5, end=0.1)
case.cosine("E", amplitude_v=100e3, hz=50, phase_deg=-90)
case.series("E", "SA", r_ohm=0.32, l_mh=20)
case.ct("SA", "LA", "CTA", ratio=RATIO, rct_ohm=6, burden_ohm=2, points=POINTS)
case.series("LA", r_ohm=0.001)
record = case.run()
ideal, seen = record.channel("I SA-LA") / RATIO, record.channel("I CTA-0")

# by hand: the flux is 8 ohm times the integral of I (e^(-t/T) - cos w t) / 1200, and reaches .52 Wb (.1 A) at
current, tau = 100e3 / math.hypot(0.32, W * 0.02), 0.0625
t = np.arange(0, 0.02, 1e-6)
flux = OHM * current / RATIO * (tau * (1 - np.exp(-t / tau)) - np.sin(W * t) / W)
hand = float(t[np.argmax(flux > 0.52)])
times = record.times
lost = float(times[np.argmax((times > 2e-3) & (np.abs(ideal - seen) > 0.1 + np.abs(np.gradient(ideal))))])
print(f"the flux reaches .52 Wb at {1e3 * hand:.1f} ms by hand; the record has lost .1 A at {1e3 * lost:.1f} ms")
print(f"first crest {seen[times < 0.02].max():.0f} A, and {ideal[times < 0.02].max():.0f} A without saturation")

# the same on the record alone, a step earlier; and with a remanence of 70 %
alone = ct.secondary(times, record.channel("I SA-LA"), ratio=RATIO, rct_ohm=6, burden_ohm=2, points=POINTS)
apart = np.sqrt(np.mean((alone[:-1] - seen[1:]) ** 2) / np.mean(alone**2))
print(f"in the case and on the record: {100 * apart:.1f} % RMS apart")
kept = ct.secondary(
    times, record.channel("I SA-LA"), ratio=RATIO, rct_ohm=6, burden_ohm=2, points=POINTS, remanence=0.7
)
print(f"with a remanence of 70 % the first crest is {kept[times < 0.02].max():.0f} A")

if len(sys.argv) > 1:
    curves = [Curve("primary / 1200", 1e3 * times, ideal, "A"), Curve("secondary", 1e3 * times, seen, "A")]
    curves.append(Curve("with 70 % remanence", 1e3 * times, kept, "A", 1))
    picture.draw(Drawing("a current transformer", [Pane("A", curves)], x_label="ms"), sys.argv[1])
