"""The energy that an arrester takes, and the voltage behind it, over its distance; with a file's name their picture."""

import sys

import numpy as np
from wurdanei.case import Case

SURGE, FRONT, END, ZC = 800e3, 1.2e-6, 50e-6, 350.0  # V, s, s, ohm
LEVEL, SLOPE = 400e3, 10.0  # the arrester: 400 kV at 1 mA, and 10 ohm above


def studied(metre: float) -> tuple[float, float]:
    """The energy in kJ, and the greatest voltage at the transformer in kV."""
    case = Case(dt=1e-8, end=60e-6)
    case.series("SURGE", "ARR", r_ohm=ZC)  # a surge on a long line is twice its voltage behind the surge impedance
    case.line("ARR", "TRAFO", zc_ohm=ZC, tau_us=metre / 300)
    case.series("TRAFO", r_ohm=1e6)
    case.arrester("ARR", points=[(1e-3, LEVEL), (1e4, LEVEL + 1e4 * SLOPE)], ask="iu")
    case.ramp("SURGE", amplitude_v=2 * SURGE, rise_s=FRONT, stop_s=END)
    case.output("TRAFO")
    record = case.run()
    power = record.channel("U ARR-0") * record.channel("I ARR-0")
    return power.sum() * case.dt / 1e3, record.channel("V TRAFO").max() / 1e3


metre = np.array([15, 30, 60, 100, 150, 200, 300])
energy, volt = np.array([studied(it) for it in metre]).T
i = (2 * SURGE - LEVEL) / (ZC + SLOPE)  # by hand, of the surge until it ends; of its front half of what is above LEVEL
u = LEVEL + SLOPE * i
hand = np.full(len(metre), u * i * (END - FRONT / 2 * (1 + LEVEL / (2 * SURGE)))) / 1e3
volt_hand = np.minimum(u + 2 * SURGE / FRONT * metre / 300e6, 2 * u) / 1e3
print("distance m  energy kJ  by hand kJ  transformer kV  by hand kV")
for row in zip(metre, energy, hand, volt, volt_hand):
    print("%10.0f  %9.2f  %10.2f  %14.0f  %10.0f" % row)

if len(sys.argv) > 1:
    import matplotlib.pyplot as plt
    plt.plot(metre, energy, "o", metre, hand, "-", metre, volt, "s", metre, volt_hand, "--"), plt.ylim(0)
    plt.legend(["energy, kJ", "by hand", "transformer, kV", "by hand"]), plt.xlabel("m"), plt.savefig(sys.argv[1])
