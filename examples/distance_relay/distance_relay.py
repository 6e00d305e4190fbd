"""Does zone 1 of a distance relay see a fault to ground at 50 % of a line, and not one at 85 %? With a name of a file a
picture."""

import math
import sys

from wurdanei import picture, relay
from wurdanei.case import Case

KM, FAULT, W = 100.0, 0.1422, 100 * math.pi
ZERO, POSITIVE = dict(r_ohm=0.25, l_mh=3.6, c_uf=0.0055), dict(r_ohm=0.06, l_mh=1.3, c_uf=0.0089)
Z1, Z0 = (KM * complex(it["r_ohm"], W * it["l_mh"] * 1e-3) for it in (POSITIVE, ZERO))
PHASES = dict(zip("ABC", (-90.0, 150.0, 30.0)))


def run(part):
    """A line of 220 kV between 10,000 and 4,000 MVA, phase A to ground through .01 ohm; the relay stands at S."""
    case = Case(25e-6, 0.245)
    for name, ohm, turn in (("S", complex(0.402, 4.823), 0.0), ("R", complex(1.204, 12.04), -20.0)):
        for phase, degrees in PHASES.items():
            case.series(f"{name}{phase}", f"N{name}", r_ohm=ohm.real, l_mh=1e3 * ohm.imag / W)
            shift = degrees + turn - math.degrees(math.atan2(ohm.imag, ohm.real))
            case.smooth_cosine(f"{name}{phase}", amplitude_a=179.63e3 / abs(ohm), hz=50, phase_deg=shift)
        case.series(f"N{name}", r_ohm=ohm.real / 4, l_mh=1e3 * ohm.imag / W / 4)  # X0/X1 is 1.75
    for phase in PHASES:
        case.measuring(f"S{phase}", f"L{phase}")
    for one, other, length in (("L", "F", part * KM), ("F", "R", (1 - part) * KM)):
        ends = ([f"{end}{phase}" for phase in PHASES] for end in (one, other))
        case.line3(*ends, length=length, zero=ZERO, positive=POSITIVE)
    case.switch("FA", "Y", close_s=FAULT)
    case.series("Y", r_ohm=0.01)
    case.output("SA", "SB", "SC")
    return case.run()


zone = relay.Mho(0.8 * Z1, name="zone 1, mho 0.8")
names = ["V SA", "V SB", "V SC"], ["I SA-LA", "I SB-LB", "I SC-LC"]
for part in (0.5, 0.85):
    record = run(part)
    for offset, words in ((False, "offset kept"), (True, "taken out")):
        its = relay.loops(record, *names, z1_ohm=Z1, z0_ohm=Z0, hz=50, rate=4000, offset=offset)
        z, hand = its.at(FAULT + 0.1)["AG"], part * Z1
        print(
            f"{100 * part:.0f} %, {words}: {z.real:.1f} + j {z.imag:.1f} ohm, by hand {hand.real:.1f} + j {hand.imag:.1f}"
        )
        for it in relay.pickup(its, zone):
            print(f"  {it.loop} {relay.stay(it, FAULT)}")

if len(sys.argv) > 1:
    picture.draw(relay.drawing_of(its, [zone], {}, Z1, FAULT, "a fault to ground at 85 %"), sys.argv[1])
