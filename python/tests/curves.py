"""A fault as formulas, and records of it written by hand: what the tests of comparing know the true answer of."""

import pathlib
import struct
import sys

import numpy as np

sys.path.insert(0, str(pathlib.Path(__file__).resolve().parents[1]))

from wurdanei.recorder import Input, Settings, write  # noqa: E402
from wurdanei.record import Record, read  # noqa: E402

OMEGA = 2 * np.pi * 50
FAULT = 0.1037  # s


def bus_voltage(times: np.ndarray) -> np.ndarray:
    """A 50 Hz wave in V that drops to 0.7 at the fault and rings at 640 Hz."""
    after = np.clip(times - FAULT, 0, None)
    ring = 4e4 * np.exp(-after / 0.008) * np.sin(2 * np.pi * 640 * after)
    return 3.266e5 * np.where(times < FAULT, 1, 0.7 + 0.3 * np.exp(-after / 0.001)) * np.cos(OMEGA * times - 1.2) + ring


def line_current(times: np.ndarray) -> np.ndarray:
    """A load current in A, and from the fault on a current that grows from 0 with an offset that decays."""
    after = np.clip(times - FAULT, 0, None)
    phase = OMEGA * FAULT - 2.6
    fault = 5400 * (np.cos(OMEGA * times - 2.6) - np.cos(phase) * np.exp(-after / 0.03))
    return 940 * np.cos(OMEGA * times - 1.6) + np.where(times < FAULT, 0, fault)


def sound_voltage(times: np.ndarray) -> np.ndarray:
    """The voltage of a phase without a fault, in V."""
    after = np.clip(times - FAULT, 0, None)
    return 3.2e5 * np.cos(OMEGA * times + 0.9) + 2.5e4 * np.exp(-after / 0.006) * np.sin(2 * np.pi * 900 * after)


CHANNELS = {"V BUS": ("V", bus_voltage), "I BUS-LINE": ("A", line_current), "V SOUND": ("V", sound_voltage)}


def write_float(stem: str, step: float, channels: dict[str, tuple[str, np.ndarray]]) -> None:
    """A record of 2013 in the form FLOAT32, field by field: a sample each `step` seconds (whole us)."""
    columns = [values for _, values in channels.values()]
    count = len(columns[0])
    lines = ["TEST,HAND,2013", f"{len(channels)},{len(channels)}A,0D"]
    for number, (name, (unit, _)) in enumerate(channels.items(), 1):
        lines.append(f"{number},{name},,,{unit},1,0,0,-3.4e38,3.4e38,1,1,P")
    day = "01/01/2000,00:00:00.000000"
    lines += ["50", "0", f"0,{count}", day, day, "FLOAT32", "1", "0,0", "0,0"]
    pathlib.Path(stem + ".cfg").write_bytes("".join(line + "\r\n" for line in lines).encode())
    rows = [
        struct.pack(f"<II{len(row)}f", place + 1, round(place * step * 1e6), *row)
        for place, row in enumerate(zip(*columns))
    ]
    pathlib.Path(stem + ".dat").write_bytes(b"".join(rows))


def fault_record(stem: str, step: float, end: float = 0.25) -> Record:
    """The formulas, sampled each `step` seconds."""
    times = np.arange(round(end / step) + 1) * step
    write_float(stem, step, {name: (unit, curve(times)) for name, (unit, curve) in CHANNELS.items()})
    return read(stem + ".cfg")


INPUTS = [
    Input("V BUS", "U_L1", "kV", 1e6, 4e5, 100, 1.0, 0.0, "A"),
    Input("I BUS-LINE", "I_L1", "A", 1.1e5, 2000, 1, -1.0, 5e-6, "A"),
    Input("V SOUND", "U_L2", "kV", 1e6, 4e5, 100, 1.0, 10e-6, "B"),
]


def measured_record(stem: str, fine: Record, **settings: float) -> Record:
    """What the recorder sees of the formulas."""
    write(fine, INPUTS, Settings(**settings), stem + ".cfg")
    return read(stem + ".cfg")
