"""A recorder for tests: it writes records sample by sample by `struct`, and shares nothing with the package's own
writer.

What it writes follows IEEE C37.111; the waves are given as functions of the time, so that a test knows each value by
a formula.
"""

import math
import os
import struct
from dataclasses import dataclass, field
from datetime import datetime, timedelta

STEPS = {"ASCII": 32767, "BINARY": 32767, "BINARY32": 2147483647, "FLOAT32": None}
CODES = {"BINARY": "h", "BINARY32": "i", "FLOAT32": "f"}
GONE = {"BINARY": -32768, "BINARY32": -2147483648, "FLOAT32": math.nan}


@dataclass
class Wave:
    """An analog channel: a function of the time in s, and its greatest magnitude."""

    name: str
    unit: str
    at: object
    peak: float
    phase: str = ""
    circuit: str = ""
    skew: float = 0.0  # us: it is sampled so much later
    ratio: tuple = (1.0, 1.0)
    scaling: str = "P"

    def multiplier(self, form):
        """The step of raw values, in what is recorded."""
        shown = self.peak * (self.ratio[1] / self.ratio[0] if self.scaling == "S" else 1.0)
        return 1.0 if form == "FLOAT32" else float(f"{1.02 * shown / STEPS[form]:.8g}")

    def raw(self, form, time):
        """The raw value at a time."""
        value = self.at(time + self.skew * 1e-6)
        if self.scaling == "S":
            value = value * self.ratio[1] / self.ratio[0]
        return value if form == "FLOAT32" else round(value / self.multiplier(form))


@dataclass
class Recorder:
    """How a record is written; `times` in s, `rates` as (Hz, last sample) or nothing for time stamps alone."""

    times: list
    waves: list
    bars: list = field(default_factory=list)  # (name, function of the time)
    year: int = 1999
    form: str = "ASCII"
    rates: list = field(default_factory=list)
    unit: float = 1.0  # multiplier of the time stamps
    decimals: int = 6  # of the seconds
    trigger: float = 0.0
    begin: datetime = datetime(2026, 11, 28, 13, 7, 20)
    frequency: str = "50"
    missing: set = field(default_factory=set)  # (sample, channel), from 0
    gone: str = "99999"  # what an ASCII file says of a missing value
    blank_stamps: bool = False
    first: int = 1  # number of the first sample
    start: int = 0  # first time stamp
    end: str = "\r\n"
    mark: bool = True
    form_word: str = ""

    def cfg(self):
        """The bytes of the configuration."""
        lines = ["BAY 3,RECORDER" + (f",{self.year}" if self.year > 1991 else "")]
        lines.append(f"{len(self.waves) + len(self.bars)},{len(self.waves)}A,{len(self.bars)}D")
        for number, wave in enumerate(self.waves, 1):
            low, high = ("-3.4E38", "3.4E38") if self.form == "FLOAT32" else (-STEPS[self.form], STEPS[self.form])
            line = f"{number},{wave.name},{wave.phase},{wave.circuit},{wave.unit},{wave.multiplier(self.form)!r},0,"
            line += f"{wave.skew},{low},{high}"
            lines.append(line if self.year == 1991 else f"{line},{wave.ratio[0]},{wave.ratio[1]},{wave.scaling}")
        for number, (name, _) in enumerate(self.bars, 1):
            lines.append(f"{number},{name},0" if self.year == 1991 else f"{number},{name},,,0")
        lines += [self.frequency, str(len(self.rates))]
        lines += [f"{rate},{last}" for rate, last in self.rates] or [f"0,{len(self.times)}"]
        lines += [self.instant(0.0), self.instant(self.trigger), self.form_word or self.form]
        if self.year > 1991:
            lines.append(f"{self.unit:g}")
        if self.year > 1999:
            lines += ["0,0", "B,0"]
        return "".join(line + self.end for line in lines).encode("utf-8")

    def instant(self, after):
        """Date and time of an instant so many s after the first sample."""
        nanoseconds = round(after * 1e9)
        whole = self.begin + timedelta(seconds=nanoseconds // 10**9)
        part = f"{nanoseconds % 10**9:09d}"[: self.decimals]
        day = whole.strftime("%m/%d/%y" if self.year == 1991 else "%d/%m/%Y")
        return f"{day},{whole:%H:%M:%S}.{part}"

    def stamp(self, time):
        """The time stamp of a time."""
        base = 1e9 if self.decimals > 6 else 1e6
        return self.start + round(time * base / (self.unit if self.year > 1991 else 1.0))

    def dat(self):
        """The bytes of the data."""
        if self.form == "ASCII":
            text = "".join(self.line(place, time) + self.end for place, time in enumerate(self.times))
            return text.encode() + (b"\x1a" if self.mark else b"")
        return b"".join(self.sample(place, time) for place, time in enumerate(self.times))

    def line(self, place, time):
        """A sample in the form ASCII."""
        fields = [str(place + self.first), "" if self.blank_stamps else str(self.stamp(time))]
        for channel, wave in enumerate(self.waves):
            fields.append(self.gone if (place, channel) in self.missing else str(wave.raw("ASCII", time)))
        return ",".join(fields + [str(int(at(time))) for _, at in self.bars])

    def sample(self, place, time):
        """A sample in a binary form."""
        stamp = 0xFFFFFFFF if self.blank_stamps else self.stamp(time) % 2**32
        made = struct.pack("<II", (place + self.first) % 2**32, stamp)
        for channel, wave in enumerate(self.waves):
            raw = GONE[self.form] if (place, channel) in self.missing else wave.raw(self.form, time)
            made += struct.pack("<" + CODES[self.form], raw)
        for first in range(0, len(self.bars), 16):
            word = sum(int(at(time)) << bit for bit, (_, at) in enumerate(self.bars[first : first + 16]))
            made += struct.pack("<H", word)
        return made

    def cff(self, counted=True, end="\r\n"):
        """The bytes of one file with all."""
        data = self.dat()
        count = f": {len(data)}" if counted and self.form != "ASCII" else ""
        parts = [f"--- file type: CFG ---{end}".encode(), self.cfg(), f"--- file type: INF ---{end}{end}".encode()]
        parts += [
            f"--- file type: HDR ---{end}{end}".encode(),
            f"--- file type: DAT {self.form}{count} ---{end}".encode(),
        ]
        return b"".join(parts) + data

    def write(self, folder, name="r", cff=False):
        """Writes the record, and answers the name to read."""
        path = os.path.join(folder, name)
        pieces = {".cff": self.cff()} if cff else {".cfg": self.cfg(), ".dat": self.dat()}
        for ending, made in pieces.items():
            with open(path + ending, "wb") as file:
                file.write(made)
        return path + (".cff" if cff else ".cfg")


def grid(rate, count):
    """Times of a steady rate, in s."""
    return [place / rate for place in range(count)]


def voltage(time):
    """A phase voltage of 50 Hz in V with a swing of 700 Hz from 40 ms on."""
    swing = math.exp(-(time - 0.04) / 0.01) * math.sin(2 * math.pi * 700 * time) if time > 0.04 else 0.0
    return 89e3 * math.cos(2 * math.pi * 50 * time) + 20e3 * swing


def current(time):
    """A fault's current in A from 40 ms on."""
    return 400 * math.cos(2 * math.pi * 50 * time - 0.5) + (
        4000 * math.sin(2 * math.pi * 50 * time) if time > 0.04 else 0.0
    )


def bay(**changed):
    """What the tests record: a voltage, a current and two states at 4.8 kHz for 100 ms."""
    waves = [Wave("VA", "V", voltage, 110e3, "A", "LINE 1"), Wave("IA", "A", current, 4500.0, "A", "LINE 1")]
    bars = [("TRIP", lambda time: time > 0.06), ("52A", lambda time: time < 0.08)]
    times = grid(4800.0, 480)
    made = {"times": times, "waves": waves, "bars": bars, "rates": [(4800, 480)], **changed}
    return Recorder(**made)
