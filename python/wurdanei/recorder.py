"""A recorder, as a model: what a fault recorder would have written of what a case computed.

It has an input filter, a sampling rate, a skew a channel, noise, missing values, 16 bit and instrument transformers, and
begins when it is told. Everything random comes from a seed, so equal words give equal bytes. It makes 'measured' records
for tests and worked studies, where the true answer is known.
"""

from dataclasses import dataclass

import numpy as np

from .configuration import RecordError
from .drawing import base_unit
from .lowpass import lowpass
from .record import Record
from .write import Channel, Content
from .write import write as write_record

GREATEST = 32767  # raw value of full scale


class RecorderError(RecordError):
    """Why the recorder can't be set up so, in words."""


@dataclass(frozen=True)
class Input:
    """What a channel of the recorder takes: a channel of the record it looks at, and how."""

    source: str
    name: str
    unit: str  # V, kV, A, kA
    full: float  # the greatest primary value, in V or A
    primary: float = 1.0  # of the instrument transformer, in any unit that it has in common with `secondary`
    secondary: float = 1.0
    factor: float = 1.0  # -1: the transformer stands the other way round
    skew: float = 0.0  # s; how much later than the sample's time it is taken
    phase: str = ""


@dataclass(frozen=True)
class Settings:
    """What all channels have in common."""

    rate: float = 4800.0  # samples a second
    corner: float = (
        1500.0  # Hz, of the input filter; it has to be below a fifth of the samples a second of what is looked at
    )
    noise: float = 0.002  # standard deviation, of the greatest magnitude of the channel
    missing: float = 0.0  # share of values
    begin: float = 0.0  # s of the case
    end: float | None = None  # s of the case; without one the end of the record
    seed: int = 1
    frequency: float = 50.0  # Hz
    station: str = "STATION"
    device: str = "RECORDER"


def write(record: Record, inputs: list[Input], settings: Settings, path: str) -> None:
    """Writes what the recorder sees of a record as `path`, a cfg, with its dat: COMTRADE of 1999, BINARY, secondary values."""
    times, seen = sampled(record, inputs, settings)
    channels = []
    for it, values in zip(inputs, seen):
        unit, _ = base_unit(it.unit)
        channels.append(
            Channel(
                it.name,
                it.unit,
                values / unit,
                it.phase,
                skew=it.skew,
                primary=it.primary,
                secondary=it.secondary,
                scaling="S",
                multiplier=it.full / GREATEST / unit,
            )
        )
    content = Content(
        times - times[0],
        channels,
        station=settings.station,
        device=settings.device,
        frequency=settings.frequency,
        rates=[(settings.rate, len(times))],
    )
    write_record(path, content)


def sampled(record: Record, inputs: list[Input], settings: Settings) -> tuple[np.ndarray, list[np.ndarray]]:
    """The sampling times in s of the record that is looked at, shape (samples,), and what the converter makes of each input:
    primary values in V or A, whole multiples of its step, nan where missing."""
    end = float(record.times[-1]) if settings.end is None else settings.end
    if not record.times[0] <= settings.begin < end <= record.times[-1]:
        raise RecorderError(f"from {settings.begin:g} to {end:g} s isn't within the record that the recorder looks at")
    span = end - max(it.skew for it in inputs) - settings.begin
    count = int(span * settings.rate * (1 + 1e-12)) + 1 if span >= 0 and settings.rate > 0 else 0
    if not count:
        raise RecorderError(
            f"there is no sample from {settings.begin:g} to {end:g} s at {settings.rate:g} samples a second"
        )
    times = settings.begin + np.arange(count) / settings.rate
    step = float(np.median(np.diff(record.times)))
    chance = np.random.default_rng(settings.seed)
    seen = []
    for it in inputs:
        primary = record.channel(it.source) * base_unit(record.units[record.names.index(it.source)])[0] * it.factor
        try:
            values = np.interp(times + it.skew, record.times, lowpass(primary, step, settings.corner))
        except ValueError as fault:
            raise RecorderError(str(fault)) from None
        values = values + chance.normal(0, settings.noise * float(np.max(abs(values))), count)
        values = np.clip(np.round(values / it.full * GREATEST), -GREATEST, GREATEST) * it.full / GREATEST
        values[chance.random(count) < settings.missing] = np.nan
        seen.append(values)
    return times, seen
