"""The record as text: multipliers of channels, configuration, data, the note of a run, and all digits of its samples."""
from .fix import near, print_fixed
from .machine import Machine
from .network import End


def scale(values: list[int]) -> int:
    """The least of 1, 2 and 5 times a power of ten that holds the values."""
    greatest = max((abs(v) for v in values), default=0)
    power = 1
    while True:
        for digit in (1, 2, 5):
            if 32767 * digit * power >= greatest:
                return digit * power
        power *= 10


def scales(machine: Machine) -> list[int]:
    """The multiplier of each analog channel."""
    analog = len(machine.case.analog())
    return [scale([sample[c] for sample in machine.samples]) for c in range(analog)]


def cfg(machine: Machine) -> bytes:
    """The configuration."""
    case = machine.case
    analog, status = case.analog(), case.status()
    lines = [b"EMTP,CASE,1999", b"%d,%dA,%dD" % (len(analog) + len(status), len(analog), len(status))]
    for n, (channel, multiplier) in enumerate(zip(analog, scales(machine)), 1):
        lines.append(
            b"%d,%s,,,%s,%s,0,0,-32767,32767,1,1,P"
            % (n, case.channel_name(channel), case.channel_unit(channel), print_fixed(multiplier, 9).encode())
        )
    for n, channel in enumerate(status, 1):
        lines.append(b"%d,%s,,,0" % (n, case.channel_name(channel)))
    lines += [b"60", b"0", b"0,%d" % len(machine.samples)]
    lines += [b"01/01/2000,00:00:00.000000"] * 2
    lines += [b"ASCII", print_fixed(case.run.every * case.run.dt, 6).encode()]
    return b"".join(line + b"\r\n" for line in lines)


def dat(machine: Machine) -> bytes:
    """The data."""
    multipliers = scales(machine)
    analog = len(multipliers)
    out = []
    for n, sample in enumerate(machine.samples, 1):
        numbers = [n, n - 1]
        numbers += [near(v, m) for v, m in zip(sample, multipliers)]
        numbers += sample[analog:]
        out.append(",".join(map(str, numbers)) + "\r\n")
    return "".join(out).encode() + b"\x1a"


def end_parts(end: End) -> bytes:
    """The cause and the name, and of a residual the measured magnitude behind the name."""
    text = end.cause.encode() + b" " + end.name
    if end.cause == "RESIDUAL":
        text += b" %d" % end.measured
    return text


def note(machine: Machine) -> bytes:
    """What a run prints."""
    samples = len(machine.samples)
    if machine.end is None:
        return b"DONE STEPS %d SAMPLES %d REDONE %d\n" % (machine.done, samples, machine.redone)
    step, end = machine.end
    return b"ENDED STEP %d " % step + end_parts(end) + b" SAMPLES %d REDONE %d\n" % (samples, machine.redone)


def sample_lines(machine: Machine) -> bytes:
    """A line a sample, with the whole numbers of its channels."""
    return "".join(" ".join(map(str, sample)) + "\n" for sample in machine.samples).encode()
