"""The cards of the trial: a ladder of N sections with a switch and a load, and its summary."""
from .machine import Machine
from .record import note


def card(*fields: tuple[int, int, str, str]) -> str:
    """A card: (first, last, text, side) with names left and numbers right in their columns."""
    columns = [" "] * 80
    for first, last, text, side in fields:
        width = last - first + 1
        put = text.ljust(width) if side == "l" else text.rjust(width)
        assert len(put) == width, text
        columns[first - 1 : last] = put
    return "".join(columns).rstrip(" ")


def trial_deck(number: int) -> bytes:
    """The cards of a trial of so many sections."""

    def name(j):
        return "N%04d" % j

    lines = [
        "BEGIN NEW DATA CASE",
        card((1, 8, "1.E-5", "r"), (9, 16, ".02", "r")),
        card((1, 8, "1", "r"), (9, 16, "20", "r")),
    ]
    for j in range(1, number + 1):
        lines.append(card((3, 8, name(j - 1), "l"), (9, 14, name(j), "l"), (27, 32, ".5", "r"), (33, 38, "1.0", "r")))
        lines.append(card((3, 8, name(j), "l"), (39, 44, ".01", "r")))
    lines += [
        card((3, 8, "LOAD", "l"), (27, 32, "100.", "r")),
        "BLANK",
        card(
            (3, 8, name(number), "l"),
            (9, 14, "LOAD", "l"),
            (15, 24, ".002", "r"),
            (25, 34, ".006", "r"),
            (80, 80, "1", "r"),
        ),
        "BLANK",
        card((1, 2, "14", "r"), (3, 8, name(0), "l"), (11, 20, "1.E5", "r"), (21, 30, "60.", "r")),
        "BLANK",
        card((3, 8, name(number), "l")),
        "BLANK",
    ]
    return "".join(line + "\n" for line in lines).encode()


def summary(number: int, machine: Machine) -> bytes:
    """What a trial prints."""
    if machine.end is not None:
        return b"TRIAL %d " % number + note(machine)
    peak = max(abs(sample[0]) for sample in machine.samples)
    total = sum(sum(sample) for sample in machine.samples)
    return b"TRIAL %d STEPS %d SAMPLES %d REDONE %d PEAK %d SUM %d\n" % (
        number,
        machine.done,
        len(machine.samples),
        machine.redone,
        peak,
        total,
    )
