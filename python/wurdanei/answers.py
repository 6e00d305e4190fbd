"""What the program answers, as arrays: steady states, scans, batches; and its refusals and early ends in words."""

import re
import typing
from dataclasses import dataclass, field

import numpy as np

from .draft import Call, CaseError
from .parts import StudyError
from .peaks import sets_of
from .record import Record

BAD_CARD = re.compile(r"^BAD CARD LINE (\d+) COLUMN (\d+) REASON (\d+) (\w+)$", re.MULTILINE)
REFUSED = re.compile(r"^REFUSED LINE (\d+) REASON (\d+) (\w+)$", re.MULTILINE)
ENDED = re.compile(r"^ENDED STEP (\d+) (\w+) (.*?) ?SAMPLES (\d+) REDONE (\d+)$", re.MULTILINE)
UNSOLVED = re.compile(r"^PHASOR ENDED (\w+) (.+)$", re.MULTILINE)
REASONS = {
    "ByteOutside": "a byte outside of 0x20 to 0x7E",
    "PastColumn80": "a byte past column 80",
    "NotANumber": "this field is no number",
    "NotWhole": "this field is no whole number",
    "OutOfUnitRange": "out of the field's range, or blank where it must not be",
    "TooManyLines": "more than 100,000 lines or 9,000,000 bytes",
    "BadType": "no type, mark or word that is known here",
    "BadName": "no name that is allowed here",
    "BadImpedance": "the impedance is out of range",
    "ShortLine": "the travel time is below the time step",
    "BadPoints": "a point out of order, out of range or out of place",
    "BadOrder": "this card can't stand here",
    "UnknownName": "nothing has this name",
    "TwoSources": "a second voltage source of this node, or a second card of this variable",
    "TooMany": "a limit by count is exceeded",
    "MissingSection": "the case ends before its last section does",
    "BadExpression": "no expression goes on so",
    "TooManySamples": "the record would have more than 4,000,000 values",
    "Size": "the case has more than 500 nodes",
    "NoSource": "the case has no cosine source with a frequency above 0; a smooth cosine is one of the control: take `cosine`",
    "Probe": "a scan wants one source alone: a cosine current source with phase 0 and an amplitude above 0",
    "Control": "a steady state has no control",
    "Switch": "a steady state has no valves and no controlled switches",
    "Nonlinear": "a steady state has no arresters and no nonlinear reactors",
    "Loss": "a steady state has no single lines with resistance",
    "Phases": "a steady state has no three-phase lines",
    "Impedance": "the impedance of this branch at the frequency is out of range",
    "Source": "all sources have to be cosines of one frequency",
}
OF_THE_CASE = ("Size", "NoSource", "Probe")  # refused as a whole; the line is 1
CAUSES = {
    "TIED": "closed switches join two nodes with voltage sources, or one with ground",
    "ZEROPIVOT": "nothing ties the node, or its part of the network, to ground or to a source",
    "RANGE": "a number left its range: 1e9 V, 1e9 A, 1e5 S, 1e6 Wb of a reactor, or 2 L i / dt of a series branch 1e9 V",
    "RESIDUAL": "the currents there don't cancel within the tolerance",
    "TACSPIVOT": "the blocks around it form a loop whose gains multiply to 1",
    "TACSRANGE": "the variable left its range: above 1e9, divided by 0, or the root of a number below 0",
}


class Refused(CaseError):
    """A card that the program refuses: its line, column and reason, its text, and the call that wrote it."""

    def __init__(self, line: int, column: int, reason: str, card: str, call: Call | None) -> None:
        self.line, self.column, self.reason, self.card = line, column, reason, card
        why = f"{REASONS.get(reason, reason)} ({reason})"
        where = f"line {line}" + (f", column {column}" if column else "")
        whole = reason in OF_THE_CASE
        super().__init__(
            f"the program refuses the case: {why}" if whole else f"the program refuses {where}: {why}: {card}", call
        )


class UnknownName(CaseError, KeyError):
    """A name that an answer doesn't have."""

    __str__ = CaseError.__str__


def _place(name: str, names: list[str], what: str) -> int:
    """The place of a name in an answer."""
    if name not in names:
        raise UnknownName(f"no {what} {name!r} is in the answer; there is {', '.join(names[:40]) or 'none'}")
    return names.index(name)


@dataclass(frozen=True)
class End:
    """The early end of a run: its step and time in s, its cause, and the node or variable that is named."""

    step: int
    time: float
    cause: str
    name: str

    def __str__(self) -> str:
        why = CAUSES.get(self.cause, self.cause)
        return f"the run ended in step {self.step} ({self.time:g} s), {self.cause} at {self.name}: {why}"


class EndedEarly(CaseError):
    """A run that ended early, where it was asked to be an error: `end` says where and why, `record` has the samples
    before it."""

    def __init__(self, words: str, end: End, record: Record) -> None:
        self.end, self.record = end, record
        super().__init__(words)


@dataclass(frozen=True)
class Steady:
    """A steady state: its frequency, the greatest residual of Kirchhoff's current law, and the voltages of the nodes.

    `volts` has shape (nodes,), complex: the real part goes by the cosine, the imaginary part by the sine, of crest
    values.
    """

    hz: float
    residual_a: float
    nodes: list[str]
    volts: np.ndarray = field(repr=False)

    def __getitem__(self, node: str) -> complex:
        return complex(self.volts[_place(node, self.nodes, "node")])


@dataclass(frozen=True)
class Scan:
    """Impedances over frequencies: `hz` and `ohm` of shape (frequencies,), the latter complex, nan where there is no
    answer.

    `resonances` are the frequencies in Hz at which the magnitude is greater than at both neighbours; `told` has why
    an answer isn't there.
    """

    hz: np.ndarray = field(repr=False)
    ohm: np.ndarray = field(repr=False)
    resonances: list[float]
    told: list[str]


@dataclass(frozen=True)
class Batch:
    """The peaks of many runs: shape (rows, channels), the greatest magnitude of each analog channel in its unit.

    `ends` has for each row nothing, or the words of its early end; the peaks are then those of the samples before it.
    Where an arrester has a filtered channel, the peaks of its voltage are those of samples on its characteristic;
    `recorded`, of the same shape, has the peaks of all samples.
    """

    names: list[str]
    peaks: np.ndarray = field(repr=False)
    ends: list[str | None] = field(repr=False)
    recorded: np.ndarray | None = field(default=None, repr=False)

    def channel(self, name: str) -> np.ndarray:
        """The peaks of a channel: shape (rows,)."""
        return self.peaks[:, _place(name, self.names, "channel")]

    def any(self, names: str) -> np.ndarray:
        """The greatest peak of a set of channels in each row, as IEC 60071-2 counts the case peak of three phases: shape
        (rows,).

        The set is names parted by commas, as "V RA,V RB,V RC", or a kind, as "V"; they have one unit.
        """
        units = [name.split(" ")[0].replace("U", "V") for name in self.names]
        try:
            ((_, places),) = sets_of([names], self.names, units)
        except StudyError as fault:
            raise UnknownName(str(fault).removeprefix("--any ")) from None
        return self.peaks[:, places].max(1)


def end_of(note: str, dt: float) -> End | None:
    """The early end that a note tells, where it tells one."""
    match = ENDED.search(note)
    return End(int(match[1]), int(match[1]) * dt, match[2], match[3]) if match else None


def steady_of(note: str) -> Steady:
    """The steady state that was printed."""
    head = re.search(r"^PHASOR F (\S+) RESIDUAL (\S+)$", note, re.MULTILINE)
    lines = re.findall(r"^NODE (.*) RE (\S+) IM (\S+)$", note, re.MULTILINE)
    if head is None:
        raise CaseError(f"the program's answer isn't a steady state: {note.strip()[:200]}")
    volts = np.array([complex(float(real), float(imaginary)) for _, real, imaginary in lines])
    return Steady(float(head[1]), float(head[2]) * 1e-9, [name for name, _, _ in lines], volts)


def scan_of(note: str, tells: typing.Callable[[int], str]) -> Scan:
    """The scan that was printed; `tells` names the card of a line."""
    hz, ohm, told, resonances = [], [], [], []
    for line in note.splitlines():
        words = line.split()
        if words[:1] == ["RESONANCE"]:
            resonances.append(float(words[1]))
        elif words[:1] == ["F"]:
            hz.append(float(words[1]))
            answer = words[2] == "RE"
            ohm.append(complex(float(words[3]), float(words[5])) if answer else complex(np.nan, np.nan))
            if not answer:
                why = f"no answer for {tells(int(words[4]))}" if words[2] == "REFUSED" else " ".join(words[2:])
                told.append(f"{words[1]} Hz: {why}")
    return Scan(np.array(hz), np.array(ohm), resonances, told)


def batch_of(notes: list[str], names: list[str]) -> Batch:
    """The summaries of the parts of a batch, one after another."""
    peaks, ends = [], []
    for note in notes:
        for match in re.finditer(r"^ROW \d+ (DONE|ENDED .*?) PEAKS ?(.*)$", note, re.MULTILINE):
            peaks.append([float(word) for word in match[2].split()])
            ends.append(None if match[1] == "DONE" else match[1])
    return Batch(names, np.array(peaks).reshape(len(ends), len(names)), ends)
