"""What a case is made of while it is written: its cards, with the calls that wrote them, and what was told."""

import contextlib
import copy
import functools
import os
import reprlib
import sys
import typing
from dataclasses import dataclass, field

import numpy as np

from . import columns, fields
from .columns import Card
from .fields import FieldError, Fitted
from .inductance import Inductance
from .line_values import Rescaled

FEWEST_STEPS = 20  # of a period, below which a wave isn't seen as one
PACKAGE = os.path.dirname(os.path.abspath(__file__))
STANDING = ("TIMEX", "ISTEP", "DELTAT", "ZERO", "PLUS1", "MINUS1")  # variables of the control that every case has


@dataclass(frozen=True)
class Call:
    """A call of a method of a case: its name and first words, and where it stands."""

    name: str
    words: str
    file: str
    line: int

    def __str__(self) -> str:
        return f"{os.path.basename(self.file)} line {self.line}, {self.name}({self.words})"


class CaseError(ValueError):
    """Why a case can't be written so, in words of the model; `call` is the call that it is about, where it is about
    one."""

    def __init__(self, words: str, call: Call | None = None) -> None:
        super().__init__(words)
        self.words = words
        self.call = call

    def __str__(self) -> str:
        return f"{self.call}: {self.words}" if self.call else self.words


@dataclass(frozen=True)
class Written:
    """A card that was written: its kind, its text, and the call that wrote it."""

    kind: Card
    text: str
    call: Call | None


@dataclass
class Branch:
    """A branch, with its cards: those of its points, or of its phase of a line, among them.

    `instead` stands for it wherever it is run, and its own cards where plain ones are wanted; `beside` does where there
    is room for all of it. `asked_as` are the ends by which its channels are named, where these aren't its own, and
    `factor` what its current is multiplied by for them.
    """

    kind: str  # series, line, second, third, resistor, reactor
    ends: tuple[str, str]
    asked: int
    cards: list[Written]
    steps: int = 0  # of a line: whole time steps of its travel time
    given: dict[str, typing.Any] = field(default_factory=dict)  # what a copy that is written anew is given
    l_mh: float = 0.0
    whole: list[Written] = field(default_factory=list)  # of a copy: the cards with values of its own
    barred: str = ""  # why its own cards can't be written, in words
    instead: "Contents | None" = field(default=None, repr=False)
    beside: "Contents | None" = field(default=None, repr=False)
    asked_as: tuple[str, str] | None = None
    factor: float = 1.0
    filtered: str = ""  # of an arrester: the channel that has its voltage while that lies on the characteristic

    @property
    def name(self) -> str:
        return joined(self.ends)

    @property
    def history(self) -> int:
        """How many values of the past are kept of both ends: of the zero sequence or a single line, and of the
        positive one."""
        return {"line": 2, "second": 6}.get(self.kind, 0) * (self.steps + 1)


@dataclass
class Switch:
    """A switch of a case. Of one that is tied to a leader, `later_s` is how much later it closes and opens."""

    kind: str  # time, measuring, valve, controlled
    ends: tuple[str, str]
    asked: int
    card: Written
    control: str = ""
    close_s: float = 0.0
    open_s: float | None = None
    leader: "Switch | None" = field(default=None, repr=False)
    later_s: tuple[float, float] = (0.0, 0.0)
    made: bool = False  # by another call than one of a switch: its state is no channel of the answers

    @property
    def name(self) -> str:
        return joined(self.ends)


@dataclass
class Source:
    """A source of the network, or of the control."""

    kind: int
    name: str
    current: bool
    card: Written


@dataclass
class Asked:
    """An output card: the names on it; none where all nodes are meant."""

    names: tuple[str, ...]
    card: Written
    asked_as: str = ""  # the channel's name, where it isn't that of the card
    factor: float = 1.0  # what it is multiplied by


@dataclass
class Variable:
    """A variable of the control: the cards that define it, and the variables that they name."""

    name: str
    cards: list[Written]
    reads: tuple[str, ...] = ()
    history: int = 0


@dataclass
class Contents:
    """All that was written, section by section."""

    branches: list[Branch] = field(default_factory=list)
    switches: list[Switch] = field(default_factory=list)
    sources: list[Source] = field(default_factory=list)
    outputs: list[Asked] = field(default_factory=list)
    blocks: list[Variable] = field(default_factory=list)
    control_sources: list[Source] = field(default_factory=list)
    extras: list[Variable] = field(default_factory=list)
    control_outputs: list[Asked] = field(default_factory=list)
    nodes: dict[str, None] = field(default_factory=dict)  # in the order of their first calls
    variables: dict[str, Call | None] = field(default_factory=dict)  # and the call that made each
    reserved: dict[str, Call | None] = field(default_factory=dict)  # names that a compound call has made, and that call
    ramps: dict[float, str] = field(default_factory=dict)  # the variables of smooth starts, by their time in s
    control: bool = False
    told: list[str] = field(default_factory=list)
    inductances: list[Inductance] = field(default_factory=list)
    lines: list[Rescaled] = field(default_factory=list)

    def copied(self) -> "Contents":
        """The same, with lists of its own."""
        return Contents(**{name: copy.copy(value) for name, value in vars(self).items()})

    def aside(self) -> "Contents":
        """Room for cards that don't stand in the case yet; names that are taken stay so."""
        return Contents(
            nodes=self.nodes,
            variables=self.variables,
            reserved=self.reserved,
            inductances=self.inductances,
            lines=self.lines,
            ramps=self.ramps,
            told=self.told,
        )


def joined(ends: tuple[str, str]) -> str:
    """The ends of a branch or switch, as the names of channels have them."""
    return "-".join(end or "0" for end in ends)


Method = typing.TypeVar("Method", bound=typing.Callable[..., typing.Any])


def writes(method: Method) -> Method:
    """A method that writes cards: it writes all of them or, where it raises, none; an error names the call."""

    @functools.wraps(method)
    def written(self: typing.Any, *words: typing.Any, **named: typing.Any) -> typing.Any:
        draft: Draft = self._draft
        if draft.call is not None:  # within a compound call
            return method(self, *words, **named)
        draft.call = called(method.__name__, words, named)
        before = draft.contents.copied()
        try:
            return method(self, *words, **named)
        except (FieldError, CaseError) as fault:
            draft.contents = before
            raise CaseError(getattr(fault, "words", str(fault)), draft.call) from None
        except BaseException:
            draft.contents = before
            raise
        finally:
            draft.call = None

    return typing.cast(Method, written)


def called(name: str, words: tuple[typing.Any, ...], named: dict[str, typing.Any]) -> Call:
    """The call that reached this package from outside."""
    frame = sys._getframe(2)
    while frame.f_back and os.path.dirname(os.path.abspath(frame.f_code.co_filename)) == PACKAGE:
        frame = frame.f_back
    texts = [reprlib.repr(word) for word in words] + [f"{key}={reprlib.repr(value)}" for key, value in named.items()]
    text = ", ".join(texts)
    return Call(name, text if len(text) <= 60 else text[:57] + "...", frame.f_code.co_filename, frame.f_lineno)


class Draft:
    """A case while it is written: its time step, what was written, and the call that writes."""

    def __init__(self) -> None:
        self.contents = Contents()
        self.call: Call | None = None
        self.dt_ps = 0
        self.steps = 0

    @property
    def dt(self) -> float:
        """The time step in s."""
        return self.dt_ps / 1e12

    @contextlib.contextmanager
    def aside(self) -> typing.Iterator[Contents]:
        """What is written within stands in the contents that are answered, and not in the case."""
        whole = self.contents
        self.contents = whole.aside()
        try:
            yield self.contents
        finally:
            self.contents = whole

    def tell(self, words: str) -> None:
        """Tells something, once."""
        if words not in self.contents.told:
            self.contents.told.append(words)

    # ---- fields and cards

    def number(self, kind: Card, name: str, value: typing.Any, what: str = "") -> Fitted:
        """The value of a field; what it loses is told."""
        place = kind.field(name)
        found = fields.roomy(value, place)
        if found.loss > fields.KEEPS:
            kept = fields.shown(found.kept, place.scale, place.unit)
            self.tell(f"{what}: {name} = {value} becomes {kept}, {found.loss:.1g} of it lost in {place.width} columns")
        return found

    def written(self, kind: Card, texts: dict[str, str]) -> Written:
        """The card of these fields."""
        return Written(kind, fields.card(kind, texts), self.call)

    def pairs(
        self, card: Card, names: tuple[str, str], points: typing.Sequence[tuple[float, float]], least: int, most: int
    ) -> list[tuple[tuple[int, int], Written]]:
        """The kept numbers of pairs, and their cards."""
        if isinstance(points, str) or not isinstance(points, (typing.Sequence, np.ndarray)):
            raise CaseError(f"points are pairs of {names[0]} and {names[1]}, and here {points!r}")
        if not least <= len(points) <= most:
            raise CaseError(f"there are {least} to {most} points, and here {len(points)}")
        found = []
        point: typing.Any
        for number, point in enumerate(points, 1):
            if not isinstance(point, (typing.Sequence, np.ndarray)) or len(point) != 2:
                raise CaseError(f"point {number} has two numbers, {names[0]} and {names[1]}")
            both = [self.number(card, name, value, f"point {number}") for name, value in zip(names, point)]
            if both[0].kept == 9999 * 10 ** card.field(names[0]).scale:
                raise CaseError(
                    f"point {number}: the {names[0]} 9999 ends the points of a card; take a number beside it"
                )
            found.append(((both[0].kept, both[1].kept), self.written(card, {n: it.text for n, it in zip(names, both)})))
        return found

    def ending(self) -> Written:
        """The card that ends points."""
        return Written(columns.POINT, columns.END_OF_POINTS, self.call)

    def times(self, start_s: float, stop_s: float | None, name: str) -> dict[str, str]:
        """TSTART and TSTOP of a source, of the network or of the control."""
        start = self.number(columns.SOURCE, "TSTART", start_s, name)
        if stop_s is None:
            return {"TSTART": start.text if start.kept else ""}
        stop = self.number(columns.SOURCE, "TSTOP", stop_s, name)
        if stop.kept <= 0:
            raise CaseError(f"stop_s, {stop_s} s, has to be after 0; without it the source never stops")
        if stop.kept <= start.kept:
            self.tell(f"{name}: the source never acts, since it stops at {stop_s} s and starts at {start_s} s")
        return {"TSTART": start.text if start.kept else "", "TSTOP": stop.text}

    def sampled(self, name: str, hz: float) -> None:
        """Tells of a wave that has too few time steps a period to be one."""
        if fields.exact(hz, "hz") * self.dt_ps * FEWEST_STEPS > 10**12:
            self.tell(
                f"{name}: a period of {hz:g} Hz has {1 / (hz * self.dt):.3g} time steps: fewer than {FEWEST_STEPS}"
            )

    def ask(self, asked: list[Asked], names: tuple[str, ...]) -> None:
        """Writes the output cards of these names."""
        if not names:
            raise CaseError("no name is given")
        for first in range(0, len(names), 13):
            row = names[first : first + 13]
            texts = {
                f"name {k}": fields.named(name, columns.OUTPUT.field(f"name {k}")) for k, name in enumerate(row, 1)
            }
            asked.append(Asked(tuple(row), self.written(columns.OUTPUT, texts)))

    # ---- limits and names

    def bounded(self, items: typing.Sized, most: int, what: str) -> None:
        """There is room for one more."""
        if len(items) >= most:
            raise CaseError(f"a case has at most {most:,} {what}")

    def unused(self, stem: str) -> str:
        """A name of a node or a variable that a compound call needs, and that no other one may have."""
        number = 1
        contents = self.contents
        taken = contents.reserved.keys() | contents.nodes.keys() | contents.variables.keys()
        while f"{stem}{number}" in taken:
            number += 1
        name = f"{stem}{number}"
        if len(name) > 6:
            raise CaseError(f"no name is left behind {stem}")
        contents.reserved[name] = self.call
        return name

    def free(self, name: str) -> str:
        """The name isn't one that another compound call has made."""
        maker = self.contents.reserved.get(name, self.call)
        if maker is not self.call:
            raise CaseError(f"{name} is a name that {maker} has made; take another one")
        return name
