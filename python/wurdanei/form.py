"""The cards that stand for a case where it is run, and those of its plain form; and its channels as they were asked for.

In the plain form each branch has its own card, as a steady state and a scan take them. Where the case is run, what
stands in a branch's place does, and what stands beside it where there is room for it.
"""

import dataclasses
from dataclasses import dataclass, field

from .draft import Branch, CaseError, Contents, Switch, joined

MOST_CHANNELS, MOST_VALUES = 64, 4_000_000
MOST = {  # of the cards of a kind
    "nodes": (1000, "nodes"),
    "branches": (5000, "branches"),
    "switches": (500, "switches"),
    "sources": (500, "sources"),
    "control_sources": (200, "sources of the control"),
    "extras": (200, "formulas and devices"),
}


@dataclass(frozen=True)
class Channel:
    """An analog channel: its name in the record, its name as it was asked for, and what its values are multiplied by."""

    own: str
    name: str
    factor: float = 1.0


def _asked(ends: tuple[str, str], asked: int, names: tuple[str, str], factor: float = 1.0) -> list[Channel]:
    """The channels of a branch or a switch: its current, and its voltage."""
    found = [("I", factor)] * bool(asked & 1) + [("U", 1.0)] * bool(asked & 2)
    return [Channel(f"{it} {joined(ends)}", f"{it} {joined(names)}", own) for it, own in found]


@dataclass
class Form:
    """The contents that stand for a case; what is told of them; and the arresters' filtered channels, by the names of
    the channels whose peaks they have."""

    contents: Contents
    told: list[str] = field(default_factory=list)
    filtered: dict[str, str] = field(default_factory=dict)

    @property
    def nodes(self) -> list[str]:
        """The nodes in the order in which they first appear on the cards of branches and then of switches."""
        found: list[Branch | Switch] = [*self.contents.branches, *self.contents.switches]
        return list(dict.fromkeys(name for it in found for name in it.ends if name))

    @property
    def channels(self) -> list[Channel]:
        """The analog channels in the record's order."""
        contents = self.contents
        found: list[Channel] = []
        for asked in contents.outputs:
            found += [
                Channel(f"V {name}", asked.asked_as or f"V {name}", asked.factor) for name in asked.names or self.nodes
            ]
        for branch in contents.branches:
            found += _asked(branch.ends, branch.asked, branch.asked_as or branch.ends, branch.factor)
        for switch in contents.switches:
            found += _asked(switch.ends, switch.asked, switch.ends)
        found += [Channel(f"T {name}", f"T {name}") for asked in contents.control_outputs for name in asked.names]
        return found

    @property
    def states(self) -> list[tuple[str, bool]]:
        """The status channels in the record's order, and whether each was asked for."""
        return [(f"S {it.name}", not it.made) for it in self.contents.switches if it.asked]

    def room(self, samples: int) -> str:
        """Which limit by count is passed, in words; empty where none is."""
        channels = len(self.channels) + len(self.states)
        if channels > MOST_CHANNELS:
            return f"{channels} channels are asked for, and a record has at most {MOST_CHANNELS}"
        if channels * samples > MOST_VALUES:
            return (
                f"the record would have {channels * samples:,} values, {channels} channels of {samples:,} samples, "
                f"and has at most {MOST_VALUES:,}: raise every, or ask for less"
            )
        counts = {name: len(getattr(self.contents, name)) for name in MOST if name != "nodes"}
        counts["nodes"] = len(self.nodes)
        for name, (most, words) in MOST.items():
            if counts[name] > most:
                return f"a case has at most {most:,} {words}, and here {counts[name]:,}"
        return ""


def plain(written: Contents) -> Form:
    """The form in which each branch has its own card. Raises CaseError where one has none."""
    for branch in written.branches:
        if branch.barred:
            raise CaseError(branch.barred, branch.cards[0].call)
    found = Form(written.copied())
    _last(found.contents)
    return found


def run(written: Contents, samples: int, filters: bool = True) -> Form:
    """The form in which a case is run and recorded with so many samples; without filters where none are wanted."""
    found = Form(written.copied())
    found.contents.branches = []
    for branch in written.branches:
        if branch.instead is None:
            own = dataclasses.replace(branch, cards=branch.whole) if branch.whole else branch
            found.contents.branches.append(own)
        else:
            _put(found.contents, branch.instead)
            found.contents.branches += branch.instead.branches
            if branch.filtered:
                _takes(found, branch.instead, branch.filtered)
    for place, branch in enumerate(found.contents.branches):
        if branch.beside is None or not filters:
            continue
        tried = Form(found.contents.copied(), found.told, found.filtered)
        _put(tried.contents, branch.beside)
        tried.contents.branches[place : place + 1] = branch.beside.branches
        if why := tried.room(samples):
            name = joined(branch.asked_as or branch.ends)
            found.told.append(
                f"the peaks of the arrester {name} are as recorded, there being no room to filter them: {why}"
            )
        else:
            found.contents = tried.contents
            _takes(found, branch.beside, branch.filtered)
    _last(found.contents)
    return found


def _last(contents: Contents) -> None:
    """Puts the switches that calls have made behind those of the user, whose nodes' first switch stays so."""
    contents.switches.sort(key=lambda it: it.made)


def _put(contents: Contents, others: Contents) -> None:
    """Puts all but branches behind what stands there."""
    for name in ("switches", "sources", "outputs", "control_sources", "extras", "control_outputs"):
        getattr(contents, name).extend(getattr(others, name))
    contents.control = contents.control or others.control


def _takes(form: Form, arrester: Contents, channel: str) -> None:
    """The voltages whose peaks a filtered channel has: that of the arrester, and that of the node it stands at."""
    (branch,) = arrester.branches
    name = branch.asked_as or branch.ends
    form.filtered[f"U {joined(name)}"] = channel
    form.filtered[f"V {arrester.switches[0].ends[0]}"] = channel


def judge(form: Form, samples: int) -> None:
    """Raises CaseError where a limit by count is passed."""
    if why := form.room(samples):
        raise CaseError(why)
