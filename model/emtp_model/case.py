"""The plain records of a case."""


class Record:
    """A record with named fields."""

    def __init__(self, **fields):
        self.__dict__.update(fields)

    def __repr__(self):
        return "%s(%s)" % (type(self).__name__, ", ".join("%s=%r" % item for item in self.__dict__.items()))


class RunData(Record):
    """dt (ps), steps, every (steps a sample), tolerance (nA)."""


class Lumped(Record):
    """line, start, end, r (micro-ohm), l (nH), c (fF), asked."""

    kind = "lumped"


class TravelLine(Record):
    """line, start, end, zc (micro-ohm), r (micro-ohm), delay (ps), asked."""

    kind = "line"


class Pseudo(Record):
    """line, start, end, reactor (a flux, or else a voltage), points, asked."""

    kind = "pseudo"


class Phase(Record):
    """line, start, end, trio, phase (0 to 2), asked."""

    kind = "phase"


class Trio(Record):
    """first (the place of its first phase), zc, r, delay (two each: zero and positive sequence)."""


class Switch(Record):
    """line, start, end, kind, asked and, by kind, close, open_at, margin; ignition, holding, control."""


class Source(Record):
    """line, node, current, shape, amplitude, start, stop and, by shape, rise; freq, phase; var; period, width; node;
    switch."""


class Block(Record):
    """line, var, order, inputs, gain, low, high, n, d, c, k; a bound is None, ("fixed", x) or ("named", var)."""


class Device(Record):
    """line, var, group, code, inputs, a, b, c, d, e, points."""


class Formula(Record):
    """line, var, group, expr."""


class Case(Record):
    """run, nodes (names, from number 1 at place 0), branches, trios, switches, sources, vars, tacs_sources, blocks,
    extras, channels."""

    def node_name(self, node: int) -> bytes:
        """The name of a node that isn't ground."""
        return self.nodes[node - 1]

    def end_name(self, node: int) -> bytes:
        """The name of a node, or 0 for ground."""
        return b"0" if node == 0 else self.nodes[node - 1]

    def channel_name(self, channel: tuple[str, int]) -> bytes:
        """What the record calls a channel."""
        kind, at = channel
        if kind == "V":
            return b"V " + self.node_name(at)
        if kind == "T":
            return b"T " + self.vars[at]
        if kind in ("BI", "BU"):
            item = self.branches[at]
        else:
            item = self.switches[at]
        letter = {"BI": b"I ", "BU": b"U ", "SI": b"I ", "SU": b"U ", "SS": b"S "}[kind]
        return letter + self.end_name(item.start) + b"-" + self.end_name(item.end)

    def channel_unit(self, channel: tuple[str, int]) -> bytes:
        """The unit of an analog channel."""
        return {"V": b"V", "BI": b"A", "BU": b"V", "SI": b"A", "SU": b"V", "T": b"PU"}[channel[0]]

    def analog(self) -> list[tuple[str, int]]:
        """The channels with a value."""
        return [c for c in self.channels if c[0] != "SS"]

    def status(self) -> list[tuple[str, int]]:
        """The channels with a state."""
        return [c for c in self.channels if c[0] == "SS"]
