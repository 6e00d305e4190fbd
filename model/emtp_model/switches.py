"""States of switches, the groups of nodes that closed ones join, kinds of rows, and currents of switches."""
from .case import Case
from .fix import E18

WAITING, CLOSED, OPENED, OPEN = "waiting", "closed", "opened", "open"


class Tied(Exception):
    """A closed switch joins two groups with a known voltage each."""

    def __init__(self, switch: int):
        super().__init__(switch)
        self.switch = switch


def first_states(case: Case) -> list[str]:
    """The states of record 0."""
    found = []
    for sw in case.switches:
        if sw.kind == "time":
            found.append(CLOSED if sw.close < 0 else WAITING)
        elif sw.kind == "measuring":
            found.append(CLOSED)
        else:
            found.append(OPEN)
    return found


def next_states(case: Case, step: int, one, two) -> list[str]:
    """The states of `step` from the records of the step before (`one`) and of the one before that (`two`)."""
    t = step * case.run.dt
    found = []
    for at, sw in enumerate(case.switches):
        state = one.states[at]
        current, before = one.switch_currents[at], two.switch_currents[at]
        if sw.kind == "time":
            if state == WAITING and sw.close <= t:
                state = CLOSED
            elif state == CLOSED and sw.open_at is not None and sw.open_at <= t:
                if abs(current) <= sw.margin or current * before < 0:
                    state = OPENED
        elif sw.kind == "valve":
            if state == OPEN:
                v = one.volts[sw.start] - one.volts[sw.end]
                allowed = sw.control is None or one.tacs[sw.control] > 0
                if v > 0 and v >= sw.ignition and allowed:
                    state = CLOSED
            elif current < sw.holding:
                state = OPEN
        elif sw.kind == "control":
            state = CLOSED if one.tacs[sw.control] > 0 else OPEN
        found.append(state)
    return found


def join(labels: list[int], a: int, b: int) -> list[int]:
    """Both groups get one label."""
    old, new = labels[a], labels[b]
    return [new if label == old else label for label in labels]


class Groups:
    """The groups of one step: a label per node (0 is ground), and the bridges."""

    def __init__(self, case: Case, states: list[str], fed: set[int]):
        """`fed` holds the nodes with a voltage source.  Raises Tied."""
        self.case = case
        labels = list(range(len(case.nodes) + 1))
        self.bridges = []
        known = {0} | fed  # the labels of groups that hold a known voltage
        for at, sw in enumerate(case.switches):
            if states[at] != CLOSED:
                continue
            a, b = labels[sw.start], labels[sw.end]
            if a == b:
                continue  # slack
            if a in known and b in known:
                raise Tied(at)
            self.bridges.append(at)
            labels = join(labels, sw.start, sw.end)
            if a in known:
                known.add(b)
        self.labels = labels
        self.members = {}
        for node, label in enumerate(labels):
            self.members.setdefault(label, []).append(node)

    def kinds(self, order, fed, touching, carrying):
        """The kind of each row; `touching` holds the nodes at a switch, `carrying` those with a
        branch end or a current source."""
        kinds = [None] * len(order.nodes)
        for members in self.members.values():
            rows = [order.row_of[node] for node in members if node]
            sources = [node for node in members if node in fed]
            if 0 in members:
                for row in rows:
                    kinds[row] = ("ground",)
            elif sources:
                root = order.row_of[sources[0]]
                for row in rows:
                    kinds[row] = ("source",) if row == root else ("tie", root)
            elif any(n in touching for n in members) and not any(n in carrying for n in members):
                for row in rows:
                    kinds[row] = ("ground",)
            else:
                last = max(rows)
                for row in rows:
                    kinds[row] = ("tie", last)
                kinds[last] = ("sum",) if len(rows) > 1 else ("kcl",)
        return kinds

    def currents(self, order, fed, leaving):
        """The current of each switch; `leaving` gives for each node what leaves it through
        branches less what current sources bring."""
        case = self.case
        found = [0] * len(case.switches)
        for at in self.bridges:
            sw = case.switches[at]
            group = self.members[self.labels[sw.start]]
            # The sides that the other bridges of the group leave.
            labels = {node: node for node in group}
            for other in self.bridges:
                o = case.switches[other]
                if other != at and o.start in labels:
                    old, new = labels[o.start], labels[o.end]
                    labels = {n: new if label == old else label for n, label in labels.items()}
            known = [node for node in group if node == 0 or node in fed]
            root = known[0] if known else max(group, key=lambda node: order.row_of[node])
            side = [node for node in group if labels[node] != labels[root]]
            total = sum(leaving[node] for node in side)
            found[at] = -total if sw.start in side else total
        return found


def out_of_range(currents: list[int]) -> int | None:
    """The first switch whose current exceeds 10^18 nA, or None."""
    for at, current in enumerate(currents):
        if abs(current) > E18:
            return at
    return None
