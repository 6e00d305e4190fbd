"""The network's part of a step: the order of rows, branches, the nodal system, its solution and residuals."""
from . import switches as sw_mod
from .case import Case, Lumped, Pseudo, TravelLine, Trio
from .elim import RowFault, SolveFault, clean, eliminate
from .fix import E6, E9, E12, E18, near
from .wave import value


class End(Exception):
    """An early end: the cause, the name, the measured magnitude."""

    def __init__(self, cause: str, name: bytes, measured: int = 0):
        super().__init__(cause, name, measured)
        self.cause, self.name, self.measured = cause, name, measured


class Order:
    """The order of rows: nodes with a voltage source; nodes that no switch and no pseudo-nonlinear branch touches, by the
    number of branch ends; the others, whose rows may change from step to step."""

    def __init__(self, case: Case):
        n = len(case.nodes)
        ends = [0] * (n + 1)
        touch = set()
        for b in case.branches:
            for node in (b.start, b.end):
                ends[node] += 1
                if b.kind == "pseudo":
                    touch.add(node)
        for s in case.switches:
            touch.update((s.start, s.end))
        fed = fed_nodes(case)
        first = [node for node in range(1, n + 1) if node in fed]
        last = [node for node in range(1, n + 1) if node not in fed and node in touch]
        plain = [node for node in range(1, n + 1) if node not in fed and node not in touch]
        plain.sort(key=lambda node: ends[node])  # ties stay by first appearance
        self.nodes = first + plain + last
        self.row_of = {node: row for row, node in enumerate(self.nodes)}


def fed_nodes(case: Case) -> set[int]:
    """The nodes with a voltage source."""
    return {s.node for s in case.sources if not s.current}


# ---- the series branch ----


class LumpedLaw:
    """Resistance, inductance and capacitance in series, by the trapezoidal rule."""

    def __init__(self, b: Lumped, dt: int):
        self.zl = near(2 * b.l * E9, dt) if b.l else 0
        self.zc = near(dt * E9, 2 * b.c) if b.c else 0
        self.g = near(E18, b.r + self.zl + self.zc)

    def conductance(self, state):
        return self.g

    def history(self, state):
        return near(self.g * state["e"], E12)

    def accept(self, state, v, w):
        """The new state, whose numbers are all kept."""
        v -= w
        i = near(self.g * v, E12) + self.history(state)
        vl = near(self.zl * (i - state["i"]), E6) - state["vl"]
        vc = state["vc"] + near(self.zc * (i + state["i"]), E6)
        e = vl - vc + near((self.zl - self.zc) * i, E6)
        return {"i": i, "vl": vl, "vc": vc, "e": e}

    start = {"i": 0, "vl": 0, "vc": 0, "e": 0}

    def kept(self, state):
        return (state["i"], state["vl"], state["vc"], state["e"])


# ---- the pseudo-nonlinear branch ----


class PseudoLaw:
    """Straight segments through the origin and the points, and their mirror images; one step on one segment."""

    def __init__(self, b: Pseudo, dt: int):
        self.b, self.dt = b, dt
        self.points = [(0, 0)] + list(b.points)
        self.m = len(b.points)

    start = {"i": 0, "v": 0, "flux": 0, "segment": 0}

    def segment(self, k):
        """Base point and differences of segment k."""
        i0, y0 = self.points[abs(k)]
        i1, y1 = self.points[abs(k) + 1]
        di, dy = i1 - i0, y1 - y0
        return (i0, y0, di, dy) if k >= 0 else (-i0, -y0, di, dy)

    def conductance(self, state):
        _, _, di, dy = self.segment(state["segment"])
        if self.b.reactor:
            return near(self.dt * di * 1000, 2 * dy)
        return near(E18, near(dy * E6, di))

    def history(self, state):
        ib, yb, di, dy = self.segment(state["segment"])
        g = self.conductance(state)
        if self.b.reactor:
            return near(g * state["v"], E12) + ib + near((state["flux"] - yb) * di, dy)
        return ib - near(g * yb, E12)

    def accept(self, state, v, w):
        v -= w
        i = near(self.conductance(state) * v, E12) + self.history(state)
        flux = 0
        y = v
        if self.b.reactor:
            flux = state["flux"] + near(self.dt * (v + state["v"]), 2 * E9)
            y = flux
        k = state["segment"]
        upper = lower = None
        if k >= 0 and k < self.m - 1:
            upper = self.points[k + 1][1]
        if k < 0:
            upper = -self.points[-k][1]
        if k <= 0 and -k < self.m - 1:
            lower = -self.points[-k + 1][1]
        if k > 0:
            lower = self.points[k][1]
        if upper is not None and y > upper:
            k += 1
        elif lower is not None and y < lower:
            k -= 1
        return {"i": i, "v": v, "flux": flux, "segment": k}

    def kept(self, state):
        return (state["i"], state["flux"])


# ---- the line ----


class Mode:
    """The numbers of one line, or of one sequence of a three-phase line."""

    def __init__(self, zc: int, r: int, delay: int, dt: int):
        q = near(r, 4)
        z = zc + q
        self.g = near(E18, z)
        self.h = near((zc - q) * E12, z)
        self.a = near(zc * E12, z)
        self.b = E12 - self.a
        self.s, self.f = divmod(delay, dt)
        self.dt = dt

    def past(self, w, step):
        """The wave of one travel time before `step`, from the list w of records 0 on; between two records on a straight
        line."""

        def at(n):
            return w[n] if n >= 0 else 0

        one, two = at(step - self.s), at(step - self.s - 1)
        return one + near(self.f * (two - one), self.dt)

    def w(self, v, i):
        """The wave that leaves an end."""
        return near(self.g * v, E12) + near(self.h * i, E12)


class LineLaw:
    """A line of one phase; `ws` is a list of w for each end, one entry a record."""

    def __init__(self, b: TravelLine, dt: int):
        self.mode = Mode(b.zc, b.r, b.delay, dt)
        self.ws = ([0], [0])

    def histories(self, step):
        """The history current at each end."""
        m = self.mode
        p = [m.past(w, step) for w in self.ws]
        return [-near(m.a * p[1 - end], E12) - near(m.b * p[end], E12) for end in (0, 1)]

    def accept(self, step, volts):
        """The currents and the waves of both ends."""
        m = self.mode
        i = [near(m.g * v, E12) + h for v, h in zip(volts, self.histories(step))]
        w = [m.w(v, x) for v, x in zip(volts, i)]
        return i, w


class TrioLaw:
    """A transposed line of three phases, by its zero and its positive sequence: w0 of both ends, w1 of both ends of each
    phase."""

    def __init__(self, trio: Trio, dt: int):
        self.modes = [Mode(trio.zc[k], trio.r[k], trio.delay[k], dt) for k in (0, 1)]
        g0, g1 = self.modes[0].g, self.modes[1].g
        self.gd = near(g0 + 2 * g1, 3)
        self.go = near(g0 - g1, 3)
        self.w0 = ([0], [0])
        self.w1 = [([0], [0]) for _ in range(3)]

    def histories(self, step):
        """The history current of each phase at each end, as histories[phase][end]."""
        m0, m1 = self.modes
        p0 = [m0.past(w, step) for w in self.w0]
        found = []
        for phase in range(3):
            p1 = [m1.past(w, step) for w in self.w1[phase]]
            found.append(
                [
                    -near(m0.a * p0[1 - end], E12)
                    - near(m0.b * p0[end], E12)
                    - near(m1.a * p1[1 - end], E12)
                    - near(m1.b * p1[end], E12)
                    for end in (0, 1)
                ]
            )
        return found

    def accept(self, step, volts):
        """`volts[phase][end]`; answers currents[phase][end], w0[end], w1[phase][end]."""
        m0, m1 = self.modes
        history = self.histories(step)
        currents = [[0, 0] for _ in range(3)]
        w0, w1 = [0, 0], [[0, 0] for _ in range(3)]
        for end in (0, 1):
            v = [volts[phase][end] for phase in range(3)]
            for p in range(3):
                q, r = [other for other in range(3) if other != p]
                currents[p][end] = near(self.gd * v[p] + self.go * v[q] + self.go * v[r], E12) + history[p][end]
            i = [currents[phase][end] for phase in range(3)]
            v0, i0 = near(sum(v), 3), near(sum(i), 3)
            w0[end] = m0.w(v0, i0)
            for p in range(3):
                w1[p][end] = m1.w(v[p] - v0, i[p] - i0)
        return currents, w0, w1


class Network:
    """The network's part of a step."""

    def __init__(self, case: Case):
        self.case = case
        dt = case.run.dt
        self.order = Order(case)
        self.fed = fed_nodes(case)
        self.touching = {node for s in case.switches for node in (s.start, s.end)}
        self.carrying = {node for b in case.branches for node in (b.start, b.end)}
        self.carrying |= {s.node for s in case.sources if s.current}
        self.laws = []
        for b in case.branches:
            if b.kind == "lumped":
                self.laws.append(LumpedLaw(b, dt))
            elif b.kind == "pseudo":
                self.laws.append(PseudoLaw(b, dt))
            elif b.kind == "line":
                self.laws.append(LineLaw(b, dt))
            else:
                self.laws.append(None)
        self.trios = [TrioLaw(t, dt) for t in case.trios]

    def first_branches(self):
        """Currents at both ends and states of record 0."""
        return (
            [(0, 0)] * len(self.case.branches),
            [law.start if isinstance(law, (LumpedLaw, PseudoLaw)) else None for law in self.laws],
        )

    def end_name(self, item):
        """The first end of a branch or switch that isn't ground."""
        return self.case.node_name(item.start or item.end)

    def source_values(self, step, tacs):
        """The known voltages by node, and the current that sources bring by node."""
        known, brought = {}, [0] * (len(self.case.nodes) + 1)
        for s in self.case.sources:
            x = value(s, step, self.case.run, tacs)
            if s.current:
                brought[s.node] += x
            else:
                known[s.node] = x
        return known, brought

    def nodal(self, step, one, kinds, groups, known, brought):
        """The matrix and the right side of this step."""
        case, order = self.case, self.order
        n = len(case.nodes)
        rows = [{} for _ in range(n + 1)]  # Kcl rows by node
        right = list(brought)

        def put(node, other, g):
            if node and other:
                column = order.row_of[other]
                rows[node][column] = rows[node].get(column, 0) + g

        for at, b in enumerate(case.branches):
            law = self.laws[at]
            if b.kind in ("lumped", "pseudo"):
                g, j = law.conductance(one.branch_states[at]), law.history(one.branch_states[at])
                put(b.start, b.start, g)
                put(b.start, b.end, -g)
                put(b.end, b.end, g)
                put(b.end, b.start, -g)
                right[b.start] -= j
                right[b.end] += j
            elif b.kind == "line":
                history = law.histories(step)
                for end, node in enumerate((b.start, b.end)):
                    put(node, node, law.mode.g)
                    right[node] -= history[end]
        for trio, law in zip(case.trios, self.trios):
            phases = case.branches[trio.first : trio.first + 3]
            history = law.histories(step)
            for end in (0, 1):
                nodes = [(b.start, b.end)[end] for b in phases]
                for p in range(3):
                    for other in range(3):
                        put(nodes[p], nodes[other], law.gd if other == p else law.go)
                    right[nodes[p]] -= history[p][end]
        matrix, rhs = [], []
        for row, kind in enumerate(kinds):
            node = order.nodes[row]
            if kind[0] == "kcl":
                matrix.append(clean(rows[node]))
                rhs.append(right[node])
            elif kind[0] == "sum":
                total, side = {}, 0
                for member in groups.members[groups.labels[node]]:
                    for column, entry in rows[member].items():
                        total[column] = total.get(column, 0) + entry
                    side += right[member]
                matrix.append(clean(total))
                rhs.append(side)
            elif kind[0] == "tie":
                matrix.append({row: E12, kind[1]: -E12})
                rhs.append(0)
            elif kind[0] == "ground":
                matrix.append({row: E12})
                rhs.append(0)
            else:
                matrix.append({row: E12})
                rhs.append(known[node])
        return matrix, rhs

    def step(self, step, one, two, new):
        """Fills the network part of the record `new`, or raises End.

        `new.matrix` is the nodal matrix, None where the step ends by Tied.
        """
        case, order = self.case, self.order
        new.matrix = None
        new.states = sw_mod.next_states(case, step, one, two)
        try:
            groups = sw_mod.Groups(case, new.states, self.fed)
        except sw_mod.Tied as tied:
            raise End("TIED", self.end_name(case.switches[tied.switch])) from None
        kinds = groups.kinds(order, self.fed, self.touching, self.carrying)
        known, brought = self.source_values(step, one.tacs)
        new.matrix, rhs = self.nodal(step, one, kinds, groups, known, brought)
        try:
            x = eliminate(new.matrix, rhs)
        except RowFault as fault:
            raise End(fault.cause, case.node_name(order.nodes[fault.row])) from None
        except SolveFault as fault:
            raise End("RANGE", case.node_name(order.nodes[fault.row])) from None
        new.volts = [0] * (len(case.nodes) + 1)
        for row, node in enumerate(order.nodes):
            new.volts[node] = x[row]
        self.laws_step(step, one, new)
        leaving = [-x for x in brought]
        for b, (at_start, at_end) in zip(case.branches, new.branch_currents):
            leaving[b.start] += at_start
            leaving[b.end] += at_end
        new.switch_currents = groups.currents(order, self.fed, leaving)
        late = sw_mod.out_of_range(new.switch_currents)
        if late is not None:
            raise End("RANGE", self.end_name(case.switches[late]))
        for row, kind in enumerate(kinds):
            if kind[0] in ("kcl", "sum"):
                node = order.nodes[row]
                members = groups.members[groups.labels[node]]
                residual = abs(sum(leaving[member] for member in members))
                if residual > case.run.tolerance:
                    raise End("RESIDUAL", case.node_name(node), residual)

    def laws_step(self, step, one, new):
        """The branch currents and states; End at the first branch out of range."""
        case = self.case
        v = new.volts
        currents, states, kept = [], [], []
        pushes = []  # (list, value): the new w of lines
        trios = {}
        for at, b in enumerate(case.branches):
            law = self.laws[at]
            if b.kind in ("lumped", "pseudo"):
                state = law.accept(one.branch_states[at], v[b.start], v[b.end])
                states.append(state)
                currents.append((state["i"], -state["i"]))
                kept.append(law.kept(state))
            elif b.kind == "line":
                i, w = law.accept(step, (v[b.start], v[b.end]))
                states.append(None)
                currents.append(tuple(i))
                kept.append(tuple(i) + tuple(w))
                pushes += [(law.ws[0], w[0]), (law.ws[1], w[1])]
            else:
                law = self.trios[b.trio]
                if b.trio not in trios:
                    first = case.trios[b.trio].first
                    phases = case.branches[first : first + 3]
                    trios[b.trio] = law.accept(step, [(v[p.start], v[p.end]) for p in phases])
                i, w0, w1 = trios[b.trio]
                states.append(None)
                currents.append(tuple(i[b.phase]))
                numbers = tuple(i[b.phase]) + tuple(w1[b.phase])
                pushes += [(law.w1[b.phase][end], w1[b.phase][end]) for end in (0, 1)]
                if b.phase == 0:
                    numbers += tuple(w0)
                    pushes += [(law.w0[end], w0[end]) for end in (0, 1)]
                kept.append(numbers)
        for b, numbers in zip(case.branches, kept):
            if any(abs(x) > E18 for x in numbers):
                raise End("RANGE", self.end_name(b))
        for ring, w in pushes:
            ring.append(w)
        new.branch_currents, new.branch_states = currents, states
