"""The steady state of a case at one frequency, and a scan over frequencies."""
from . import switches as sw_mod
from .case import Case, Lumped, TravelLine
from .elim import RowFault, SolveFault, clean, eliminate
from .fix import E6, E12, E15, E17, E18, E30, near, print_fixed
from .network import End, Order, fed_nodes
from .record import end_parts
from .wave import QUARTER, cosine

REFUSALS = {
    31: "Size",
    32: "NoSource",
    33: "Control",
    34: "Switch",
    35: "Nonlinear",
    36: "Loss",
    37: "Phases",
    38: "Impedance",
    39: "Source",
    40: "Probe",
}


class Refused(Exception):
    """A card that has no place in a steady state: its line and the number of the reason."""

    def __init__(self, line: int, reason: int):
        super().__init__(line, reason)
        self.line, self.reason = line, reason

    def note(self) -> bytes:
        """What the program prints of it."""
        return b"REFUSED LINE %d REASON %d %s\n" % (self.line, self.reason, REFUSALS[self.reason].encode())


def fixed_refusals(case: Case) -> list[tuple[int, int]]:
    """The cards that no frequency makes good, as (line, reason)."""
    found = [(item.line, 33) for item in case.tacs_sources + case.blocks + case.extras]
    found += [(s.line, 34) for s in case.switches if s.kind in ("valve", "control")]
    for b in case.branches:
        if b.kind == "pseudo":
            found.append((b.line, 35))
        elif b.kind == "line" and b.r != 0:
            found.append((b.line, 36))
        elif b.kind == "phase":
            found.append((b.line, 37))
    return found


def series(b: Lumped, w: int) -> tuple[int, int] | None:
    """(G, B) of a series branch, or None where its impedance is refused."""
    xl = near(w * b.l, E12) if b.l else 0
    xc = near(E30, w * b.c) if b.c else 0
    if xl > E15 or xc > E15:
        return None
    x = xl - xc
    n = b.r * b.r + x * x
    if n < 100:
        return None
    return near(b.r * E18, n), -near(x * E18, n)


def line_numbers(b: TravelLine, freq: int) -> tuple[int, int] | None:
    """The susceptance of a line at its own end and between its ends, or None where its impedance is refused."""
    cs = cosine(freq * b.delay)
    sn = cosine(freq * b.delay - QUARTER)
    if sn == 0:
        return None
    b12 = near(E30, sn * b.zc)
    if abs(b12) > E17:
        return None
    return -near(cs * E18, sn * b.zc), b12


def impedance_refusals(case: Case, freq: int, w: int) -> list[tuple[int, int]]:
    """The cards without an admittance at this frequency."""
    found = []
    for b in case.branches:
        if b.kind == "lumped" and series(b, w) is None:
            found.append((b.line, 38))
        if b.kind == "line" and b.r == 0 and line_numbers(b, freq) is None:
            found.append((b.line, 38))
    return found


def solve(case: Case, given: int | None = None) -> tuple[int, int, list[tuple[int, int]]]:
    """(frequency, residual, voltages by node as (re, im)), or Refused, or End; `given` is the frequency of a scan."""
    if len(case.nodes) > 500:
        raise Refused(1, 31)
    freq = given
    if given is None:
        for s in case.sources:
            if s.shape == "cosine" and s.freq != 0:
                freq = s.freq
                break
        else:
            raise Refused(1, 32)
    w = near(6283185307179586 * freq, E12)
    refusals = fixed_refusals(case) + impedance_refusals(case, freq, w)
    for s in case.sources:
        if s.shape != "cosine" or given is None and s.freq != freq:
            refusals.append((s.line, 39))
    if refusals:
        raise Refused(*min(refusals))
    return steady(case, freq, w)


def steady(case: Case, freq: int, w: int) -> tuple[int, int, list[tuple[int, int]]]:
    """The same, where no card is refused: the doubled system and its residuals."""
    order = Order(case)
    fed = fed_nodes(case)
    touching = {node for s in case.switches for node in (s.start, s.end)}
    carrying = {node for b in case.branches for node in (b.start, b.end)}
    carrying |= {s.node for s in case.sources if s.current}

    def end_name(item):
        return case.node_name(item.start or item.end)

    try:
        groups = sw_mod.Groups(case, sw_mod.first_states(case), fed)
    except sw_mod.Tied as tied:
        raise End("TIED", end_name(case.switches[tied.switch])) from None
    kinds = groups.kinds(order, fed, touching, carrying)
    size = len(case.nodes)
    known = {}
    brought = [(0, 0)] * (size + 1)
    for s in case.sources:
        parts = (near(s.amplitude * cosine(s.phase), E12), near(s.amplitude * cosine(s.phase - QUARTER), E12))
        if s.current:
            brought[s.node] = (brought[s.node][0] + parts[0], brought[s.node][1] + parts[1])
        else:
            known[s.node] = parts
    # Kcl rows by node and part; a column is 2*row for a real part and 2*row + 1 for an imaginary one.
    rows = [({}, {}) for _ in range(size + 1)]

    def put(node, part, other, other_part, number):
        if node and other:
            column = 2 * order.row_of[other] + other_part
            row = rows[node][part]
            row[column] = row.get(column, 0) + number

    numbers = []
    for b in case.branches:
        if b.kind == "lumped":
            g, s = series(b, w)
            numbers.append((g, s))
            for own, other in ((b.start, b.end), (b.end, b.start)):
                for node, sign in ((own, 1), (other, -1)):
                    put(own, 0, node, 0, sign * g)
                    put(own, 0, node, 1, -sign * s)
                    put(own, 1, node, 1, sign * g)
                    put(own, 1, node, 0, sign * s)
        else:
            b11, b12 = line_numbers(b, freq)
            numbers.append((b11, b12))
            for own, other in ((b.start, b.end), (b.end, b.start)):
                put(own, 0, own, 1, -b11)
                put(own, 0, other, 1, -b12)
                put(own, 1, own, 0, b11)
                put(own, 1, other, 0, b12)
    matrix, rhs = [], []
    for row, kind in enumerate(kinds):
        node = order.nodes[row]
        for part in (0, 1):
            if kind[0] in ("kcl", "sum"):
                total, side = {}, 0
                members = [node] if kind[0] == "kcl" else groups.members[groups.labels[node]]
                for member in members:
                    for column, entry in rows[member][part].items():
                        total[column] = total.get(column, 0) + entry
                    side += brought[member][part]
                matrix.append(clean(total))
                rhs.append(side)
                continue
            own = {2 * row + part: E12}
            if kind[0] == "tie":
                own[2 * kind[1] + part] = -E12
            matrix.append(own)
            rhs.append(known[node][part] if kind[0] == "source" else 0)
    try:
        x = eliminate(matrix, rhs)
    except RowFault as fault:
        raise End(fault.cause, case.node_name(order.nodes[fault.row // 2])) from None
    except SolveFault as fault:
        raise End("RANGE", case.node_name(order.nodes[fault.row // 2])) from None
    volts = [(0, 0)] * (size + 1)
    for row, node in enumerate(order.nodes):
        volts[node] = (x[2 * row], x[2 * row + 1])
    leaving = [[-re, -im] for re, im in brought]
    for b, pair in zip(case.branches, numbers):
        v, u = volts[b.start], volts[b.end]
        if b.kind == "lumped":
            g, s = pair
            a, c = v[0] - u[0], v[1] - u[1]
            i = (near(g * a - s * c, E12), near(s * a + g * c, E12))
            ends = (i, (-i[0], -i[1]))
        else:
            b11, b12 = pair
            ends = tuple(
                (near(-b11 * own[1] - b12 * other[1], E12), near(b11 * own[0] + b12 * other[0], E12))
                for own, other in ((v, u), (u, v))
            )
        if any(abs(part) > E18 for end in ends for part in end):
            raise End("RANGE", end_name(b))
        for node, i in zip((b.start, b.end), ends):
            leaving[node][0] += i[0]
            leaving[node][1] += i[1]
    greatest = 0
    for row, kind in enumerate(kinds):
        if kind[0] in ("kcl", "sum"):
            node = order.nodes[row]
            members = groups.members[groups.labels[node]]
            residual = max(abs(sum(leaving[m][part] for m in members)) for part in (0, 1))
            if residual > case.run.tolerance:
                raise End("RESIDUAL", case.node_name(node), residual)
            greatest = max(greatest, residual)
    return freq, greatest, volts[1:]


def phasor_text(case: Case, answer: tuple[int, int, list[tuple[int, int]]]) -> bytes:
    """What a steady state prints."""
    freq, residual, volts = answer
    out = [b"PHASOR F %s RESIDUAL %d\n" % (print_fixed(freq, 6).encode(), residual)]
    for name, (re, im) in zip(case.nodes, volts):
        out.append(b"NODE %s RE %s IM %s\n" % (name, print_fixed(re, 9).encode(), print_fixed(im, 9).encode()))
    return b"".join(out)


def scan(case: Case, first: int, last: int, by: int) -> bytes:
    """What a scan prints, or Refused; frequencies in micro-hertz."""
    if len(case.nodes) > 500:
        raise Refused(1, 31)
    probe = case.sources[0] if len(case.sources) == 1 else None
    if probe is None or not probe.current or probe.shape != "cosine" or probe.phase != 0 or probe.amplitude <= 0:
        raise Refused(1, 40)
    refusals = fixed_refusals(case)
    if refusals:
        raise Refused(*min(refusals))
    lines, impedances = [], []
    for freq in range(first, last + 1, by):
        head = b"F %s " % print_fixed(freq, 6).encode()
        impedance = None
        try:
            _, _, volts = solve(case, freq)
            re, im = (near(part * 10**9, probe.amplitude) for part in volts[probe.node - 1])
            if abs(re) > E18 or abs(im) > E18:
                raise End("RANGE", case.node_name(probe.node))
            impedance = (re, im)
            text = b"RE %s IM %s" % (print_fixed(re, 9).encode(), print_fixed(im, 9).encode())
        except Refused as refused:
            text = b"REFUSED LINE %d" % refused.line
        except End as end:
            text = b"ENDED " + end_parts(end)
        lines.append(head + text + b"\n")
        impedances.append((freq, impedance))
    for before, here, after in zip(impedances, impedances[1:], impedances[2:]):
        if before[1] is None or here[1] is None or after[1] is None:
            continue
        size = [re * re + im * im for re, im in (before[1], here[1], after[1])]
        if size[1] > size[0] and size[1] > size[2]:
            lines.append(b"RESONANCE %s\n" % print_fixed(here[0], 6).encode())
    return b"".join(lines)
