"""Changed definitions beside the laws that refuse them.

A twin is a definition with one thing changed, as a travel time that is a step too long. Each is put into the model, and its law,
said here once more, is tried on one case: it has to hold of the definition as it is, and to fail of the twin. Laws that a
reader might take for enough are tried on the same case with the twin, and have to hold: they let it through, as the residuals
do, since no run may end. The laws are those of docs/trust.md, where they are proved of the definitions; here nothing is.
"""
from collections.abc import Callable
from unittest.mock import patch

from emtp_model import batch, network
from emtp_model.cards import Bad
from emtp_model.case import Case, Lumped, Record, RunData, Source, TravelLine
from emtp_model.deck import SIX, Deck, deck
from emtp_model.fix import E6, E12, E18, near
from emtp_model.machine import Machine
from emtp_model.network import LumpedLaw, Mode, Network
from emtp_model.wave import value

DT = 10**8  # 0.1 ms in ps; other numbers are in nV, nA, micro-ohm, nH, fF and micro-hertz
LATER = 7  # steps


def but(old: Record, **fields) -> Record:
    """The same record with other fields."""
    return type(old)(**{**vars(old), **fields})


def series(start: int, end: int, r: int = 0, l: int = 0, c: int = 0) -> Lumped:
    """A series branch."""
    return Lumped(line=1, start=start, end=end, r=r, l=l, c=c, asked=0)


def line(delay: int) -> TravelLine:
    """A line without loss of 400 ohm from node 1 to node 2."""
    return TravelLine(line=1, start=1, end=2, zc=400 * E6, r=0, delay=delay, asked=0)


def source(shape: str, start: int, current: bool = True, **fields) -> Source:
    """A source of 3 A or 3 V at node 1."""
    return Source(line=1, node=1, current=current, shape=shape, amplitude=3 * 10**9, start=start, stop=None, **fields)


def case(branches: list, sources: list) -> Case:
    """A case of two nodes, of 240 steps."""
    run = RunData(dt=DT, steps=240, every=1, tolerance=10**4)
    none = {name: [] for name in ("trios", "switches", "tacs_sources", "blocks", "extras", "channels")}
    return Case(run=run, nodes=[b"A", b"B"], branches=branches, sources=sources, vars=SIX, **none)


def records(it: Case) -> list[tuple[list[int], list[tuple[int, int]]]]:
    """Of each record the voltages by node, ground first, and the currents at both ends of each branch."""
    machine = Machine(it)
    found = [(machine.one.volts, machine.one.branch_currents)]
    while machine.done < it.run.steps and machine.step():
        found.append((machine.one.volts, machine.one.branch_currents))
    assert machine.end is None, machine.end
    return found


# ---- the laws


def waves(it: Case) -> tuple[list[tuple[int, int]], list[tuple[int, int]]]:
    """What leaves both ends of the line, branch 0, in each record, and what comes to the other end of each."""
    x, found = it.branches[0], records(it)
    ends = [[(near(near(E18, x.zc) * v[n], E12), i[0][end]) for end, n in ((0, x.start), (1, x.end))] for v, i in found]
    return [(a + i, b + j) for (a, i), (b, j) in ends], [(b - j, a - i) for (a, i), (b, j) in ends]


def travel(it: Case) -> bool:
    """lossless_line_delays_by_its_travel_time"""
    (sent, received), k = waves(it), it.branches[0].delay // DT
    return received[k:] == sent[: len(sent) - k]


def between(it: Case) -> bool:
    """lossless_line_delays_between_two_steps"""
    (sent, received), (k, rest) = waves(it), divmod(it.branches[0].delay, DT)
    means = [[(DT - rest) * x + rest * y for x, y in zip(sent[n - k], sent[n - k - 1])] for n in range(k + 1, len(sent))]
    return all(2 * abs(DT * w - m) <= DT for ws, ms in zip(received[k + 1 :], means) for w, m in zip(ws, ms))


def period(it: Case) -> bool:
    """cosine_repeats_after_its_period"""
    found, steps = records(it), E18 // (it.sources[0].freq * DT)
    return found[1 + steps :] == found[1 : len(found) - steps]


def time(it: Case) -> bool:
    """memoryless_networks_go_by_time_alone"""
    return records(but(it, run=but(it.run, dt=DT // 2, steps=2 * it.run.steps)))[::2] == records(it)


def ohm(it: Case) -> bool:
    """resistor_has_the_voltage_of_its_current"""
    r, i = it.branches[0].r, it.sources[0].amplitude
    most = [abs(r) * (E12 + 2 * E12 * it.run.tolerance + abs(v[1])) for v, _ in records(it)]
    return all(2 * E12 * abs(E6 * v[1] - r * i) <= m for (v, _), m in zip(records(it)[1:], most[1:]))


def later(it: Case) -> bool:
    """later_sources_act_later"""
    found = records(it)
    moved = records(but(it, sources=[but(s, start=s.start + LATER * DT) for s in it.sources]))
    return moved[:LATER] == found[:1] * LATER and moved[LATER:] == found[: len(found) - LATER]


def accepted(it: bytes) -> bool:
    """accepted_decks_are_cases"""
    try:
        return all(x.delay >= DT for x in deck(it).branches if isinstance(x, TravelLine))
    except Bad:
        return True


def timed(it: bytes) -> bool:
    """other_times_give_the_case_with_them"""
    own, other = deck(it), deck(it.replace(b"2.E-3     5.E-3", b"1.E-3     4.E-3"))
    times = [t for x in other.switches for t in (x.close, x.open_at)]
    return [vars(x) for x in batch.altered(own, times).switches] == [vars(x) for x in other.switches]


# ---- laws that let the twins through


def row(it: bytes) -> bool:
    """row_is_the_run_of_its_case"""
    own, times = deck(it), [10**9, 4 * 10**9]
    others = [deck(it.replace(b"2.E-3     5.E-3", b"1.E-3     4.E-3").replace(b"0.1", m)) for m in (b"0.1", b"   ")]
    alike = [x for x in others if [vars(y) for y in x.switches] == [vars(y) for y in batch.altered(own, times).switches]]
    return bool(alike) and all(batch.batch(own, [times]) == batch.batch(x, [times]) for x in alike)


def mirrored(it: Case) -> bool:
    """mirrored_run"""
    turned = [([-x for x in v], [(-a, -b) for a, b in i]) for v, i in records(it)]
    return records(but(it, sources=[but(s, amplitude=-s.amplitude) for s in it.sources])) == turned


def quiet(it: Case) -> bool:
    """quiet_network_stays_at_rest"""
    found = records(but(it, sources=[but(s, amplitude=0) for s in it.sources]))
    return found == found[:1] * len(found)


def causal(it: Case) -> bool:
    """runs_agree_until_sources_end"""
    return records(but(it, sources=[but(s, stop=100 * DT) for s in it.sources]))[:101] == records(it)[:101]


def reversed_alike(it: Case) -> bool:
    """reversed_line_answers_alike"""
    lines = [isinstance(x, TravelLine) for x in it.branches]
    turned = [but(x, start=x.end, end=x.start) if over else x for x, over in zip(it.branches, lines)]
    found = records(but(it, branches=turned))
    return [(v, [i[::-1] if over else i for i, over in zip(ends, lines)]) for v, ends in found] == records(it)


def powered(it: Case) -> bool:
    """resistor_takes_power"""
    resistors = [k for k, x in enumerate(it.branches) if isinstance(x, Lumped) and not x.l and not x.c]
    return all((v[it.branches[k].start] - v[it.branches[k].end]) * i[k][0] >= 0 for v, i in records(it) for k in resistors)


LET_THROUGH = [mirrored, quiet, causal, reversed_alike, powered]
OF_CARDS = {timed: [row]}

# ---- the twins


class Longer(Mode):
    def __init__(self, *numbers: int):
        super().__init__(*numbers)
        self.s += 1


class Swapped(Mode):
    def __init__(self, *numbers: int):
        super().__init__(*numbers)
        self.f = self.dt - self.f


class Doubled(LumpedLaw):
    def __init__(self, b: Lumped, dt: int):
        super().__init__(but(b, r=2 * b.r), dt)


def slow(s: Source, step: int, run: RunData, tacs: list[int] | None) -> int:
    return value(but(s, freq=s.freq // 2), step, run, tacs)


def late(s: Source, step: int, run: RunData, tacs: list[int] | None) -> int:
    return value(s, step - 1, run, tacs)


def from_zero(s: Source, step: int, run: RunData, tacs: list[int] | None) -> int:
    return near(s.amplitude * min(step * run.dt, s.rise), s.rise) if step * run.dt >= s.start else 0


def taken(self: Network, step: int, tacs: list[int] | None, brings: Callable = Network.source_values) -> tuple[dict, list]:
    known, brought = brings(self, step, tacs)
    return known, [-x for x in brought]


def without_margin(it: Case, times: list[int | None], alter: Callable = batch.altered) -> Case:
    there = alter(it, times)
    return but(there, switches=[but(x, margin=0) for x in there.switches])


def any_length(self: Deck, fields: object, read: Callable = Deck.line_values) -> tuple[int, int, int]:
    with patch.object(self, "run", but(self.run, dt=1)):
        return read(self, fields)


CARDS = b"""BEGIN NEW DATA CASE
   1.E-4   1.E-2

-1A     B                         400. 1.E-5   1.0 2
BLANK
BLANK
11A               1.
BLANK
  A
BLANK
"""
SWITCHED = b"""BEGIN NEW DATA CASE
   1.E-4   1.E-2

  A                         100.
  B                         100.
BLANK
  A     B          2.E-3     5.E-3       0.1
BLANK
11A               1.
BLANK
  B
BLANK
"""
RISES = source("ramp", 3 * DT, rise=5 * DT)
TURNS = source("cosine", -DT, freq=5 * 10**7, phase=0)
BOTH = [series(1, 0, r=E6), series(2, 0, r=E6)]
LOADED = [series(1, 0, r=300 * E6), series(2, 0, r=250 * E6, l=10**6, c=10**9)]
TWINS = [
    (travel, case([line(3 * DT)] + LOADED, [RISES]), "a travel time one step longer", network, "Mode", Longer),
    (between, case([line(3 * DT + DT // 4)] + LOADED, [RISES]), "the rest for what it lacks", network, "Mode", Swapped),
    (period, case(BOTH, [TURNS]), "half the frequency", network, "value", slow),
    (time, case(BOTH, [TURNS]), "sources one step late", network, "value", late),
    (ohm, case(BOTH, [source("step", -DT)]), "currents with the other sign", Network, "source_values", taken),
    (ohm, case(BOTH, [source("step", -DT)]), "R twice", network, "LumpedLaw", Doubled),
    (later, case([line(3 * DT)] + LOADED, [RISES]), "a ramp that rises from time 0", network, "value", from_zero),
    (timed, SWITCHED, "a row without the margins", batch, "altered", without_margin),
    (accepted, CARDS, "a line shorter than a step", Deck, "line_values", any_length),
]


def main() -> int:
    """Prints a line for each twin; answers the exit status."""
    failed = False
    for law, it, twin, owner, name, changed in TWINS:
        kept = law(it)
        with patch.object(owner, name, changed):
            refused = not law(it)
            others = LET_THROUGH if isinstance(it, Case) else OF_CARDS.get(law, [])
            through = [other.__doc__ for other in others if other(it)]
        enough = len(through) == len(others)
        failed |= not (kept and refused and enough)
        words = ("holds" if kept else "FAILS", "fails" if refused else "HOLDS")
        print(f"{law.__doc__}: {words[0]}; {twin}: {words[1]}; {', '.join(through)}")
    end = "not as it has to be" if failed else f"{len(TWINS)} twins refused, of which other laws let through all but the last"
    print(f"model/twins: of laws, {end}")
    return 1 if failed else 0
