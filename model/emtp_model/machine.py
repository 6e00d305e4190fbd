"""The steps of a case one after the other, the samples, the end, and how many rows are redone."""
from typing import TextIO

from . import switches as sw_mod
from .case import Case
from .elim import changed
from .fix import E18
from .network import End, Network
from .tacs import Control, TacsEnd


class StepRecord:
    """One record: volts by node, branch currents (both ends) and states, switch states and
    currents, TACS values."""


class Machine:
    """A case after some steps; `trace` is where each record is written, if anywhere."""

    def __init__(self, case: Case, trace: TextIO | None = None):
        self.case, self.trace = case, trace
        self.network = Network(case)
        self.control = Control(case)
        zero = StepRecord()
        zero.volts = [0] * (len(case.nodes) + 1)
        zero.branch_currents, zero.branch_states = self.network.first_branches()
        zero.states = sw_mod.first_states(case)
        zero.switch_currents = [0] * len(case.switches)
        zero.tacs = [0] * len(case.vars)
        self.one = self.two = zero  # the last record and the one before it; before record 0 all is 0
        self.done = 0
        self.end = None  # (step, End)
        self.redone = 0
        self.matrices = None  # the nodal and the control matrix of the step before
        self.samples = []
        self.sample(zero)
        self.tell(0, zero)

    def sample(self, record: StepRecord) -> None:
        """Keeps a sample of a record."""
        self.samples.append([self.channel(record, channel) for channel in self.case.channels])

    def channel(self, record: StepRecord, channel: tuple[str, int]) -> int:
        """The value or state of a channel."""
        kind, at = channel
        case = self.case
        if kind == "V":
            return record.volts[at]
        if kind == "T":
            return record.tacs[at]
        if kind == "BI":
            return record.branch_currents[at][0]
        if kind == "SI":
            return record.switch_currents[at]
        if kind == "SS":
            return 1 if record.states[at] == sw_mod.CLOSED else 0
        item = case.branches[at] if kind == "BU" else case.switches[at]
        return max(-E18, min(E18, record.volts[item.start] - record.volts[item.end]))

    def tell(self, step: int, record: StepRecord) -> None:
        """Writes the lines of a record for the trace."""
        if self.trace is None:
            return
        case = self.case

        def line(*parts):
            self.trace.write(" ".join(str(p) for p in parts) + "\n")

        line("STEP", step)
        for node, name in enumerate(case.nodes, 1):
            line("V", name.decode("latin-1"), record.volts[node])
        for at, (i, k) in enumerate(record.branch_currents):
            line("B", at + 1, i, k, record.branch_states[at] or "")
        for at, i in enumerate(record.switch_currents):
            line("S", at + 1, record.states[at], i)
        for name, x in zip(case.vars, record.tacs):
            line("T", name.decode("latin-1"), x)

    def step(self) -> bool:
        """One step; False where it ends early, and at every call after that."""
        if self.end is not None:
            return False
        n = self.done + 1
        new = StepRecord()
        control_matrix = self.control.matrix()
        network_ok = True
        try:
            try:
                self.network.step(n, self.one, self.two, new)
            except End:
                network_ok = False
                raise
            try:
                self.control.step(n, self.one, new)
            except TacsEnd as fault:
                raise End("TACSPIVOT" if fault.pivot else "TACSRANGE", self.case.vars[fault.var]) from None
        except End as end:
            self.end = (n, end)
        if n >= 2 and new.matrix is not None:
            self.redone += len(new.matrix) - changed(self.matrices[0], new.matrix)
            if network_ok:
                self.redone += len(control_matrix) - changed(self.matrices[1], control_matrix)
        if self.end is not None:
            if self.trace is not None:
                self.trace.write(
                    "END %d %s %s %d\n"
                    % (n, self.end[1].cause, self.end[1].name.decode("latin-1"), self.end[1].measured)
                )
            return False
        self.matrices = (new.matrix, control_matrix)
        self.two, self.one = self.one, new
        self.done = n
        if n % self.case.run.every == 0:
            self.sample(new)
        self.tell(n, new)
        return True

    def run(self) -> "Machine":
        """All steps, or those up to the end."""
        while self.done < self.case.run.steps and self.step():
            pass
        return self


def history(case: Case, trace: TextIO | None = None) -> Machine:
    """The machine after its last step or its end."""
    return Machine(case, trace).run()
