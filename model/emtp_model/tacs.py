"""The control's part of a step: sources, formulas, devices and blocks."""
from .case import Case, Device, RunData, Source
from .elim import RowFault, SolveFault, clean, eliminate
from .expr import OutOfRange, evaluate
from .fix import E9, E12, E18, E36, isqrt, near
from .wave import value

FREE, HIGH, LOW = "free", "high", "low"


class TacsEnd(Exception):
    """An early end in the control: the variable, and whether its pivot is 0."""

    def __init__(self, var: int, pivot: bool = False):
        super().__init__(var, pivot)
        self.var, self.pivot = var, pivot


def kept(x: int) -> int:
    """x, where it is in range."""
    if abs(x) > E18:
        raise OutOfRange()
    return x


class DeviceState:
    """The sum of inputs of all records, and the last output."""

    def __init__(self):
        self.s = [0]
        self.y = 0


def device_step(device: Device, state: DeviceState, step: int, run: RunData, values: list[int]) -> tuple[int, int]:
    """The sum of inputs and the output of a device in a step."""
    dt = run.dt
    code = device.code
    a, b = device.a, device.b
    inputs = [-values[var] if minus else values[var] for var, minus in device.inputs]
    s = kept(sum(inputs))
    s_before, y_before = state.s[-1], state.y
    d = values[device.d] if device.d is not None else None
    e = values[device.e] if device.e is not None else None

    def back(k):
        """s of k records before the step."""
        if k == 0:
            return s
        return state.s[step - k] if step - k >= 0 else 0

    if code in (51, 52):
        on = (abs(d) if code == 51 else d) > a
        if b != 0:
            on = not on
        y = s if on else 0
    elif code == 53:
        y = back(device.k)
    elif code == 54:
        y = E9 if back(device.k) > 0 else 0
    elif code == 56:
        points = device.points
        if s < points[0][0]:
            y = points[0][1]
        elif s > points[-1][0]:
            y = points[-1][1]
        else:
            for (x1, y1), (x2, y2) in zip(points, points[1:]):
                if x1 <= s <= x2:
                    y = y1 + near((s - x1) * (y2 - y1), x2 - x1)
                    break
    elif code == 57:
        t = step * dt
        y = s if any(close <= t < open_at for close, open_at in device.points) else 0
    elif code == 58:
        if e is not None and e > 0:
            y = 0
        elif d is not None and not d > 0:
            y = y_before
        else:
            y = y_before + near(dt * (s + s_before), 2 * E12)
    elif code == 59:
        y = near((s - s_before) * E12, dt)
    elif code == 60:
        place = 0 if d < a else (1 if d == a else 2)
        y = inputs[place] if place < len(inputs) else 0
    elif code == 62:
        y = s if d is None or d > 0 else y_before
    elif code == 63:
        y = 0
        if inputs:
            y = max(inputs) if a >= 0 else min(inputs)
    elif code == 64:
        if d is not None and d > 0 or step == 1:
            y = s
        else:
            y = max(y_before, s) if a >= 0 else min(y_before, s)
    elif code == 65:
        y = 0 if d is not None and d > 0 else y_before + s
    elif code == 66:
        # Records before record 0 hold 0, so the sum stops at record 0.
        total = sum(near(back(k) ** 2, E9) for k in range(min(device.k, step + 1)))
        y = isqrt(near(total, device.k) * E9)
    else:
        raise AssertionError(code)
    return s, kept(y)


class Control:
    """The control's part of a step."""

    def __init__(self, case: Case):
        self.case = case
        self.devices = {}
        for extra in case.extras:
            if hasattr(extra, "code"):
                self.devices[extra.var] = DeviceState()
        self.block_vars = [block.var for block in case.blocks]
        self.place = {var: at for at, var in enumerate(self.block_vars)}
        # State, E(0) to E(N-1) and Y(1) to Y(N) of each block (Y at place j-1).
        self.states = [(FREE, [0] * b.order, [0] * b.order) for b in case.blocks]

    def matrix(self):
        """The matrix of the blocks for the next step, by the limiter states of the last record."""
        rows = []
        for at, block in enumerate(self.case.blocks):
            row = {at: E12}
            if self.states[at][0] == FREE:
                for var, minus in block.inputs:
                    if var in self.place:
                        column = self.place[var]
                        row[column] = row.get(column, 0) + (block.k if minus else -block.k)
            rows.append(clean(row))
        return rows

    def chain(self, at):
        """H(1) to H(N) (at place j-1) and h of a block for the next step."""
        _, e, y = self.states[at]
        order = len(e)
        found = []
        for j in range(order):
            if j == 0:
                found.append(y[0] - e[0])
            else:
                found.append(y[j] + y[j - 1] - e[j] + found[j - 1])
        h = near(-found[-1], E9) if order else 0
        return found, h

    def bound(self, bound, values):
        """The number of a limit, or None."""
        if bound is None:
            return None
        return bound[1] if bound[0] == "fixed" else values[bound[1]]

    def network_values(self, source: Source, record) -> int:
        """What a source measures of the network's step."""
        if source.shape == "voltage":
            return record.volts[source.node]
        if source.shape == "current":
            return record.switch_currents[source.switch]
        return E9 if record.states[source.switch] == "closed" else 0

    def extras(self, groups: tuple[int, ...], step: int, values: list[int]) -> None:
        """The formulas and devices of these groups, card by card."""
        run = self.case.run
        for extra in self.case.extras:
            if extra.group not in groups:
                continue
            try:
                if hasattr(extra, "code"):
                    state = self.devices[extra.var]
                    s, y = device_step(extra, state, step, run, values)
                    state.s.append(s)
                    state.y = y
                    values[extra.var] = y
                else:
                    names = self.case.vars
                    values[extra.var] = evaluate(extra.expr, lambda name: values[names.index(name)])
            except OutOfRange:
                raise TacsEnd(extra.var) from None

    def step(self, step: int, one, new) -> None:
        """Fills `new.tacs`; `new.volts` and so on are of this step. Raises TacsEnd."""
        case = self.case
        run = case.run
        values = list(one.tacs)
        values[0:6] = [near(step * run.dt, 1000), step * E9, near(run.dt, 1000), 0, E9, -E9]
        for source in case.tacs_sources:
            if source.shape in ("voltage", "current", "state"):
                values[source.var] = self.network_values(source, new)
            else:
                values[source.var] = value(source, step, run, None)
        self.extras((99,), step, values)
        if case.blocks:
            self.blocks(values)
        self.extras((88, 98), step, values)
        new.tacs = values

    def blocks(self, values):
        """The block system and the limiters; `values` holds present values where they were computed."""
        case = self.case
        matrix, rhs, chains, limits = self.matrix(), [], [], []
        for at, block in enumerate(case.blocks):
            found, h = self.chain(at)
            chains.append((found, h))
            low, high = self.bound(block.low, values), self.bound(block.high, values)
            limits.append((low, high))
            state = self.states[at][0]
            if state == FREE:
                s0 = sum(-values[var] if minus else values[var] for var, minus in block.inputs if var not in self.place)
                rhs.append(near(block.k * s0, E12) + h)
            else:
                rhs.append(high if state == HIGH else low)
        try:
            x = eliminate(matrix, rhs)
        except RowFault as fault:
            raise TacsEnd(self.block_vars[fault.row], fault.cause == "ZEROPIVOT") from None
        except SolveFault as fault:
            raise TacsEnd(self.block_vars[fault.row]) from None
        solved = list(values)
        for var, x_of in zip(self.block_vars, x):
            solved[var] = x_of
        new_states, recorded_values = [], []
        faulty = None
        for at, block in enumerate(case.blocks):
            state = self.states[at][0]
            found, h = chains[at]
            low, high = limits[at]

            def drive(seen):
                s = sum(-seen[var] if minus else seen[var] for var, minus in block.inputs)
                return near(block.gain * s, E12)

            z = x[at] if state == FREE else near(block.c * drive(solved), E12) + h
            if high is not None and z > high:
                new_state, limit = HIGH, high
            elif low is not None and z < low:
                new_state, limit = LOW, low
            else:
                new_state, limit = FREE, z
            recorded = limit if state == FREE else x[at]
            own = list(solved)
            own[block.var] = recorded
            u = drive(own)
            e, y = [], []
            for j in range(block.order):
                e.append(near(block.n[j] * u, 1000) - near(block.d[j] * recorded, 1000))
                y.append(found[j] - sum(e))
            if block.order and recorded != z:
                top = block.order
                y[-1] = near(block.n[top] * u, 1000) - near(block.d[top] * recorded, 1000)
            if faulty is None and (abs(u) > E18 or any(abs(number) > E36 for number in y)):
                faulty = block.var
            new_states.append((new_state, e, y))
            recorded_values.append(recorded)
        if faulty is not None:
            raise TacsEnd(faulty)
        self.states = new_states
        for var, number in zip(self.block_vars, recorded_values):
            values[var] = number
