"""The cards of the control (TACS). docs/control.md says what each means, and in which order they are computed."""

import typing

from . import columns, fields, formula
from .columns import Card, Field
from .draft import STANDING, CaseError, Draft, Source, Variable, Written, writes

MOST_CARDS = 200  # blocks, sources, supplemental cards, of each
GROUPS = (99, 88, 98)
# the devices: what they want besides their inputs
NEEDS_D = (51, 52, 60)
Inputs = str | typing.Sequence[str | tuple[str, str]]
Limit = float | str | None


class Control:
    """Writes the cards of the control; each but `output` defines the variable `name`, of six characters at most.

    Inputs are names of variables, of which a "-" in front turns the sign: "A", ["A", "-B"]; a pair ("-", "NAME") does
    the same for a name that itself begins with a sign. Of supplemental cards, formulas and devices, `group` is 99
    (computed before the blocks) or 98 or 88 (behind them). A name reads the value of this step where it was computed
    before, else the last one.
    """

    def __init__(self, draft: Draft) -> None:
        self._draft = draft

    # ---- sources

    @writes
    def step(self, name: str, amplitude: float, *, start_s: float = 0.0, stop_s: float | None = None) -> None:
        """A constant from `start_s` to `stop_s`."""
        self._source(11, name, amplitude, (), {}, start_s, stop_s)

    @writes
    def cosine(
        self,
        name: str,
        amplitude: float,
        *,
        hz: float,
        phase_deg: float = 0.0,
        start_s: float = 0.0,
        stop_s: float | None = None,
    ) -> None:
        """amplitude cos(2 pi hz t + phase), t from the start of the case."""
        self._draft.sampled(name, hz)
        self._source(14, name, amplitude, (), {"frequency": hz, "phase": phase_deg}, start_s, stop_s)

    @writes
    def pulses(
        self,
        name: str,
        amplitude: float,
        *,
        period_s: float,
        width_s: float,
        start_s: float = 0.0,
        stop_s: float | None = None,
    ) -> None:
        """The amplitude for `width_s` at the begin of each period, else 0."""
        others = (columns.PERIOD, columns.PULSE_WIDTH)
        self._source(23, name, amplitude, others, {"period": period_s, "width": width_s}, start_s, stop_s)

    @writes
    def sawtooth(
        self, name: str, amplitude: float, *, period_s: float, start_s: float = 0.0, stop_s: float | None = None
    ) -> None:
        """Rises from 0 to the amplitude in each period, from `start_s` on."""
        self._source(24, name, amplitude, (columns.PERIOD,), {"period": period_s}, start_s, stop_s)

    @writes
    def voltage(self, node: str) -> None:
        """The variable of the node's name is its voltage, in V."""
        self._source(90, node, None, (), {}, 0.0, None)

    @writes
    def current(self, node: str) -> None:
        """The variable of the node's name is the current of the first switch at the node, from its a to its b, in A."""
        self._source(91, node, None, (), {}, 0.0, None)

    @writes
    def state(self, node: str) -> None:
        """The variable of the node's name is the state of the first switch at the node: 1 closed, 0 open."""
        self._source(93, node, None, (), {}, 0.0, None)

    def _source(
        self,
        kind: int,
        name: str,
        amplitude: float | None,
        others: tuple[Field, ...],
        values: dict[str, float],
        start_s: float,
        stop_s: float | None,
    ) -> None:
        card = columns.with_fields(columns.TACS_SOURCE, *others)
        texts = {"type": str(kind), "name": self._new(name)}
        if amplitude is not None:
            texts |= {"amplitude": self._number(card, "amplitude", amplitude, name)}
            texts |= self._draft.times(start_s, stop_s, name)
        texts |= {field: self._number(card, field, value, name) for field, value in values.items()}
        contents = self._draft.contents
        self._draft.bounded(contents.control_sources, MOST_CARDS, "sources of the control")
        contents.control_sources.append(Source(kind, name, False, self._draft.written(card, texts)))

    # ---- blocks

    @writes
    def block(
        self,
        name: str,
        inputs: Inputs,
        *,
        gain: float = 1.0,
        numerator: typing.Sequence[float] = (1.0,),
        denominator: typing.Sequence[float] = (1.0,),
        low: Limit = None,
        high: Limit = None,
    ) -> None:
        """A transfer function gain * (n0 + n1 s + ..) / (d0 + d1 s + ..), of order 7 at most, with limits.

        `numerator` and `denominator` are the coefficients of the powers of s from 0 on. A limit is a number, or the
        name of a variable. A block of order 0 is its gain.
        """
        order = max(len(numerator), len(denominator)) - 1
        if not 0 <= order <= 7:
            raise CaseError(f"a block is of order 0 to 7, and here of order {order}")
        if order == 0 and (list(numerator), list(denominator)) != ([1.0], [1.0]):
            raise CaseError("a block of order 0 is its gain alone")
        if not gain:
            raise CaseError("a gain of 0 is read as 1; a block that is 0 isn't needed")
        card = columns.BLOCK
        if order and fields.fitted(gain, card.field("gain")).loss > fields.KEEPS:
            numerator, gain = [gain * it for it in numerator], 1.0  # whose fields have more columns
        texts = {"order": str(order) if order else "", "name": self._new(name)} | self._inputs(card, inputs)
        texts["gain"] = "" if gain == 1 else self._number(card, "gain", gain, name)
        limits = {side: self._limit(side, limit, name) for side, limit in (("low", low), ("high", high))}
        for found, _, _ in limits.values():
            texts |= found
        least, most = (limits[side][2] for side in ("low", "high"))
        if least is not None and most is not None and least > most:
            raise CaseError(f"the low limit, {low}, is above the high one, {high}")
        cards = [self._draft.written(card, texts)]
        if order:
            cards += [self._coefficients(it, name) for it in (numerator, denominator)]
        reads = self._read(inputs) + tuple(limits[side][1] for side in limits if limits[side][1])
        self._draft.bounded(self._draft.contents.blocks, MOST_CARDS, "blocks")
        self._draft.contents.blocks.append(Variable(name, cards, reads))

    def _limit(self, side: str, limit: Limit, name: str) -> tuple[dict[str, str], str, int | None]:
        """The field of a limit; the variable that it names; the number that is kept of it."""
        if limit is None:
            return {}, "", None
        if isinstance(limit, str):
            return (
                {f"{side} limit's name": fields.named(limit, columns.BLOCK.field(f"{side} limit's name"))},
                limit,
                None,
            )
        found = self._draft.number(columns.BLOCK, f"{side} limit", limit, name)
        return {f"{side} limit": found.text}, "", found.kept

    def _coefficients(self, values: typing.Sequence[float], name: str) -> Written:
        card = columns.COEFFICIENTS
        texts = {
            f"power {power}": self._number(card, f"power {power}", value, name) for power, value in enumerate(values)
        }
        return self._draft.written(card, texts)

    # ---- supplemental cards

    @writes
    def formula(self, name: str, text: str, *, group: int = 98) -> None:
        """The variable is what the formula says, as "TRIP .OR. (ABS(I) .GT. 400.)"; docs/control.md has the grammar.

        Its words may be parted by blanks; without them it has 69 characters at most.
        """
        place = columns.FORMULA.field("expression")
        if not isinstance(text, str):
            raise CaseError(f"a formula is a text, and here {text!r}")
        try:
            found = formula.read(text)
        except formula.FormulaError as fault:
            raise CaseError(f"{fault}, at character {fault.at} of {text!r}") from None
        laid = formula.laid(text, place.width)
        if len(laid) > place.width:
            raise CaseError(
                f"the formula has {len(laid)} characters, and a card {place.width}: compute a part before it"
            )
        texts = {"type": self._group(group), "name": self._new(name), "expression": laid}
        self._extra(Variable(name, [self._draft.written(columns.FORMULA, texts)], found.names))

    @writes
    def gate(
        self, name: str, inputs: Inputs, *, by: str, above: float = 0.0, outside: bool = False, group: int = 98
    ) -> None:
        """The inputs' sum where the magnitude of `by` is above a level, else 0; with `outside` the other way round."""
        self._device(51, name, inputs, a=above, b=float(outside), d=by, group=group)

    @writes
    def level_gate(
        self, name: str, inputs: Inputs, *, by: str, above: float = 0.0, outside: bool = False, group: int = 98
    ) -> None:
        """As `gate`, by the value of `by` itself."""
        self._device(52, name, inputs, a=above, b=float(outside), d=by, group=group)

    @writes
    def delay(self, name: str, inputs: Inputs, *, time_s: float, group: int = 98) -> None:
        """The inputs' sum of a time before, 0 before the start."""
        self._device(53, name, inputs, a=time_s, group=group)

    @writes
    def delayed_pulse(self, name: str, inputs: Inputs, *, time_s: float, group: int = 98) -> None:
        """1 where the inputs' sum was above 0 a time before, else 0."""
        self._device(54, name, inputs, a=time_s, group=group)

    @writes
    def table(
        self, name: str, inputs: Inputs, *, points: typing.Sequence[tuple[float, float]], group: int = 98
    ) -> None:
        """Straight lines through 2 to 64 points of input and output; inputs rise strictly; flat beyond both ends."""
        self._device(56, name, inputs, points=points, group=group)

    @writes
    def window(
        self, name: str, inputs: Inputs, *, times_s: typing.Sequence[tuple[float, float]], group: int = 98
    ) -> None:
        """The inputs' sum within 1 to 64 windows (close, open) in time, else 0."""
        self._device(57, name, inputs, points=times_s, group=group)

    @writes
    def integral(self, name: str, inputs: Inputs, *, run: str = "", reset: str = "", group: int = 98) -> None:
        """The integral over time in s, while `run` is above 0 (always without it); 0 where `reset` is above 0."""
        self._device(58, name, inputs, d=run, e=reset, group=group)

    @writes
    def derivative(self, name: str, inputs: Inputs, *, group: int = 98) -> None:
        """The change a step over the step in s."""
        self._device(59, name, inputs, group=group)

    @writes
    def selector(self, name: str, inputs: Inputs, *, by: str, at: float = 0.0, group: int = 98) -> None:
        """The first, second or third input, as `by` is below, equal to or above `at`; a missing one is 0."""
        self._device(60, name, inputs, a=at, d=by, group=group)

    @writes
    def sample_hold(self, name: str, inputs: Inputs, *, sample: str = "", group: int = 98) -> None:
        """The inputs' sum while `sample` is above 0 (always without it), else the last value."""
        self._device(62, name, inputs, d=sample, group=group)

    @writes
    def extreme(self, name: str, inputs: Inputs, *, least: bool = False, group: int = 98) -> None:
        """The greatest of the inputs, or the least."""
        self._device(63, name, inputs, a=-float(least), group=group)

    @writes
    def peak_hold(self, name: str, inputs: Inputs, *, least: bool = False, reset: str = "", group: int = 98) -> None:
        """The greatest, or the least, sum of the inputs since the first step or since `reset` was above 0."""
        self._device(64, name, inputs, a=-float(least), d=reset, group=group)

    @writes
    def counter(self, name: str, inputs: Inputs, *, reset: str = "", group: int = 98) -> None:
        """The sum over the steps of the inputs' sum; 0 where `reset` is above 0."""
        self._device(65, name, inputs, d=reset, group=group)

    @writes
    def effective(self, name: str, inputs: Inputs, *, hz: float, group: int = 98) -> None:
        """The root of the mean of the square over the last period of `hz`."""
        self._device(66, name, inputs, a=hz, group=group)

    @writes
    def device(
        self,
        code: int,
        name: str,
        inputs: Inputs,
        *,
        a: float = 0.0,
        b: float = 0.0,
        c: float = 0.0,
        d: str = "",
        e: str = "",
        points: typing.Sequence[tuple[float, float]] = (),
        group: int = 98,
    ) -> None:
        """A device by its code and its fields A to E; the methods above name what these are for each code."""
        if code not in columns.CODES:
            raise CaseError(f"a device is of code {', '.join(map(str, columns.CODES))}, and here {code}")
        self._device(code, name, inputs, a=a, b=b, c=c, d=d, e=e, points=points, group=group)

    def _device(
        self,
        code: int,
        name: str,
        inputs: Inputs,
        *,
        a: float = 0.0,
        b: float = 0.0,
        c: float = 0.0,
        d: str = "",
        e: str = "",
        points: typing.Sequence[tuple[float, float]] = (),
        group: int = 98,
    ) -> None:
        card = columns.with_fields(
            columns.DEVICE, *{53: (columns.DELAY,), 54: (columns.DELAY,), 66: (columns.FREQUENCY,)}.get(code, ())
        )
        if code in NEEDS_D and not d:
            raise CaseError(f"a device of code {code} goes by a variable (D)")
        texts = {"type": self._group(group), "name": self._new(name), "code": str(code)} | self._inputs(card, inputs)
        kept = {}
        for field, value in (("A", a), ("B", b), ("C", c)):
            found = self._draft.number(card, field, value, name)
            kept[field] = found.kept
            texts[field] = found.text if found.kept or (code == 66 and field == "A") else ""
        texts |= {field: fields.named(value, card.field(field)) for field, value in (("D", d), ("E", e)) if value}
        cards = [self._draft.written(card, texts), *self._points(code, points)]
        reads = self._read(inputs) + tuple(it for it in (d, e) if it)
        self._extra(Variable(name, cards, reads, self._past(code, kept["A"])))

    def _past(self, code: int, a: int) -> int:
        """How many values of the past a device keeps, for its A as it is kept."""
        dt = self._draft.dt_ps
        if code in (53, 54):
            return (2 * a + dt) // (2 * dt) + 1
        return max(1, round(10**18 / (a * dt))) if code == 66 else 0

    def _points(self, code: int, points: typing.Sequence[tuple[float, float]]) -> list[Written]:
        """The cards of the points of a table, or of the times of a window."""
        draft = self._draft
        if code not in (56, 57):
            if len(points):
                raise CaseError(f"a device of code {code} has no points")
            return []
        names = ("input", "output") if code == 56 else ("close", "open")
        kept = draft.pairs(columns.TABLE_POINT if code == 56 else columns.WINDOW_TIMES, names, points, 58 - code, 64)
        before: int | None = None
        for number, ((first, second), _) in enumerate(kept, 1):
            if code == 56 and before is not None and first <= before:
                raise CaseError(f"point {number}: inputs have to rise from point to point")
            if code == 57 and not (before or 0) <= first < second:
                raise CaseError(f"window {number} has to close before it opens, and not before the one before opens")
            before = first if code == 56 else second
        return [written for _, written in kept] + [draft.ending()]

    # ---- outputs

    @writes
    def output(self, *names: str) -> None:
        """These variables are channels of the record, `T NAME`, in this order."""
        self._draft.contents.control = True
        self._draft.ask(self._draft.contents.control_outputs, names)

    # ---- what several cards have

    def _new(self, name: str) -> str:
        """A name for a variable that isn't there yet."""
        fields.named(name, columns.TACS_SOURCE.field("name"))
        if name in STANDING:
            raise CaseError(f"{name} is a variable of every case, and no card defines it")
        contents = self._draft.contents
        if name in contents.variables:
            maker, call = contents.variables[name], self._draft.call
            by = f", made by {maker}" if maker else ""
            at_switch = call is not None and call.name in ("current", "state")
            cure = "name the other end of the switch" if at_switch else "take another name"
            raise CaseError(f"the variable {name} is there already{by}; {cure}")
        self._draft.free(name)
        contents.variables[name] = self._draft.call
        contents.control = True
        return name

    def _number(self, card: Card, field: str, value: float, name: str) -> str:
        """The text of a field, blank where it is 0 and a blank is 0."""
        found = self._draft.number(card, field, value, name)
        return found.text if found.kept or card.field(field).blank != "0" else ""

    def _inputs(self, card: Card, inputs: Inputs) -> dict[str, str]:
        """The fields of up to five inputs."""
        pairs = _signed(inputs)
        if len(pairs) > 5:
            raise CaseError(f"there are five inputs at most, and here {len(pairs)}")
        texts = {}
        for number, (sign, name) in enumerate(pairs, 1):
            texts[f"sign {number}"] = sign
            texts[f"input {number}"] = fields.named(name, card.field(f"input {number}"))
        return texts

    def _read(self, inputs: Inputs) -> tuple[str, ...]:
        return tuple(name for _, name in _signed(inputs))

    def _group(self, group: int) -> str:
        if group not in GROUPS:
            raise CaseError(f"a supplemental card is of group 99, 88 or 98, and here {group}")
        return str(group)

    def _extra(self, variable: Variable) -> None:
        contents = self._draft.contents
        self._draft.bounded(contents.extras, MOST_CARDS, "formulas and devices")
        contents.extras.append(variable)


def _signed(inputs: Inputs) -> list[tuple[str, str]]:
    """The inputs as signs and names."""
    found = []
    for one in [inputs] if isinstance(inputs, str) else inputs:
        if isinstance(one, str):
            one = (one[:1], one[1:].strip(" ")) if one[:1] in ("+", "-") else ("+", one)
        if len(one) != 2 or one[0] not in ("+", "-"):
            raise CaseError(f"an input is a name, or a pair of a sign and a name, and here {one!r}")
        found.append((one[0], one[1]))
    return found
