"""A deck of cards read: `deck(bytes)` is a Case, or Bad(line, column, why).

Faults of form are raised as soon as the line that has them is read, since the first line with one decides. Faults of
sense, which speak of names and counts, are gathered and judged at the end: the one of the first line, and there of the
least column and number.
"""
from . import cards as c
from .cards import BLANK, FAULTY, REFUSE, Bad, Fields, comment, ends_section, fine, line_fault
from .case import Block, Case, Device, Formula, Lumped, Phase, Pseudo, Record, RunData, Source, Switch, TravelLine, Trio
from .expr import Column, parse
from .fix import E9, E12, E15, E17, E18, isqrt, near

MAX_NODES = 1000
MAX_BRANCHES = 5000
MAX_SWITCHES = 500
MAX_SOURCES = 500
MAX_BLOCKS = 200
MAX_TACS_SOURCES = 200
MAX_EXTRAS = 200
MAX_POINTS = 64
MAX_CHANNELS = 64
MAX_STEPS = 1_000_000
MAX_STORED = 4_000_000
MAX_HISTORY = 2_000_000
WAY = 8 * 10**25

SIX = [b"TIMEX", b"ISTEP", b"DELTAT", b"ZERO", b"PLUS1", b"MINUS1"]
CODES = (51, 52, 53, 54, 56, 57, 58, 59, 60, 62, 63, 64, 65, 66)


class OutOfLines(Exception):
    """The lines of the case ended where more was due."""


def series_z(r: int, l: int, cap: int, dt: int) -> int:
    """The impedance that a series branch has in a step, in micro-ohm."""
    zl = near(2 * l * E9, dt) if l else 0
    zc = near(dt * E9, 2 * cap) if cap else 0
    return r + zl + zc


class Deck:
    """The lines of a case, and what was read of them."""

    def __init__(self, data: bytes):
        self.lines = c.split(data)
        self.at = 0
        self.sense = []  # (line, column, reason)
        self.run = None  # dt, steps, every, tolerance
        self.second_line = None
        self.tolerance = 10_000_000
        self.block_cards, self.tacs_source_cards, self.extra_cards = [], [], []
        self.tacs_outputs, self.branch_cards, self.switch_cards = [], [], []
        self.source_cards, self.outputs = [], []

    # ---- lines ----

    def peek(self):
        """The next line that isn't a comment, or None."""
        while self.at < len(self.lines) and comment(self.lines[self.at].text):
            self.at += 1
        return self.lines[self.at] if self.at < len(self.lines) else None

    def take(self):
        """The next line that isn't a comment, taken."""
        line = self.peek()
        if line is None:
            raise OutOfLines()
        self.at += 1
        return line

    def bytes_of(self, line):
        """Judges the bytes of a line that isn't a comment and doesn't end a section."""
        fault = line_fault(line.text)
        if fault is not None:
            raise Bad(line.number, fault[0], fault[1])

    def due(self):
        """A card that is due whatever the line: bytes are judged but on lines that end a section."""
        line = self.take()
        if not ends_section(line.text):
            self.bytes_of(line)
        return line

    def card(self):
        """The next card of a section, or None where a line ends the section."""
        line = self.take()
        if ends_section(line.text):
            return None
        self.bytes_of(line)
        return line

    # ---- sections ----

    def read(self) -> Case:
        """The Case, or Bad; where the lines end too early, that is a fault of sense."""
        try:
            self.sections()
        except OutOfLines:
            self.sense.append((len(self.lines) + 1, 1, c.MISSING_SECTION))
        return self.judge_sense()

    def sections(self):
        """All sections in their order."""
        while True:
            line = self.card()
            if line is None:
                continue
            if line.text.startswith(b"BEGIN NEW DATA CASE"):
                break
            raise Bad(line.number, 1, c.BAD_ORDER)
        self.miscellaneous()
        line = self.peek()
        if line is not None and line.text.startswith(b"TACS HYBRID"):
            self.card()
            self.tacs()
        self.branches()
        self.each(self.switch)
        self.each(self.source)
        self.each(self.output)
        seen = False
        while self.peek() is not None:
            line = self.card()
            if line is None:
                continue
            if line.text.startswith(b"BEGIN NEW DATA CASE") and not seen:
                seen = True
                continue
            raise Bad(line.number, 1, c.BAD_ORDER)

    def each(self, reader):
        """The cards of a section up to the line that ends it."""
        while True:
            line = self.card()
            if line is None:
                return
            reader(line)

    def miscellaneous(self):
        """The card of the tolerance, where there is one, and the two miscellaneous cards."""
        line = self.take()
        if line.text.startswith(b"RESIDUAL TOLERANCE"):
            self.bytes_of(line)
            f = Fields(line)
            self.tolerance = f.number(25, 32, 9, 0, E12, REFUSE)
            f.judge()
            line = self.take()
            if line.text.startswith(b"RESIDUAL TOLERANCE"):
                self.bytes_of(line)
                raise Bad(line.number, 1, c.BAD_ORDER)
        if ends_section(line.text):
            raise Bad(line.number, 1, c.OUT_OF_UNIT_RANGE)
        self.bytes_of(line)
        f = Fields(line)
        dt = f.number(1, 8, 12, 1000, E12, REFUSE)
        tmax = f.number(9, 16, 12, 1, E18, REFUSE)
        f.number(17, 24, 0, 0, 0, 0)
        f.number(25, 32, 0, 0, 0, 0)
        steps = 0
        if fine(dt, tmax):
            steps = near(tmax, dt)
            if not 1 <= steps <= MAX_STEPS:
                f.fault(9, c.OUT_OF_UNIT_RANGE)
        f.judge()
        line = self.take()
        every = 0
        if not ends_section(line.text):
            self.bytes_of(line)
            f = Fields(line)
            f.whole(1, 8, 0)
            every = f.whole(9, 16, 0, 0, 1_000_000)
            f.judge()
        self.second_line = line.number
        self.run = RunData(dt=dt, steps=steps, every=every or 1, tolerance=self.tolerance)

    # ---- network cards ----

    def branches(self):
        """The branch cards; the second and third card of a three-phase line stand right behind the one before."""
        wide = False
        before = None  # the type of the card just before, where it was a branch
        while True:
            line = self.take()
            if ends_section(line.text):
                if before == -2:
                    raise Bad(line.number, 1, c.BAD_ORDER)
                return
            self.bytes_of(line)
            if line.text.startswith(b"$VINTAGE"):
                if before == -2:
                    raise Bad(line.number, 1, c.BAD_ORDER)
                wide = self.vintage(line)
                before = None
                continue
            before = self.branch(line, wide, before)

    def vintage(self, line):
        """Whether series cards have wide fields from here on."""
        text = line.text[:80].ljust(80, b" ")
        rest = text[9:].strip(b" ")
        if text[8:9] != b"," or rest not in (b"0", b"1"):
            raise Bad(line.number, 9, c.BAD_TYPE)
        return rest == b"1"

    def branch(self, line, wide, before):
        """One branch card, with its points; answers its type."""
        f = Fields(line)
        kind = f.kind(1, 2, 0, (0, -1, -2, -3, 98, 99))
        f.judge()
        if before == -2 and kind != -3 or kind == -3 and before != -2 or kind == -2 and before != -1:
            raise Bad(line.number, 1, c.BAD_ORDER)
        start, end = self.two_ends(f)
        asked = f.asked()
        card = Record(
            line=line.number, kind=kind, start=start, end=end, asked=asked, copies=None, values=None, points=None
        )
        if kind != -3 and f.field(15, 26) != b"":
            card.copies = (f.name(15), f.name(21))
        elif kind == 0:
            card.values = self.series_values(f, wide)
        elif kind in (-1, -2):
            card.values = self.line_values(f)
        elif kind == 99:
            for first in (27, 33, 39):
                f.number(first, first + 5, 0, 0, 0, 0)
        f.judge()
        self.branch_cards.append(card)  # it was read, also where its points are cut off
        if kind in (98, 99) and card.copies is None:
            card.points = self.branch_points(kind)
        return kind

    def two_ends(self, f):
        """The two names of a branch or switch, which differ."""
        start, end = f.name(3), f.name(9)
        if fine(start, end) and start == end:
            f.fault(9, c.BAD_NAME)
        return start, end

    def series_values(self, f, wide):
        """R, L and C of a series card."""
        places = ((27, 42), (43, 58), (59, 74)) if wide else ((27, 32), (33, 38), (39, 44))
        r = f.number(*places[0], 6, 0, E15, 0)
        l = f.number(*places[1], 6, 0, E15, 0)
        cap = f.number(*places[2], 9, 0, E15, 0)
        if fine(r, l, cap):
            if not 10 <= series_z(r, l, cap, self.run.dt) <= E15:
                f.fault(27, c.BAD_IMPEDANCE)
        return (r, l, cap)

    def line_values(self, f):
        """zc, r and delay of a line card; a rule is judged where all its fields were read."""
        per_length = f.number(27, 32, 6, 0, E12, 0)
        length = f.number(45, 50, 6, 1, E12, REFUSE)
        iline = f.whole(51, 52, 0, 0, 2)
        a = b = FAULTY
        zc = delay = r = FAULTY
        # A blank A or B is 0 and so out of its range.
        if iline == 0:
            a = f.number(33, 38, 6, 1, E12, REFUSE)
            b = f.number(39, 44, 9, 1, E12, REFUSE)
            if fine(a, b):
                zc = isqrt(near(a * E18, b))
                if fine(length):
                    delay = near(length * isqrt(a * b * 10**6), E9)
        elif iline == 1:
            a = f.number(33, 38, 6, 10, E15, REFUSE)
            b = f.number(39, 44, 6, 1, E18, REFUSE)
            zc = a
            if fine(b, length):
                delay = near(length * E12, b)
        elif iline == 2:
            a = f.number(33, 38, 6, 10, E15, REFUSE)
            b = f.number(39, 44, 12, 1, E18, REFUSE)
            zc = a
            delay = b
        if fine(per_length, length):
            r = near(per_length * length, 10**6)
        # One rule of several fields: it is judged where all that zc and r come from were read.
        if fine(zc, r) and not (10 <= zc <= E15 and 10 <= zc + near(r, 4) <= E15 and r <= E15):
            f.fault(33, c.BAD_IMPEDANCE)
        if fine(delay):
            if delay > E18:
                f.fault(39, c.OUT_OF_UNIT_RANGE)
            elif delay < self.run.dt:
                f.fault(39, c.SHORT_LINE)
        return (zc, r, delay)

    def pairs(self, scales, lows, fewest, rule):
        """Point cards or cards of times up to the ending card.

        `rule(fields, first, second, found)` adds the faults of a pair that was read well.
        """
        found = []
        while True:
            line = self.due()
            f = Fields(line)
            first = f.number(1, 16, scales[0], lows[0], E18, BLANK)
            if first == 9999 * 10 ** scales[0]:
                if len(found) < fewest:
                    f.refuse(1, c.BAD_POINTS)
                return found
            if len(found) == MAX_POINTS:
                f.fault(1, c.BAD_POINTS)
            second = f.number(17, 32, scales[1], lows[1], E18, BLANK)
            if first is BLANK:
                f.fault(1, c.BAD_POINTS)
            if second is BLANK:
                f.fault(17, c.BAD_POINTS)
            rule(f, None if first in (BLANK, FAULTY) else first, None if second in (BLANK, FAULTY) else second, found)
            f.judge()
            found.append((first, second))

    def branch_points(self, kind):
        """The points of a pseudo-nonlinear branch: both numbers rise, and each segment has a conductance in range."""

        def rule(f, first, second, found):
            before = found[-1] if found else (0, 0)
            if first is not None and first <= before[0]:
                f.fault(1, c.BAD_POINTS)
                first = None
            if second is not None and second <= before[1]:
                f.fault(17, c.BAD_POINTS)
                second = None
            if first is None or second is None:
                return
            di, dy = first - before[0], second - before[1]
            if kind == 99:
                good = 10 <= near(dy * 10**6, di) <= E15
            else:
                good = 1 <= near(self.run.dt * di * 1000, 2 * dy) <= E17
            if not good:
                f.fault(1, c.BAD_POINTS)

        return self.pairs((9, 9 if kind == 99 else 12), (1, 1), 1, rule)

    def switch(self, line):
        """One switch card."""
        f = Fields(line)
        kind = f.kind(1, 2, 0, (0, 11, 13))
        f.judge()
        start, end = self.two_ends(f)
        card = Record(line=line.number, start=start, end=end, control=b"", asked=f.asked())
        if kind == 0:
            word = f.field(55, 64)
            if word == b"MEASURING":
                card.kind = "measuring"
            else:
                card.kind = "time"
                if word != b"":
                    f.fault(55, c.BAD_NAME)
                card.close = f.number(15, 24, 12, -E18, E18, 0, held=True)
                card.open_at = f.number(25, 34, 12, -E18, E18, None, held=True)
                card.margin = f.number(35, 44, 9, 0, E18, 0)
        elif kind == 11:
            card.kind = "valve"
            card.ignition = f.number(15, 24, 9, 0, E18, 0)
            card.holding = f.number(25, 34, 9, 0, E18, 0)
            card.control = f.name(65)
        else:
            card.kind = "control"
            card.control = f.needed_name(65)
        f.judge()
        self.switch_cards.append(card)

    def cosine_fields(self, f, card):
        """Frequency and phase of a cosine; its phase is kept as a part of a turn."""
        card.freq = f.number(21, 30, 6, 0, 10**13, 0)
        degrees = f.number(31, 40, 9, -E15, E15, 0)
        f.number(41, 50, 0, 0, 0, 0)
        if fine(degrees):
            card.phase = near(degrees * E9, 360) % E18

    def start_and_stop(self, f, card):
        """From when to when a source stands; a stop of 0 is none."""
        card.start = f.number(61, 70, 12, -E18, E18, 0, held=True)
        card.stop = f.number(71, 80, 12, 0, E18, 0, held=True)
        if card.stop == 0:
            card.stop = None

    def source(self, line):
        """One source card."""
        f = Fields(line)
        kind = f.kind(1, 2, None, (11, 12, 14, 60))
        f.judge()
        sign = f.whole(9, 10, 0)
        card = Record(line=line.number, kind=kind, name=f.needed_name(3), amplitude=0)
        card.current = fine(sign) and sign < 0
        if kind != 60:
            card.amplitude = f.number(11, 20, 9, -E18, E18, 0)
        if kind == 12:
            card.rise = f.number(31, 40, 12, 1, E18, REFUSE)
        if kind == 14:
            self.cosine_fields(f, card)
        self.start_and_stop(f, card)
        f.judge()
        self.source_cards.append(card)

    def thirteen(self, f):
        """The names of an output card, with their columns."""
        names = []
        for first in range(3, 76, 6):
            name = f.name(first)
            if fine(name) and name != b"":
                names.append((first, name))
        return names

    def output(self, line):
        """One output card of the network: names, or all nodes."""
        f = Fields(line)
        mark = f.kind(1, 2, 0, (0, 1))
        f.judge()
        names = None if mark == 1 else self.thirteen(f)
        f.judge()
        self.outputs.append((line.number, names))

    # ---- cards of the control ----

    def tacs(self):
        """The sections of the control: blocks, sources, formulas and devices, outputs, and an empty one."""
        self.each(self.block)
        self.each(self.tacs_source)
        self.each(self.extra)
        self.each(self.tacs_output)
        line = self.card()
        if line is not None:
            raise Bad(line.number, 1, c.BAD_ORDER)

    def inputs(self, f):
        """The signed inputs that have a name: (column, minus, name)."""
        found = []
        for first in (11, 19, 27, 35, 43):
            sign = f.raw(first, first)
            if sign not in (b" ", b"+", b"-"):
                f.fault(first, c.BAD_TYPE)
            name = f.name(first + 1)
            if fine(name) and name != b"":
                found.append((first + 1, sign == b"-", name))
        return found

    def block(self, line):
        """One block, with the two cards of its coefficients where its order isn't 0."""
        f = Fields(line)
        order = f.whole(1, 2, 0, 0, 7)
        card = Record(line=line.number, order=order, name=f.needed_name(3))
        card.inputs = self.inputs(f)
        card.gain = f.number(51, 56, 12, -E18, E18, 0) or E12
        low = f.number(57, 62, 9, -E18, E18, None)
        high = f.number(63, 68, 9, -E18, E18, None)
        low_name, high_name = f.name(69), f.name(75)
        if fine(low, high, low_name, high_name) and low_name == b"" and high_name == b"":
            if low is not None and high is not None and low > high:
                f.fault(57, c.OUT_OF_UNIT_RANGE)
        f.judge()
        card.low = ("named", low_name) if low_name else ("fixed", low) if low is not None else None
        card.high = ("named", high_name) if high_name else ("fixed", high) if high is not None else None
        card.top, card.bottom, card.c, card.k = [], [], E12, 0
        self.block_cards.append(card)  # it was read, also where the next two are cut off
        if order > 0:
            self.coefficients(card)
        card.k = near(card.gain * card.c, E12)
        if abs(card.k) > E18:
            raise Bad(line.number, 51, c.OUT_OF_UNIT_RANGE)

    def polynomial(self, order):
        """One numerator or denominator card: its line and the numbers P(j) or Q(j)."""
        line = self.due()
        f = Fields(line)
        found = []
        for power in range(order + 1):
            first = 10 * power + 1
            p = f.number(first, first + 9, 12, -E18, E18, 0)
            if fine(p):
                for _ in range(power):
                    p = near(p * 2 * E12, self.run.dt)
                    if abs(p) > WAY:
                        f.fault(first, c.OUT_OF_UNIT_RANGE)
                        break
            found.append(p)
        f.judge()
        return line.number, found

    def coefficients(self, card):
        """The numerator and denominator of a block, by the sum of the denominator."""
        top_line, q = self.polynomial(card.order)
        bottom_line, p = self.polynomial(card.order)
        total = sum(p)
        if total == 0:
            raise Bad(bottom_line, 1, c.OUT_OF_UNIT_RANGE)
        card.bottom = [near(x * E12, total) for x in p]
        card.top = [near(x * E12, total) for x in q]
        for line, numbers in ((bottom_line, card.bottom), (top_line, card.top)):
            for power, x in enumerate(numbers):
                if abs(x) > E18:
                    raise Bad(line, 10 * power + 1, c.OUT_OF_UNIT_RANGE)
        card.c = sum(card.top)

    def tacs_source(self, line):
        """One source of the control."""
        f = Fields(line)
        kind = f.kind(1, 2, None, (11, 14, 23, 24, 90, 91, 93))
        f.judge()
        card = Record(line=line.number, kind=kind, name=f.needed_name(3), amplitude=0, start=0, stop=None)
        if kind in (11, 14, 23, 24):
            card.amplitude = f.number(11, 20, 9, -E18, E18, 0)
            self.start_and_stop(f, card)
        if kind == 14:
            self.cosine_fields(f, card)
        if kind in (23, 24):
            card.period = f.number(21, 30, 12, 1, E18, REFUSE)
        if kind == 23:
            card.width = f.number(31, 40, 12, 1, E18, REFUSE)
        f.judge()
        self.tacs_source_cards.append(card)

    def extra(self, line):
        """One supplemental card: a formula, or a device with its points."""
        f = Fields(line)
        device = f.field(9, 10) != b""
        group = f.kind(1, 2, None, (88, 98, 99))
        card = Record(line=line.number, group=group, name=f.needed_name(3), device=device)
        if device:
            self.device(f, card)  # it keeps the card itself
        else:
            if f.raw(11, 11) != b"=":
                f.fault(11, c.BAD_EXPRESSION)
            else:
                try:
                    card.expr, card.names = parse(f.raw(12, 80))
                except Column as fault:
                    f.fault(11 + fault.column, c.BAD_EXPRESSION)
            f.judge()
            self.extra_cards.append(card)

    def device(self, f, card):
        """The fields of a device, how many values it keeps, and its points."""
        code = card.code = f.kind(9, 10, None, CODES)
        card.inputs = self.inputs(f)
        if code in (53, 54):
            card.a = f.number(51, 56, 12, 0, E18, 0)
        elif code == 66:
            card.a = f.number(51, 56, 6, 1, 10**13, REFUSE)
        else:
            card.a = f.number(51, 56, 9, -E18, E18, 0)
        card.b = f.number(57, 62, 9, -E18, E18, 0)
        card.c = f.number(63, 68, 9, -E18, E18, 0)
        card.d, card.e = f.name(69), f.name(75)
        if code in (51, 52, 60) and card.d == b"":
            f.fault(69, c.BAD_NAME)
        f.judge()
        card.points, card.k, card.history = [], 0, 0
        self.extra_cards.append(card)  # it was read, also where its points are cut off
        if code in (53, 54):
            card.k = near(card.a, self.run.dt)
            card.history = card.k + 1
        elif code == 66:
            card.k = near(E18, card.a * self.run.dt) or 1
            card.history = card.k
        elif code == 56:
            card.points = self.pairs((9, 9), (-E18, -E18), 2, self.table_rule)
        elif code == 57:
            card.points = self.pairs((12, 12), (0, 0), 1, self.times_rule)

    def table_rule(self, f, first, second, found):
        """The first numbers of a table rise."""
        if first is not None and found and first <= found[-1][0]:
            f.fault(1, c.BAD_POINTS)

    def times_rule(self, f, first, second, found):
        """Each time is later than the one before it; only a closing time may equal the opening time before."""
        if first is not None and found and first < found[-1][1]:
            f.fault(1, c.BAD_POINTS)
            return
        if first is not None and second is not None and not first < second:
            f.fault(17, c.BAD_POINTS)

    def tacs_output(self, line):
        """One output card of the control."""
        f = Fields(line)
        f.kind(1, 2, 0, (0,))
        f.judge()
        names = self.thirteen(f)
        f.judge()
        self.tacs_outputs.append((line.number, names))

    # ---- sense, and the case ----

    def faulty(self, line, column, why):
        """Notes a fault of sense."""
        self.sense.append((line, column, why))

    def count(self, cards, most):
        """The first card beyond a limit by count is a fault."""
        for card in cards[most : most + 1]:
            self.faulty(card.line, 1, c.TOO_MANY)

    def judge_sense(self):
        """The Case, or the least fault of sense."""
        self.count(self.branch_cards, MAX_BRANCHES)
        self.count(self.switch_cards, MAX_SWITCHES)
        self.count(self.source_cards, MAX_SOURCES)
        self.count(self.block_cards, MAX_BLOCKS)
        self.count(self.tacs_source_cards, MAX_TACS_SOURCES)
        self.count(self.extra_cards, MAX_EXTRAS)
        nodes = self.number_nodes()
        variables = self.number_variables()
        branches, trios = self.make_branches(nodes)
        switches = self.make_switches(nodes, variables)
        sources = self.make_sources(nodes, variables)
        tacs_sources = self.make_tacs_sources(nodes, variables)
        blocks = self.make_blocks(variables)
        extras = self.make_extras(variables)
        channels = self.make_channels(nodes, variables)
        self.judge_history(branches, trios)
        if self.run is not None:
            samples = self.run.steps // self.run.every + 1
            if samples * len(channels) > MAX_STORED:
                self.faulty(self.second_line, 9, c.TOO_MANY_SAMPLES)
        if self.sense:
            raise Bad(*min(self.sense))
        return Case(
            run=self.run,
            nodes=list(nodes),
            branches=branches,
            trios=trios,
            switches=switches,
            sources=sources,
            vars=list(variables),
            tacs_sources=tacs_sources,
            blocks=blocks,
            extras=extras,
            channels=channels,
        )

    def number_nodes(self):
        """Names of nodes in order of first appearance, numbered from 1."""
        nodes = {}
        for card in sorted(self.branch_cards + self.switch_cards, key=lambda card: card.line):
            for column, name in ((3, card.start), (9, card.end)):
                if name != b"" and name not in nodes:
                    nodes[name] = len(nodes) + 1
                    if len(nodes) == MAX_NODES + 1:
                        self.faulty(card.line, column, c.TOO_MANY)
        return nodes

    def number_variables(self):
        """Variables in order: the six that every case has, blocks, sources, supplemental cards."""
        variables = {name: place for place, name in enumerate(SIX)}
        for card in self.block_cards + self.tacs_source_cards + self.extra_cards:
            if card.name in variables:
                self.faulty(card.line, 3, c.TWO_SOURCES)
            else:
                variables[card.name] = len(variables)
        return variables

    def variable(self, variables, line, column, name):
        """The number of a variable; None for a blank or unknown name."""
        if name == b"":
            return None
        if name not in variables:
            self.faulty(line, column, c.UNKNOWN_NAME)
            return None
        return variables[name]

    def make_branches(self, nodes):
        """The branches, with the values of the cards that they copy, and the three-phase lines."""
        nodes = dict(nodes)
        nodes[b""] = 0
        branches, trios = [], []
        values = {}  # (type, BUS1, BUS2) of the first such card: its values
        for place, card in enumerate(self.branch_cards):
            own = card.points if card.kind in (98, 99) else card.values
            if card.copies is not None:
                key = (card.kind,) + card.copies
                if key in values:
                    own = values[key]
                else:
                    own = None
                    self.faulty(card.line, 15, c.UNKNOWN_NAME)
            values.setdefault((card.kind, card.start, card.end), own)
            card.own = own
            common = dict(line=card.line, start=nodes[card.start], end=nodes[card.end], asked=card.asked)
            if card.kind == 0:
                r, l, cap = own or (0, 0, 0)
                branches.append(Lumped(r=r, l=l, c=cap, **common))
            elif card.kind == -1:
                zc, r, delay = own or (0, 0, 0)
                branches.append(TravelLine(zc=zc, r=r, delay=delay, **common))
            elif card.kind == -2:
                zero = self.branch_cards[place - 1]
                branches[-1] = Phase(
                    line=zero.line,
                    start=nodes[zero.start],
                    end=nodes[zero.end],
                    asked=zero.asked,
                    trio=len(trios),
                    phase=0,
                )
                both = list(zip(zero.own or (0, 0, 0), own or (0, 0, 0)))
                trios.append(Trio(first=place - 1, zc=both[0], r=both[1], delay=both[2]))
                branches.append(Phase(trio=len(trios) - 1, phase=1, **common))
            elif card.kind == -3:
                branches.append(Phase(trio=len(trios) - 1, phase=2, **common))
            else:
                branches.append(Pseudo(reactor=card.kind == 98, points=own, **common))
        return branches, trios

    def make_switches(self, nodes, variables):
        """The switches, with the numbers of their nodes and controls."""
        nodes = dict(nodes)
        nodes[b""] = 0
        switches = []
        for card in self.switch_cards:
            control = self.variable(variables, card.line, 65, card.control)
            fields = dict(card.__dict__)
            fields.update(start=nodes[card.start], end=nodes[card.end], control=control)
            switches.append(Switch(**fields))
        return switches

    def make_sources(self, nodes, variables):
        """The sources; a node has at most one voltage source."""
        sources = []
        fed = set()
        for card in self.source_cards:
            if card.name not in nodes:
                self.faulty(card.line, 3, c.UNKNOWN_NAME)
            var = None
            if card.kind == 60:
                var = self.variable(variables, card.line, 3, card.name)
            if not card.current:
                if card.name in fed:
                    self.faulty(card.line, 3, c.TWO_SOURCES)
                fed.add(card.name)
            fields = dict(card.__dict__)
            fields.update(
                shape={11: "step", 12: "ramp", 14: "cosine", 60: "tacs"}[card.kind], node=nodes.get(card.name), var=var
            )
            sources.append(Source(**fields))
        return sources

    def make_tacs_sources(self, nodes, variables):
        """The sources of the control; one that measures reads a node, or the first switch at a node."""
        sources = []
        for card in self.tacs_source_cards:
            fields = dict(card.__dict__)
            fields.update(
                var=variables[card.name],
                shape={11: "step", 14: "cosine", 23: "pulse", 24: "saw", 90: "voltage", 91: "current", 93: "state"}[
                    card.kind
                ],
            )
            if card.kind == 90:
                if card.name not in nodes:
                    self.faulty(card.line, 3, c.UNKNOWN_NAME)
                fields["node"] = nodes.get(card.name)
            elif card.kind in (91, 93):
                touching = [place for place, sw in enumerate(self.switch_cards) if card.name in (sw.start, sw.end)]
                if not touching:
                    self.faulty(card.line, 3, c.UNKNOWN_NAME)
                fields["switch"] = touching[0] if touching else None
            sources.append(Source(**fields))
        return sources

    def make_inputs(self, variables, card):
        """The inputs of a block or device, as (variable, minus)."""
        return [(self.variable(variables, card.line, column, name), minus) for column, minus, name in card.inputs]

    def make_bound(self, variables, card, column, bound):
        """A limit, whose name is a number here."""
        if bound is not None and bound[0] == "named":
            return ("named", self.variable(variables, card.line, column, bound[1]))
        return bound

    def make_blocks(self, variables):
        """The blocks."""
        return [
            Block(
                line=card.line,
                var=variables[card.name],
                order=card.order,
                inputs=self.make_inputs(variables, card),
                gain=card.gain,
                n=card.top,
                d=card.bottom,
                c=card.c,
                k=card.k,
                low=self.make_bound(variables, card, 69, card.low),
                high=self.make_bound(variables, card, 75, card.high),
            )
            for card in self.block_cards
        ]

    def make_extras(self, variables):
        """The formulas and devices."""
        extras = []
        for card in self.extra_cards:
            var = variables[card.name]
            if card.device:
                extras.append(
                    Device(
                        line=card.line,
                        var=var,
                        group=card.group,
                        code=card.code,
                        inputs=self.make_inputs(variables, card),
                        a=card.a,
                        b=card.b,
                        c=card.c,
                        d=self.variable(variables, card.line, 69, card.d),
                        e=self.variable(variables, card.line, 75, card.e),
                        points=card.points,
                        k=card.k,
                        history=card.history,
                    )
                )
            else:
                for name in card.names:
                    self.variable(variables, card.line, 12, name)
                extras.append(Formula(line=card.line, var=var, group=card.group, expr=card.expr))
        return extras

    def make_channels(self, nodes, variables):
        """The channels in the record's order; the limit is judged in the order of cards."""
        asked = 0

        def more(line, column, number):
            nonlocal asked
            if asked <= MAX_CHANNELS < asked + number:
                self.faulty(line, column, c.TOO_MANY)
            asked += number

        control, branch, switch, status, node = [], [], [], [], []
        for line, names in self.tacs_outputs:
            for column, name in names:
                var = self.variable(variables, line, column, name)
                if var is not None:
                    more(line, column, 1)
                    control.append(("T", var))
        for kind, cards, found in (("B", self.branch_cards, branch), ("S", self.switch_cards, switch)):
            for place, card in enumerate(cards):
                new = []
                if card.asked in (1, 3):
                    new.append((kind + "I", place))
                if card.asked in (2, 3):
                    new.append((kind + "U", place))
                found.extend(new)
                number = len(new)
                if kind == "S" and card.asked:
                    status.append(("SS", place))
                    number += 1
                more(card.line, 1, number)
        for line, names in self.outputs:
            if names is None:
                more(line, 1, len(nodes))
                node.extend(("V", number) for number in nodes.values())
                continue
            for column, name in names:
                if name not in nodes:
                    self.faulty(line, column, c.UNKNOWN_NAME)
                    continue
                more(line, column, 1)
                node.append(("V", nodes[name]))
        return node + branch + switch + control + status

    def judge_history(self, branches, trios):
        """The history values in the order of cards; the card that exceeds the limit."""
        total = 0
        amounts = [(card.line, card.history) for card in self.extra_cards if card.device]
        for card in self.branch_cards:
            if card.kind in (-1, -2) and card.own is not None:
                ends = 2 if card.kind == -1 else 6
                amounts.append((card.line, ends * (card.own[2] // self.run.dt + 1)))
        for line, amount in amounts:
            if total <= MAX_HISTORY < total + amount:
                self.faulty(line, 1, c.TOO_MANY)
            total += amount


def deck(data: bytes) -> Case:
    """The Case of the bytes, or Bad."""
    return Deck(data).read()
