"""Writes a case of emtp card by card, and runs it.

    case = Case(dt=1e-5, end=0.04)
    case.series("SRC", "BUS", r_ohm=1, l_mh=40)
    case.line("SEND", "FAR", length=120, r_ohm=.08, zc_ohm=380, velocity=2.97e5)
    case.series("FAR", r_ohm=1e6)
    case.switch("BUS", "SEND", close_s=.005, ask="i")
    case.cosine("SRC", amplitude_v=118.4e3, hz=50, phase_deg=-90)
    case.output("BUS", "SEND", "FAR")
    record = case.run()
    record.times, record.channel("V FAR")

docs/python.md is the page for its users, docs/cards.md and docs/control.md say what the cards mean. What can't be is
a `CaseError` that names the call; what the program refuses all the same is a `Refused` with line, column and card
besides.
"""

from __future__ import annotations

import contextlib
import dataclasses
import difflib
import os
import pathlib
import typing
import warnings

import numpy as np

from . import columns, fields, form, line_values, listing, program
from .answers import (
    BAD_CARD,
    CAUSES,
    REFUSED,
    UNSOLVED,
    Batch,
    EndedEarly,
    End,
    Refused,
    Scan,
    Steady,
    UnknownName,
    batch_of,
    end_of,
    scan_of,
    steady_of,
)
from .compound import Compound, after
from .control import Control
from .draft import STANDING, Call, CaseError, Contents, Draft, Switch, Written
from .fields import FieldError
from .form import Form
from .inductance import Inductance
from .record import Record, computed, distinct, read
from .samples import whole_values
from .surge_arrester import PART, Off
from .write import put

__all__ = [
    "Batch",
    "Case",
    "CaseError",
    "End",
    "EndedEarly",
    "Refused",
    "Scan",
    "Steady",
    "Switch",
    "UnknownName",
]

NOTHING = "nothing was said"
STATUSES = {4: "the case can't be read", 5: "what it prints can't be written", 6: "there isn't enough memory"}
MOST_STEPS, MOST_HISTORY, MOST_ROWS = 1_000_000, 2_000_000, 1000
UNITS = {"V": "V", "U": "V", "I": "A"}  # of channels, by the first word of their names; else none, PU
TELLS = 0.005  # how far recorded peak and filtered one of an arrester may differ without a word


class Case(Compound):
    """A case: its time step and its end in s, and its cards, each written by a method.

    `every` so many steps the record has a sample. `tolerance_a` is the greatest residual of Kirchhoff's current law,
    0.01 A without it. `remark` stands above the cards as comments. `control` has the methods of the control's cards.
    """

    def __init__(
        self,
        dt: float,
        end: float,
        every: int = 1,
        *,
        tolerance_a: float | None = None,
        remark: str = "",
        iout: int = 1,
    ) -> None:
        self._draft = draft = Draft()
        self._heard: list[str] = []  # of the last answer
        self._unheard: bytes | None = None  # the case that it was of, whose warnings aren't counted yet
        self.control = Control(draft)
        self.end_of_run: End | None = None  # the early end of the last run
        self._every = _whole(every, "every", 1, 10**6)
        iout = _whole(iout, "iout", -(10**7) + 1, 10**8 - 1)  # as many digits as its columns hold
        try:
            step = draft.number(columns.FIRST, "DELTAT", dt, "case")
            until = draft.number(columns.FIRST, "TMAX", end, "case")
            head = [draft.written(columns.FIRST, {"DELTAT": step.text, "TMAX": until.text})]
            if tolerance_a is not None:
                text = draft.number(columns.TOLERANCE, "tolerance", tolerance_a, "case").text
                head.insert(0, draft.written(columns.TOLERANCE, {"tolerance": text}))
        except FieldError as fault:
            raise CaseError(f"Case: {fault}") from None
        self._head = [*head, draft.written(columns.SECOND, {"IOUT": str(iout), "IPLOT": str(self._every)})]
        self._remark = [line.rstrip() for line in remark.splitlines()]
        draft.dt_ps = step.kept
        draft.steps = self._steps = (2 * until.kept + step.kept) // (2 * step.kept)
        if not 1 <= self._steps <= MOST_STEPS:
            raise CaseError(f"Case: end / dt is {self._steps:,} steps, and has to be from 1 to {MOST_STEPS:,}")

    def __setattr__(self, name: str, value: object) -> None:
        """What stands on the cards stays, and a name that means nothing is none of a case."""
        if name in ("dt", "end", "every", "steps"):
            raise AttributeError(f"{name} stands on the cards of a case from its start: make another Case")
        if type(self) is Case and not name.startswith("_") and name not in ("control", "end_of_run"):
            raise AttributeError(f"a Case has no {name} that could be set")
        super().__setattr__(name, value)

    def __repr__(self) -> str:
        contents = self._draft.contents
        counts = (
            f"{len(it)} {what}"
            for it, what in (
                (contents.nodes, "nodes"),
                (contents.branches, "branches"),
                (contents.switches, "switches"),
                (contents.sources, "sources"),
            )
        )
        return f"<Case of {self.steps:,} steps of {self.dt:g} s: {', '.join(counts)}>"

    @property
    def dt(self) -> float:
        """The time step, in s."""
        return self._draft.dt

    @property
    def end(self) -> float:
        """The time of the last step, in s."""
        return self._steps * self.dt

    @property
    def steps(self) -> int:
        """How many steps a run has."""
        return self._steps

    @property
    def every(self) -> int:
        """Each so many steps the record has a sample."""
        return self._every

    @property
    def told(self) -> list[str]:
        """What was done beyond the letter of the calls, each once: digits that a field lost, inductances that are written
        by their flux, arresters whose peaks aren't filtered. Then what is seldom meant so of the last answer: how many
        warnings the case has, that it asks for no output, rows of a batch that change nothing."""
        if self._unheard is not None:
            self._heard = _warned(self._unheard) + self._heard
            self._unheard = None
        contents = self._draft.contents
        return [*contents.told, *line_values.told(contents.lines), *self._form().told, *self._heard]

    @property
    def inductances(self) -> list[Inductance]:
        """How each inductance of a series branch is written: its form, what a plain branch acts with, its drift."""
        return list(self._draft.contents.inductances)

    @property
    def filtered(self) -> dict[str, str]:
        """The filtered channels of arresters, by the names of the voltages that they filter, recorded or not: `V A` of
        the node and `U A-0` of the arrester."""
        return dict(self._form().filtered)

    @property
    def _samples(self) -> int:
        """How many samples the record of a whole run has."""
        return self.steps // self.every + 1

    def _form(self, plain: bool = False) -> Form:
        """The cards that stand for the case: its plain ones, or those with which it is run."""
        contents = self._draft.contents
        return form.plain(contents) if plain else form.run(contents, self._samples)

    # ---- what the record has

    @property
    def nodes(self) -> list[str]:
        """The names of the nodes, in the order in which they first appear on the cards of branches and then of
        switches; those that calls have made among them."""
        return self._form().nodes

    @property
    def names(self) -> list[str]:
        """The names of the answers' analog channels, in their order; a later one of the same name has .2, .3 behind."""
        return distinct([it.name for it in self._form().channels], set(), [])

    @property
    def state_names(self) -> list[str]:
        """The names of the answers' status channels, in their order."""
        return distinct([name for name, asked in self._form().states if asked], set(self.names), [])

    # ---- judging

    def check(self) -> None:
        """Judges what needs all cards: names that a card reads, and limits by count. Raises CaseError."""
        self._judge(self._form())

    def _judge(self, own: Form) -> None:
        self._check_names(own)
        form.judge(own, self._samples)
        _check_history(own.contents)

    def _check_names(self, own: Form) -> None:
        contents = own.contents
        nodes = dict.fromkeys(own.nodes)
        switched = {name for it in contents.switches for name in it.ends if name}
        variables = self._draft.contents.variables.keys() | set(STANDING)
        for source in contents.sources:
            _known(source.name, nodes, "no branch and no switch has the node", source.card.call)
            if source.kind == 60:
                _known(source.name, variables, "the control has no variable", source.card.call)
        for switch in contents.switches:
            if switch.control:
                _known(switch.control, variables, "the control has no variable", switch.card.call)
        for source in contents.control_sources:
            if source.kind == 90:
                _known(source.name, nodes, "no branch and no switch has the node", source.card.call)
            elif source.kind in (91, 93):
                _known(source.name, switched, "no switch has the node", source.card.call)
        for variable in [*contents.blocks, *contents.extras]:
            for name in variable.reads:
                _known(name, variables, "the control has no variable", variable.cards[0].call)
        for asked in contents.outputs:
            for name in asked.names:
                _known(name, nodes, "no branch and no switch has the node", asked.card.call)
        for asked in contents.control_outputs:
            for name in asked.names:
                _known(name, variables, "the control has no variable", asked.card.call)

    # ---- text

    def text(self, rulers: bool = False, plain: bool = False) -> str:
        """The cards of the case, a line each; with `rulers` the names of the fields stand above each kind of card.

        They are those with which it is run; with `plain` those of its plain form, without reactors in place of
        inductances and filters of arresters, which a steady state and a scan want.
        """
        return _text_of(self._lines(rulers, plain))

    def write(self, path: str | os.PathLike[str], rulers: bool = True, plain: bool = False) -> None:
        """Writes the case into a file; `rulers` and `plain` as of `text`."""
        pathlib.Path(path).write_bytes(self.text(rulers, plain).encode("utf-8"))
        name = os.fspath(path)
        self._heard, self._unheard = [] if plain else [*self._told_of_channels(name), *self._told_of_cards(name)], None

    def _told_of_channels(self, path: str) -> list[str]:
        """Which channels have other names in a file that was written, or other values."""
        own = self._form()
        renamed = [f"{it.own} is {it.name}" for it in own.channels if it.own != it.name]
        scaled = [f"{it.own} has to be multiplied by {it.factor:.9g}" for it in own.channels if it.factor != 1]
        return [f"{path}: its channel {', '.join([*renamed, *scaled])}"] if renamed or scaled else []

    def _told_of_cards(self, path: str) -> list[str]:
        """What refuses the cards of a file that was written."""
        instead = (it.instead.branches for it in self._draft.contents.branches if it.kind == "series" and it.instead)
        if not any(it.kind == "reactor" for own in instead for it in own):
            return []
        words = "phasor and scan refuse its reactors in place of inductances; write(.., plain=True) leaves them out"
        return [f"{path}: {words}"]

    def _lines(self, rulers: bool = False, plain: bool = False) -> list[Written | str]:
        """The lines of the case: cards with their calls, and what stands between."""
        own = self._form(plain)
        self._judge(own)
        contents = own.contents
        found: list[Written | str] = [f"C {line}".rstrip() for line in self._remark]
        found.append("BEGIN NEW DATA CASE")
        found += self._head
        sections: list[list[Written | str]] = [
            [*_branch_cards(contents)],
            [it.card for it in contents.switches],
            [it.card for it in contents.sources],
            [it.card for it in contents.outputs],
        ]
        if contents.control:
            control: list[list[Written | str]] = [
                [card for it in contents.blocks for card in it.cards],
                [it.card for it in contents.control_sources],
                [card for it in contents.extras for card in it.cards],
                [it.card for it in contents.control_outputs],
                [],
            ]
            found.append("TACS HYBRID")
            sections = control + sections
        for section in sections:
            found += [*section, columns.END_OF_SECTION]
        return _ruled(found) if rulers else found

    # ---- answers of the program

    def run(
        self,
        save: str | os.PathLike[str] | None = None,
        *,
        record: bool = False,
        early: typing.Literal["warn", "raise", "keep"] = "warn",
        timeout: float | None = None,
    ) -> Record:
        """Runs the case; answers its record, with all digits where `emtp_judge` is found.

        Without that program, or with `record`, the values are those of the record that the program writes, in 16 bits:
        `record.steps` has the step of each channel, and `record.told` says them. With `save` a folder and a stem, as
        "out/line", the case and its record are written as out/line.case, .cfg and .dat, all three or none.

        A run that ends early gives the samples before its end. It is told in `record.told` and `end_of_run`; by `early`
        it is a RuntimeWarning too, an EndedEarly, or no more than told. `timeout` is in s: a run that takes longer is a
        TimeoutExpired.
        """
        if early not in ("warn", "raise", "keep"):
            raise CaseError(f"early is 'warn', 'raise' or 'keep', and here {early!r}")
        place = None if save is None else _place(save)
        exact = not record and program.has_judge()
        if place or not exact:
            note, found = self._recorded(place, timeout)
        if exact:
            note, found = self._computed(timeout)
        found.path = f"{os.path.join(*place)}.cfg" if place else ""
        if place:
            self._heard += self._told_of_channels(found.path)
        self._as_asked(found)
        if not exact and found.names:
            steps = (f"{name} by {step:g} {unit}" for (name, step), unit in zip(found.steps.items(), found.units))
            found.told.append(f"values are those of 16 bits: {', '.join(steps)}")
        found.told += [str(it) for it in self.off(found) if it.recorded_v > (1 + TELLS) * it.on_v]
        self.end_of_run = end_of(note, self.dt)
        if not found.names and not found.state_names:
            self._heard.append("no output is asked for, so the record has no channel")
        if self.end_of_run:
            words = str(self.end_of_run) + self._cure(self.end_of_run)
            found.told.insert(0, words)
            if early == "raise":
                raise EndedEarly(words, self.end_of_run, found)
            if early == "warn":
                warnings.warn(words, RuntimeWarning, stacklevel=2)
        return found

    def _recorded(self, place: tuple[str, str] | None, timeout: float | None) -> tuple[str, Record]:
        """The note of a run, and the record that the program wrote, which is kept at the place, where there is one."""
        with program.memory() as cfg, program.memory() as dat:
            names = [program.path_of(it) for it in (cfg, dat)]
            note = self._answer(["run"], names, (0, 3), (cfg, dat), timeout)
            found = read(*names)
            if place:
                texts = [self.text().encode(), *(pathlib.Path(it).read_bytes() for it in names)]
                _save(*place, dict(zip(("case", "cfg", "dat"), texts)))
        return note, found

    def _computed(self, timeout: float | None) -> tuple[str, Record]:
        """The note of a run, and its values with all digits."""
        note, _, lines = self._answer(["judge", "--samples"], [], timeout=timeout).partition("\n")
        own = self._form()
        names, states = [it.own for it in own.channels], [name for name, _ in own.states]
        values = whole_values(lines, len(names) + len(states), "emtp_judge")
        units = [UNITS.get(name.split(" ")[0], "PU") for name in names]
        return note, computed(names, units, states, values, self.dt * self.every)

    def _as_asked(self, found: Record) -> None:
        """Gives the channels of a run their names and factors as they were asked for, and takes away states that
        weren't."""
        analogs = found._configuration.analogs
        for place, channel in enumerate(self._form().channels):
            if channel.factor != 1:
                it = analogs[place]
                multiplier, offset = it.multiplier * channel.factor, it.offset * channel.factor
                analogs[place] = dataclasses.replace(it, multiplier=multiplier, offset=offset)
        found.names[:], found.state_names[:] = self.names, self.state_names

    def off(self, found: Record, part: float = PART) -> list[Off]:
        """Of each arrester with segments: how many samples of a record of `run` lie off its characteristic by more than
        `part` of its first point's voltage, by how much, and the greatest voltages of all samples and of those on it.

        The record has to have the arrester's current and voltage (`ask="iu"`), or its node's voltage beside the filtered
        channel.
        """
        names = {channel: name for name, channel in self._form().filtered.items() if name in found.names}
        return self._offs(found, part, names)

    def _cure(self, end: End) -> str:
        """What may help where a run left the range beside an inductance."""
        beside = [it for it in self._form().contents.branches if end.name in it.ends and it.l_mh > 0]
        if end.cause != "RANGE" or not beside:
            return ""
        limits = ", ".join(f"{it.name} at {1e9 * self.dt / (2e-3 * it.l_mh):.3g} A" for it in beside)
        return f"; an inductance leaves it by its current ({limits}): with form='flux' it doesn't"

    def steady(self) -> Steady:
        """The voltages of the nodes in the steady state of the frequency of its sources (docs/tools.md)."""
        return steady_of(self._answer(["phasor"], plain=True))

    def scan(self, first: int, last: int, step: int) -> Scan:
        """The impedance that the one source sees, from a first to a last frequency in whole Hz (docs/tools.md)."""
        words = [str(_whole(it, "a frequency", 1, 10**7)) for it in (first, last, step)]
        if first > last or (last - first) // step + 1 > 10_000:
            raise CaseError(
                "the first frequency has to be at most the last one, and 10,000 of them are scanned at most"
            )
        lines = self._lines(plain=True)
        return scan_of(self._answer(["scan"], words, plain=True), lambda line: _card_at(lines, line)[0])

    def batch(
        self, closings: typing.Sequence | np.ndarray, openings: typing.Sequence | np.ndarray | None = None
    ) -> Batch:
        """Runs the case for each row of switch times; answers the peaks of its channels (docs/tools.md).

        `closings` and `openings` have shape (rows, switches), or (rows,) for one, in s: the times of the time
        switches that are tied to no other one, in the order of their calls. nan keeps the switch's own time; an
        opening of inf is never. There may be any number of rows.
        """
        free = [it for it in self._draft.contents.switches if it.kind == "time" and it.leader is None]
        if not free:
            raise CaseError("the case has no time switch, whose times a batch would change")
        closing = _rows(closings, "closings", len(free))
        opening = np.full(closing.shape, np.nan) if openings is None else _rows(openings, "openings", len(free))
        if closing.shape != opening.shape:
            raise CaseError(f"closings and openings differ in shape: {closing.shape} and {opening.shape}")
        rows = [self._row(*row) for row in zip(closing.tolist(), opening.tolist())]
        notes = []
        for first in range(0, len(rows), MOST_ROWS):
            table = "".join(f"{row}\n" for row in rows[first : first + MOST_ROWS])
            with program.memory(table.encode("ascii")) as times:
                notes.append(self._answer(["batch"], [program.path_of(times)], files=(times,)))
        if not self.names:
            self._heard.append("no output is asked for, so there are no peaks")
        late = sum(min(float(it) for it in row.split() if it != "-") > self.end + 5e-13 for row in rows)
        if late:
            self._heard.append(f"of {late} of {len(rows)} rows all times lie behind the end of the run, {self.end:g} s")
        return self._filtered_batch(batch_of(notes, self.names))

    def _filtered_batch(self, found: Batch) -> Batch:
        """The batch with its channels as they were asked for, and the arresters' peaks on their characteristics."""
        own = self._form()
        recorded = found.peaks * np.abs([it.factor for it in own.channels])
        peaks = recorded.copy()
        for name, channel in own.filtered.items():
            if name in found.names:
                column, on = found.names.index(name), found.channel(channel)
                off = int((recorded[:, column] > (1 + TELLS) * on).sum())
                peaks[:, column] = on
                if off:
                    self._heard.append(
                        f"{name}: in {off} of {len(on)} rows samples lie off the arrester's characteristic; its peaks are "
                        f"those on it, up to {on.max():.5g} V where {recorded[:, column].max():.5g} V were recorded"
                    )
        return dataclasses.replace(found, peaks=peaks, recorded=recorded)

    def _row(self, closing: list[float], opening: list[float]) -> str:
        """A row of a table of times: a closing and an opening time for each time switch, tied ones among them."""
        given = zip(closing, opening)
        times: dict[int, tuple[float, float | None]] = {}  # by the identity of the switch
        items = []
        for switch in self._draft.contents.switches:
            if switch.kind != "time":
                continue
            if switch.leader is None:
                times[id(switch)] = _own_times(switch, *next(given))
            else:
                times[id(switch)] = after(times[id(switch.leader)], switch.later_s)
            close_s, open_s = times[id(switch)]
            items += [_time(close_s), "-" if open_s is None else _time(open_s)]
        return " ".join(items)

    def show(self, plain: bool = False) -> listing.Listing:
        """What the program reads of the case: each record with its line, values and units, and the warnings
        (docs/show.md); with `plain` of its plain form."""
        return listing.read(self._answer(["show"], plain=plain))

    def _answer(
        self,
        before: list[str],
        behind: typing.Sequence[str] = (),
        good: tuple[int, ...] = (0,),
        files: tuple[int, ...] = (),
        timeout: float | None = None,
        plain: bool = False,
    ) -> str:
        """What a command prints of the case, which stands between these words; what isn't good is raised."""
        lines = self._lines(plain=plain)
        self._heard, self._unheard, text = [], None, _text_of(lines).encode()
        with program.memory(text) as case:
            words = [*before, program.path_of(case), *behind]
            ended = program.run(words, files=(case, *files), timeout=timeout)
        if ended.status in good:
            self._unheard = None if before == ["show"] else text
            return ended.note
        refused = BAD_CARD.search(ended.note)
        barred = REFUSED.search(ended.note)
        if found := refused or barred:
            column, reason = (int(found[2]), found[4]) if refused else (0, found[3])
            raise Refused(int(found[1]), column, reason, *_card_at(lines, int(found[1])))
        if unsolved := UNSOLVED.search(ended.note):
            raise CaseError(f"no steady state, {unsolved[1]} at {unsolved[2]}: {_help(*unsolved.groups())}")
        told = (ended.note.strip() + " " + ended.told.strip()).strip()
        raise CaseError(
            f"emtp {before[0]} ended with status {ended.status}: {told[:1000] or STATUSES.get(ended.status, NOTHING)}"
        )


def _check_history(contents: Contents) -> None:
    """Lines and devices keep no more of the past than a case has room for."""
    history = sum(it.history for it in contents.branches) + sum(it.history for it in contents.extras)
    if history > MOST_HISTORY:
        raise CaseError(
            f"lines and devices would keep {history:,} values of the past, and a case keeps at most "
            f"{MOST_HISTORY:,}: take a larger time step, shorter lines or delays"
        )


def _branch_cards(contents: Contents) -> typing.Iterator[Written | str]:
    """The cards of the branches, with those that make the fields of series branches wide or narrow."""
    wide = False
    for branch in contents.branches:
        for card in branch.cards:
            if card.kind in (columns.SERIES, columns.WIDE) and (card.kind is columns.WIDE) != wide:
                wide = not wide
                yield f"$VINTAGE, {int(wide)}"
            yield card


def _text_of(lines: list[Written | str]) -> str:
    """The text of the lines of a case."""
    return "".join(f"{line.text if isinstance(line, Written) else line}\n" for line in lines)


def _warned(text: bytes) -> list[str]:
    """How many warnings there are of a case that was accepted, where there are some."""
    try:
        with program.memory(text) as case:
            count = program.run(["show", "--count", program.path_of(case)], files=(case,)).note.strip()
    except program.ProgramError as fault:
        return [f"warnings aren't counted: {fault}"]
    there = {"": "", "0": "", "1": "there is 1 warning"}.get(count, f"there are {count} warnings")
    return [f"{there} of what was read: case.show().warnings"] if there else []


def _help(cause: str, name: str) -> str:
    """The program's words for a cause that leaves no steady state, and the usual cure."""
    told = program.run(["show", "--ended", cause, "", name])
    return " ".join(told.note.split()) or CAUSES.get(cause, cause)


def _known(name: str, names: typing.Collection[str], what: str, call: Call | None) -> None:
    """The name is one of these."""
    if name in names:
        return
    names = list(names)
    other = [it for it in names if it.upper() == name.upper()] or difflib.get_close_matches(name, names, 1)
    raise CaseError(f"{what} {name}" + (f"; there is {other[0]}" if other else ""), call)


def _whole(value: int, what: str, low: int, high: int) -> int:
    if isinstance(value, bool) or not isinstance(value, (int, np.integer)) or not low <= value <= high:
        raise CaseError(f"{what} is a whole number from {low:,} to {high:,}, and here {value!r}")
    return int(value)


def _place(save: str | os.PathLike[str]) -> tuple[str, str]:
    """Folder and stem of the files that stay; the folder is made."""
    folder, stem = os.path.split(os.fspath(save))
    if stem in ("", ".", ".."):
        raise CaseError(
            f"save is a folder and a stem, as 'out/line' for out/line.cfg, and {os.fspath(save)!r} has no stem"
        )
    os.makedirs(folder or ".", exist_ok=True)
    return folder, stem


def _save(folder: str, stem: str, files: dict[str, bytes]) -> None:
    """Puts the files of a run there, all of one run also where others put theirs at the same time."""
    with _locked(folder or "."):
        put({os.path.join(folder, f"{stem}.{ending}"): [data] for ending, data in files.items()})


@contextlib.contextmanager
def _locked(folder: str) -> typing.Iterator[None]:
    """Alone with a folder, among those that ask for it so; some systems have no locks of folders."""
    if os.name == "nt":
        yield
        return
    import fcntl

    opened = os.open(folder, os.O_RDONLY)
    try:
        with contextlib.suppress(OSError):  # some file systems have no locks
            fcntl.flock(opened, fcntl.LOCK_EX)
        yield
    finally:
        os.close(opened)


def _own_times(switch: Switch, closing: float, opening: float) -> tuple[float, float | None]:
    """The times of a switch in a row of a batch: nan keeps its own one, an opening of inf is never."""
    close_s = switch.close_s if np.isnan(closing) else closing
    if np.isnan(opening):
        return close_s, switch.open_s
    return close_s, None if opening == np.inf else opening


def _rows(times: typing.Sequence | np.ndarray, what: str, switches: int) -> np.ndarray:
    try:
        found = np.asarray(times, dtype=float)
    except (TypeError, ValueError):
        raise CaseError(f"{what} are times in s, and here {times!r:.60}") from None
    if found.ndim == 1 and switches == 1:
        found = found[:, np.newaxis]
    if found.ndim != 2 or found.shape[1] != switches or not len(found):
        raise CaseError(
            f"{what} has a row or more, with a time for each of the {switches} time switches that are tied to no other"
        )
    return found


def _time(seconds: float) -> str:
    """An item of a table of times, to the ps."""
    if not np.isfinite(seconds):
        raise CaseError(f"a row of a batch has times in s, nan for the switch's own, and here {seconds}")
    kept = fields.nearest(fields.EXACT.scaleb(fields.exact(seconds, "a time"), 12))
    return f"{fields.EXACT.scaleb(fields.exact(kept, 'a time'), -12):f}"


def _card_at(lines: list[Written | str], number: int) -> tuple[str, Call | None]:
    """The text of a line, and the call that wrote it."""
    line = lines[number - 1] if 0 < number <= len(lines) else ""
    return (line.text, line.call) if isinstance(line, Written) else (line, None)


def _ruled(lines: list[Written | str]) -> list[Written | str]:
    """The lines with the names of the fields above each run of cards of one kind, as comments."""
    found: list[Written | str] = []
    before: str | None = None
    for line in lines:
        if isinstance(line, Written):
            if line.kind.name != before and not line.text.endswith("9999"):
                found.append(line.kind.comment())
            before = line.kind.name
        elif not line.startswith("$"):
            before = None
        found.append(line)
    return found
