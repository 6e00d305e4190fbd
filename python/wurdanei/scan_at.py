"""The impedance at a node of the case that one has: its sources dead, a current into the node.

    emtp scan CASE F0 F1 DF --at NODE [--write NEW.case]

makes a case of CASE in which voltage sources join their nodes to ground, current sources and the control are gone, and a
current of 1 A flows into NODE; standard error tells what was done. Switches stand as at the start; valves and switches of
the control are left open; arresters and nonlinear reactors are their first segments. Then it is scanned from F0 to F1 by
DF, in whole hertz, and standard output is that of `emtp scan` (docs/tools.md). What a scan can't take, as lines with
resistance and three-phase ones, is told in words of the case.

Exit status: 0, or 2 where there is no scan.
"""

from __future__ import annotations

import argparse
import cmath
import math
import os
import pathlib
import re
import sys
import tempfile
from typing import TYPE_CHECKING, Callable

import numpy as np

from . import columns, fields, listing, program, report
from .answers import REFUSED, Scan, scan_of
from .configuration import RecordError
from .deck import CONTROL, END, Deck, DeckError, refusal
from .summary import read_summary, scan_drawing

if TYPE_CHECKING:
    from .case import Case

MOST_TOLD = 8  # cards of a kind that are told one by one


class ScanError(RecordError):
    """Why there is no scan, in words."""


def _where(line: listing.Line) -> str:
    """A card in words of the case."""
    ends = [line.name(end) or "ground" for end in ("BUS1", "BUS2")]
    return f"line {line.line}, from {ends[0]} to {ends[1]}"


def _told(lines: list[listing.Line]) -> str:
    more = "" if len(lines) <= MOST_TOLD else f"; and {len(lines) - MOST_TOLD} more"
    return "; ".join(_where(it) for it in lines[:MOST_TOLD]) + more


def dead(path: str, node: str) -> tuple[str, list[str]]:
    """The case with its sources dead and a current of 1 A into the node, and what was done."""
    try:
        deck = Deck(path)
        shown = listing.read(
            program.run(["show", f"./{os.path.basename(path)}"], os.path.dirname(os.path.abspath(path))).note
        )
    except (DeckError, program.ProgramError, listing.ListingError) as fault:
        raise ScanError(str(fault)) from None
    if node not in shown.nodes:
        raise ScanError(
            f"{path} has no node {node!r}; it has {', '.join(shown.nodes[:20])}"
            + (" .." if len(shown.nodes) > 20 else "")
        )
    bars = [
        ("three-phase lines", [it for it in shown.of("phase of a line") if it["phase"] == 1]),
        ("lines with resistance", [it for it in shown.of("line") if it["R"]]),
    ]
    words = [f"{what} ({_told(its)})" for what, its in bars if its]
    if words:
        raise ScanError(f"{path}: a scan takes single lines without resistance, and the case has {' and '.join(words)}")
    told: list[str] = []
    _without_control(deck, told)
    grounded = _without_sources(deck, shown, told)
    if node in grounded:
        raise ScanError(
            f"{node} has a voltage source, which is dead: the impedance there is 0; take a node behind its impedance"
        )
    _linear(deck, shown, told)
    closed = _switches(deck, shown, told)
    told += [f"closed as at the start: {_told(closed)}"] if closed else []
    probe = {"type": "14", "name": fields.named(node, columns.CURRENT_SOURCE.field("name")), "kind": "-1"}
    numbers = (("amplitude", 1.0), ("frequency", 50.0))
    probe |= {name: fields.fitted(value, columns.CURRENT_SOURCE.field(name)).text for name, value in numbers}
    deck.put("sources", [fields.card(columns.CURRENT_SOURCE, probe)])
    return deck.text(), [*told, f"a current of 1 A flows into {node}"]


def _without_control(deck: Deck, told: list[str]) -> None:
    """The case has no control."""
    if not deck.has_control:
        return
    ends = [line for line, kind in deck.kinds.items() if kind == END][: len(CONTROL)]
    begin = next(line for line, kind in deck.kinds.items() if kind == "the card TACS HYBRID")
    deck.drop(list(range(begin, ends[-1] + 1)))
    deck.has_control = False
    told.append("the control is left out")


def _without_sources(deck: Deck, shown: listing.Listing, told: list[str]) -> list[str]:
    """The case has no sources; the nodes of its voltage sources are joined to ground, and told."""
    deck.drop([line for line, _ in deck.cards("a source card")])
    grounded = list(dict.fromkeys(it.name("NAME") or "" for it in shown.of("voltage source")))
    currents = list(dict.fromkeys(it.name("NAME") or "" for it in shown.of("current source")))
    if grounded:
        texts = {"T-CLOSE": fields.fitted(-1.0, columns.SWITCH.field("T-CLOSE")).text}
        named = [fields.named(name, columns.SWITCH.field("BUS1")) for name in grounded]
        deck.put("switches", [fields.card(columns.SWITCH, {"BUS1": name} | texts) for name in named])
        told.append(f"joined to ground, as dead voltage sources: {', '.join(grounded)}")
    if currents:
        told.append(f"left out, as dead current sources: {', '.join(currents)}")
    return grounded


def _linear(deck: Deck, shown: listing.Listing, told: list[str]) -> None:
    """Arresters and nonlinear reactors are the resistance and the inductance of their first segments."""
    cards = []
    points = {it["first point"]: it.below for it in shown.of("nonlinear resistor", "nonlinear reactor") if it.below}
    for it in shown.of("nonlinear resistor", "nonlinear reactor"):
        resistor = it.kind == "nonlinear resistor"
        first = (it.below or points[it["first point"]])[0]
        amps, other = float(first["current"]), float(first["voltage" if resistor else "flux"])  # type: ignore[arg-type]
        name, value = ("R", other / amps) if resistor else ("L", 1e3 * other / amps)
        ends = {
            end: fields.named(it.name(end) or "", columns.WIDE.field(end)) for end in ("BUS1", "BUS2") if it.name(end)
        }
        cards.append(fields.card(columns.WIDE, ends | {name: fields.fitted(value, columns.WIDE.field(name)).text}))
        told.append(
            f"{_where(it)}: {'an arrester' if resistor else 'a nonlinear reactor'} is {value:.4g} {'ohm' if resistor else 'mH'}, its first segment"
        )
        own = int(it.line or 0)
        deck.drop([own])
        for line in range(own + 1, len(deck.lines) + 1):  # its points, if it has some of its own
            if deck.kinds.get(line, "") not in ("", "a point or the card that ends them"):
                break
            if deck.kinds.get(line):
                deck.drop([line])
    if cards:
        deck.put("branches", ["$VINTAGE, 1", *cards, "$VINTAGE, 0"])


def _switches(deck: Deck, shown: listing.Listing, told: list[str]) -> list[listing.Line]:
    """Valves and switches of the control are left out, as open ones; the switches that are closed from the start."""
    open_ones = shown.of("valve", "controlled switch")
    deck.drop([int(it.line or 0) for it in open_ones])
    if open_ones:
        told.append(f"left open: {_told(open_ones)}")
    return [it for it in shown.of("time switch") if _closed(it)] + shown.of("measuring switch")


def _closed(line: listing.Line) -> bool:
    try:
        close = line["T-CLOSE"]
    except KeyError:
        return False
    return not isinstance(close, str) and close is not None and close < 0


def scan(case: "Case | str", node: str, first: int, last: int, step: int) -> Scan:
    """The impedance at a node of a case, or of the file of one, from a first to a last frequency in whole Hz; `told` has
    what was done. ScanError where there is none."""
    note, text, told = _scanned(case, node, first, last, step)
    lines = text.splitlines()
    found = scan_of(note, lambda line: lines[line - 1] if 0 < line <= len(lines) else "")
    return Scan(found.hz, found.ohm, found.resonances, told + found.told)


def _scanned(case: "Case | str", node: str, first: int, last: int, step: int) -> tuple[str, str, list[str]]:
    """What the program prints of the scan, the case that was scanned, and what was done."""
    for number in (first, last, step):
        if not 1 <= number <= 10**7:
            raise ScanError(f"a frequency of {number} Hz isn't from 1 to 10,000,000")
    if first > last or (last - first) // step + 1 > 10_000:
        raise ScanError("the first frequency is at most the last one, and 10,000 of them are scanned at most")
    with tempfile.TemporaryDirectory() as room:
        path = case if isinstance(case, str) else os.path.join(room, "case.case")
        if not isinstance(case, str):
            pathlib.Path(path).write_bytes(case.text(plain=True).encode())
        text, told = dead(path, node)
        pathlib.Path(room, "dead.case").write_text(text, encoding="latin-1", newline="")
        try:
            ended = program.run(["scan", "dead.case", str(first), str(last), str(step)], room)
        except program.ProgramError as fault:
            raise ScanError(str(fault)) from None
        if ended.status:
            refused = REFUSED.search(ended.note)
            card = text.splitlines()[int(refused[1]) - 1] if refused else ""
            raise ScanError(f"the scan is refused: {refusal(ended)}" + (f": {card.strip()}" if card else ""))
    return ended.note, text, told


def parser() -> argparse.ArgumentParser:
    """The words of the command."""
    made = argparse.ArgumentParser(
        prog="emtp scan", description=__doc__, formatter_class=argparse.RawDescriptionHelpFormatter
    )
    made.add_argument("case", metavar="CASE", help="the case")
    for name, what in (("F0", "the first frequency"), ("F1", "the last one"), ("DF", "from one to the next")):
        made.add_argument(name.lower(), metavar=name, help=what)
    made.add_argument("--at", metavar="NODE", required=True, help="the node that the current flows into")
    made.add_argument("--write", metavar="FILE", help="the case that is scanned")
    report.add_outputs(made)
    return made


def main(words: list[str]) -> int:
    """Runs the command."""
    its = parser().parse_args(words)
    report.checked(its, its.case)
    asked = [its.f0, its.f1, its.df]
    if not all(re.fullmatch(r"\d{1,8}", word) for word in asked):
        raise ScanError(f"frequencies are whole numbers of hertz, and here {', '.join(asked)}")
    if not os.path.isfile(its.case):
        raise ScanError(f"{its.case} isn't there")
    if its.write and os.path.realpath(its.write) == os.path.realpath(its.case):
        raise ScanError(f"--write {its.write}: this would be written over what is read")
    note, text, told = _scanned(its.case, its.at, *(int(word) for word in asked))
    for line in told:
        print(f"emtp scan: {line}", file=sys.stderr)
    print(note, end="", flush=True)
    if its.write:
        pathlib.Path(its.write).write_text(text, encoding="latin-1", newline="")
    found = scan_of(note, lambda line: "")
    with np.errstate(invalid="ignore"):
        sizes, angles = np.abs(found.ohm), np.array([math.degrees(cmath.phase(it)) for it in found.ohm])
    for path in (its.csv, its.curves):
        if path:
            rows = zip(*(it.tolist() for it in (found.hz, found.ohm.real, found.ohm.imag, sizes, angles)))
            _quietly(report.write_table, path, ("Hz", "R (ohm)", "X (ohm)", "magnitude (ohm)", "angle (degrees)"), rows)
    if its.out:
        with tempfile.TemporaryDirectory() as room:
            summary = os.path.join(room, "scan")
            pathlib.Path(summary).write_text(note, encoding="latin-1")
            drawing = scan_drawing(read_summary(summary, None, ""), f"{os.path.basename(its.case)} at {its.at}")
        _quietly(report.draw, drawing, its.out)
    return report.PASSES


def _quietly(call: Callable[..., object], *words: object) -> None:
    """A call whose printed words go to standard error, since standard output is the scan's."""
    own, sys.stdout = sys.stdout, sys.stderr
    try:
        call(*words)
    finally:
        sys.stdout = own
