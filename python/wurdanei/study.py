"""Runs one case under many switch times or values, or many cases, on all processors, and joins the answers.

docs/tools.md has the form of a table, docs/study.md what is asked and written.
"""

import argparse
import math
import os
import signal
import sys

from . import listed_cases, parts, program, tabled, times, varied
from .deck import DeckError, time_switches
from .parts import Means, StudyError
from .record import RecordError


def means_of(words: argparse.Namespace, stem: str) -> Means:
    """With what the parts are run, by the words."""
    room = words.out or os.path.splitext(stem)[0] + ".study"
    return Means(room, words.jobs, words.sshloginfile, words.resume)


def write_times(words: argparse.Namespace) -> None:
    """A table of scattered closing times, on standard output."""
    count = len(time_switches(words.case))
    if not count:
        raise StudyError(f"{words.case} has no time switch that could be read")
    try:
        poles = tuple(int(pole) for pole in words.poles.split(",")) if words.poles else ()
    except ValueError:
        raise StudyError(f"--poles {words.poles}: numbers of time switches, 1 to {count}, parted by commas") from None
    tied = times.tied_of(words.after) if words.after else ()
    cycle, sigma = words.spread
    scatter = times.Scatter(words.times, cycle, sigma, words.begin, poles, tied, words.uniform, words.seed)
    lines = times.scattered(scatter, count)
    with open(words.case, encoding="latin-1", newline="") as file:
        times.tell_behind(lines[1:], words.case, [file.read()])
    print("\n".join(lines))


def _words() -> argparse.ArgumentParser:
    words = argparse.ArgumentParser(
        prog="emtp study",
        usage="""emtp study CASE TIMES [..]
       emtp study CASE --vary LINES:FIELD=VALUES .. [..]
       emtp study --cases LIST [..]
       emtp study CASE --times N --spread CYCLE SIGMA [..] >TIMES""",
        formatter_class=argparse.RawDescriptionHelpFormatter,
        description=__doc__.split("\n\n", maxsplit=1)[0],
        epilog="""The first form splits TIMES, a table of any length (docs/tools.md), into parts that `emtp batch` runs, and leaves
in DIR summary, rows.csv, peaks.png and peaks.html. With --vary it runs the table for each combination of values: summary.1 and so on,
rows.csv, and values.csv with the statistics of each. The second form runs the case once for each combination, the third
one each case of a list (a name a line): their records part000001.cfg and .dat and so on, and cases.csv. The fourth form
writes a table: a row closes its switches at T, plus an offset that is uniform over CYCLE seconds, plus one of each pole
of the deviation SIGMA. With --sshloginfile the parts run on several machines.
For other machines it needs GNU parallel (Debian: parallel), rsync and ssh, for the pictures matplotlib.
Exit status: 0, or 2 where a study can't be made, or none of its cases has a record.""",
    )
    words.add_argument("case", metavar="CASE", nargs="?", help=argparse.SUPPRESS)
    words.add_argument("table", metavar="TIMES", nargs="?", help=argparse.SUPPRESS)
    words.add_argument("--cases", metavar="LIST", help="a file with the name of a case a line")
    words.add_argument(
        "--vary",
        metavar="WHAT",
        action="append",
        default=[],
        help="LINE[,LINE..]:FIELD=VALUE[,VALUE..]: a field of lines of the case, by its name (docs/cards.md) or its "
        "columns as 27-32, and its values, one after the other; fields that move together are parted by ;",
    )
    words.add_argument("--peaks-from", metavar="T", type=float, help="peaks of node voltages from T seconds on")
    words.add_argument(
        "--any",
        metavar="NAMES",
        action="append",
        default=[],
        help="the greatest peak of a set of channels besides: names parted by commas, or a kind as V",
    )
    words.add_argument(
        "--base",
        metavar="V",
        type=float,
        help="peaks of voltages in units of so many volts (tables, picture, statistics)",
    )
    words.add_argument("--out", metavar="DIR", help="a new folder; CASE or LIST without its ending, and .study")
    words.add_argument(
        "--jobs",
        metavar="N",
        type=int,
        default=program.processors(),
        help="so many parts at a time; %(default)s",
    )
    words.add_argument(
        "--sshloginfile", metavar="FILE", help="machines, a line each as 8/user@host, and this one as 4/:"
    )
    words.add_argument("--resume", action="store_true", help="goes on with the parts that DIR lacks")
    words.add_argument("--times", metavar="N", type=int, help="writes a table of N rows")
    words.add_argument("--spread", metavar=("CYCLE", "SIGMA"), type=float, nargs=2, help="seconds")
    words.add_argument("--from", dest="begin", metavar="T", type=float, default=0.0, help="seconds; %(default)s")
    words.add_argument("--poles", metavar="LIST", help="the time switches that scatter, as 1,2,3; all that aren't tied")
    words.add_argument(
        "--after",
        metavar="LIST",
        help="ties switches: 4:1:.01,5:2:.01 closes 4 .01 s after 1; 4:1:.01:.0005 by a deviation",
    )
    words.add_argument(
        "--uniform", action="store_true", help="the offsets of the poles are uniform, with the same deviation"
    )
    words.add_argument("--seed", metavar="K", type=int, default=1, help="of the random numbers; %(default)s")
    return words


def _checked(words: argparse.ArgumentParser, given: argparse.Namespace) -> None:
    """Ends with the usage where a number is out of its range."""
    if given.jobs < 1 or (given.times is not None and given.times < 1):
        words.error("--jobs and --times are at least 1")
    if (given.times is None) != (given.spread is None):
        words.error("--times N and --spread CYCLE SIGMA stand together")
    if given.spread and not all(0 <= it < math.inf for it in given.spread):
        words.error("CYCLE and SIGMA are numbers of seconds, at least 0")
    if not math.isfinite(given.begin) or given.seed < 0:
        words.error("T is a number of seconds, and K is at least 0")
    if given.peaks_from is not None and not 0 <= given.peaks_from < math.inf:
        words.error("--peaks-from is a number of seconds, at least 0")
    if given.base is not None and not 0 < given.base < math.inf:
        words.error("--base is a number of volts above 0")
    if given.cases and (given.vary or given.peaks_from is not None):
        words.error("--vary and --peaks-from are of one case")


def _run(words: argparse.ArgumentParser, given: argparse.Namespace) -> None:
    if given.cases and not given.case:
        parts.need([given.cases])
        names, texts = listed_cases.list_of(given.cases)
        cases = varied.Cases(texts, [], [()] * len(texts), {})
        listed_cases.run_cases(given, means_of(given, given.cases), names, cases)
    elif given.case and given.times and given.spread and not given.table:
        parts.need([given.case])
        write_times(given)
    elif given.case and given.table and not given.times and not given.cases:
        tabled.run_table(given, means_of(given, given.case))
    elif given.case and given.vary and not given.times and not given.cases:
        parts.need([given.case])
        cases = varied.cases_of(given.case, given.vary, given.peaks_from)
        listed_cases.run_cases(given, means_of(given, given.case), [given.case] * len(cases.texts), cases)
    else:
        words.error("either CASE TIMES, or CASE --vary, or --cases LIST, or CASE --times N --spread CYCLE SIGMA")


def main(words: list[str]) -> int:
    """The command."""
    read_words = _words()
    given = read_words.parse_args(words)
    _checked(read_words, given)
    signal.signal(signal.SIGTERM, lambda *_: sys.exit(143))
    try:
        _run(read_words, given)
    except (
        StudyError,
        times.TimesError,
        varied.VariedError,
        DeckError,
        RecordError,
        program.ProgramError,
    ) as fault:
        print(f"emtp study: {fault}", file=sys.stderr)
        return 2
    except KeyboardInterrupt:
        print("emtp study: broken off; --resume goes on with what has parts", file=sys.stderr)
        return 130
    return 0
