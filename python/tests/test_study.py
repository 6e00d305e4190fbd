"""Tables of times, statistics, fields that are varied, and studies by a program that the test writes or the built one."""

import contextlib
import csv
import io
import os
import pathlib
import shutil
import signal
import subprocess
import sys
import tempfile
import time
import unittest
from decimal import Decimal
from unittest import mock

PACKAGE = pathlib.Path(__file__).resolve().parents[1]
sys.path.insert(0, str(PACKAGE))

import numpy as np  # noqa: E402
from wurdanei import deck, peaks, program, study, times, varied  # noqa: E402
from wurdanei.parts import StudyError  # noqa: E402

EXAMPLE = PACKAGE.parent / "examples" / "scattered_closing"

# a source behind 1 ohm; 9 ohm, 1 ohm and 4 ohm behind a pole each: all resistances, so each sample is known by hand
CASE = """C poles
BEGIN NEW DATA CASE
   1.E-3     .05
       1       1
  SRC   BUS                  1.0
  AUX   LOAD                 8.0
  LOAD                       1.0
  FAR                        4.0
BLANK
  BUS   AUX       .0105
  BUS   LOAD      .0205                                                        1
  BUS   FAR       .0305
BLANK
14SRC           100.       50.
BLANK
  BUS   LOAD  FAR
BLANK
"""
KINDS = (
    ["", "the card BEGIN NEW DATA CASE", "the first miscellaneous card", "the second miscellaneous card"]
    + ["a branch card"] * 4
    + [deck.END]
    + ["a switch card"] * 3
    + [deck.END, "a source card", deck.END, "a node output card", deck.END]
)


def samples(closes, resistance=8.0, load=1.0, amplitude=100.0):
    """Voltages of BUS, LOAD, FAR and the current of the second pole in each step, by Ohm's law."""
    at = np.arange(51) * 1e-3
    source = amplitude * np.cos(2 * np.pi * 50 * at)
    source[0] = 0  # record 0 is rest
    first, second, third = (at >= close for close in closes)
    through = np.where(second, 1 / load, np.where(first, 1 / (resistance + load), 0))
    bus = source / (1 + through + np.where(third, 0.25, 0))
    loaded = np.where(second, bus, np.where(first, bus * load / (resistance + load), 0))
    return np.array([bus, loaded, np.where(third, bus, 0), np.where(second, loaded / load, 0)])


def table_of(path, kind):
    """The rows of a csv file."""
    with path.open(newline="") as file:
        return list(kind(file))


class Times(unittest.TestCase):
    """Rows of scattered closing times."""

    def closes(self, **words):
        scatter = times.Scatter(**{"rows": 2000, "cycle": 0.02, "sigma": 0.001, "begin": 0.3} | words)
        lines = times.scattered(scatter, 4)
        self.assertTrue(lines[0].startswith("# 2000 rows, poles "))
        rows = [[np.nan if word == "*" else float(word) for word in line.split()] for line in lines[1:]]
        return lines, np.array(rows)

    def test_the_example_s_table(self):
        """The table of the example was written by an earlier program of the same rule."""
        given = (EXAMPLE / "before" / "scattered_closing.times").read_text()
        lines = times.scattered(times.Scatter(100, 0.02, 0.0012, 0.005, seed=145), 3)
        self.assertEqual("".join(line + "\n" for line in lines), given)

    def test_tied_poles(self):
        tied = times.tied_of("3:1:.01,4:3:-.002:.0005")
        lines, rows = self.closes(tied=tied)
        self.assertIn("poles 1,2 of 4", lines[0])
        self.assertTrue(lines[0].endswith("; 3 after 1 by 0.01 s; 4 after 3 by -0.002 s and 0.0005 s"))
        self.assertTrue(np.isnan(rows[:, 1::2]).all())
        np.testing.assert_allclose(rows[:, 4] - rows[:, 0], 0.01, atol=2e-9)
        apart = rows[:, 6] - rows[:, 4]
        self.assertAlmostEqual(apart.mean(), -0.002, delta=5e-5)
        self.assertAlmostEqual(apart.std(), 0.0005, delta=5e-5)
        self.assertAlmostEqual((rows[:, 2] - rows[:, 0]).std(), np.sqrt(2) * 0.001, delta=1e-4)

    def test_uniform(self):
        """A uniform offset of the deviation s lies within sqrt(3) s on either side."""
        _, rows = self.closes(uniform=True, poles=(2,), cycle=0.0)
        offset = rows[:, 2] - 0.3
        self.assertLessEqual(np.max(abs(offset)), np.sqrt(3) * 0.001 + 1e-9)
        self.assertGreater(np.max(abs(offset)), 0.0017)
        self.assertAlmostEqual(offset.std(), 0.001, delta=3e-5)
        self.assertTrue(np.isnan(rows[:, [0, 4, 6]]).all())

    def test_rows_behind_the_end_of_the_run(self):
        rows = ["* * * -", "1. 2. * *", ".5 2. * *", "1.5 - 2. *", "bad 2."]
        self.assertEqual([times.behind(rows, end) for end in (0.4, 0.5, 1.0, 1.4, 2.0)], [3, 2, 1, 1, 0])

    def test_the_end_of_the_run(self):
        """The last step is the one that is nearest to TMAX, a half later."""
        with tempfile.TemporaryDirectory() as room:
            path = pathlib.Path(room, "a.case")
            path.write_text(CASE)
            texts = [CASE, CASE.replace("     .05", "   .0524"), CASE.replace("     .05", "   .0525")]
            with mock.patch.object(deck, "kinds", lambda _: dict(enumerate(KINDS, 1))):
                self.assertEqual(deck.ends_of(str(path), texts), [0.05, 0.052, 0.053])
                for text in ("", CASE.replace("   1.E-3", "        "), CASE.replace("     .05", "       x")):
                    with self.assertRaisesRegex(deck.DeckError, "line 3 has no end of the run"):
                        deck.ends_of(str(path), [text])

    def test_equal_words_and_seed(self):
        self.assertEqual(self.closes(seed=4)[0], self.closes(seed=4)[0])
        self.assertNotEqual(self.closes(seed=4)[0][1:], self.closes(seed=5)[0][1:])

    def test_refusals(self):
        for text in ("4:1", "4", "a:1:.1", "4:1:x", "4:1:.1:-1", "4:1:.1:.1:.1", "4:1:nan", ""):
            with self.assertRaisesRegex(times.TimesError, "it is POLE:FIRST|DELAY is a number"):
                times.tied_of(text)
        for words, cause in (
            ({"poles": (1, 5)}, "are 1 to 4"),
            ({"poles": (1, 1)}, "stands twice"),
            ({"poles": (1, 2), "tied": times.tied_of("2:1:0.1")}, "stands twice"),
            ({"tied": times.tied_of("2:1:.1,2:1:.2")}, "ties a switch twice"),
            ({"poles": (1,), "tied": times.tied_of("3:2:.1")}, "switch 2 has no scattered time"),
            ({"tied": times.tied_of("4:3:.1,3:1:.1")}, "switch 3 has no scattered time, or is tied behind it"),
            ({"tied": times.tied_of("9:1:.1")}, "are 1 to 4"),
        ):
            with self.subTest(words=words), self.assertRaisesRegex(times.TimesError, cause):
                times.scattered(times.Scatter(3, 0.02, 0.001, **words), 4)


class Statistics(unittest.TestCase):
    """Peaks by hand."""

    CHANNELS = peaks.Channels(("V A", "V B", "I A-B"), ("V", "V", "A"), (("V", (0, 1)),))
    LINES = [
        "ROW 1 DONE PEAKS 100 250.5 3",
        "ROW 2 ENDED STEP 7 RANGE A PEAKS 300 20 4",
        "ROW 3 DONE PEAKS 300 9.75 1",
        "MAX 1 300 ROW 2",
        "",
    ]

    def test_summary(self):
        rows = peaks.rows_in(self.LINES)
        self.assertEqual(rows[1], peaks.Row("ENDED STEP 7 RANGE A", ("300", "20", "4")))
        told = peaks.summary(rows, self.CHANNELS).splitlines()
        self.assertEqual(told[:4], self.LINES[:4])
        self.assertEqual(told[4:], ["MAX 2 250.5 ROW 1", "MAX 3 4 ROW 2", "ANY V 300 ROW 2"])

    def test_base(self):
        rows = peaks.rows_in(self.LINES)
        self.assertEqual(self.CHANNELS.headings(100), ["V A (pu)", "V B (pu)", "I A-B (A)", "ANY V (pu)"])
        self.assertEqual(self.CHANNELS.values(rows[0].peaks, 100), ["1", "2.505", "3", "2.505"])
        self.assertEqual(self.CHANNELS.values(rows[0].peaks, None), ["100", "250.5", "3", "250.5"])

    def test_shares(self):
        """Of 1 to 100, 50 exceed 50 and 2 exceed 98; of 1 to 99, 49 exceed 50 and 1 exceeds 98."""
        for count, half, seldom in ((100, 50, 98), (99, 50, 98), (12, 6, 12), (1, 1, 1), (200, 100, 196)):
            found = peaks.statistics([Decimal(it) for it in reversed(range(1, count + 1))])
            self.assertEqual((found.half, found.seldom, found.greatest, found.row), (half, seldom, count, 1))

    def test_sets(self):
        names, units = self.CHANNELS.names, self.CHANNELS.units
        self.assertEqual(
            peaks.sets_of(["V", "V B", "V B,V A"], names, units), (("V", (0, 1)), ("V B", (1,)), ("V B,V A", (1, 0)))
        )
        with self.assertRaisesRegex(StudyError, "no channel is named V C"):
            peaks.sets_of(["V A,V C"], names, units)
        with self.assertRaisesRegex(StudyError, "several units"):
            peaks.sets_of(["V,I"], names, units)


class Varied(unittest.TestCase):
    """Fields and windows, of a case whose kinds of lines the test names."""

    def setUp(self):
        self.room = tempfile.TemporaryDirectory()
        self.addCleanup(self.room.cleanup)
        path = os.path.join(self.room.name, "a.case")
        pathlib.Path(path).write_text(CASE)
        kinds = {line: kind for line, kind in enumerate(KINDS, 1) if kind}
        with mock.patch.object(deck, "kinds", lambda _: kinds):
            self.deck = deck.Deck(path)

    def test_fields(self):
        for asked, line, text in (
            ("6:R=12.5", 6, "  AUX   LOAD                12.5"),
            ("6:27-32=12.5", 6, "  AUX   LOAD                12.5"),
            ("14:AMPLITUDE=2.E5", 14, "14SRC           2.E5       50."),
            ("14:phase=-90.", 14, "14SRC           100.       50.      -90."),
            ("11:t-close=-1.", 11, "  BUS   LOAD         -1.                                                       1"),
            ("3:TMAX=.1", 3, "   1.E-3      .1"),
        ):
            with self.subTest(asked=asked):
                found = varied.varied_of(self.deck, asked)
                made = varied.text_with(self.deck, [found], (found.texts[0],)).splitlines()
                hand = CASE.splitlines()
                hand[line - 1] = text
                self.assertEqual(made, hand)

    def test_fields_of_lines(self):
        self.deck.lines[7] = f"{'-1FAR   END':32}  400.  2.E5  100. 1"
        for asked, place in (
            ("8:A=1.", (33, 38)),
            ("8:surge impedance=1.", (33, 38)),
            ("8:velocity=1.", (39, 44)),
        ):
            with self.subTest(asked=asked):
                found = varied.varied_of(self.deck, asked)
                self.assertEqual((found.first, found.last), place)
        cause = r"line 8, a line card, has no field named C; it has .*surge impedance \(A\), velocity \(B\)"
        with self.assertRaisesRegex(varied.VariedError, cause):
            varied.varied_of(self.deck, "8:C=1.")

    def test_combinations(self):
        lists = [varied.varied_of(self.deck, it) for it in ("6,7:R=1.,2.", "14:amplitude=5.,6.,7.")]
        found = varied.combinations(lists)
        self.assertEqual(found[:4], [("1.", "5."), ("1.", "6."), ("1.", "7."), ("2.", "5.")])
        self.assertEqual(len(found), 6)
        made = varied.text_with(self.deck, lists, found[3]).splitlines()
        self.assertEqual([made[5][26:32], made[6][26:32], made[13][10:20]], ["    2.", "    2.", "        5."])

    def test_refusals(self):
        for asked, cause in (
            ("6:R", "it is LINE"), ("R=1", "it is LINE"), ("x:R=1", "it is LINE"), ("6:R=1,,2", "it is LINE"),
            ("3:Q=1", "line 3, a first miscellaneous card, has no field named Q"),
            ("6:Q=1", r"a series branch card, has no field named Q; it has type \(TY\), R, L, C"),
            ("1:R=1", "it is no card"), ("9:R=1", "it is the end of a section"), ("99:R=1", "it is no card"),
            ("99:1-2=1", "has lines 1 to 17"), ("6:0-2=1", "they lie from 1 to 80"), ("6:9-2=1", "they lie from 1 to 80"),
            ("6:R=1234567", "1234567 is longer than columns 27 to 32"), ("6,14:1-2=7,6,x=3", "x=3 is longer"),
        ):  # fmt: skip
            with self.subTest(asked=asked), self.assertRaisesRegex(varied.VariedError, cause):
                varied.varied_of(self.deck, asked)
        with self.assertRaisesRegex(varied.VariedError, "more than 10,000 cases"):
            varied.combinations([varied.Varied("", (6,), 27, 32, ("1",) * 101)] * 2)

    def test_window(self):
        found = varied.windowed(self.deck, 0.02)
        self.assertEqual(found, {"T A0": "V BUS", "T A1": "V LOAD", "T A2": "V FAR"})
        lines = self.deck.text().splitlines()
        self.assertEqual(lines[3:14], [
            "       1       1", "TACS HYBRID", "BLANK", "90BUS", "90LOAD", "90FAR", "BLANK",
            "98A0    57+BUS", "  0.020000000000         999999.", "            9999", "98A1    57+LOAD",
        ])  # fmt: skip
        self.assertEqual(lines[19:25], ["BLANK", "  A0", "  A1", "  A2", "BLANK", "BLANK"])
        self.assertEqual(lines[25:], CASE.splitlines()[4:15] + ["BLANK"])
        with self.assertRaisesRegex(varied.VariedError, "isn't within the run"):
            varied.windowed(self.deck, 0.05)


STAND_IN = """#!/bin/sh
# stands in for the program: peaks are the first time of a row, in ms, and 7
case $1 in
run) printf 'EMTP,CASE,1999\\r\\n2,2A,0D\\r\\n1,V A,,,V,1,0,0,-32767,32767,1,1,P\\r\\n2,V B,,,V,1,0,0,-32767,32767,1,1,P\\r\\n60\\r\\n0\\r\\n0,1\\r\\n01/01/2000,00:00:00.000000\\r\\n01/01/2000,00:00:00.000000\\r\\nASCII\\r\\n1\\r\\n' >"$3"
  printf '1,0,%s,5\\r\\n' "$(wc -l <"$2")" >"$4"; echo DONE STEPS 1 SAMPLES 1 REDONE 0 ;;
batch) sleep "${SLOW:-0}"; awk '/bad/ { print "BAD ROW LINE " NR " ITEM 1"; exit 9 } { print "ROW " NR " DONE PEAKS " 1000 * $1 " 7" }' "$3" ;;
esac
"""


class Parts(unittest.TestCase):
    """What is done part by part, with a program that stands in."""

    def setUp(self):
        self.room = tempfile.TemporaryDirectory()
        self.addCleanup(self.room.cleanup)
        self.place = pathlib.Path(self.room.name)
        (self.place / "stand_in").write_text(STAND_IN)
        (self.place / "stand_in").chmod(0o755)
        (self.place / "a.case").write_text(CASE)
        (self.place / "a.times").write_text("# times\n\n" + "".join(f"{it / 1000} *\n" for it in (4, 9, 2, 9, 1)))

    def start(self, *words, **others):
        environment = {
            **os.environ,
            "EMTP": str(self.place / "stand_in"),
            "PYTHONPATH": str(PACKAGE),
            "HOME": self.room.name,
            **others,
        }
        return subprocess.Popen(
            [sys.executable, "-m", "wurdanei", "study", *words], cwd=self.place, env=environment, stdout=subprocess.PIPE,
            stderr=subprocess.PIPE, text=True,
        )  # fmt: skip

    def run_words(self, *words, **others):
        ran = self.start(*words, **others)
        out, told = ran.communicate(timeout=600)
        return ran.returncode, out, told

    def test_parts_are_joined(self):
        status, out, told = self.run_words("a.case", "a.times", "--jobs", "2", "--any", "V", "--base", "2")
        self.assertEqual(status, 0, told)
        summary = (self.place / "a.study" / "summary").read_text().splitlines()
        hand = ["4 7", "9 7", "2 7", "9 7", "1 7"]
        self.assertEqual(summary[:5], [f"ROW {place} DONE PEAKS {it}" for place, it in enumerate(hand, 1)])
        self.assertEqual(summary[5:], ["MAX 1 9 ROW 2", "MAX 2 7 ROW 1", "ANY V 9 ROW 2"])
        rows = table_of((self.place / "a.study" / "rows.csv"), csv.reader)
        self.assertEqual(rows[0], ["row", "line", "close 1", "open 1", "end", "V A (pu)", "V B (pu)", "ANY V (pu)"])
        self.assertEqual(rows[2], ["2", "4", "0.009", "*", "DONE", "4.5", "3.5", "4.5"])
        self.assertIn("5 rows: a.study/summary, a.study/rows.csv\n", out)
        self.assertRegex(out, r"ANY V \(pu\) +3.5 +4.5 +4.5  2")
        self.assertTrue((self.place / "a.study" / "peaks.png").read_bytes().startswith(b"\x89PNG"))
        self.assertIn("peak of V B (pu)", (self.place / "a.study" / "peaks.html").read_text())
        status, _, told = self.run_words("a.case", "a.times")
        self.assertEqual((status, told), (2, "emtp study: a.study is there: --resume goes on with it, or remove it\n"))

    def test_broken_off_and_gone_on_with(self):
        """A study that is ended leaves nothing running; --resume does what lacks, and only of the same files and program."""
        words = ("a.case", "a.times", "--jobs", "1", "--out", "s")
        ran = self.start(*words, SLOW="1")
        done = self.place / "s" / "part000001.status"
        for _ in range(3000):
            if done.exists():
                break
            time.sleep(0.1)
        ran.send_signal(signal.SIGTERM)
        ran.communicate(timeout=600)
        self.assertEqual(ran.returncode, 143)
        before = done.stat().st_mtime_ns
        self.assertFalse((self.place / "s" / "summary").exists())
        status, out, told = self.run_words(*words, "--resume")
        self.assertEqual(status, 0, told)
        self.assertIn("5 rows: s/summary", out)
        self.assertEqual(done.stat().st_mtime_ns, before)
        (self.place / "a.times").write_text(".5 *\n")
        status, _, told = self.run_words(*words, "--resume")
        self.assertEqual((status, told), (2, "emtp study: s is of other files, of other words or of another program\n"))

    def test_refused_row_has_its_own_line(self):
        (self.place / "a.times").write_text("# a\n.1 *\n\n.2 *\nbad * * * * *\n")
        status, _, told = self.run_words("a.case", "a.times", "--jobs", "3")
        self.assertEqual(status, 2)
        self.assertTrue(told.endswith("emtp study: a.times: line 5, item 1: bad * * * * *\n"), told)
        self.assertFalse((self.place / "a.study").exists())

    def test_table_of_another_case(self):
        (self.place / "a.times").write_text("bad * .1 *\n")
        status, _, told = self.run_words("a.case", "a.times")
        self.assertEqual(status, 2)
        self.assertTrue(told.endswith("line 1, item 1: bad * .1 *: 6 items, for 3 time switches; here 4\n"), told)

    def test_this_machine_in_a_list_of_machines(self):
        (self.place / "machines").write_text("2/:\n")
        status, out, told = self.run_words("a.case", "a.times", "--sshloginfile", "machines")
        self.assertEqual(status, 0, told)
        self.assertIn("5 rows", out)

    def test_many_cases(self):
        (self.place / "b.case").write_text("one\ntwo\n")
        (self.place / "list").write_text("a.case\n\n b.case\n")
        status, out, told = self.run_words("--cases", "list", "--any", "V")
        self.assertEqual((status, out), (0, "2 cases: list.study/cases.csv\n"), told)
        rows = table_of((self.place / "list.study" / "cases.csv"), csv.reader)
        self.assertEqual(rows[0], ["case", "record", "printed", "V A (V)", "V B (V)", "ANY V (V)"])
        self.assertEqual(rows[1], ["a.case", "part000001", "DONE STEPS 1 SAMPLES 1 REDONE 0", "17", "5", "17"])
        self.assertEqual(rows[2][3:], ["2", "5", "5"])

    def refused(self, *words):
        out, told = io.StringIO(), io.StringIO()
        given = {"EMTP": str(self.place / "stand_in")}
        with mock.patch.dict(os.environ, given), contextlib.chdir(self.place):
            with contextlib.redirect_stdout(out), contextlib.redirect_stderr(told):
                try:
                    status = study.main(list(words))
                except SystemExit as ended:
                    status = ended.code
        return status, out.getvalue(), told.getvalue()

    def test_refusals(self):
        (self.place / "empty").write_text("# nothing\n\n")
        for words, cause in (
            (("none.case", "a.times"), "none.case isn't there"),
            (("a.case", "empty"), "empty has no rows"),
            (("--cases", "empty2"), "empty2 isn't there"),
            (("--cases", "empty"), "# nothing isn't there"),
            (("a.case", "a.times", "--any", "V C"), "no channel is named V C"),
            (("a.case",), "either CASE TIMES"),
            (("a.case", "a.times", "--jobs", "0"), "at least 1"),
            (("a.case", "a.times", "--base", "0"), "--base is a number of volts above 0"),
            (("a.case", "a.times", "--peaks-from", "-1"), "--peaks-from is a number of seconds"),
            (("a.case", "--times", "0", "--spread", "1", "1"), "at least 1"),
            (("a.case", "--times", "3", "--spread", "1", "nan"), "CYCLE and SIGMA"),
            (("a.case", "--times", "3"), "--times N and --spread CYCLE SIGMA stand together"),
            (("a.case", "a.times", "--spread", "1", "1"), "--times N and --spread CYCLE SIGMA stand together"),
            (("--cases", "list", "--vary", "1:R=1"), "are of one case"),
        ):
            with self.subTest(words=words):
                status, out, told = self.refused(*words)
                self.assertEqual((status, out), (2, ""), told)
                self.assertIn(cause, told)


@unittest.skipUnless(
    program.is_there() and shutil.which("parallel"), "the programs aren't built, or there is no parallel"
)
class Whole(unittest.TestCase):
    """The built program's peaks beside those of Ohm's law."""

    def setUp(self):
        self.room = tempfile.TemporaryDirectory()
        self.addCleanup(self.room.cleanup)
        self.place = pathlib.Path(self.room.name)
        (self.place / "a.case").write_text(CASE)

    def run_words(self, *words):
        out, told = io.StringIO(), io.StringIO()
        with contextlib.chdir(self.place), contextlib.redirect_stdout(out), contextlib.redirect_stderr(told):
            status = study.main(list(words))
        self.assertEqual(status, 0, told.getvalue())
        return out.getvalue(), told.getvalue()

    def test_values_and_a_window(self):
        table, _ = self.run_words("a.case", "--times", "3", "--spread", ".02", ".001", "--after", "2:1:.007,3:1:.011")
        (self.place / "a.times").write_text(table)
        closes = [[float(line.split()[place]) for place in (0, 2, 4)] for line in table.splitlines()[1:]]
        out, told = self.run_words(
            "a.case", "a.times", "--vary", "6:R=8.,20.", "--vary", "14:amplitude=100.,300.", "--peaks-from", ".0155",
            "--any", "V BUS,V LOAD", "--out", "s",
        )  # fmt: skip
        self.assertIn("the peaks of I BUS-LOAD (A) are of the whole run", told)
        rows = table_of((self.place / "s" / "rows.csv"), csv.DictReader)
        self.assertEqual(len(rows), 12)
        for row in rows:
            closed = closes[int(row["row"]) - 1]
            hand = samples(closed, float(row["6:R"]), amplitude=float(row["14:amplitude"]))
            for name, values in zip(("V BUS", "V LOAD", "V FAR"), hand):
                found = float(row[f"{name} from 0.0155 s on (V)"])
                self.assertAlmostEqual(found, np.max(abs(values[16:])), delta=1e-6)
            self.assertAlmostEqual(float(row["I BUS-LOAD (A)"]), np.max(abs(hand[3])), delta=1e-6)
            self.assertAlmostEqual(float(row["ANY V BUS,V LOAD (V)"]), np.max(abs(hand[:2, 16:])), delta=1e-6)
        self.assertEqual(
            sorted(it.name for it in (self.place / "s").glob("summary*")), [f"summary.{it}" for it in "1234"]
        )
        values = table_of((self.place / "s" / "values.csv"), csv.DictReader)
        self.assertEqual(
            [(it["6:R"], it["14:amplitude"]) for it in values],
            [("8.", "100."), ("8.", "300."), ("20.", "100."), ("20.", "300.")],
        )

    def test_cases_without_a_record(self):
        """What has none is told with its first one; where none has one, the study ends with a status of its own."""
        refused = "BAD CARD LINE 6 COLUMN 27 REASON 3 NotANumber"
        out, told = self.run_words("a.case", "--vary", "6:R=1.,x,y", "--out", "some")
        self.assertEqual(out, "3 cases: some/cases.csv\n")
        end = f"emtp study: 2 of 3 cases without a record; the first is a.case, 6:R = x: {refused}\n"
        self.assertTrue(told.endswith(end), told)
        with contextlib.chdir(self.place), contextlib.redirect_stdout(io.StringIO()) as out:
            with contextlib.redirect_stderr(io.StringIO()) as told:
                self.assertEqual(study.main(["a.case", "--vary", "6:R=x", "--out", "none"]), 2)
        self.assertEqual(out.getvalue(), "1 case: none/cases.csv\n")
        end = f"emtp study: 1 of 1 case without a record; the first is a.case, 6:R = x: {refused}\n"
        self.assertTrue(told.getvalue().endswith(end), told.getvalue())

    def test_times_behind_the_end_of_the_run(self):
        table, told = self.run_words("a.case", "--times", "2", "--spread", ".001", "0", "--from", "1", "--poles", "2")
        self.assertEqual(told, "emtp study: of 2 of 2 rows all times lie behind the end of the run, 0.05 s\n")
        self.assertTrue(table.startswith("# 2 rows, poles 2 of 3"))
        (self.place / "a.times").write_text("* * * * * *\n.05 * .06 * * *\n.0501 * * - * .07\n")
        _, told = self.run_words("a.case", "a.times")
        self.assertIn("of 1 of 3 rows all times lie behind the end of the run, 0.05 s\n", told)
        _, told = self.run_words("a.case", "a.times", "--vary", "3:TMAX=.05,.07", "--out", "longer")
        self.assertNotIn("behind the end", told)

    def test_values_alone(self):
        out, _ = self.run_words("a.case", "--vary", "7:R=1.,3.", "--base", "100")
        self.assertEqual(out, "2 cases: a.study/cases.csv\ndrawn: a.study/cases.png\ndrawn: a.study/cases.html\n")
        self.assertTrue((self.place / "a.study" / "cases.png").read_bytes().startswith(b"\x89PNG"))
        rows = table_of((self.place / "a.study" / "cases.csv"), csv.DictReader)
        for row in rows:
            hand = samples((0.0105, 0.0205, 0.0305), load=float(row["7:R"]))
            self.assertAlmostEqual(float(row["V LOAD (pu)"]), np.max(abs(hand[1])) / 100, delta=2e-4)

    def test_refused_values(self):
        (self.place / "a.times").write_text("* * * * * *\n")
        for values, words in (("x,1.", "a.case with 6:R = x: "), ("1.,x", "a.case with 6:R = x: status 2, ")):
            with contextlib.chdir(self.place), contextlib.redirect_stderr(io.StringIO()) as told:
                self.assertEqual(study.main(["a.case", "a.times", "--vary", f"6:R={values}", "--out", values]), 2)
            self.assertIn(words + "BAD CARD LINE 6 COLUMN 27 REASON 3 NotANumber", told.getvalue())

    def test_refused_case(self):
        (self.place / "b.case").write_text(CASE.replace("14SRC", "15SRC"))
        (self.place / "a.times").write_text("* * * * * *\n")
        with contextlib.chdir(self.place), contextlib.redirect_stderr(io.StringIO()) as told:
            self.assertEqual(study.main(["b.case", "a.times"]), 2)
        self.assertIn(
            "b.case: BAD CARD LINE 14 COLUMN 1 REASON 7 BadType; `emtp show` says more of a case", told.getvalue()
        )
        self.assertFalse((self.place / "b.study").exists())


if __name__ == "__main__":
    unittest.main()
