"""Tests of wurdanei.atp: 20 decks, of which each line's fate is checked, and the case that is made of them.

Before each line of a deck stands its fate: r as it is, t turned, x left out. `@32:1.0` puts a text so that it ends in
column 32.
"""

import contextlib
import io
import math
import os
import pathlib
import re
import tempfile
import unittest

import numpy as np

from wurdanei import atp, program
from wurdanei.atp import LEFT, READ, TURNED, AtpError, Translation, translated
from wurdanei.case import Case

needs_program = unittest.skipUnless(program.is_there(), "the program isn't built, so it answers nothing")
FATES = {"r": READ, "t": TURNED, "x": LEFT}


def placed(line: str) -> str:
    """A line of a deck, its texts in their columns."""
    base, *texts = re.split(r" *@(?=\d)", line)
    row = list(base.ljust(80))
    for text in texts:
        last, _, word = text.partition(":")
        row[int(last) - len(word) : int(last)] = word
    return "".join(row).rstrip()


def cards(case: Case) -> list[str]:
    """The cards of a case behind its two miscellaneous cards, and without the ends of its sections."""
    return [line for line in case.text().splitlines()[3:] if line != "BLANK"]


class Decks(unittest.TestCase):
    def deck(self, marked: str, words: dict[int, str] | None = None, **how) -> Translation:
        """Translates a deck, and compares the fate of each line with its mark; `words` are those of some lines."""
        rows = [line for line in marked.split("\n") if line]
        found = translated("\n".join(placed(line[2:]) for line in rows) + "\n", **how)
        told = {it.line: it for it in found.fates}
        for number, row in enumerate(rows, 1):
            self.assertEqual(told[number].fate, FATES[row[0]], f"{row}: {told[number]}")
        self.assertEqual(len(found.fates), len(rows))
        for number, text in (words or {}).items():
            self.assertRegex(told[number].words, text)
        self.assertEqual(found.whole, not any(row[0] == "x" for row in rows))
        if program.is_there():
            found.case.show()  # the program reads what was written
        return found

    def test_1_a_divider(self) -> None:
        found = self.deck(
            """r BEGIN NEW DATA CASE
r    1.E-4   3.E-4
r        1       1
r C two resistances
r   SRC   MID                  1.0
r   MID                        1.0
r BLANK BRANCH
r BLANK SWITCH
r 11SRC        100.0
r BLANK SOURCE
r   MID
r BLANK OUTPUT
r BLANK PLOT
r BEGIN NEW DATA CASE
"""
        )
        self.assertEqual(
            cards(found.case),
            ["  SRC   MID                   1.", "  MID                         1.", "11SRC           100.", "  MID"],
        )
        self.assertEqual((found.case.dt, found.case.steps, found.case.every), (1e-4, 3, 1))

    def test_2_implied_decimals(self) -> None:
        found = self.deck(
            """r BEGIN NEW DATA CASE
r    1.E-4   3.E-4
t       10       2       1       1
t   SRC   MID                  150
t   MID                        120   350
r BLANK
r BLANK
t 11SRC      100000000
r BLANK
r   MID
r BLANK
""",
            {4: "^R 150 is 1.5 by 2 implied decimals", 5: "R 120 is 1.2 .*; L 350 is 3.5", 8: "is 100 by 6 implied"},
        )
        self.assertEqual(cards(found.case)[0], "  SRC   MID                  1.5")
        self.assertEqual(cards(found.case)[2][:20], "11SRC           100.")

    def test_3_a_number_that_has_no_place(self) -> None:
        found = self.deck(
            """r BEGIN NEW DATA CASE
r    1.E-4   3.E-4
r        1       1
x   SRC   MID                 15
x   SRC   MID                 1,5
r   SRC   MID                 1.5
r   MID                       1.5
r BLANK
r BLANK
r 11SRC        100.0
r BLANK
r   MID
r BLANK
""",
            {4: "'15' has no point, and doesn't end in the last column", 5: "'1,5' is no number"},
        )
        self.assertEqual(len(cards(found.case)), 4)

    def test_4_reactances_and_susceptances(self) -> None:
        found = self.deck(
            """r BEGIN NEW DATA CASE
t    1.E-5     .02     50.     50.
r        1       1
t   SRC   A @32:1.0 @38:314.16
t   A @44:314.16
r BLANK
r BLANK
r 14SRC @20:100. @30:50. @70:.0
r BLANK
r   A
r BLANK
""",
            {
                2: "L is in ohm at 50.0 Hz; C is in uS at 50.0 Hz",
                4: "^314.16 ohm are 1000.01 mH$|^314.16 ohm are 1000 mH$",
                5: "^314.16 uS are 1.00001 uF$|^314.16 uS are 1 uF$",
            },
        )
        shown = found.case._draft.contents.branches
        self.assertAlmostEqual(shown[0].given["values"][1], 314.16 / (100 * math.pi) * 1e3, 9)
        self.assertAlmostEqual(shown[1].given["values"][2], 314.16 / (100 * math.pi), 9)

    STEADY = """r BEGIN NEW DATA CASE
r    1.E-5     .06
r        1       1
r   SRC   A                    1.0   10.
r   A                         100.
r BLANK
r BLANK
? 14SRC @20:100. @30:50. @40:-90. @70:-1.
r BLANK
r   A
r BLANK
"""

    def test_5_a_steady_state_is_refused(self) -> None:
        found = self.deck(
            self.STEADY.replace("? ", "x "), {8: "on before 0, so ATP starts in the steady state: --smooth"}
        )
        self.assertEqual(len(cards(found.case)), 3)

    def test_6_a_smooth_start_in_its_place(self) -> None:
        found = self.deck(self.STEADY.replace("? ", "t "), {8: "its crest rises smoothly over 2 cycles"}, smooth=2.0)
        self.assertIn("60SRC", found.case.text())

    def test_7_a_start_from_rest_and_a_phase_in_seconds(self) -> None:
        deck = self.STEADY.replace("? ", "t ").replace("@40:-90.", "@40:.0025 @50:1.")
        found = self.deck(deck, {8: "starts at rest here; a phase of 0.0025 s is 45 degrees"}, rest=True)
        self.assertIn("14SRC           100.       50.       45.", found.case.text())

    def test_8_lines_of_one_phase(self) -> None:
        found = self.deck(
            """r BEGIN NEW DATA CASE
r    1.E-5     .02
r        1       1
r -1A     B @32:.05 @38:1.0 @44:.011 @50:100.
r -1B     C @32:.05 @38:300. @44:2.8E5 @50:100. @52:1
r -1C     D @38:300. @44:5.E-4 @50:1. @52:2
x -1D     E @32:.05 @38:300. @44:2.8E5 @50:100. @52:1 @54:1
x -1D     F @32:.05 @38:300. @44:2.8E5 @52:1
t -1D     G @32:.05 @38:30000 @44:2.8E5 @50:100. @52:1
r BLANK
r BLANK
r 11A @20:100.
r BLANK
r   D     G
r BLANK
""",
            {7: "IPUNCH 1: a frequency-dependent", 8: "A, B and length", 9: "A 30000 is 300 by 2 implied decimals"},
        )
        self.assertEqual(found.case.nodes, ["A", "B", "C", "D", "G"])

    def test_9_lines_of_three_phases(self) -> None:
        found = self.deck(
            """r BEGIN NEW DATA CASE
r    1.E-5     .02
r        1       1
r -1A1    B1 @32:.25 @38:2.8 @44:.008 @50:100.
r -2A2    B2 @32:.03 @38:1.0 @44:.012 @50:100.
r -3A3    B3 @80:1
x -1C1    D1 @32:.25 @38:2.8 @44:.008 @50:100.
x -2C2    D2 @32:.03 @38:1.0 @44:.012 @50:100.
r   B1                       1.E6
r BLANK
r BLANK
r 11A1          100.
r BLANK
r   B1
r BLANK
""",
            {7: "a line of three phases whose others aren't there"},
        )
        self.assertEqual([line[:2] for line in cards(found.case)[:3]], ["-1", "-2", "-3"])
        self.assertEqual(found.case.names, ["V B1", "I A3-B3"])

    def test_10_arresters(self) -> None:
        found = self.deck(
            """r BEGIN NEW DATA CASE
r    1.E-6   3.E-4
r        1       1
r 99A @80:3
r               1.           1.E5
r            1000.           2.E5
r             9999
x 99B @32:5.E5
x               1.           1.E5
x             9999
r   A     B                   10.
r BLANK
r BLANK
r 11A           100.
r BLANK
r   A
r BLANK
"""
        )
        self.assertEqual(cards(found.case)[0], "99A".ljust(79) + "3")
        self.assertEqual(found.case.names, ["V A", "I A-0", "U A-0"])

    def test_11_reactors(self) -> None:
        self.deck(
            """r BEGIN NEW DATA CASE
r    1.E-5     .02
r        1       1
t 98A @32:1.5 @38:.45
r               1.             .5
r              10.             .6
r             9999
r 98B           A @80:1
r   A     B                    1.
r BLANK
r BLANK
r 11A           100.
r BLANK
r   A
r BLANK
""",
            {4: "current and flux of the steady state aren't read"},
        )

    def test_12_types_that_have_no_like(self) -> None:
        found = self.deck(
            """r BEGIN NEW DATA CASE
r    1.E-5     .02
r        1       1
x 92A                         5555.
x         1.E5        -1.        0.
x         2.E5         8.
x         9999
x 51A     B                    1.0   5.0
x 52C     D                    2.0   6.0
x 15A     B                    2.0   6.0
r   A                         10.
r BLANK
r BLANK
r 11A           100.
r BLANK
r   A
x   B     D
r BLANK
""",
            {
                4: "an arrester that is solved by iteration",
                8: "coupled R and L",
                10: "a branch of type 15",
                17: "has the node [BD]",
            },
        )
        self.assertEqual(found.case.nodes, ["A"])

    def test_13_switches(self) -> None:
        found = self.deck(
            """r BEGIN NEW DATA CASE
r    1.E-5     .02
r        1       1
r   S     A                    1.
r   B                          1.
r   D                          1.
r BLANK
r   A     B @24:-1. @34:.01 @44:.5 @80:1
t   A     B @24:.005 @80:3
r   B     C @63:MEASURING @80:1
x   C     D @24:.001 @34:1.E3 @64:STATISTICS
x 12C     D          .001      1.E3
r   C     D          .001      1.E3
r BLANK
r 11S           100.
r BLANK
r   B
r BLANK
""",
            {9: "a blank Topen is 0", 11: "STATISTICS switches: emtp study", 12: "a switch of type 12"},
        )
        self.assertEqual(
            cards(found.case)[3:6],
            [
                "  A     B            -1.       .01        .5".ljust(79) + "1",
                "  A     B           .005        0.".ljust(79) + "3",
                "  B     C".ljust(54) + "MEASURING".ljust(25) + "1",
            ],
        )

    def test_14_control_and_valves(self) -> None:
        found = self.deck(
            """r BEGIN NEW DATA CASE
r    1.E-5     .04
r        1       1
r TACS HYBRID
r 90S
r 24ANGLE         180.       .01
r 98FIRE    =S .GT. 0. .AND. ANGLE .GT. 90.
x 98ROOT    =S**2
r 33FIRE  ANGLE
r BLANK TACS
r   S     A                    1.
r   B                         10.
r BLANK
r 11A     B @68:FIRE @80:1
r 13B     A @68:FIRE
x 11B     A @60:CLOSED
r BLANK
r 14S @20:100. @30:50. @70:0.
r BLANK
r   B
r BLANK
""",
            {8: "is due where '\\*' stands", 16: "the word CLOSED of a valve"},
        )
        self.assertIn("98FIRE    =S .GT. 0. .AND. ANGLE .GT. 90.", found.case.text())
        self.assertRegex(found.told[-1], "^the control computes in the order of its cards")

    def test_15_what_needs_a_card_that_is_left_out(self) -> None:
        found = self.deck(
            """r BEGIN NEW DATA CASE
r    1.E-5     .04
r        1       1
r TACS HYBRID
r  1LAG     +S @56:2. @62:-5. @68:5.
r         1.
r         1.       .01
r 90S
x 98SUM   58+LAG @56:1.
x 98TWICE   =2.*SUM
r 98PEAK  64+LAG
x 33SUM
x 77LAG           5.
r BLANK TACS
r   S                          1.
r BLANK
x 13S     A @69:TWICE
r BLANK
r 11S           100.
r BLANK
r   S
r BLANK
""",
            {9: "a device of code 58", 10: "nothing that was read defines SUM", 12: "defines SUM", 17: "defines TWICE"},
        )
        self.assertIn(" 1LAG     +S", found.case.text())

    def test_16_a_sorted_deck(self) -> None:
        found = self.deck(
            """r BEGIN NEW DATA CASE
r C ATPDraw
x $DUMMY, XYZ000
r   1.E-6    .001
t      500       1       1       1       1       0       0       1       0
r /BRANCH
r C < n1 >< n2 ><ref1><ref2>< R  >< L  >< C  >
r   X0001 X0002 @32:1. @80:1
r   X0002                     10.
r /SWITCH
r   X0002 X0003 @24:1.E-4 @34:1.E3 @80:0
r /SOURCE
r 11X0001  0 @20:100. @80:1.
r /BRANCH
r   X0003 @44:1.
r /OUTPUT
r   X0002 X0003
r BLANK BRANCH
r BLANK SWITCH
r BLANK SOURCE
r BLANK INITIAL
r BLANK OUTPUT
r BLANK PLOT
r BEGIN NEW DATA CASE
x BLANK
""",
            {3: "a request|special request", 25: "behind the end of the case"},
        )
        self.assertEqual(found.case.names, ["V X0002", "V X0003", "I X0001-X0002"])

    def test_17_wide_fields_and_included_files(self) -> None:
        found = self.deck(
            """r BEGIN NEW DATA CASE
r    1.E-5     .02
r        1       1
r $VINTAGE, 1
r   A     B @42:1.234568
r -1B     C @38:.05 @50:300. @62:2.8E5 @74:100. @76:1 @78:0
r $VINTAGE, 0
x $INCLUDE, line.lib
r   B                          10.
r BLANK
r BLANK
r 11A           100.
r BLANK
r   B
r BLANK
"""
        )
        self.assertIn("1.234568", found.case.text())
        self.assertIn("C", found.case.nodes)

    def test_18_copied_values_and_ground(self) -> None:
        found = self.deck(
            """r BEGIN NEW DATA CASE
r    1.E-5     .02
r        1       1
r   A     TERRA                10.
r   B           A
r   A     B     A
x   A     C     X     Y
x   A     A                    1.
r BLANK
r BLANK
r 11A           100.
r BLANK
r   B
r BLANK
""",
            {7: "no earlier branch of this type goes from X to Y", 8: "both ends are one node"},
        )
        self.assertIn("  B           A", found.case.text())

    def test_19_sources(self) -> None:
        found = self.deck(
            """r BEGIN NEW DATA CASE
r    1.E-5     .02
r        1       1
r   A                          10.
r   B                          10.
r BLANK
r BLANK
r 12A     -1    100.               1.E-3
x 13A     -1    100.               1.E-3      50.     1.E-2
x 15B         1000.    -1.E4    -1.E6
x 12B           100.
x 11NONE        100.
r 14B           100.       50.       30.                             .01       .02
r BLANK
r   A     B
r BLANK
""",
            {9: "a ramp of two slopes", 10: "two exponentials", 11: "a T0 above 0", 12: "has the node NONE"},
        )
        self.assertEqual([line[:2] for line in cards(found.case)[2:4]], ["12", "14"])

    def test_20_blocks_that_are_left_out(self) -> None:
        found = self.deck(
            """r BEGIN NEW DATA CASE
x POWER FREQUENCY, 50.
r    1.E-5     .02
r        1       1
x MODELS
x   MODEL one
x   ENDMODEL
x ENDMODELS
x   TRANSFORMER                1.0   .5 TR1   1.E4
x               1.             .5
x             9999
x  1A                         .1   5. 110.
x  2B                         .1   5.  20.
r   A                          10.
x    A                         10.
x   A                          10.                                              1 wide
r BLANK
r BLANK
r 11A           100.
r BLANK
r   A
r BLANK
""",
            {
                5: "MODELS has no like",
                9: "a saturable transformer",
                15: "begins with a blank",
                16: "longer than 80 columns",
            },
        )
        self.assertEqual(found.case.nodes, ["A"])


class Whole(unittest.TestCase):
    def test_what_is_no_deck(self) -> None:
        for text, words in (
            ("", "ends before its miscellaneous"),
            ("BEGIN NEW DATA CASE\n  x\n", "ends before"),
            ("BEGIN NEW DATA CASE\n     0.     1.\n       1\n", "above 0"),
        ):
            with self.assertRaisesRegex(AtpError, words):
                translated(text)

    def test_the_command(self) -> None:
        deck = "\n".join(placed(line[2:]) for line in Decks.STEADY.split("\n"))
        with tempfile.TemporaryDirectory() as room:
            path = os.path.join(room, "x.atp")
            pathlib.Path(path).write_text(deck, encoding="ascii")
            for words, status, said in (
                ([path], 1, "line 8: left out: it is on before 0"),
                ([path], 2, "is there already: --out names another file"),
                (
                    [path, "--out", path + ".case", "--smooth", "2"],
                    0,
                    "x.atp.case: 10 lines read as they are, 1 turned, 0 left",
                ),
                ([path, "--out", path + ".all", "--rest", "--all"], 0, "line 4: read\n"),
            ):
                out = io.StringIO()
                with contextlib.redirect_stdout(out), contextlib.redirect_stderr(out):
                    self.assertEqual(atp.main(words), status)
                self.assertIn(said, out.getvalue())

    @needs_program
    def test_a_deck_runs_as_it_would_there(self) -> None:
        """100 V of 50 Hz on 1 ohm and 100 mH (31.416 ohm at 50 Hz) before 10 ohm, from the zero of the voltage: the closed form."""
        deck = "\n".join(
            [
                "BEGIN NEW DATA CASE",
                "   1.E-5     .04     50.",
                "       1       1",
                placed("  SRC   A @32:1. @38:31.416"),
                placed("  A @32:10. @80:1"),
                "BLANK",
                "BLANK",
                placed("14SRC @20:100. @30:50. @40:-90."),
                "BLANK",
                "BLANK",
            ]
        )
        found = translated(deck).case.run()
        w, x, r = 100 * math.pi, 31.416, 11.0
        angle = math.atan2(x, r)
        hand = (
            100
            / math.hypot(r, x)
            * (np.sin(w * found.times - angle) + math.sin(angle) * np.exp(-found.times * r * w / x))
        )
        self.assertLess(np.abs(found.channel("I A-0") - hand).max(), 2e-3)


if __name__ == "__main__":
    unittest.main()
