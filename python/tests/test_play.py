"""Cards that play a record: their sum by an evaluator of the test's own, the limits by hand, and a case that is run."""

import contextlib
import io
import pathlib
import sys
import tempfile
import unittest
from decimal import Decimal

sys.path.insert(0, str(pathlib.Path(__file__).resolve().parent))

import curves  # noqa: E402
import numpy as np  # noqa: E402
from wurdanei import play, program  # noqa: E402
from wurdanei.record import read  # noqa: E402

CASE = """BEGIN NEW DATA CASE
   5.E-5     .20
       1       1
  BUS                        10.
  BUS   FAR                  5.0  20.
  FAR                        10.
  CUR                        1.0
BLANK
BLANK
BLANK
  BUS   CUR
BLANK
"""


def value_of(cards, name, moment):
    """The value of a variable at a moment, by the rules of the device 56 and of sums of names."""
    tables, sums, at = {}, {}, 0
    while at < len(cards):
        card = cards[at]
        at += 1
        if card[8:10] == "56":
            points = []
            while cards[at].strip() != "9999":
                points.append((Decimal(cards[at][:16]), Decimal(cards[at][16:32])))
                at += 1
            at += 1
            tables[card[2:8].strip()] = points
            assert card[10:] == "+TIMEX" and 2 <= len(points) <= 64
        else:
            assert card[8:11] == "  =" and len(card) <= 80, card
            sums[card[2:8].strip()] = card[11:].split("+")

    def look(which):
        if which in sums:
            return sum(look(it) for it in sums[which])
        points = tables[which]
        if moment <= points[0][0]:
            return points[0][1]
        for (a, u), (b, v) in zip(points, points[1:]):
            if moment <= b:
                return u + (v - u) * (moment - a) / (b - a)
        return points[-1][1]

    return look(name)


class Cards(unittest.TestCase):
    """Tables and their sums."""

    def test_sum_of_tables_is_the_curve(self):
        for count in (2, 64, 65, 127, 128, 63 * 23 + 1, 63 * 23 + 2, 4000):
            chance = np.random.default_rng(count)
            times = [Decimal(place) * Decimal("0.0002") for place in range(count)]
            values = [Decimal(f"{value:.6f}") for value in chance.normal(0, 3e5, count)]
            names = play.new_names({"A1", "BUS"}, 300)
            cards = play.table_cards("BUS", names, times, values)
            supplemental = sum(card.startswith("98") for card in cards)
            self.assertEqual(supplemental, play.cards_of(-(-(count - 1) // 63)))
            for place in {0, 1, count // 2, count - 2, count - 1, *chance.integers(0, count, 5).tolist()}:
                self.assertEqual(value_of(cards, "BUS", times[place]), values[place])
            middle = value_of(cards, "BUS", times[0] + Decimal("0.0001"))
            self.assertEqual(middle, (values[0] + values[1]) / 2)
            self.assertEqual(value_of(cards, "BUS", Decimal(-1)), values[0])
            self.assertEqual(value_of(cards, "BUS", Decimal(9)), values[-1])

    def test_most_points_by_hand(self):
        """200 cards hold 190 tables, 9 sums of 23 and their sum: 190 * 63 + 1 points; 24 cards 23 tables and their sum."""
        for cards, points in (
            (200, 11971),
            (24, 23 * 63 + 1),
            (26, 23 * 63 + 1),
            (27, 24 * 63 + 1),
            (2, 64),
            (1, 0),
            (0, 0),
        ):
            self.assertEqual(play.most_points(cards), points, cards)

    def test_names(self):
        self.assertEqual(play.new_names({"A0", "A2"}, 3), ["A1", "A3", "A4"])
        with self.assertRaisesRegex(play.PlayError, "936 names"):
            play.new_names(set(), 937)


class Curve(unittest.TestCase):
    """The points of a curve and its lead-in."""

    def test_lead_in(self):
        """Two cycles of 50 Hz before the record: its first period, by 3 x^2 - 2 x^3 over the first of them."""
        times = np.arange(0, 0.1, 1e-4)
        values = 100 * np.cos(curves.OMEGA * times)
        plan = play.Plan(0.0, 0.06, 0.04, 50.0)
        at, seen = play.points(times, values, plan)
        np.testing.assert_allclose(at, np.arange(1001) * 1e-4, atol=1e-12)
        self.assertEqual(seen[0], 0.0)
        self.assertAlmostEqual(seen[100], -100 * (3 / 4 - 2 / 8), 9)  # 10 ms: half of the rise, half a period
        for place, value in ((200, 100), (300, -100), (400, 100), (1000, 100)):
            self.assertAlmostEqual(seen[place], value, 9)

    def test_points_are_the_samples(self):
        """Skewed and missing samples too; a spacing has straight lines between them; the ends are straight between theirs."""
        times, values = np.array([0.0, 0.1, 0.3, 0.4]) + 0.05, np.array([1.0, 2.0, 6.0, 5.0])
        at, seen = play.points(times, values, play.Plan(0.1, 0.4, 0.0, 50.0))
        np.testing.assert_allclose(at, [0, 0.05, 0.25, 0.3])
        np.testing.assert_allclose(seen, [1.5, 2, 6, 5.5])
        at, seen = play.points(times, values, play.Plan(0.1, 0.4, 0.0, 50.0, Decimal("0.1")))
        np.testing.assert_allclose(at, [0, 0.1, 0.2, 0.3])
        np.testing.assert_allclose(seen, [1.5, 3, 5, 5.5])


@unittest.skipUnless(program.is_there(), "the programs aren't built")
class Command(unittest.TestCase):
    """`emtp play`, and a run of what it writes."""

    @classmethod
    def setUpClass(cls):
        cls.room = tempfile.TemporaryDirectory()
        cls.place = pathlib.Path(cls.room.name)
        (cls.place / "a.case").write_text(CASE)
        cls.record = curves.fault_record(str(cls.place / "m"), 2e-4, 0.06)

    @classmethod
    def tearDownClass(cls):
        cls.room.cleanup()

    def run_words(self, *words):
        out, told = io.StringIO(), io.StringIO()
        with contextlib.chdir(self.place), contextlib.redirect_stdout(out), contextlib.redirect_stderr(told):
            try:
                status = play.main(list(words))
            except SystemExit as ended:
                status = ended.code
        return status, out.getvalue(), told.getvalue()

    def test_run_follows_the_record(self):
        status, out, told = self.run_words(
            "a.case", "m.cfg", "BUS=V BUS", "CUR=I BUS-LINE,-1", "--out", "b.case", "--lead", "1"
        )
        self.assertEqual(status, 0, told)
        self.assertIn("0 s of the record is 0.02 s of the case", out)
        self.assertIn("CUR is a current source of I BUS-LINE times -1: 401 points, 8 supplemental cards", out)
        ended = program.run(["run", "b.case", "b.cfg", "b.dat"], self.place)
        self.assertEqual(ended.note[:4], "DONE", ended)
        found = read(self.place / "b.cfg")
        inside = (found.times >= 0.0201) & (found.times <= 0.0799)
        for name, channel, factor in (("V BUS", "V BUS", 1), ("V CUR", "I BUS-LINE", -1)):
            hand = factor * np.interp(found.times[inside] - 0.02, self.record.times, self.record.channel(channel))
            half = 0.501 * found.multiplier(name)
            self.assertLess(np.max(abs(found.channel(name)[inside] - hand)), half)

    def test_what_is_left_out_is_told(self):
        status, out, told = self.run_words(
            "a.case", "m.cfg", "BUS=V BUS", "--out", "c.case", "--lead", "0", "--every", "16"
        )
        self.assertEqual(status, 0, told)
        self.assertIn("a point each 0.0008 s: 75 % of the samples, each 0.0002 s, stand between points", out)
        self.assertIn("BUS: the run ends at 0.20 s; from 0.06 s on the source is 0", out)
        status, out, told = self.run_words(
            "a.case",
            "m.cfg",
            "BUS=V BUS",
            "FAR=V SOUND",
            "CUR=I BUS-LINE",
            "--out",
            "d.case",
            "--every",
            "1",
            "--lead",
            "9",
        )
        self.assertEqual(status, 0, told)
        self.assertIn("V SOUND: left out from 0.015300 s of the record on, since 3907 of 4801 points fit", out)

    def test_another_frequency_than_the_record_s_is_told(self):
        status, out, told = self.run_words("a.case", "m.cfg", "BUS=V BUS", "--frequency", "51.3", "--out", "f.case")
        self.assertEqual(status, 0, told)
        self.assertIn("the record's line frequency is 50 Hz, and the lead-in goes by 51.3 Hz", out)

    def test_refusals(self):
        (self.place / "there.case").write_text("")
        for words, cause in (
            (("BUS",), "it is NODE=CHANNEL"),
            (("BUS=V BUS,x",), "it is NODE=CHANNEL"),
            (("BUS=V BUSS",), "the record has no channel 'V BUSS'"),
            (("NOBODY=V BUS",), "a.case has no node NOBODY on a branch or switch card; it has "),
            (("TOOLONG=V BUS",), "is no name"),
            (("BUS=V BUS", "BUS=V SOUND"), "BUS is a variable of the control already"),
            (("BUS=V BUS", "--from", "1", "--to", "2"), "the record has 0 to 0.06 s"),
            (("BUS=V BUS", "--lead", "-1"), "--lead is a number of cycles"),
            (("BUS=V BUS", "--frequency", "0"), "the record has no line frequency"),
            (("BUS=V BUS", "--frequency", "10"), "less than one is played"),
            (("BUS=V BUS", "--every", "0"), "--every is a whole number"),
            (("BUS=V BUS,1e300",), "V BUS times 1e+300 is above 4e+08 V"),
            (("BUS=V BUS", "--lead", "11"), "the lead-in, 0.22 s, is longer than the run"),
            (("BUS=V BUS", "--lead", "1e300"), "the lead-in, "),
            (("BUS=V BUS", "--from", "nan"), "is no part of it"),
        ):
            with self.subTest(words=words):
                status, out, told = self.run_words("a.case", "m.cfg", *words, "--out", "e.case")
                self.assertEqual((status, out), (2, ""), told)
                self.assertIn(cause, told)
                self.assertEqual(told.count("\n"), 1)
                self.assertFalse((self.place / "e.case").exists())
        status, _, told = self.run_words("a.case", "m.cfg", "BUS=V BUS", "--out", "there.case")
        self.assertEqual((status, told), (2, "emtp play: there.case is there already\n"))
        (self.place / "bad.case").write_text("BEGIN NEW DATA CASE\n")
        status, _, told = self.run_words("bad.case", "m.cfg", "BUS=V BUS", "--out", "e.case")
        self.assertEqual(status, 2)
        self.assertIn("bad.case isn't read to its end", told)
        self.assertEqual(self.run_words("none.case", "m.cfg", "BUS=V BUS", "--out", "e.case")[0], 2)


if __name__ == "__main__":
    unittest.main()
