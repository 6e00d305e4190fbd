"""Tests of wurdanei.columns and wurdanei.fields: the table of columns, and numbers in fields, by hand from
docs/cards.md."""

import random
import unittest
from decimal import Decimal

from wurdanei import columns, fields
from wurdanei.case import Case

R = columns.SERIES.field("R")
B = columns.LINES[1].field("velocity")
DELTAT = columns.FIRST.field("DELTAT")


class Table(unittest.TestCase):
    def test_legends_are_those_of_docs(self) -> None:
        legends = {
            columns.SERIES: "TYBUS1--BUS2--BUS3--BUS4--R-----L-----C-----                                   A",
            columns.LINE: "TYBUS1--BUS2--BUS3--BUS4--R-----A-----B-----LENGTHIL                           A",
            columns.SWITCH: "TYBUS1--BUS2--T-CLOSE---T-OPEN----MARGIN----          WORD------               A",
            columns.BLOCK: "ORNAME--  SINPUT-.SINPUT-.SINPUT-.SINPUT-.SINPUT-.GAIN--LOW---HIGH--LOW---HIGH--",
            columns.TOLERANCE: "RESIDUAL TOLERANCE      TOLER---",
        }
        for card, legend in legends.items():
            self.assertEqual(card.legend(), legend)

    def test_no_column_is_in_two_fields(self) -> None:
        for card in columns.CARDS:
            for one, other in zip(card.fields, card.fields[1:]):
                self.assertLess(one.last, other.first, f"{card.name}: {one.name} and {other.name}")
            self.assertTrue(all(1 <= field.first <= field.last <= 80 for field in card.fields))


class Numbers(unittest.TestCase):
    def test_texts_hold_all_digits_that_columns_hold(self) -> None:
        rows = [
            # value, columns, text, what is kept
            (1, 6, "1.", 10**6),
            (0.4, 6, ".4", 400_000),
            (12.725, 6, "12.725", 12_725_000),
            (12.725, 5, "12.73", 12_730_000),
            (1e-5, 6, "1.E-5", 10),
            (380000.0, 6, "3.8E5", 380_000 * 10**6),
            (299792.458, 6, "299792", 299_792 * 10**6),
            (1234567.0, 6, "1235E3", 1_235_000 * 10**6),
            (12345.6, 7, "12345.6", 12_345_600_000),
            (0.000123, 6, "1.23-4", 123),
            (Decimal("0.1234567"), 9, ".123457", 123_457),
        ]
        for value, width, text, kept in rows:
            found = fields.fitted(value, R, width)
            self.assertEqual((found.text, found.kept), (text, kept), value)
            self.assertEqual(fields.kept_of(found.text, 6), kept)

    def test_losses_are_told_as_part_of_the_value(self) -> None:
        self.assertAlmostEqual(fields.fitted(299792.458, B).loss, 0.458 / 299792.458, 12)
        self.assertEqual(fields.fitted(0.1, R).loss, 0.0)
        self.assertAlmostEqual(fields.fitted(1 / 48000, DELTAT).loss, 3.3333e-10 / (1 / 48000), 8)

    def test_a_value_is_refused_where_a_thousandth_is_lost(self) -> None:
        rows = [
            (1.4e-6, "R = 1.4e-06 ohm becomes 1e-6 ohm as it is kept in whole micro-ohm, 0.29 of it lost"),
            (-1.0, "R = -1.0 ohm is out of its range, 0 ohm to 1e9 ohm"),
            (2e9, "R = 2000000000.0 ohm is out of its range, 0 ohm to 1e9 ohm"),
            (float("nan"), "R = nan is no finite number"),
            ("1", "R = '1' is no number"),
            (True, "R = True is no number"),
            (None, "R = None is no number"),
        ]
        for value, words in rows:
            with self.assertRaises(fields.FieldError) as raised:
                fields.fitted(value, R)
            self.assertEqual(str(raised.exception), words)

        with self.assertRaises(fields.FieldError) as raised:
            fields.fitted(-0.00012345, columns.BLOCK.field("gain"))
        self.assertEqual(
            str(raised.exception), "gain = -0.00012345 becomes -0.000123 in columns 51-56, 0.0036 of it lost"
        )

    def test_below_half_of_the_last_digit_it_is_0(self) -> None:
        """But where 0 says another thing than nothing: no capacitance at all, a gain of 1."""
        self.assertEqual(fields.fitted(4e-7, R), fields.Fitted("0.", 0, 1.0))
        self.assertEqual(fields.fitted(-4e-13, columns.SWITCH.field("T-CLOSE")), fields.Fitted("0.", 0, 1.0))
        for value, field in ((4e-10, columns.SERIES.field("C")), (4e-13, columns.BLOCK.field("gain"))):
            with self.assertRaisesRegex(fields.FieldError, "becomes 0 ?(uF)? as it is kept in whole .*, 1 of it lost"):
                fields.fitted(value, field)

    def test_times_are_held_at_the_ends_of_their_range(self) -> None:
        never = columns.SWITCH.field("T-OPEN")
        with self.assertRaisesRegex(fields.FieldError, "T-OPEN = 1000000000.0 s becomes 1000000 s"):
            fields.fitted(1e9, never)
        self.assertEqual(fields.fitted(1e6, never).kept, 10**18)

    def test_each_text_reads_back_as_what_is_kept(self) -> None:
        pick = random.Random(3)
        for _ in range(3000):
            value = float(f"{10 ** pick.uniform(-3, 8.9):.{pick.randint(1, 12)}g}")
            width = pick.randint(6, 16)
            try:
                found = fields.fitted(value, R, width)
            except fields.FieldError:
                self.assertLess(width, 7, value)  # as 1.23-3, of three digits
                continue
            self.assertLessEqual(len(found.text), width)
            self.assertEqual(fields.kept_of(found.text, 6), found.kept)
            digits = sum(letter.isdigit() for letter in found.text.partition("E")[0])
            self.assertLessEqual(abs(found.kept / 1e6 / value - 1), max(found.loss * 1.001, 1e-12))
            self.assertLess(found.loss, max(10.0 ** (2 - digits), 1e-3))


class Cards(unittest.TestCase):
    def test_names_begin_and_numbers_end_in_their_fields(self) -> None:
        texts = {"BUS1": "SRC", "BUS2": "BUS", "R": "1.", "L": "40.", "asked": "1"}
        self.assertEqual(fields.card(columns.SERIES, texts), "  SRC   BUS                   1.   40." + " " * 41 + "1")

    def test_a_neighbour_moves_before_numbers_touch(self) -> None:
        texts = {"BUS1": "A", "R": ".08", "surge impedance": "380.", "velocity": "2.97E5", "length": "123456"}
        self.assertEqual(fields.card(columns.LINES[1], texts), "  A" + " " * 26 + ".08 380. 2.97E5123456")
        texts = {"BUS1": "A", "surge impedance": "123.45", "velocity": "2.97E5"}
        self.assertEqual(fields.card(columns.LINES[1], texts), "  A" + " " * 29 + "123.452.97E5")

    def test_numbers_stand_apart_where_a_blank_loses_nothing(self) -> None:
        """Four digits and a point take five columns; no number that has a neighbour has fewer than six."""
        pick = random.Random(5)
        for card in (columns.LINES[1], columns.SWITCH, columns.VALVE, columns.BLOCK, columns.SOURCE, columns.POINT):
            places = [place for place in card.fields if place.kind == "number" and place.high]
            for _ in range(200):
                values = [Decimal(pick.randrange(1, 10**4)).scaleb(-pick.randrange(4)) for _ in places]
                texts = {place.name: fields.roomy(value, place).text for place, value in zip(places, values)}
                line = fields.card(card, texts).ljust(80)
                for place, value in zip(places, values):
                    self.assertEqual(Decimal(line[place.first - 1 : place.last].strip()), value, line)
                borders = [one.last for one, other in zip(places, places[1:]) if one.last + 1 == other.first]
                self.assertFalse([last for last in borders if " " not in line[last - 1 : last + 1]], line)

    def test_a_branch_is_wide_where_its_digits_fill_narrow_fields(self) -> None:
        case = Case(1e-6, 1e-3)
        case.series("A", "B", r_ohm=1.2345, l_mh=2.3456, c_uf=3.4567)
        (line,) = [line for line in case.text().splitlines() if line.startswith("  A ")]
        values = [line[first - 1 : first + 15].strip() for first in (27, 43, 59)]
        self.assertEqual((values, line[41:44], line[57:60]), (["1.2345", "2.3456", "3.4567"], "5  ", "6  "))


if __name__ == "__main__":
    unittest.main()
