"""Tests of wurdanei.ruler: what `emtp ruler` prints."""

import contextlib
import io
import unittest

from wurdanei import columns, ruler


def printed(*words: str) -> tuple[int, str, str]:
    out, err = io.StringIO(), io.StringIO()
    with contextlib.redirect_stdout(out), contextlib.redirect_stderr(err):
        status = ruler.main(list(words))
    return status, out.getvalue(), err.getvalue()


class Ruler(unittest.TestCase):
    def test_a_switch(self) -> None:
        status, out, _ = printed("switch")
        lines = out.splitlines()
        self.assertEqual((status, len(lines[0])), (0, 80))
        self.assertEqual(lines[1], "1234567890" * 8)
        self.assertEqual(lines[2], "TYBUS1--BUS2--T-CLOSE---T-OPEN----MARGIN----          WORD------               A")
        self.assertEqual(lines[4], "switch (docs/cards.md, Switch):")
        self.assertEqual([line.split()[:3] for line in lines if line.startswith("35-44")], [["35-44", "margin", "0"]])

    def test_a_branch_is_narrow_and_wide(self) -> None:
        _, out, _ = printed("branch", "--comment")
        self.assertEqual([line[:2] + line[26:33] for line in out.splitlines()], ["C R-----L", "C R------"])

    def test_a_comment_keeps_the_first_name(self) -> None:
        for word, line in (
            ("first", "C DELTATTMAX----XOPT----COPT----"),
            ("second", "C IOUT--IPLOT---"),
            ("switch", "C BUS1--BUS2--T-CLOSE---T-OPEN----MARGIN----"),
            ("tolerance", "C RESIDUAL TOLERANCE    TOLER---"),
        ):
            self.assertTrue(printed(word, "--comment")[1].startswith(line), printed(word, "--comment")[1])

    def test_a_line_says_which_iline_a_field_is_of(self) -> None:
        rows = [line[9:].split("  ")[0] for line in printed("line")[1].splitlines() if line[:5] in ("33-38", "39-44")]
        fields = ["L (ILINE 0)", "surge impedance (ILINE 1, 2)"]
        self.assertEqual(rows, [*fields, "C (ILINE 0)", "velocity (ILINE 1)", "travel time (ILINE 2)"])

    def test_each_card_has_a_word(self) -> None:
        for card in columns.CARDS:
            for word in card.words:
                self.assertIn(card.legend(), printed(word)[1])

    def test_another_word_is_refused(self) -> None:
        status, out, err = printed("machine")
        self.assertEqual((status, out), (2, ""))
        self.assertRegex(err, "^emtp ruler: no card is called machine; there are tolerance, first,")


if __name__ == "__main__":
    unittest.main()
