"""Tests of wurdanei.formula: the grammar of docs/control.md, text by text."""

import unittest

from wurdanei import formula


class Formula(unittest.TestCase):
    def test_trees(self) -> None:
        rows = [
            ("A", "A"),
            ("-A*B", ("-", ("*", "A", "B"))),
            ("1.-.5", ("-", "1.", ".5")),
            ("A-B-C", ("-", ("-", "A", "B"), "C")),
            ("A/B*C", ("*", ("/", "A", "B"), "C")),
            ("A.GT.2", (".GT.", "A", "2")),
            ("1.GT..5", (".GT.", "1", ".5")),
            ("1.E5+1.D-3", ("+", "1.E5", "1.D-3")),
            ("1.EQ.5.", (".EQ.", "1", "5.")),
            ("A .OR. B .AND. .NOT. C .LT. D", (".OR.", "A", (".AND.", "B", (".NOT.", (".LT.", "C", "D"))))),
            ("ABS(-A)+SQRT(B)", ("+", ("ABS", ("-", "A")), ("SQRT", "B"))),
            ("(A+B)*C", ("*", ("+", "A", "B"), "C")),
            ("(" * 16 + "1" + ")" * 16, "1"),
        ]
        for text, tree in rows:
            self.assertEqual(formula.read(text).tree, tree, text)
        self.assertEqual(formula.read("B+A*B+ABS(C)").names, ("B", "A", "C"))

    def test_what_is_no_formula(self) -> None:
        rows = [
            ("", 1, "a number, a variable, a function or a parenthesis is due where its end stands"),
            ("1 +", 4, "is due where its end stands"),
            ("A B", 3, "an operator is due where 'B' stands"),
            ("1**2", 3, "is due where '*' stands"),
            ("1 .GT. 2 .GT. 3", 10, "an operator is due where '.GT.' stands"),
            ("ABS 1", 5, "the parenthesis of ABS is due where '1' stands"),
            ("(1", 3, "an operator or a closing parenthesis is due where its end stands"),
            ("A # 2", 3, "an operator is due where '#' stands"),
            ("1.XX.2", 3, "an operator is due where 'XX' stands"),
            ("1000000001", 1, "1000000001 is above 1e9"),
            ("(" * 17 + "1" + ")" * 17, 17, "parentheses stand more than 16 deep"),
            (".NOT." * 17 + "1", 81, ".NOT. stands more than 16 times in a row"),
        ]
        for text, at, words in rows:
            with self.assertRaises(formula.FormulaError) as raised:
                formula.read(text)
            self.assertEqual(raised.exception.at, at, text)
            self.assertIn(words, str(raised.exception))


if __name__ == "__main__":
    unittest.main()
