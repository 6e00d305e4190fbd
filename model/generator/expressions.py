"""Random expressions of formulas."""
import random
from collections.abc import Callable

RELATIONS = [".GT.", ".GE.", ".LT.", ".LE.", ".EQ.", ".NE."]
COLUMNS = 69  # that a formula's card has for its expression


class Expressions:
    """Expressions over these names, each as the list of its words; one method a level of the grammar."""

    def __init__(self, pick: random.Random, names: list[str], wild: bool):
        self.pick, self.names, self.wild = pick, names, wild

    def text(self) -> str:
        """An expression that fits its card."""
        for depth in (4, 3, 3, 2, 2, 1, 1, 0):
            if depth > 1 and self.pick.random() < 0.3:
                continue
            blanks = self.pick.choice([[""], [" "], ["", " "], ["", " ", "   "]])
            written = "".join(self.pick.choice(blanks) + word for word in self.any_of(depth))
            if len(written) <= COLUMNS:
                return written
        return self.pick.choice(self.names or ["1.0"])

    def chain(self, part: Callable[[int], list[str]], operators: list[str], chance: float, depth: int) -> list[str]:
        """Parts with operators between."""
        found = part(depth)
        while self.pick.random() < chance:
            found = found + [self.pick.choice(operators)] + part(depth)
            chance *= 0.6
        return found

    def any_of(self, depth: int) -> list[str]:
        """Parts that .OR. joins."""
        return self.chain(self.all_of, [".OR."], 0.1, depth)

    def all_of(self, depth: int) -> list[str]:
        """Parts that .AND. joins."""
        return self.chain(self.negated, [".AND."], 0.12, depth)

    def negated(self, depth: int) -> list[str]:
        """A relation, rarely behind some .NOT."""
        found = self.relation(depth)
        while self.pick.random() < 0.1:
            found = [".NOT."] + found
        return found

    def relation(self, depth: int) -> list[str]:
        """A sum, or two of them compared."""
        found = self.sum(depth)
        if self.pick.random() < 0.25:
            found = found + [self.pick.choice(RELATIONS)] + self.sum(depth)
        return found

    def sum(self, depth: int) -> list[str]:
        """Products, rarely behind a sign."""
        found = self.chain(self.product, ["+", "-"], 0.45, depth)
        return [self.pick.choice("+-")] + found if self.pick.random() < 0.12 else found

    def product(self, depth: int) -> list[str]:
        """Factors."""
        return self.chain(self.factor, ["*", "*", "/"], 0.35, depth)

    def factor(self, depth: int) -> list[str]:
        """A name, a number, a function or a parenthesis."""
        kind = self.pick.random()
        if depth <= 0 or kind < 0.5:
            named = self.names and self.pick.random() < 0.65
            return [self.pick.choice(self.names) if named else self.number()]
        inner = ["("] + self.any_of(depth - 1) + [")"]
        return [self.pick.choice(["ABS", "ABS", "SQRT", "TRUNC", "SIGN"])] + inner if kind < 0.75 else inner

    def number(self) -> str:
        """A number."""
        pick, kind = self.pick, self.pick.random()
        if kind < 0.5:
            return pick.choice(["0", "1", "2", "1.0", "2.", ".5", "10", "100", "0.001", "1.5"])
        if kind < 0.8:
            letter, sign = pick.choice("ED"), pick.choice(["", "+", "-"])
            return f"{pick.randint(0, 99)}{pick.choice(['', '.', '.5'])}{letter}{sign}{pick.randint(0, 7 if self.wild else 3)}"
        return f"{pick.randint(0, 99999)}{pick.choice(['', '.', '.25'])}"
