"""Numbers of a style for the parts of a network, each as (mantissa, power of ten): usual ones, moderate ones, wild ones."""
import random

Number = tuple[int, int]

USUAL, MODERATE, WILD = "usual", "moderate", "wild"


class Numbers:
    """Random numbers of one style."""

    def __init__(self, pick: random.Random, style: str):
        self.pick, self.style = pick, style

    def of(self, usual: list[int], powers: list[int], moderate: tuple[int, int], wild: tuple[int, int]) -> Number:
        """A number of the style; the usual ones are given, of the others the range of the power."""
        pick = self.pick
        if self.style == USUAL:
            return pick.choice(usual), pick.choice(powers)
        if self.style == WILD:
            return pick.randint(1, 999), pick.randint(*wild)
        return pick.randint(1, 99), pick.randint(*moderate)

    def resistance(self) -> Number:
        """In ohm."""
        return self.of(
            [1, 2, 5, 10, 20, 50, 100, 300, 1000, self.pick.randint(1, 999)], [0, 0, 0, -1, -2], (-2, 2), (-8, 6)
        )

    def inductance(self) -> Number:
        """In mH."""
        return self.of([1, 2, 5, 10, 40, self.pick.randint(1, 300)], [0, 0, -1], (-2, 1), (-8, 6))

    def capacitance(self) -> Number:
        """In micro-F."""
        return self.of([1, 2, 5, 10, self.pick.randint(1, 300)], [0, -1, -2, -3], (-3, 1), (-11, 6))

    def voltage(self) -> Number:
        """In V; of either sign where the style isn't usual."""
        mantissa, power = self.of([1, 100, 1878, 5, self.pick.randint(1, 9999)], [0, 0, 1, 2], (-1, 1), (-10, 6))
        sign = 1 if self.style == USUAL else self.pick.choice([1, 1, 1, -1])
        return sign * mantissa, power

    def current(self) -> Number:
        """In A, of either sign."""
        if self.style == WILD:
            return self.pick.choice([1, -1]) * self.pick.randint(1, 999), self.pick.randint(-10, 6)
        return self.pick.choice([1, 1, -1]) * self.pick.randint(1, 99), self.pick.choice([0, 0, 1, -1])
