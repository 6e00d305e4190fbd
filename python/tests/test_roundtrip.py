"""200 random cases of tests.roundtrip: what `emtp show` lists of them is what was given."""

import collections
import unittest

from tests import roundtrip
from wurdanei import program

CASES = 200


@unittest.skipUnless(program.is_there(), "the program isn't built, so no case is shown")
class RoundTrip(unittest.TestCase):
    def test_each_value_is_listed_as_it_was_given(self) -> None:
        done: collections.Counter[str] = collections.Counter()
        for seed in range(1, CASES + 1):
            maker, faults = roundtrip.tried(seed)
            self.assertEqual(faults, [], f"seed {seed}")
            done += maker.done
        self.assertEqual({name for name in roundtrip.Maker.METHODS if done[name] < 50}, set())
        refused = sum(number for name, number in done.items() if name.startswith("refused"))
        self.assertLess(refused, sum(done.values()) / 10)


if __name__ == "__main__":
    unittest.main()
