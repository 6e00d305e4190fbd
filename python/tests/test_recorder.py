"""The model of a recorder: what it must have made of plain waves."""

import pathlib
import sys
import tempfile
import unittest

sys.path.insert(0, str(pathlib.Path(__file__).resolve().parent))

import curves  # noqa: E402
import numpy as np  # noqa: E402
from wurdanei.record import RecordError, read  # noqa: E402
from wurdanei.recorder import Input, Settings, write  # noqa: E402


class Recorder(unittest.TestCase):
    @classmethod
    def setUpClass(cls):
        cls.room = tempfile.TemporaryDirectory()
        cls.stem = cls.room.name + "/"
        times = np.arange(20001) * 1e-5
        waves = {"V SINE": ("V", 1000 * np.sin(curves.OMEGA * times)), "I FLAT": ("A", 0 * times + 123.4)}
        curves.write_float(cls.stem + "seen", 1e-5, waves)
        cls.seen = read(cls.stem + "seen.cfg")

    @classmethod
    def tearDownClass(cls):
        cls.room.cleanup()

    def made(self, inputs, name="made", **settings):
        write(self.seen, inputs, Settings(**{"noise": 0.0, "rate": 4000.0} | settings), self.stem + name + ".cfg")
        return read(self.stem + name + ".cfg")

    def test_filter_skew_and_start(self):
        """A sine of 50 Hz through 200 Hz: 1 / (1 - r^2 + j sqrt(2) r) with r = 1/4, sampled from 0.1 s on and 100 us late."""
        found = self.made(
            [Input("V SINE", "U", "kV", 4000.0, 4e5, 100, skew=1e-4)], corner=200.0, begin=0.1, station="A", device="B"
        )
        self.assertEqual((found.times[0], found.names, found.units, found.frequency), (0.0, ["U"], ["kV"], 50.0))
        np.testing.assert_allclose(np.diff(found.times), 1 / 4000)
        self.assertAlmostEqual(found.skew("U"), 1e-4, 12)
        through = 1 / (1 - 1 / 16 + 1j * np.sqrt(2) / 4)
        at = 0.1 + found.times_of("U")
        hand = abs(through) * np.sin(curves.OMEGA * at + np.angle(through))
        self.assertLess(np.max(abs(found.channel("U") - hand)), 0.6 * 4 / 32767 + 1e-5)

    def test_sixteen_bit_and_the_other_way_round(self):
        """123.4 A of 1,000 A full scale is 4,043 of 32,767, the other way round; beyond full scale it stays there."""
        found = self.made([Input("I FLAT", "I", "A", 1000.0, 2000, 1, -1.0), Input("I FLAT", "J", "A", 100.0)])
        np.testing.assert_allclose(found.channel("I"), -4043 * 1000 / 32767, rtol=1e-6)
        np.testing.assert_allclose(found.channel("J"), 100, rtol=1e-6)
        self.assertEqual(found.ratio("I"), (2000.0, 1.0))

    def test_noise_and_missing_values(self):
        found = self.made([Input("I FLAT", "I", "A", 1000.0)], noise=0.02, missing=0.05, seed=3, rate=50000.0)
        values = found.channel("I")
        there = values[np.isfinite(values)]
        self.assertAlmostEqual(1 - len(there) / len(values), 0.05, delta=0.01)
        self.assertAlmostEqual(there.mean(), 123.4, delta=0.1)
        self.assertAlmostEqual(there.std(), 0.02 * 123.4, delta=0.08)

    def test_equal_seeds_give_equal_bytes(self):
        inputs = [Input("V SINE", "U", "V", 4000.0)]
        for name, seed in (("a", 1), ("b", 1), ("c", 2)):
            self.made(inputs, name, noise=0.01, seed=seed)
        first, second, third = (pathlib.Path(self.stem + name + ".dat").read_bytes() for name in "abc")
        self.assertEqual(first, second)
        self.assertNotEqual(first, third)

    def test_refusals(self):
        flat = Input("I FLAT", "I", "A", 1000.0)
        for inputs, settings, cause in (
            ([flat], {"begin": 0.3}, "isn't within the record"),
            ([flat], {"begin": 0.1, "end": 0.05}, "isn't within the record"),
            ([flat], {"rate": 0.0}, "there is no sample"),
            ([flat], {"corner": 30000.0}, "a filter of 30000 Hz needs a sample each 6.667 us"),
            ([Input("NOTHING", "I", "A", 1000.0)], {}, "'NOTHING'"),
        ):
            with self.subTest(cause=cause), self.assertRaisesRegex(RecordError, cause):
                self.made(inputs, **settings)


if __name__ == "__main__":
    unittest.main()
