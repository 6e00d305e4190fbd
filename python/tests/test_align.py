"""The shift and the factors of seeded records, whose true values are known."""

import pathlib
import sys
import tempfile
import unittest

sys.path.insert(0, str(pathlib.Path(__file__).resolve().parent))

import curves  # noqa: E402
import numpy as np  # noqa: E402
from wurdanei import align  # noqa: E402
from wurdanei.compare import Wanted, laid_pair  # noqa: E402

SEEDS = 6
PAIRS = [("V BUS", "U_L1", 1.0), ("I BUS-LINE", "I_L1", -1.0), ("V SOUND", "U_L2", 1.0)]


class Seeded(unittest.TestCase):
    """docs/compare.md states these bounds."""

    @classmethod
    def setUpClass(cls):
        cls.room = tempfile.TemporaryDirectory()
        cls.stem = cls.room.name + "/"
        cls.case = curves.fault_record(cls.stem + "case", 1e-4)
        cls.fine = curves.fault_record(cls.stem + "fine", 1e-5)

    @classmethod
    def tearDownClass(cls):
        cls.room.cleanup()

    def found(self, free, **settings):
        measured = curves.measured_record(self.stem + "measured", self.fine, **settings)
        wanted = [Wanted(case, name, None if free else factor) for case, name, factor in PAIRS]
        laid = [laid_pair(self.case, measured, it, settings["corner"])[0] for it in wanted]
        return laid, align.fitted(laid)

    def test_shift_within_its_bound(self):
        for rate, corner, bound in ((4800, 1500, 10e-6), (1000, 200, 20e-6)):
            for noise, missing in ((0, 0), (0.002, 0.001), (0.02, 0.02)):
                for seed in range(SEEDS):
                    begin = 0.02 + 1.23e-4 * seed
                    words = {"rate": rate, "corner": corner, "noise": noise, "missing": missing}
                    with self.subTest(seed=seed, **words):
                        _, shift = self.found(False, begin=begin, seed=seed, **words)
                        self.assertLess(abs(shift.seconds + begin), bound)
                        self.assertLess(abs(shift.seconds + begin), 5 * shift.deviation + 2e-6)
                        self.assertEqual(shift.others, [])

    def test_factors_within_one_percent(self):
        for noise, missing in ((0, 0), (0.02, 0.02)):
            for seed in range(SEEDS):
                with self.subTest(noise=noise, seed=seed):
                    laid, shift = self.found(
                        True, begin=0.0311, noise=noise, missing=missing, seed=seed, rate=4800, corner=1500
                    )
                    self.assertLess(abs(shift.seconds + 0.0311), 10e-6)
                    for pair, (_, _, factor) in zip(laid, PAIRS):
                        those = pair.inside(shift.seconds, (-np.inf, np.inf))
                        case = pair.case_at(pair.times[those] - shift.seconds)
                        self.assertLess(abs(align.factor_of(case, pair.values[those]) / factor - 1), 0.01)

    def test_other_way_round(self):
        """A case that begins after the measured record has a shift above 0."""
        _, shift = self.found(False, begin=0.0, rate=4800, corner=1500, noise=0.002)
        self.assertLess(abs(shift.seconds), 10e-6)
        late = curves.fault_record(self.stem + "late", 1e-4)
        kept = late.times >= 0.06
        pairs = []
        for name, other, factor in PAIRS:
            measured, _, _ = laid_pair(
                self.case, curves.read(self.stem + "measured.cfg"), Wanted(name, other, factor), 1500
            )
            case = measured.case_at(late.times[kept])
            pairs.append(align.Pair(late.times[kept] - 0.06, case, measured.times, measured.values))
        self.assertLess(abs(align.fitted(pairs).seconds - 0.06), 10e-6)


def jump(times: np.ndarray, at: float = 0.05) -> np.ndarray:
    """A 50 Hz wave in V that falls to 0.7 at a moment and rings at 640 Hz behind it: a jump of 0.3 of it and 40 kV."""
    after = np.clip(times - at, 0, None)
    ring = 4e4 * np.exp(-after / 0.008) * np.cos(2 * np.pi * 640 * after)
    return np.where(times < at, 1, 0.7) * 3e5 * np.cos(curves.OMEGA * times - 0.4) + np.where(times < at, 0, ring)


class Jumps(unittest.TestCase):
    """Curves that jump between two samples, without a filter, recorded more slowly than the case is sampled."""

    case = np.arange(20001) * 1e-5

    def test_shift_of_records_by_formula(self):
        """Eleven records of 1 to 5 kHz, begun 20 ms after the case, one of them 3.3 us later: right to 0.1 us."""
        rows = [(rate, 0.0) for rate in (1000, 1200, 1600, 2000, 2400, 3200, 3840, 4000, 4800, 5000)]
        for rate, late in [*rows, (4800, 3.3e-6)]:
            with self.subTest(rate=rate, late=late):
                times = np.arange(int(0.16 * rate)) / rate
                pair = align.Pair(self.case, jump(self.case), times, jump(times + 0.02 + late))
                self.assertLess(abs(align.fitted([pair]).seconds + 0.02 + late), 0.1e-6)

    def test_deviation_of_noisy_records(self):
        """Sixty records, seeds 0 to 59: event, begin and rate at random, 0.5 % noise."""
        inside = 0
        for seed in range(60):
            chance = np.random.default_rng(seed)
            event, late = chance.uniform(0.04, 0.06), chance.uniform(0, 2e-4)
            rate = chance.choice([1000, 1200, 2000, 2400, 3840, 4800, 5000])
            times = np.arange(int(0.16 * rate)) / rate
            values = jump(times + 0.02 + late, event)
            values = values + chance.normal(0, 0.005 * abs(values).max(), len(values))
            shift = align.fitted([align.Pair(self.case, jump(self.case, event), times, values)])
            error = abs(shift.seconds + 0.02 + late)
            inside += error <= 3 * shift.deviation
            self.assertLessEqual(error, max(3 * shift.deviation, 5e-6), seed)
        self.assertGreaterEqual(inside, 58)

    def test_the_search_goes_on_where_it_ends(self):
        """From 3 ms beside the truth, with a reach of 0.1 ms."""
        times = np.arange(800) / 5000
        pair = align.Pair(self.case, jump(self.case), times, jump(times + 0.02))
        found = align.refined([pair], -0.017, 1e-4, (-np.inf, np.inf))
        self.assertLess(abs(found + 0.02), 0.1e-6)

    def test_a_search_without_an_end_is_an_error(self):
        """A ramp beside one that is far above it fits ever better the later it is laid."""
        pair = align.Pair(self.case, self.case * 1.0, self.case[:1000], self.case[:1000] + 1e3)
        with self.assertRaisesRegex(align.AlignError, "the best shift isn't found: beyond"):
            align.refined([pair], -0.05, 1e-5, (-np.inf, np.inf))


class Causes(unittest.TestCase):
    """What explains a poor fit is told."""

    case = np.arange(20001) * 1e-5

    def test_a_clock_that_gains(self):
        """100 ppm in 2 s are 200 us."""
        case = np.arange(40001) * 5e-5
        wave = lambda at: np.cos(curves.OMEGA * at) * (1 + 0.3 * np.sin(3 * at)) + 0.2 * np.cos(
            7 * at * at
        )  # noqa: E731
        times = np.arange(9000) / 4800
        for gain in (1e-4, -5e-5):
            pair = align.Pair(case, wave(case), times, wave(times / (1 + gain) + 0.02), name="V X")
            shift = align.fitted([pair])
            self.assertIn(f"the measured clock gains {1e6 * gain:+.0f} ppm", shift.told[0])
            right = align.fitted([align.with_clock(pair, gain)])
            self.assertEqual(right.told, [])
            self.assertLess(abs(right.seconds + 0.02), 0.1e-6)

    def test_a_polarity_that_is_turned(self):
        times = np.arange(700) / 4800
        pairs = [
            align.Pair(self.case, jump(self.case), times, sign * jump(times + 0.02), name=name)
            for name, sign in (("V A", 1), ("V B", -1), ("V C", 1))
        ]
        told = align.fitted(pairs).told
        self.assertRegex(told[0], r"^with the polarity of V B turned .* far better, at a shift of -20\.\d+ ms$")
        self.assertEqual(align.fitted([pairs[0], pairs[2]]).told, [])

    def test_an_overlap_that_is_too_short(self):
        """A record that begins 120 ms into a case of 200 ms shares 80 ms, half of its own 160 ms."""
        times = np.arange(768) / 4800
        pair = align.Pair(self.case, jump(self.case, 0.15), times, jump(times + 0.12, 0.15))
        told = align.fitted([pair]).told
        self.assertRegex(told[-1], r"^at a shift of -120\.\d+ ms .* less than 80 % .* --align -0\.1")


class Waves(unittest.TestCase):
    """What formulas say of plain waves."""

    times = np.arange(3001) * 1e-4
    seen = np.arange(0, 0.1, 1 / 4800)

    def test_periodic_record_is_called_so(self):
        """A sine of 50 Hz fits each 20 ms, and with an unknown factor each 10 ms."""
        wave = lambda at: np.sin(curves.OMEGA * at)  # noqa: E731
        for free, period in ((False, 0.02), (True, 0.01)):
            pair = align.Pair(self.times, wave(self.times), self.seen, wave(self.seen + 0.1234), free)
            shift = align.fitted([pair])
            off = (shift.seconds + 0.1234) / period
            self.assertLess(abs(off - round(off)) * period, 5e-6)
            apart = (np.array(shift.others) - shift.seconds) / period
            self.assertGreater(len(apart), 5)
            self.assertLess(np.max(abs(apart - np.round(apart))), 0.1 if not free else 0.2)

    def test_shift_by_hand(self):
        """A triangle that is straight between the samples of both is laid exactly; unknown factors are too."""
        height = lambda at: np.interp(at, [0.0, 0.1, 0.11, 0.3], [0.0, 0.0, 1.0, 0.0])  # noqa: E731
        pair = align.Pair(self.times, height(self.times), self.seen, -4 * height(self.seen + 0.08), True)
        shift = align.fitted([pair])
        self.assertLess(abs(shift.seconds + 0.08), 1e-8)
        those = pair.inside(shift.seconds, (-np.inf, np.inf))
        self.assertAlmostEqual(align.factor_of(pair.case_at(pair.times[those] + 0.08), pair.values[those]), -0.25, 6)

    def test_dead_channel_changes_nothing(self):
        """A measured channel that is 0 throughout doesn't rule the shift of the others."""
        wave = lambda at: np.sin(curves.OMEGA * at) * np.exp(-at / 0.05)  # noqa: E731
        live = align.Pair(self.times, wave(self.times), self.seen, wave(self.seen + 0.05))
        dead = align.Pair(self.times, 1e6 * np.cos(curves.OMEGA * self.times), self.seen, 0 * self.seen)
        self.assertEqual(align.fitted([live, dead]).seconds, align.fitted([live]).seconds)

    def test_deviation_of_white_noise(self):
        """Least squares of N samples of a sine of amplitude 1 with white noise s: s / (omega sqrt(N / 2)), by hand."""
        noise, found, told = 0.05, [], []
        for seed in range(40):
            chance = np.random.default_rng(seed)
            values = np.sin(curves.OMEGA * (self.seen + 0.1)) * np.exp(-self.seen / 10)
            pair = align.Pair(
                self.times, np.sin(curves.OMEGA * self.times) * np.exp(-(self.times - 0.1) / 10),
                self.seen, values + chance.normal(0, noise, len(values)),
            )  # fmt: skip
            shift = align.refined([pair], -0.1, 2e-4, (-np.inf, np.inf))
            found.append(shift + 0.1)
            told.append(align.deviation_of([pair], shift, 1e-4, (-np.inf, np.inf)))
        hand = noise / (curves.OMEGA * np.sqrt(len(self.seen) / 2))
        self.assertLess(abs(np.std(found) / hand - 1), 0.35)
        self.assertLess(abs(np.mean(told) / hand - 1), 0.15)

    def test_window_decides(self):
        """Two waves that agree before 0.1 s and are 3 ms apart behind it."""
        early, late = (lambda at: np.sin(700 * at * at), lambda at: np.sin(700 * (at - 0.003) ** 2))
        values = np.where(self.times < 0.1, early(self.times), late(self.times))
        pair = align.Pair(self.times, early(self.times), self.times, values)
        self.assertLess(abs(align.fitted([pair], (0.01, 0.09)).seconds), 1e-6)
        self.assertLess(abs(align.fitted([pair], (0.12, 0.25)).seconds - 0.003), 1e-6)

    def test_what_can_not_be_aligned(self):
        flat = align.Pair(self.times, 0 * self.times + 3, self.seen, 0 * self.seen + 3)
        with self.assertRaisesRegex(align.AlignError, "nothing in these channels changes"):
            align.fitted([flat])
        with self.assertRaisesRegex(align.AlignError, "fewer than two samples"):
            align.fitted([flat], (1.0, 2.0))


if __name__ == "__main__":
    unittest.main()
