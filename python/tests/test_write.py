"""The writer: bytes by hand, and records that the reader reads back to the stated half multiplier."""

import math
import os
import struct
import tempfile
import unittest
from datetime import datetime

import numpy as np

from wurdanei.record import RecordError, read
from wurdanei.write import Bar, Channel, Content, write

CFG = (
    "SUB,REC,1999\r\n2,1A,1D\r\n1,VA,A,LINE,V,0.5,0,12.5,-32767,32767,400,0.1,S\r\n1,TRIP,,,0\r\n50\r\n1\r\n1000,3\r\n"
    "28/11/2026,13:07:20.000000\r\n28/11/2026,13:07:20.001500\r\nASCII\r\n1\r\n"
)


def small(**changed):
    """Three samples of a secondary voltage (4,000 to 1) with a missing value, and a state."""
    channel = Channel(
        "VA", "V", np.array([4e3, math.nan, -10e3]), "A", "LINE", 12.5e-6, 400.0, 0.1, "S", multiplier=2000.0
    )
    made = dict(times=np.array([0.0, 0.001, 0.002]), channels=[channel], bars=[Bar("TRIP", np.array([0, 1, 1]))])
    made.update(station="SUB", device="REC", frequency=50.0, rates=[(1000.0, 3)], trigger=0.0015)
    return Content(**{**made, "start": datetime(2026, 11, 28, 13, 7, 20), **changed})


class Write(unittest.TestCase):
    def setUp(self):
        place = tempfile.TemporaryDirectory()
        self.addCleanup(place.cleanup)
        self.folder = place.name

    def bytes_of(self, name):
        with open(os.path.join(self.folder, name), "rb") as file:
            return file.read()

    def path(self, name):
        return os.path.join(self.folder, name)

    def test_text_by_hand(self):
        written = write(self.path("r.cfg"), small(), "ASCII")
        self.assertEqual(self.bytes_of("r.cfg").decode(), CFG)
        self.assertEqual(self.bytes_of("r.dat"), b"1,0,2,0\r\n2,1000,99999,1\r\n3,2000,-5,1\r\n\x1a")
        self.assertEqual((written.multipliers, written.stamp), ([2000.0], 1e-6))
        self.assertEqual(sorted(os.listdir(self.folder)), ["r.cfg", "r.dat"])

    def test_binary_by_hand(self):
        write(self.path("r.CFG"), small(), "BINARY")
        wanted = (
            struct.pack("<IIhH", 1, 0, 2, 0)
            + struct.pack("<IIhH", 2, 1000, -32768, 1)
            + struct.pack("<IIhH", 3, 2000, -5, 1)
        )
        self.assertEqual(self.bytes_of("r.DAT"), wanted)
        write(self.path("r.cff"), small(), "BINARY32", 2013)
        data = (
            struct.pack("<IIiH", 1, 0, 2, 0)
            + struct.pack("<IIiH", 2, 1000, -(2**31), 1)
            + struct.pack("<IIiH", 3, 2000, -5, 1)
        )
        cfg = CFG.replace("1999", "2013").replace("32767,32767", "2147483647,2147483647").replace("ASCII", "BINARY32")
        head = (
            "--- file type: CFG ---\r\n"
            + cfg
            + "0,0\r\nB,0\r\n--- file type: INF ---\r\n\r\n--- file type: HDR ---\r\n\r\n"
        )
        self.assertEqual(self.bytes_of("r.cff"), head.encode() + b"--- file type: DAT BINARY32: 42 ---\r\n" + data)
        write(self.path("f.cfg"), small(), "FLOAT32", 2013)
        self.assertEqual(self.bytes_of("f.dat")[:14], struct.pack("<IIfH", 1, 0, 1.0, 0))  # 4,000 V by 4,000

    def test_multiplier_is_chosen(self):
        write(self.path("r.cfg"), small(channels=[Channel("VA", "V", np.array([0.0, 32767.0, -5.0]))]), "ASCII")
        self.assertIn("1,VA,,,V,1,0,0,", self.bytes_of("r.cfg").decode())
        self.assertIn(b"2,1000,32767,1", self.bytes_of("r.dat"))
        write(self.path("r.cfg"), small(channels=[Channel("VA", "V", np.zeros(3))]), "ASCII")
        self.assertIn("1,VA,,,V,0.000000001,0,0,", self.bytes_of("r.cfg").decode())
        write(self.path("r.cfg"), small(channels=[Channel("VA", "V", np.full(3, math.nan))]), "ASCII")
        self.assertTrue(np.isnan(read(self.path("r.cfg")).channel("VA")).all())

    def test_multiplier_is_kept(self):
        """Also where the greatest raw value is the form's greatest one, which may not turn its sign."""
        for form, most in (("BINARY", 32_767), ("BINARY32", 2**31 - 1)):
            for multiplier in (0.002, 0.3, 7e-9, 123.456):
                values = np.array([most * multiplier, -most * multiplier, multiplier])
                channel = Channel("V", "V", values, multiplier=multiplier)
                written = write(self.path("r.cfg"), small(channels=[channel]), form, 2013)
                self.assertAlmostEqual(written.multipliers[0] / multiplier, 1.0, delta=1e-9)
                np.testing.assert_allclose(read(self.path("r.cfg")).channel("V"), values, rtol=1e-9)

    def test_read_back(self):
        chance = np.random.default_rng(58)
        for form, year in (
            ("ASCII", 1999),
            ("BINARY", 1999),
            ("ASCII", 2013),
            ("BINARY", 2013),
            ("BINARY32", 2013),
            ("FLOAT32", 2013),
        ):
            for name in ("r.cfg", "r.cff") if year == 2013 else ("r.cfg",):
                values = chance.normal(size=500) * 10.0 ** chance.integers(-9, 9)
                values[chance.integers(0, 500, 20)] = math.nan
                secondary = Channel("I", "kA", chance.normal(size=500), "B", "BAY", 3e-6, 2000.0, 5.0, "S")
                bars = [Bar(f"B{at}", chance.integers(0, 2, 500)) for at in range(17)]
                times = np.cumsum(chance.integers(1, 999, 500)) * 1e-6
                content = Content(
                    times - times[0], [Channel("V", "V", values), secondary], bars, start=datetime(2026, 1, 31)
                )
                with self.subTest(form=form, year=year, name=name):
                    written = write(self.path(name), content, form, year)
                    record = read(self.path(name))
                    self.assertEqual((record.form, record.revision), (form, year))
                    np.testing.assert_allclose(record.times, content.times, rtol=0, atol=1e-12)
                    for channel, multiplier in zip(content.channels, written.multipliers):
                        got = record.channel(channel.name)
                        np.testing.assert_array_equal(np.isnan(got), np.isnan(channel.values))
                        half = (
                            2.0**-24 * np.abs(channel.values) * 1.0001 if form == "FLOAT32" else 0.5001 * multiplier
                        )
                        self.assertTrue((np.isnan(got) | (np.abs(got - channel.values) <= half)).all())
                    for bar in content.bars:
                        np.testing.assert_array_equal(record.states(bar.name), bar.values)

    def test_stamps(self):
        for times, unit, stamps in (
            ([0.0, 1e-3, 2.5e-3], 1e-6, [0, 1000, 2500]),
            ([0.0, 1e-7, 2.5e-7], 1e-8, [0, 10, 25]),
            ([0.0, 1000.0, 100_000.0], 1e-4, [0, 10_000_000, 1_000_000_000]),
            ([0.0, 1 / 3, 2 / 3], 1e-9, [0, 333_333_333, 666_666_667]),
        ):
            write(self.path("r.cfg"), small(times=np.array(times), rates=[]), "ASCII")
            lines = self.bytes_of("r.dat").decode().split("\r\n")
            self.assertEqual([int(line.split(",")[1]) for line in lines[:3]], stamps)
            self.assertAlmostEqual(float(self.bytes_of("r.cfg").decode().split("\r\n")[10]) * 1e-6, unit)
            self.assertLess(np.abs(read(self.path("r.cfg")).times - times).max(), 0.5001 * unit)

    def test_refusals(self):
        odd = lambda **its: Channel(**{"name": "VA", "unit": "V", "values": np.zeros(3), **its})
        cases = [
            ("r.txt", small(), "ASCII", 1999, "a record's name ends with .cfg"),
            ("r.cff", small(), "ASCII", 1999, "edition 1999 has no records of one file"),
            ("r.cfg", small(), "FLOAT32", 1999, "edition 1999 has no FLOAT32"),
            ("r.cfg", small(), "TEXT", 1999, "in the form TEXT isn't written"),
            ("r.cfg", small(channels=[], bars=[]), "ASCII", 1999, "0 channels: a record has 1 to"),
            ("r.cfg", small(times=np.empty(0)), "ASCII", 1999, "no samples"),
            ("r.cfg", small(times=np.zeros(2)), "ASCII", 1999, "VA has 3 values, and there are 2 samples"),
            ("r.cfg", small(channels=[odd(name="A,B")]), "ASCII", 1999, "the name 'A,B' has a comma"),
            ("r.cfg", small(channels=[odd(name="A\nB")]), "ASCII", 1999, "has a comma or a byte"),
            ("r.cfg", small(channels=[odd(phase="ABC")]), "ASCII", 1999, "the phase 'ABC' is longer than 2 characters"),
            ("r.cfg", small(channels=[odd(unit="Ω")]), "ASCII", 1999, "the unit 'Ω' isn't ASCII"),
            ("r.cfg", small(channels=[odd(primary=0.0)]), "ASCII", 1999, "the ratio of VA, 0 to 1, isn't above 0"),
            (
                "r.cfg",
                small(channels=[odd(values=np.array([0, math.inf, 0]))]),
                "ASCII",
                1999,
                "a value of VA is too large",
            ),
            (
                "r.cfg",
                small(channels=[odd(values=np.array([0, 1e39, 0]))]),
                "FLOAT32",
                2013,
                "a value of VA is too large",
            ),
            ("r.cfg", small(rates=[(1000.0, 4)]), "ASCII", 1999, "the rates name 4 samples, and there are 3"),
            ("r.cfg", small(trigger=1e14), "ASCII", 1999, "has no date"),
            ("none/r.cfg", small(), "ASCII", 1999, "No such file or directory"),
        ]
        for name, content, form, year, words in cases:
            with self.subTest(words), self.assertRaisesRegex(RecordError, words):
                write(self.path(name), content, form, year)
        self.assertEqual(os.listdir(self.folder), [])


if __name__ == "__main__":
    unittest.main()
