"""The reader: values by formulas through an independent recorder, bytes by hand, refusals in words, and spoilt files.

`python3 -m tests.test_record SPOILINGS` tries so many spoilings (20,000 in the whole) with the bound of memory.
"""

import io
import math
import os
import random
import struct
import sys
import tempfile
import tracemalloc
import unittest
import zipfile
from datetime import datetime

import numpy as np

from wurdanei.record import Record, RecordError, read
from wurdanei.write import Bar, Channel, Content, write

from .recorder import Recorder, Wave, bay, current, grid, voltage

HAND_CFG = (
    b"STATION,DEVICE,1999\r\n3,2A,1D\r\n1,VA,A,BUS,kV,0.5,-1,0,-32767,32767,400,0.1,P\r\n"
    b"2,IA,A,BAY,A,2,0,25,-32767,32767,2000,5,S\r\n1,TRIP,,,0\r\n50\r\n1\r\n1000,3\r\n"
    b"28/11/2026,13:07:20.500000\r\n28/11/2026,13:07:20.502000\r\nASCII\r\n1\r\n"
)
HAND_DAT = b"1,0,10,-3,0\r\n2,1000,99999,4,1\r\n3,2000,-20,5,1\r\n\x1a"
HAND_2013 = (
    b"S,D,2013\r\n1,1A,0D\r\n1,X,,,V,2,0,0,-2147483648,2147483647,1,1,P\r\n50\r\n0\r\n0,2\r\n"
    b"28/11/2026,13:07:20.000000000\r\n28/11/2026,13:07:20.000000500\r\nBINARY32\r\n1\r\n0,0\r\nB,0\r\n"
)


class Folder(unittest.TestCase):
    """A test with a folder of its own."""

    def setUp(self):
        place = tempfile.TemporaryDirectory()
        self.addCleanup(place.cleanup)
        self.folder = place.name

    def files(self, cfg, dat=None, name="r"):
        """Writes a cfg and its dat, or a cff, and answers the name to read."""
        path = os.path.join(self.folder, name)
        for ending, data in ((".cff" if dat is None else ".cfg", cfg), (".dat", dat)):
            if data is not None:
                with open(path + ending, "wb") as file:
                    file.write(data)
        return path + (".cff" if dat is None else ".cfg")


class Kinds(Folder):
    """Each lawful kind of record, beside the formula of what was recorded."""

    def judge(self, recorder, times=None, missing=(), told=(), cff=False, trigger=0.0):
        """Reads what a recorder writes; values within half a multiplier, times exact to a unit of the stamps or
        better."""
        record = read(recorder.write(self.folder, cff=cff))
        wanted = recorder.times if times is None else times
        self.assertEqual((record.revision, record.form), (recorder.year, recorder.form))
        slack = 1e-12 if recorder.rates else 0.51 * recorder.unit * (1e-9 if recorder.decimals > 6 else 1e-6)
        self.assertLess(np.abs(record.times - wanted).max(), slack)
        self.assertAlmostEqual(record.trigger, trigger, delta=1e-9)
        self.assertEqual(record.start, recorder.begin)
        self.assertEqual(record.frequency, 50.0)
        for channel, wave in enumerate(recorder.waves):
            values = record.channel(wave.name)
            ratio = wave.ratio[0] / wave.ratio[1] if wave.scaling == "S" else 1.0
            if recorder.form == "FLOAT32":
                half = 2.0**-24 * wave.peak
            else:
                half = 0.5001 * wave.multiplier(recorder.form) * ratio
            for place, time in enumerate(recorder.times):
                if (place, channel) in missing:
                    self.assertTrue(math.isnan(values[place]))
                else:
                    self.assertLessEqual(abs(values[place] - wave.at(time + wave.skew * 1e-6)), half)
            self.assertEqual(record.missing(wave.name), sum(which == channel for _, which in missing))
            self.assertEqual(record.skew(wave.name), wave.skew * 1e-6)
            np.testing.assert_array_equal(record.times_of(wave.name), record.times + wave.skew * 1e-6)
        self.assertEqual(record.units, [wave.unit for wave in recorder.waves])
        self.assertEqual(record.phases, [wave.phase for wave in recorder.waves])
        self.assertEqual(record.circuits, [wave.circuit for wave in recorder.waves])
        self.assertEqual(record.state_names, [name for name, _ in recorder.bars])
        for name, at in recorder.bars:
            self.assertEqual(list(record.states(name)), [int(at(time)) for time in recorder.times])
        self.assertEqual(len(record.told), len(told), record.told)
        for words, said in zip(told, record.told):
            self.assertIn(words, said)
        return record

    def test_text_of_1999(self):
        primary = {
            "one rate": {},
            "stamps alone": {"rates": []},
            "stamps in tenths of a us": {"rates": [], "unit": 0.1},
            "blank stamps": {"blank_stamps": True},
            "line feeds alone and no end mark": {"end": "\n", "mark": False},
            "numbered from 0": {"first": 0},
            "stamps that begin elsewhere": {"rates": [], "start": 5_000_000},
        }
        for what, changed in primary.items():
            with self.subTest(what):
                self.judge(bay(**changed))
        self.judge(bay(trigger=0.04), trigger=0.04)

    def test_missing_values(self):
        gone = {(5, 0), (6, 1), (7, 1)}
        self.judge(bay(missing=gone), missing=gone)
        self.judge(bay(missing=gone, gone="", year=2013), missing=gone)
        self.judge(bay(missing=gone, gone="NaN", year=2013), missing=gone)
        of_1991 = ("of edition 1991 nothing says",)
        self.judge(bay(missing=gone, gone="999999", year=1991), missing=gone, told=of_1991)
        for form, year in (("BINARY", 1999), ("BINARY32", 2013), ("FLOAT32", 2013)):
            self.judge(bay(missing=gone, form=form, year=year, blank_stamps=True), missing=gone)

    def test_value_that_marks_nothing(self):
        wave = Wave("X", "V", lambda time: 99999.0, 1.0)
        recorder = Recorder(grid(1000.0, 2), [wave], year=2013, rates=[(1000, 2)])
        cfg = (
            recorder.cfg()
            .replace(b",-32767,32767,", b",-200000,200000,")
            .replace(repr(wave.multiplier("ASCII")).encode(), b"1")
        )
        record = read(self.files(cfg, b"1,0,99999\r\n2,1000,-99999\r\n\x1a"))
        self.assertEqual(list(record.channel("X")), [99999.0, -99999.0])

    def test_secondary_values(self):
        waves = [
            Wave("VA", "V", voltage, 110e3, ratio=(1000.0, 1.0), scaling="S"),
            Wave("IA", "A", current, 4500.0, ratio=(2000.0, 5.0), scaling="P"),
        ]
        record = self.judge(bay(waves=waves), told=["recorded as secondary values, answered as primary: VA"])
        self.assertEqual(record.secondary(), ["VA"])
        self.assertEqual((record.ratio("VA"), record.ratio("IA")), ((1000.0, 1.0), (2000.0, 5.0)))
        self.assertAlmostEqual(record.multiplier("VA"), 1000.0 * waves[0].multiplier("ASCII"))

    def test_skew(self):
        waves = [Wave("VA", "V", voltage, 110e3), Wave("IA", "A", current, 4500.0, skew=50.0)]
        self.judge(bay(waves=waves))

    def test_two_rates(self):
        times = grid(4800.0, 240)
        times += [times[-1] + place / 1200.0 for place in range(1, 241)]
        rates = [(4800, 240), (1200, 480)]
        self.judge(bay(times=times, rates=rates))
        self.judge(bay(times=times, rates=rates, blank_stamps=True, form="BINARY"))

    def test_binary_forms(self):
        for form, year in (("BINARY", 1999), ("BINARY", 2013), ("BINARY32", 2013), ("FLOAT32", 2013)):
            with self.subTest(form=form, year=year):
                self.judge(bay(form=form, year=year))
                self.judge(bay(form=form, year=year, rates=[]))

    def test_edition_1991(self):
        for form in ("ASCII", "BINARY"):
            told = ["of edition 1991 nothing says whether values are primary"]
            self.judge(
                bay(year=1991, form=form, trigger=0.04, waves=[Wave("VA", "V", voltage, 110e3)]),
                told=told,
                trigger=0.04,
            )

    def test_edition_2013(self):
        self.judge(bay(year=2013))
        self.judge(bay(year=2013, rates=[], decimals=9, trigger=0.0400001), trigger=0.0400001)
        self.judge(bay(year=2013, rates=[], decimals=9, form="BINARY", unit=1000.0))
        self.judge(bay(year=2013, form="BINARY", form_word="binary"))
        waves = [Wave("Spannung äußere Leiter Ω", "V", voltage, 110e3)]
        self.judge(bay(year=2013, waves=waves))

    def test_one_file(self):
        for form in ("ASCII", "BINARY", "BINARY32", "FLOAT32"):
            self.judge(bay(year=2013, form=form), cff=True)
            self.judge(bay(year=2013, form=form, rates=[]), cff=True)
        recorder = bay(year=2013, form="BINARY")
        record = read(self.files(recorder.cff(counted=False, end="\n")))
        self.assertIn("names no number of bytes", record.told[0])
        self.assertLess(abs(record.channel("VA")[0] - 89e3), recorder.waves[0].multiplier("BINARY"))

    def test_numbers_that_wrap(self):
        self.judge(bay(form="BINARY", first=2**32 - 200))
        self.judge(bay(first=2**32 - 200))
        wrap = ["the time stamps wrap at 4294967296"]
        self.judge(bay(form="BINARY", rates=[], start=2**32 - 30_000), told=wrap)
        self.judge(bay(form="BINARY", start=2**32 - 30_000))
        record = read(
            self.files(
                HAND_CFG.replace(b"1\r\n1000,3", b"0\r\n0,3"),
                b"9999999998,9999999998,0,0,0\r\n9999999999,9999999999,0,0,0\r\n0,1,0,0,1\r\n\x1a",
            )
        )
        np.testing.assert_allclose(record.times, [0.0, 1e-6, 3e-6], atol=1e-15)
        self.assertIn("the time stamps wrap at 10000000000", record.told)

    def test_many_states(self):
        bars = [(f"B{bit}", lambda time, bit=bit: (int(time * 4800) >> bit) & 1) for bit in range(19)]
        self.judge(bay(form="BINARY", bars=bars))
        self.judge(bay(bars=bars, waves=[]))

    def test_stamps_beside_a_rate(self):
        recorder = bay()
        late = b"".join(b"%d,%d,0,0,0,1\r\n" % (place + 1, place * 220) for place in range(480))
        record = read(self.files(recorder.cfg(), late))
        self.assertIn("off those of the sampling rate: the rate counts", record.told[0])
        np.testing.assert_allclose(record.times, recorder.times, atol=1e-12)


class ByHand(Folder):
    """Bytes written by hand, with what they say."""

    def test_text(self):
        record = read(self.files(HAND_CFG, HAND_DAT))
        self.assertEqual((record.station, record.device), ("STATION", "DEVICE"))
        self.assertEqual((record.names, record.units, record.circuits), (["VA", "IA"], ["kV", "A"], ["BUS", "BAY"]))
        np.testing.assert_allclose(record.channel("VA"), [4.0, np.nan, -11.0])  # 0.5 x - 1
        np.testing.assert_allclose(record.channel("IA"), [-2400.0, 3200.0, 4000.0])  # 2 x, times 2000/5
        self.assertEqual(list(record.states("TRIP")), [0, 1, 1])
        self.assertEqual(list(record.times), [0.0, 0.001, 0.002])
        np.testing.assert_allclose(record.times_of("IA"), [25e-6, 0.001025, 0.002025])
        self.assertAlmostEqual(record.trigger, 0.002)
        self.assertEqual(record.start, datetime(2026, 11, 28, 13, 7, 20, 500000))
        self.assertEqual(record.rates, [(1000.0, 3)])
        self.assertEqual(record.frame().loc[0.001, "IA"], 3200.0)

    def test_binary(self):
        dat = struct.pack("<IIi", 1, 0, 100_000) + struct.pack("<IIi", 2, 700, -(2**31))
        record = read(self.files(HAND_2013, dat))
        np.testing.assert_allclose(record.channel("X"), [200_000.0, np.nan])
        np.testing.assert_allclose(record.times, [0.0, 700e-9])
        self.assertAlmostEqual(record.trigger, 500e-9)

    def test_infinite_floats_are_missing(self):
        cfg = HAND_2013.replace(b"BINARY32", b"FLOAT32")
        record = read(self.files(cfg, struct.pack("<IIf", 1, 0, 1.5) + struct.pack("<IIf", 2, 700, -math.inf)))
        np.testing.assert_allclose(record.channel("X"), [3.0, np.nan])

    def test_fractions_in_text(self):
        cfg = HAND_2013.replace(b"BINARY32", b"ASCII")
        record = read(self.files(cfg, b"1, 0, 1.25\r\n2 ,700 ,-3E2\r\n"))
        self.assertEqual(list(record.channel("X")), [2.5, -600.0])

    def test_what_is_told(self):
        unusual = [
            (b"28/11/2026", b"11/28/2026", "dates stand month first, against edition 1999"),
            (b",1999", b",2001", "edition 2001 (IEC 60255-24) is read as 1999"),
            (b"ASCII\r\n1\r\n", b"ASCII\r\n1", "has no end: it may be cut"),
            (b"ASCII\r\n1\r\n", b"ASCII\r\n1\r\nmore\r\n", "isn't read"),
            (b"28/11/2026,13:07:20.502000", b",", "the time of the trigger is blank"),
            (b"20.502000", b"20.498000", "the trigger stands 0.002 s before the first sample"),
            (b"20.502000", b"21.502000", "the trigger stands 1 s after the last sample"),
            (b"2,IA", b"2,\xb5A \x96", "letters that are no UTF-8: they are read as Windows-1252"),
            (b"2,IA", b"2,VA", "names that stand more than once have .2, .3 behind the later ones: VA"),
        ]
        for old, new, words in unusual:
            with self.subTest(words):
                record = read(self.files(HAND_CFG.replace(old, new), HAND_DAT))
                self.assertTrue(any(words in said for said in record.told), record.told)
        for dat, words in (
            (HAND_DAT + b"more", "behind the end mark"),
            (HAND_DAT.replace(b"\r\n2", b"\r\n\r\n2"), "blank lines"),
            (HAND_DAT.replace(b"3,2000", b"5,2000"), "don't rise by 1"),
        ):
            record = read(self.files(HAND_CFG, dat))
            self.assertTrue(any(words in said for said in record.told), record.told)
        same = read(self.files(HAND_CFG.replace(b"1\r\n1000,3", b"0\r\n0,3"), HAND_DAT.replace(b"3,2000", b"3,1000")))
        self.assertTrue(any("the time stamp of the one before" in said for said in same.told))

    def test_names_told_apart(self):
        cfg = HAND_CFG.replace(b"2,IA", b"2,VA").replace(b"1,TRIP", b"1,VA")
        record = read(self.files(cfg, HAND_DAT))
        self.assertEqual((record.names, record.state_names), (["VA", "VA.2"], ["VA.3"]))
        self.assertEqual(record.channel("VA.2")[0], -2400.0)
        blank = read(self.files(HAND_CFG.replace(b"2,IA", b"2,"), HAND_DAT))
        self.assertEqual(blank.names, ["VA", "analog 2"])
        taken = read(
            self.files(
                HAND_CFG.replace(b"1,VA", b"1,X.2").replace(b"2,IA", b"2,X").replace(b"1,TRIP", b"1,X"), HAND_DAT
            )
        )
        self.assertEqual((taken.names, taken.state_names), (["X.2", "X"], ["X.3"]))

    def test_the_path_may_be_bytes(self):
        self.assertEqual(read(self.files(HAND_CFG, HAND_DAT).encode()).names, ["VA", "IA"])

    def test_a_record_equals_itself_alone(self):
        path = self.files(HAND_CFG, HAND_DAT)
        one, other = read(path), read(path)
        self.assertTrue(one == one and one != other and len({one, other}) == 2)

    def test_stamps_that_are_none(self):
        """Of more than ten digits, and all the same, where no rate gives the times."""
        cfg = HAND_CFG.replace(b"1\r\n1000,3", b"0\r\n0,3")
        for stamps, words in (
            ((0, 10_000_000_000, 100_000_000_000), "line 2: the time stamp 10000000000 isn't one of ten digits"),
            ((0, -5, 10), "line 2: the time stamp -5 isn't one of ten digits"),
            ((7, 7, 7), "line 1: all time stamps are the same, and no sampling rate"),
        ):
            dat = b"".join(b"%d,%d,1,2,0\r\n" % (place, stamp) for place, stamp in enumerate(stamps, 1)) + b"\x1a"
            with self.assertRaisesRegex(RecordError, words):
                read(self.files(cfg, dat))
            if words.startswith("line 1"):
                self.assertEqual(read(self.files(HAND_CFG, dat)).times[-1], 0.002)  # the rate gives them

    def test_leap_seconds(self):
        leap = HAND_2013.replace(b"28/11/2026,13:07:20.000000000", b"31/12/2016,23:59:60.500000000")
        rows = [
            (leap, b"01/01/2017,00:00:00.500000000", b"B,0", 1.0),
            (leap, b"31/12/2016,23:59:60.700000000", b"B,0", 0.2),
            (leap.replace(b":60.5", b":59.5"), b"01/01/2017,00:00:00.500000000", b"B,1", 2.0),
            (leap.replace(b":60.5", b":58.5"), b"01/01/2017,00:00:00.500000000", b"B,2", 1.0),
            (leap.replace(b":60.5", b":59.5"), b"01/01/2017,00:00:00.500000000", b"B,0", 1.0),
            (leap.replace(b":60.5", b":59.5"), b"31/12/2016,23:59:60.500000000", b"B,1", 1.0),
        ]
        dat = struct.pack("<IIi", 1, 0, 1) + struct.pack("<IIi", 2, 700, 2)
        for cfg, trigger, clock, wanted in rows:
            with self.subTest(trigger=trigger, clock=clock):
                text = cfg.replace(b"28/11/2026,13:07:20.000000500", trigger).replace(b"B,0", clock)
                self.assertAlmostEqual(read(self.files(text, dat)).trigger, wanted, 9)

    def test_what_stands_beside_values(self):
        """The clock of 2013, states of a sound network, header and information."""
        cfg = HAND_2013.replace(b"0,0\r\nB,0", b"-5h30,x\r\nA,3").replace(b"1,1A,0D", b"2,1A,1D")
        cfg = cfg.replace(b"1,1,P\r\n", b"1,1,P\r\n1,TRIP,,,1\r\n")
        path = self.files(cfg, b"".join(struct.pack("<IIiH", at, at, at, 1) for at in (1, 2)))
        for ending, text in ((".hdr", "Störung\n"), (".inf", "[Public]\n")):
            with open(path[:-4] + ending, "w", encoding="utf-8") as file:
                file.write(text)
        record = read(path)
        self.assertEqual((record.clock.code, record.clock.local, record.clock.quality), ("-5h30", "x", "A"))
        self.assertEqual((record.normal, record.header, record.information), ({"TRIP": 1}, "Störung\n", "[Public]\n"))
        text = b"--- file type: CFG ---\r\n" + cfg.replace(b"BINARY32", b"ASCII").replace(b"2,1A,1D", b"1,1A,0D")
        text = text.replace(b"1,TRIP,,,1\r\n", b"") + b"--- file type: INF ---\r\nabout\r\n"
        text += b"--- file type: HDR ---\r\nhead\r\n--- file type: DAT ASCII ---\r\n1,0,5\r\n2,1,6\r\n"
        one = read(self.files(text))
        self.assertEqual((one.information, one.header, one.channel("X").tolist()), ("about", "head", [10.0, 12.0]))

    def test_signs_of_another_record(self):
        """States beyond those that are named, values beyond the range, the other order of bytes, a date with two
        readings."""
        two = HAND_2013.replace(b"1,1A,0D", b"2,1A,1D").replace(b"1,1,P\r\n", b"1,1,P\r\n1,TRIP,,,0\r\n")
        told = read(self.files(two, b"".join(struct.pack("<IIiH", at, at, at, 6) for at in (1, 2)))).told
        self.assertTrue(any("has states beyond the 1 that" in it for it in told), told)
        told = read(self.files(HAND_CFG, HAND_DAT.replace(b",4,1", b",60000,1"))).told
        self.assertTrue(any("raw values from -3 to 60000 lie beyond the range" in it for it in told), told)
        small = HAND_2013.replace(b"-2147483648,2147483647", b"-10,10")
        told = read(self.files(small, struct.pack("<IIi", 1, 0, 11) + struct.pack("<IIi", 2, 700, -(2**31)))).told
        self.assertTrue(any("X: raw values from 11 to 11 lie beyond" in it for it in told), told)
        other = b"".join(struct.pack(">IIi", at, at, 1000 * at) for at in (1, 2))
        with self.assertRaisesRegex(RecordError, "it is big-endian, which the standard doesn't have"):
            read(self.files(HAND_2013, other))
        found = read(self.files(HAND_2013, other), lenient=True)
        self.assertEqual(found.channel("X").tolist(), [2000.0, 4000.0])
        old = HAND_CFG.replace(b",1999", b",1991").replace(b"ASCII\r\n1\r\n", b"ASCII\r\n")
        old = old.replace(b",400,0.1,P", b"").replace(b",2000,5,S", b"").replace(b"TRIP,,,0", b"TRIP,0")
        for date, count in ((b"03/04/1997", 1), (b"04/04/1997", 0), (b"03/28/1997", 0)):
            told = read(self.files(old.replace(b"28/11/2026", date), HAND_DAT)).told
            self.assertEqual(sum("dates are read month first" in it for it in told), count, told)

    def test_what_recorders_write_against_the_standard(self):
        """Each is refused, and read with `lenient`, with the values of the lawful record and a word."""
        two = HAND_CFG.replace(b"1\r\n1000,3", b"2\r\n1000,2\r\n1000,3")
        rows = [
            (HAND_CFG, HAND_DAT.removesuffix(b"\r\n\x1a"), "has no end: it may be cut"),
            (HAND_CFG, HAND_DAT.replace(b"\r\n", b",\r\n"), "end with a comma"),
            (HAND_CFG.replace(b"28/11/2026,13:07:20.5", b"00/00/0000,00:00:00.0"), HAND_DAT, "which is no date"),
            (HAND_CFG.removesuffix(b"1\r\n"), HAND_DAT, "is blank or missing, and taken as 1"),
            (HAND_CFG.replace(b"ASCII\r\n1", b"ASCII\r\n"), HAND_DAT, "is blank or missing, and taken as 1"),
            (HAND_CFG.replace(b"TRIP,,,0", b"TRIP,0"), HAND_DAT, "has 3 fields, as those of edition 1991"),
            (two.replace(b"1000,3\r\n", b"1000,1\r\n"), HAND_DAT, "the numbers of their own samples"),
            (two.replace(b"1000,2", b"1000,1").replace(b"1000,3", b"1000,2"), HAND_DAT, "of their own samples"),
            (HAND_CFG.replace(b"1\r\n1000,3", b"0\r\n1000,3"), HAND_DAT, "no sampling rate is announced"),
            (HAND_CFG.replace(b",400,0.1,P", b",1,1"), HAND_DAT, "nothing says whether"),
            (HAND_CFG.replace(b",400,0.1,P", b",400,0.1,"), HAND_DAT, "has a ratio, and nothing says whether"),
            (HAND_CFG.replace(b"STATION", b"NORTH, STATION"), HAND_DAT, "the name of the station has a comma"),
            (HAND_CFG.replace(b"1000,3", b"1000,3.0"), HAND_DAT, "the last sample's number has a point"),
        ]
        for cfg, dat, words in rows:
            with self.subTest(words):
                path = self.files(cfg, dat)
                with self.assertRaises(RecordError):
                    read(path)
                record = read(path, lenient=True)
                np.testing.assert_allclose(record.channel("VA"), [4.0, np.nan, -11.0])
                np.testing.assert_allclose(record.times, [0.0, 0.001, 0.002])
                self.assertTrue(any(words in it for it in record.told), record.told)
        dat = struct.pack("<IIi", 1, 0, 1) + struct.pack("<IIi", 2, 700, 2) + b"\x1a"
        with self.assertRaisesRegex(RecordError, "stand behind the last whole sample"):
            read(self.files(HAND_2013, dat))
        self.assertIn("an end mark (0x1A)", read(self.files(HAND_2013, dat), lenient=True).told[0])
        self.assertEqual(
            read(self.files(HAND_CFG, HAND_DAT), lenient=True).told, read(self.files(HAND_CFG, HAND_DAT)).told
        )

    def test_other_alphabets(self):
        for encoding, name in (("gbk", "电压"), ("cp1251", "Напряжение")):
            path = self.files(HAND_CFG.replace(b"1,VA", b"1," + name.encode(encoding)), HAND_DAT)
            self.assertNotIn(name, read(path).names)
            self.assertEqual(read(path, encoding=encoding).names[0], name)
        with self.assertRaisesRegex(RecordError, "there is no encoding 'klingon' for texts"):
            read(path, encoding="klingon")
        with self.assertRaisesRegex(RecordError, "line 3: it isn't written in ascii"):
            read(path, encoding="ascii")

    def test_packed_and_open_files(self):
        path = self.files(HAND_CFG, HAND_DAT)
        pack = os.path.join(self.folder, "p.zip")
        with zipfile.ZipFile(pack, "w") as made:
            made.writestr("deep/x.CFG", HAND_CFG)
            made.writestr("deep/x.dat", HAND_DAT)
            made.writestr("readme", "no record")
        with open(path, "rb") as cfg, open(path[:-4] + ".dat", "rb") as dat, open(pack, "rb") as packed:
            found = [read(pack), read(packed), read(cfg, dat), read(io.BytesIO(HAND_CFG), io.BytesIO(HAND_DAT))]
            self.assertFalse(cfg.closed)
        for record in found:
            np.testing.assert_allclose(record.channel("IA"), [-2400.0, 3200.0, 4000.0])
        self.assertEqual((found[0].path, found[2].path), (f"{pack}/deep/x.CFG", path))
        with self.assertRaisesRegex(RecordError, "the data of an open configuration have to be named too"):
            read(io.BytesIO(HAND_CFG))
        with self.assertRaisesRegex(RecordError, "it isn't open for reading bytes"):
            read(io.StringIO("text"))
        with zipfile.ZipFile(pack, "a") as made:
            made.writestr("y.cfg", HAND_CFG)
        with self.assertRaisesRegex(RecordError, "it holds 2 records .deep/x.CFG, y.cfg., and one is read"):
            read(pack)

    def test_as_pandas_and_xarray_know_it(self):
        path = self.files(HAND_CFG, HAND_DAT)
        record = read(path)
        self.assertEqual((list(record), record.keys(), len(record)), (["VA", "IA", "TRIP"],) * 2 + (3,))
        np.testing.assert_array_equal(record["IA"], record.channel("IA"))
        self.assertEqual(record["TRIP"].tolist(), [0, 1, 1])
        self.assertTrue("TRIP" in record and "NOPE" not in record)
        with self.assertRaisesRegex(KeyError, "r.cfg: no analog channel 'NOPE'; it has VA, IA$"):
            record["NOPE"]
        self.assertEqual(repr(record), f"<Record {path}: 3 samples, 0 to 0.002 s; VA, IA, TRIP>")
        page = record._repr_html_()
        self.assertIn("<tr><td>IA</td><td>A</td><td>-2400</td><td>4000</td><td>25 us</td></tr>", page)
        self.assertIn("<li>recorded as secondary values, answered as primary: IA</li>", page)
        frame = record.frame()
        self.assertEqual(frame.attrs["units"], {"VA": "kV", "IA": "A"})
        self.assertEqual(frame.attrs["skews"], {"VA": 0.0, "IA": 25 * 1e-6})
        data = record.to_xarray()
        self.assertEqual((data["IA"].attrs["units"], data["IA"].attrs["skew"], data.sizes["time"]), ("A", 25 * 1e-6, 3))
        self.assertEqual(float(data["IA"].sel(time=0.001)), 3200.0)
        self.assertEqual(record.steps, {"VA": 0.5, "IA": 800.0})

    def test_a_part_of_the_time(self):
        record = read(self.files(HAND_CFG, HAND_DAT))
        part = record.sel(0.001, 0.002)
        self.assertEqual((part.times.tolist(), part["IA"].tolist()), ([0.001, 0.002], [3200.0, 4000.0]))
        self.assertEqual((part["TRIP"].tolist(), part.skew("IA"), part.units), ([1, 1], 25 * 1e-6, ["kV", "A"]))
        self.assertTrue(math.isnan(part["VA"][0]) and part["VA"][1] == -11.0)
        self.assertEqual(record.sel().times.tolist(), record.times.tolist())
        self.assertEqual((len(record.times), record.skew("IA")), (3, 25 * 1e-6))
        with self.assertRaisesRegex(RecordError, "no sample from 5 to None s; it has 0 to 0.002 s"):
            record.sel(5)

    def test_another_rate(self):
        """50 Hz at 20 kHz, skewed by 20 us, to 4 kHz and to 50 kHz: the formula, without the skew."""
        at = np.arange(2000) / 20000
        wave = lambda times: 1000 * np.sin(2 * np.pi * 50 * times)  # noqa: E731
        content = Content(at, [Channel("V", "V", wave(at + 20e-6), skew=20e-6)], rates=[(20000, 2000)])
        content.bars.append(Bar("B", (at >= 0.05).astype(int)))
        write(os.path.join(self.folder, "w.cfg"), content, "BINARY32", 2013)
        record = read(os.path.join(self.folder, "w.cfg"))
        for rate in (4000.0, 50000.0):
            found = record.resample(rate)
            inner = (found.times > 0.01) & (found.times < 0.09)
            self.assertLess(abs(found["V"] - wave(found.times))[inner].max(), 0.5)
            self.assertEqual((found.skew("V"), found.rates[0][0]), (0.0, rate))
            np.testing.assert_allclose(np.diff(found.times), 1 / rate)
            self.assertEqual(found["B"].tolist(), (found.times >= 0.05 - 1e-9).astype(int).tolist())
        with self.assertRaisesRegex(RecordError, "a rate is a number of samples a second above 0"):
            record.resample(0)

    def test_a_drawing(self):
        record = read(self.files(HAND_CFG, HAND_DAT))
        out = os.path.join(self.folder, "p.png")
        drawing = record.plot("I*", path=out, begin=0.001)
        with open(out, "rb") as file:
            self.assertTrue(file.read(4) == drawing._repr_png_()[:4] == b"\x89PNG")
        self.assertEqual([curve.name for pane in drawing.panes for curve in pane.curves], ["IA"])
        with self.assertRaisesRegex(RecordError, "has no channel 'NOPE'"):
            record.plot("NOPE")

    def test_many_names_alike(self):
        names = ["X"] * 9_000 + ["X.2", "Y"]
        waves = [Wave(name, "V", lambda time: 1.0, 1.0) for name in names]
        record = read(Recorder([0.0], waves, rates=[(1000, 1)]).write(self.folder))
        self.assertEqual((record.names[:3], record.names[8_999:]), (["X", "X.3", "X.4"], ["X.9001", "X.2", "Y"]))
        self.assertEqual(len(record.told), 1)

    def test_blank_lines_before_all(self):
        record = read(self.files(HAND_CFG, b"\r\n" * 800_000 + HAND_DAT))
        self.assertEqual(list(record.channel("IA")), [-2400.0, 3200.0, 4000.0])

    def test_data_beside_in_other_letters(self):
        path = self.files(HAND_CFG, HAND_DAT)
        os.rename(path[:-4] + ".dat", path[:-4] + ".DAT")
        self.assertEqual(len(read(path).times), 3)
        self.assertEqual(len(read(path, path[:-4] + ".DAT").times), 3)


class Refusals(Folder):
    """What a file lacks or contradicts, with the place and the cause in words."""

    def refused(self, cfg, dat, *words):
        """Reading ends in these words, and names the file."""
        with self.assertRaises(RecordError) as caught:
            record = read(self.files(cfg, dat))
            for name in record.names:
                record.channel(name)
        for word in ("r.c" if dat is None else "r.", *words):
            self.assertIn(word, str(caught.exception))

    def test_configuration(self):
        cases = [
            (b",1999", b",2020", "line 1: the edition is '2020'"),
            (b"STATION,DEVICE,1999", b"STATION", "line 1: no station and device"),
            (b"STATION,DEVICE", b"STATION,A,B", "line 1: station, device and edition have 4 fields"),
            (b"3,2A,1D", b"4,2A,1D", "line 2: 4 channels, and 2 analog and 1 status ones"),
            (b"3,2A,1D", b"3,2,1D", "line 2: no numbers of channels"),
            (b"3,2A,1D", b"99999,99998A,1D", "line 2: 99999 channels: more than 10,000 aren't read"),
            (b"3,2A,1D", b"9999,9998A,1D", "line 5: an analog channel has 5 fields, not 13"),
            (b"kV,0.5", b"kV,", "line 3: the multiplier is blank"),
            (b"kV,0.5", b"kV,0.5x", "line 3: the multiplier is no number: '0.5x'"),
            (b"kV,0.5", b"kV,nan", "line 3: the multiplier is no number"),
            (b"0.5,-1", b"0.5,", "line 3: the offset is blank"),
            (b"1,VA,A", b"1,V,A,A", "line 3: an analog channel has 14 fields, not 13"),
            (b",0.1,P", b",0.1", "line 3: an analog channel has 12 fields"),
            (b",0.1,P", b",0.1,X", "line 3: the channel is 'X', neither P"),
            (b",0.1,P", b",0.1,", "line 3: the channel has a ratio, and nothing says"),
            (b"2000,5,S", b"2000,0,S", "line 4: the channel has secondary values (S), and no ratio"),
            (b"1,TRIP,,,0", b"1,TRIP,,,2", "line 5: the normal state is '2'"),
            (b"1,TRIP,,,0", b"1,TRIP", "line 5: a status channel has 2 fields"),
            (b"\r\n50\r\n", b"\r\n-50\r\n", "line 6: the line frequency is below 0"),
            (b"\r\n50\r\n1\r\n", b"\r\n50\r\nx\r\n", "line 7: the number of sampling rates is no whole number"),
            (b"\r\n50\r\n1\r\n", b"\r\n50\r\n0\r\n", "line 8: no sampling rate is announced"),
            (b"\r\n50\r\n1\r\n", b"\r\n50\r\n99999\r\n", "line 7: 99999 sampling rates: more than"),
            (b"1000,3", b"-1000,3", "line 8: the sampling rate is below 0"),
            (b"1000,3", b"1000,0", "line 8: the last sample's number is 0"),
            (b"1\r\n1000,3", b"2\r\n1000,2\r\n0,3", "line 9: one sampling rate is 0 and another isn't"),
            (b"1\r\n1000,3", b"2\r\n1000,3\r\n1000,3", "line 9: the last sample's number is 3, and has to be above 3"),
            (b"1000,3", b"1e-320,3", "line 8: the sampling rate is out of range"),
            (b"28/11/2026,13:07:20.5", b"30/02/2026,13:07:20.5", "line 9: the time of the first sample is '30/02/2026"),
            (b"28/11/2026,13:07:20.502", b"28/11/2026,25:07:20.502", "line 10: the time of the trigger"),
            (b"28/11/2026,13:07:20.502", b"28-11-2026,13:07:20.502", "line 10: the time of the trigger is '28-11-2026"),
            (b"ASCII", b"ASCII2", "line 11: the form of the data is 'ASCII2'"),
            (b"ASCII\r\n1\r\n", b"ASCII\r\n0\r\n", "line 12: the multiplier of the time stamps is 0"),
            (b"ASCII\r\n1\r\n", b"ASCII\r\n", "line 12 is missing: the multiplier"),
            (b"STATION", b"STA\x00ION", "line 1: byte 4 of the file is 0x00"),
            (b"1,VA", b"1,V\xc2\x9bA", "line 3: it has the control character U+009B"),
            (b"kV,0.5,-1", b"kV,1e308,-1", "line 3: a value of VA leaves the range of numbers"),
        ]
        for old, new, words in cases:
            with self.subTest(words):
                self.assertIn(old, HAND_CFG)
                self.refused(HAND_CFG.replace(old, new, 1), HAND_DAT, "r.cfg: " + words)
        self.refused(b"x" * 70_000, HAND_DAT, "r.cfg: line 1: longer than 65,536 bytes")
        old = HAND_CFG.replace(b"\r\n", b"\r")
        self.refused(old, HAND_DAT, "r.cfg: line 1: byte 20 of the file is a carriage return alone")
        self.refused(b"", HAND_DAT, "r.cfg: line 1 is missing: station, device and edition")
        of_1991 = HAND_CFG.replace(b",1999", b"")
        self.refused(of_1991, HAND_DAT, "line 3: an analog channel has 13 fields, as from 1999 on")

    def test_times_that_may_be_wrong(self):
        stamps = HAND_CFG.replace(b"1\r\n1000,3", b"0\r\n0,3")
        self.refused(stamps[:-2], HAND_DAT, "line 12, the multiplier of the time stamps, has no end")
        self.refused(
            stamps.replace(b".500000", b".500000000"),
            HAND_DAT,
            "one instant is written to the us and the other to the ns",
        )
        fine = stamps.replace(b".500000", b".500000000").replace(b".502000", b".502000000")
        self.refused(fine, HAND_DAT, "written to the ns in edition 1999")
        self.refused(stamps, HAND_DAT.replace(b"2,1000", b"2,"), "r.dat: line 2: the time stamp is blank")
        self.refused(stamps, HAND_DAT.replace(b"2,1000", b"2,3000"), "r.dat: line 3: the time stamp is below")

    def test_text(self):
        cases = [
            (b"2,1000,99999,4,1", b"2,1000,99999,4", "line 2: 4 fields, and"),
            (b"2,1000,99999,4,1", b"2,1000,99999,4,1,1", "line 2: 6 fields, and"),
            (b"2,1000,99999,4,1", b"2,1000,99999,4,2", "line 2: field 5 is no state, 0 or 1: '2'"),
            (b"2,1000,99999,4,1", b"2,1000,99999,4,", "line 2: field 5 is no state"),
            (b"2,1000,99999,4,1", b"2,1000,9 9,4,1", "line 2: field 3 is no number: '9 9'"),
            (b"2,1000,99999,4,1", b"2,1000,1e999,4,1", "line 2: field 3 is no number: '1e999'"),
            (b"2,1000,99999,4,1", b"2,1000,inf,4,1", "line 2: field 3 is no number: 'inf'"),
            (b"2,1000,99999,4,1", b"2,1000,0x10,4,1", "line 2: field 3 is no number: '0x10'"),
            (b"2,1000,99999,4,1", b",1000,99999,4,1", "line 2: the number of the sample is blank"),
            (b"3,2000,-20,5,1\r\n\x1a", b"3,2000,-20,5,1", "line 3: it has no end, and no end mark"),
            (b"3,2000,-20,5,1\r\n", b"", "2 samples, and line 8 of"),
            (b"\x1a", b"4,3000,0,0,0\r\n", "4 samples, and line 8 of"),
        ]
        for old, new, words in cases:
            with self.subTest(words):
                self.assertIn(old, HAND_DAT)
                self.refused(HAND_CFG, HAND_DAT.replace(old, new, 1), "r.dat: " + words)
        self.refused(HAND_CFG, b"1" * 3_000_000, "r.dat: line 1: longer than 5 fields can be")

    def test_binary(self):
        dat = struct.pack("<IIi", 1, 0, 5) + struct.pack("<IIi", 2, 700, 6)
        self.refused(HAND_2013, dat[:-1], "r.dat: byte 13: 11 bytes stand behind the last whole sample of 12 bytes")
        self.refused(HAND_2013, dat[:12], "r.dat: 1 samples, and line 6 of", "names 2")
        self.refused(HAND_2013, dat[:16] + b"\xff\xff\xff\xff" + dat[20:], "r.dat: byte 13: the time stamp is blank")
        unsigned = HAND_2013.replace(b"BINARY32", b"BINARY").replace(b",-2147483648,2147483647,", b",0,65535,")
        dat = struct.pack("<IIh", 1, 0, 5) + struct.pack("<IIh", 2, 700, -6)
        self.refused(
            unsigned,
            dat,
            "r.cfg: line 3: X ranges from 0 to 65535, and its raw value in the sample at",
            "r.dat: byte 11 is below 0",
        )

    def test_one_file(self):
        whole = bay(year=2013, form="BINARY").cff()
        cases = [
            (whole[:-1], "bytes of data are announced, and"),
            (whole.replace(b"DAT BINARY:", b"DAT ASCII:"), "the section has the form ASCII, the CFG BINARY"),
            (whole.replace(b"type: INF", b"type: CFG"), "a second section CFG"),
            (whole.replace(b"type: INF", b"type: XYZ"), "the section XYZ is none of"),
            (whole[: whole.index(b"--- file type: DAT")], "it has no section DAT"),
            (whole[whole.index(b"--- file type: INF") :], "it has no section CFG before line"),
            (whole.replace(b"4800,480", b"4800,481"), "480 samples, and line 10 of"),
            (whole.replace(b"1,VA,A", b"1,VA,A,A"), "line 4: an analog channel has 14 fields"),
        ]
        for data, words in cases:
            with self.subTest(words):
                self.refused(data, None, words)
        with self.assertRaisesRegex(RecordError, "it has its data in itself"):
            read(self.files(whole), "other.dat")

    def test_files(self):
        path = self.files(HAND_CFG, HAND_DAT)
        os.remove(path[:-4] + ".dat")
        for name, words in (
            (path, "the data isn't beside it"),
            (path[:-4] + ".dat", "No such file"),
            (self.folder, "it is no plain file"),
            ("/dev/zero", "it is no plain file"),
            ("a\0b", "null byte"),
        ):
            with self.subTest(words), self.assertRaisesRegex(RecordError, words):
                read(name)
        self.files(HAND_CFG, HAND_DAT)
        with self.assertRaisesRegex(RecordError, "this is the data; name the configuration"):
            read(path[:-4] + ".dat")
        record = read(path)
        for call in (record.channel, record.states, record.skew, record.missing):
            with self.assertRaisesRegex(RecordError, "no (analog|status) channel 'NONE'; it has "):
                call("NONE")


def sources():
    """Small records of each kind, each a list of (ending, bytes)."""
    few = {"times": grid(4800.0, 3), "rates": [(4800, 3)]}
    kinds = [
        bay(**few),
        bay(**few, form="BINARY"),
        bay(**few, year=1991),
        bay(times=few["times"], rates=[], year=2013, decimals=9),
    ]
    kinds += [bay(**few, year=2013, form="BINARY32"), bay(**few, year=2013, form="FLOAT32", missing={(1, 1)})]
    made = [[(".cfg", kind.cfg()), (".dat", kind.dat())] for kind in kinds]
    made += [[(".cff", bay(**few, year=2013).cff())], [(".cff", bay(**few, year=2013, form="BINARY").cff())]]
    return made + [[(".cfg", HAND_CFG), (".dat", HAND_DAT)]]


def spoilt(data, chance):
    """Bytes with one to three changes."""
    data = bytearray(data)
    for _ in range(chance.randint(1, 3)):
        at, what = chance.randrange(len(data) + 1), chance.random()
        if what < 0.4 and at < len(data):
            data[at] = chance.choice(b"0123456789,.-+\r\n ASxeE\x1a\xff\0")
        elif what < 0.55:
            del data[at : at + chance.randint(1, 40)]
        elif what < 0.65:
            del data[at:]
        elif what < 0.9:
            data[at:at] = bytes(chance.choice(b"0123456789,\n\r -+.eE\0\x1a\xffx") for _ in range(chance.randint(1, 9)))
        else:
            data[at:at] = data[at : at + chance.randint(1, 60)] * chance.randint(1, 30)
    return bytes(data)


class Spoilt(Folder):
    """Spoilt records are read or refused in words; nothing else comes."""

    def tried(self, files):
        """Reads a record of these files; whether it was read."""
        for ending, data in files:
            with open(os.path.join(self.folder, "s" + ending), "wb") as file:
                file.write(data)
        try:
            record = read(os.path.join(self.folder, "s" + files[0][0]))
            self.assertIsInstance(record, Record)
            self.assertEqual(record.times.shape, (len(record.times),))
            for name in record.names:
                self.assertEqual(record.channel(name).shape, record.times.shape)
            for name in record.state_names:
                self.assertLessEqual(set(record.states(name).tolist()), {0, 1})
            return True
        except RecordError as fault:
            self.assertTrue(str(fault))
            return False

    def test_each_byte_and_each_length(self):
        read_so, refused = 0, 0
        for files in sources():
            for place, (ending, data) in enumerate(files):
                rest = files[:place] + files[place + 1 :] if place == 0 else None
                for at in range(len(data)):
                    for changed in (data[:at], data[:at] + bytes([data[at] ^ (1 << at % 8)]) + data[at + 1 :]):
                        pair = [(ending, changed), *rest] if place == 0 else [files[0], (ending, changed)]
                        done = self.tried(pair)
                        read_so, refused = read_so + done, refused + (not done)
        self.assertGreater(refused, 3000)
        self.assertGreater(read_so, 1000)

    def test_spoilings(self):
        self.assertGreater(min(self.spoilings(1500, seed=1)), 100)

    def spoilings(self, count, seed):
        """How many of so many spoilt records were read, and how many refused."""
        kinds, chance, done = sources(), random.Random(seed), [0, 0]
        for _ in range(count):
            files = [list(it) for it in chance.choice(kinds)]
            which = chance.choice(files)
            which[1] = spoilt(which[1], chance)
            done[self.tried([tuple(it) for it in files])] += 1
        return done

    def test_memory_of_hostile_files(self):
        lines = 200_000
        plain = HAND_CFG.replace(b"1000,3", b"1000,%d" % lines)
        none = plain.replace(b"3,2A,1D", b"0,0A,0D")
        none = none[: none.index(b"1,VA")] + none[none.index(b"50\r\n") :]
        one = plain.replace(b"3,2A,1D", b"1,1A,0D")
        one = one[: one.index(b"2,IA")] + one[one.index(b"50\r\n") :]
        hostile = {
            "no channels": (none, b"1,\n" * lines),
            "blank values": (one, b"1,,\n" * lines),
            "fractions among digits": (one, b"1,,1\n" * (lines - 1) + b"1,,.5\n"),
            "announced samples": (HAND_CFG.replace(b"1000,3", b"1000,9999999999"), HAND_DAT),
            "announced channels": (HAND_CFG.replace(b"3,2A,1D", b"10000,9999A,1D") + b"\r\n" * lines, HAND_DAT),
            "lines of a cfg": (b"\r\n" * lines, HAND_DAT),
            "commas of a cfg": (b"," * 3 * lines, HAND_DAT),
            "a line without an end": (HAND_CFG, b"," * 20 * lines),
            "binary": (none.replace(b"ASCII", b"BINARY"), bytes(8) * lines),
        }
        one_file = b"--- file type: CFG ---\r\n" + b"\r\n" * lines + b"--- file type: DAT ASCII ---\r\n"
        hostile["lines of a cff"] = (one_file, None)
        hostile["sections of a cff"] = (one_file[:24] + b"--- file type: INF ---\r\n" * lines, None)
        for what, (cfg, dat) in hostile.items():
            with self.subTest(what):
                path = self.files(cfg, dat)
                tracemalloc.start()
                try:
                    read(path)
                except RecordError:
                    pass
                finally:
                    peak = tracemalloc.get_traced_memory()[1]
                    tracemalloc.stop()
                self.assertLess(peak, 5 * (len(cfg) + len(dat or b"")) + 40e6)


if __name__ == "__main__":
    trial = Spoilt()
    trial.setUp()
    print("read %d, refused %d" % tuple(reversed(trial.spoilings(int(sys.argv[1]), seed=2))))
    trial.doCleanups()
