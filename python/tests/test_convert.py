"""convert: what it writes beside the formula of what was recorded, and its words."""

import contextlib
import csv
import io
import math
import os
import unittest
from datetime import datetime

import numpy as np

from wurdanei.__main__ import main
from wurdanei.record import read

from .recorder import Recorder, Wave, bay, grid, voltage
from .test_record import Folder

OWN_CFG = (
    b"EMTP,CASE,1999\r\n2,1A,1D\r\n1,V MID,,,V,0.002,0,0,-32767,32767,1,1,P\r\n1,S A-B,,,0\r\n60\r\n0\r\n0,4\r\n"
    b"01/01/2000,00:00:00.000000\r\n01/01/2000,00:00:00.000000\r\nASCII\r\n100\r\n"
)
OWN_DAT = b"1,0,0,0\r\n2,1,25000,1\r\n3,2,25000,1\r\n4,3,-7,0\r\n\x1a"


class Convert(Folder):
    def run_words(self, *words, status=0):
        """What `convert` prints; on standard error where it can't."""
        out, told = io.StringIO(), io.StringIO()
        with contextlib.redirect_stdout(out), contextlib.redirect_stderr(told):
            try:
                got = main(["convert", *words])
            except SystemExit as left:  # of argparse
                got = left.code
        self.assertEqual(got, status, told.getvalue())
        return told.getvalue() if status else out.getvalue()

    def out(self, name):
        return os.path.join(self.folder, name)

    def test_forms_of_one_file_and_two(self):
        recorder = bay(trigger=0.04)
        source = recorder.write(self.folder)
        for name, words, form, year in (
            ("o.cfg", [], "BINARY", 1999),
            ("o.cfg", ["--form", "ascii"], "ASCII", 1999),
            ("o.cfg", ["--year", "2013"], "BINARY", 2013),
            ("o.cfg", ["--form", "float32"], "FLOAT32", 2013),
            ("o.cff", ["--form", "binary32"], "BINARY32", 2013),
            ("o.CFF", ["--form", "ascii"], "ASCII", 2013),
        ):
            with self.subTest(name=name, words=words):
                said = self.run_words(source, self.out(name), *words)
                self.assertIn(f"480 samples, 4800 Hz, 2 analog and 2 status channels, COMTRADE {year}, {form}", said)
                record = read(self.out(name))
                self.assertEqual((record.form, record.revision, record.frequency), (form, year, 50.0))
                self.assertEqual((record.station, record.device, record.start), ("BAY 3", "RECORDER", recorder.begin))
                self.assertAlmostEqual(record.trigger, 0.04)
                np.testing.assert_allclose(record.times, recorder.times, atol=1e-12)
                for wave in recorder.waves:
                    wanted = [wave.at(time) for time in recorder.times]
                    half = 0.5001 * wave.multiplier("ASCII")  # the multiplier is kept, so that no second rounding comes
                    self.assertLess(np.abs(record.channel(wave.name) - wanted).max(), half + 2.0**-24 * wave.peak)
                for bar, at in recorder.bars:
                    self.assertEqual(list(record.states(bar)), [int(at(time)) for time in recorder.times])

    def test_own_record_for_a_viewer(self):
        source = self.files(OWN_CFG, OWN_DAT)
        said = self.run_words(
            source, self.out("o.cfg"), "--form", "ascii", "--frequency", "50", "--trigger", "2e-4", "--date", "2026-11-28 13:07:20.5",
            "--phases", "V MID=A:LINE 1", "--station", "SUB", "--device", "REC", "--rename", "V MID=VA,S A-B=52A",
        )  # fmt: skip
        self.assertIn("VA: to half of 0.002 V", said)
        with open(self.out("o.cfg"), "rb") as file:
            self.assertEqual(
                file.read().decode(),
                "SUB,REC,1999\r\n2,1A,1D\r\n1,VA,A,LINE 1,V,0.002,0,0,-32767,32767,1,1,P\r\n1,52A,,,0\r\n50\r\n1\r\n10000,4\r\n"
                "28/11/2026,13:07:20.500000\r\n28/11/2026,13:07:20.500200\r\nASCII\r\n1\r\n",
            )
        with open(self.out("o.dat"), "rb") as file:
            self.assertEqual(file.read(), b"1,0,0,0\r\n2,100,25000,1\r\n3,200,25000,1\r\n4,300,-7,0\r\n\x1a")

    def test_secondary(self):
        source = self.files(OWN_CFG, OWN_DAT)
        said = self.run_words(source, self.out("o.cfg"), "--secondary", "V*=400/0.1", "--form", "ascii")
        self.assertIn("secondary by 400/0.1", said)
        with open(self.out("o.cfg")) as file:
            self.assertIn("1,V MID,,,V,0.0000005,0,0,-32767,32767,400,0.1,S\n", file.read())
        self.assertEqual(list(read(self.out("o.cfg")).channel("V MID").round(9)), [0.0, 50.0, 50.0, -0.014])

    def test_is_secondary(self):
        """Values of the secondary side stay, and have the ratio: 0, 50, 50 and -.014 V of 400/0.1."""
        source = self.files(OWN_CFG, OWN_DAT)
        said = self.run_words(source, self.out("o.cfg"), "--is-secondary", "V*=400/0.1", "--form", "ascii")
        self.assertIn("secondary by 400/0.1", said)
        with open(self.out("o.cfg")) as file:
            self.assertIn("1,V MID,,,V,0.002,0,0,-32767,32767,400,0.1,S\n", file.read())
        with open(self.out("o.dat"), "rb") as file:
            self.assertEqual([int(line.split(b",")[2]) for line in file.read().splitlines()[:4]], [0, 25000, 25000, -7])
        self.assertEqual(list(read(self.out("o.cfg")).channel("V MID").round(6)), [0.0, 2e5, 2e5, -56.0])

    def test_window(self):
        source = self.files(OWN_CFG, OWN_DAT)
        self.run_words(source, self.out("o.cfg"), "--from", "1e-4", "--to", "2e-4", "--only", "S A-B")
        record = read(self.out("o.cfg"))
        self.assertEqual((list(record.times), record.names, list(record.states("S A-B"))), ([0.0, 1e-4], [], [1, 1]))
        self.assertEqual(record.start, datetime(2000, 1, 1, 0, 0, 0, 100))
        self.assertAlmostEqual(record.trigger, -1e-4)

    def test_lower_rate(self):
        """50 Hz passes, 6 kHz is gone; a skewed channel stands at the times of the others."""
        wave = lambda time: 100.0 * math.cos(2 * math.pi * 50 * time) + 30.0 * math.cos(2 * math.pi * 6000 * time)
        waves = [Wave("X", "V", wave, 130.0), Wave("Y", "V", wave, 130.0, skew=37.0)]
        times = grid(50_000.0, 5001)
        bars = [("B", lambda time: time >= 0.05)]
        source = Recorder(times, waves, bars, rates=[(50_000, 5001)]).write(self.folder)
        said = self.run_words(source, self.out("o.cfg"), "--rate", "4000", "--form", "binary32")
        self.assertIn("401 samples, 4000 Hz", said)
        record = read(self.out("o.cfg"))
        np.testing.assert_allclose(record.times, grid(4000.0, 401), atol=1e-12)
        inner = slice(10, -10)  # the low-pass sees nothing beyond the ends
        for name in ("X", "Y"):
            self.assertEqual(record.skew(name), 0.0)
            error = record.channel(name)[inner] - 100.0 * np.cos(2 * np.pi * 50 * record.times[inner])
            self.assertLess(np.abs(error).max(), 0.12)
        self.assertEqual(list(record.states("B")), [int(time >= 0.05) for time in grid(4000.0, 401)])

    def test_low_pass(self):
        """What passes and what doesn't, as its page says it."""
        for share, least, most in (
            (0.1, 0.99, 1.01),
            (0.2, 0.99, 1.01),
            (0.3, 0.99, 1.01),
            (0.4, 0.45, 0.55),
            (0.55, 0, 0.01),
            (0.9, 0, 0.01),
        ):
            hertz = share * 4000.0
            wave = Wave("X", "V", lambda time: math.cos(2 * math.pi * hertz * time + 0.3), 1.0)
            source = Recorder(grid(50_000.0, 2501), [wave], rates=[(50_000, 2501)]).write(self.folder)
            self.run_words(source, self.out("o.cfg"), "--rate", "4000", "--form", "binary32")
            record = read(self.out("o.cfg"))
            inner = slice(20, -20)
            angle = 2 * np.pi * hertz * record.times[inner] + 0.3
            share_left = np.linalg.lstsq(
                np.stack([np.cos(angle), np.sin(angle)], 1), record.channel("X")[inner], rcond=None
            )[0]
            self.assertTrue(least <= math.hypot(*share_left) <= most, (share, share_left))
            if share < 0.4:
                self.assertLess(abs(share_left[1]), 1e-3)  # no shift in time

    def test_higher_rate_and_missing(self):
        gone = {(10, 0), (11, 0)}
        source = bay(missing=gone).write(self.folder)
        said = self.run_words(source, self.out("o.cfg"), "--rate", "9600", "--form", "binary32")
        self.assertIn("VA: 5 values are missing", said)
        record = read(self.out("o.cfg"))
        values = record.channel("VA")
        self.assertEqual(list(np.flatnonzero(np.isnan(values))), [19, 20, 21, 22, 23])
        multiplier = bay().waves[0].multiplier("ASCII")
        for at in (*range(0, 16, 2), *range(26, 900, 2)):
            self.assertLess(abs(values[at] - voltage(at / 9600.0)), 0.51 * multiplier)
            middle = 0.5 * (voltage(at / 9600.0) + voltage((at + 2) / 9600.0))
            self.assertLess(abs(values[at + 1] - middle), 0.51 * multiplier)

    def test_table(self):
        source = self.files(OWN_CFG.replace(b"V,0.002", b"V,0.5"), OWN_DAT.replace(b",-7,", b",99999,"))
        self.run_words(source, self.out("o.csv"))
        with open(self.out("o.csv"), newline="") as file:
            rows = list(csv.reader(file))
        self.assertEqual(rows[0], ["s", "V MID (V)", "S A-B"])
        self.assertEqual(
            rows[1:], [["0", "0", "0"], ["0.0001", "12500", "1"], ["0.0002", "12500", "1"], ["0.0003", "", "0"]]
        )

    def test_two_rates_stay(self):
        times = grid(4800.0, 240)
        times += [times[-1] + place / 1200.0 for place in range(1, 241)]
        source = bay(times=times, rates=[(4800, 240), (1200, 480)]).write(self.folder)
        self.run_words(source, self.out("o.cfg"))
        self.assertEqual(read(self.out("o.cfg")).rates, [(4800.0, 240), (1200.0, 480)])

    def test_one_sample(self):
        source = bay(times=[0.0], rates=[(4800, 1)]).write(self.folder)
        for words in ([], ["--rate", "1000"]):
            self.run_words(source, self.out("o.cfg"), *words)
            self.assertAlmostEqual(read(self.out("o.cfg")).channel("VA")[0], 89e3, delta=2.0)

    def test_uneven_samples(self):
        """They are brought onto an even grid before the low-pass; a grid that would be too fine is refused."""
        times = [place / 20_000.0 + (place % 2) * 1e-5 for place in range(2001)]
        wave = Wave("X", "V", lambda time: math.cos(2 * math.pi * 50 * time), 1.0)
        source = Recorder(times, [wave]).write(self.folder)
        self.run_words(source, self.out("o.cfg"), "--rate", "4000", "--form", "binary32")
        record = read(self.out("o.cfg"))
        self.assertLess(np.abs(record.channel("X") - np.cos(2 * np.pi * 50 * record.times))[10:-10].max(), 2e-3)
        source = Recorder([place * 1e-6 for place in range(99)] + [3000.0], [wave]).write(self.folder)
        self.assertIn("too unevenly", self.run_words(source, self.out("o.cfg"), "--rate", "4000", status=2))

    def test_one_file_beside_two_of_its_name(self):
        source = self.files(OWN_CFG, OWN_DAT)
        single = source[: -len("cfg")] + "cff"
        self.run_words(source, single)
        self.assertEqual(read(single).channel("V MID").tolist(), read(source).channel("V MID").tolist())

    def test_refusals(self):
        source = self.files(OWN_CFG, OWN_DAT)
        for words, said in (
            ([source, source], "this would be written over the record that is read"),
            ([source, self.out("r.csv"), "--dat", self.out("none.dat")], "none.dat: No such file"),
            ([source, self.out("o.txt")], "the name ends with none of .cfg, .cff and .csv"),
            ([source, self.out("o.cff"), "--year", "1999"], "edition 1999 has no records of one file"),
            ([source, self.out("o.cfg"), "--rate", "0"], "--rate has to be above 0"),
            ([source, self.out("o.cfg"), "--rate", "nan"], "argument --rate: invalid number value: 'nan'"),
            (
                [source, self.out("o.cfg"), "--rate", "1e12"],
                "300000001 samples at 1e+12 Hz: more than 50,000,000 aren't made",
            ),
            (
                [source, self.out("o.cfg"), "--date", "yesterday"],
                "'yesterday' isn't of the form '2026-11-28 13:07:20.5'",
            ),
            ([source, self.out("o.cfg"), "--trigger", "5"], "--trigger 5: "),
            ([source, self.out("o.cfg"), "--trigger=-1e-6"], "r.cfg lasts from 0 to 0.0003 s"),
            ([source, self.out("o.cfg"), "--frequency=-1"], "--frequency has to be 0 or above"),
            (
                [source, self.out("o.cfg"), "--from", "1"],
                "it has no sample from 1 to 0.0003 s; it lasts from 0 to 0.0003 s",
            ),
            ([source, self.out("o.cfg"), "--only", "V NONE"], "has no channel 'V NONE'; it has V MID, S A-B"),
            ([source, self.out("o.cfg"), "--rename", "V MID"], "'V MID' isn't of the form NAME=VALUE"),
            ([source, self.out("o.cfg"), "--secondary", "V*=4:1"], "the ratio '4:1' isn't of the form"),
            ([source, self.out("o.cfg"), "--secondary", "V*=4/0"], "the ratio '4/0' isn't of the form"),
            (
                [source, self.out("o.cfg"), "--secondary", "V*=4/1", "--is-secondary", "V*=4/1"],
                "named by --secondary and",
            ),
            ([source, self.out("o.cfg"), "--phases", "V MID=ABC"], "the phase 'ABC' is longer than 2"),
            (
                [source, self.out("o.cfg"), "--date", "28/11/2026"],
                "argument --date: '28/11/2026' isn't of the form '2026-11-28 13:07:20.5'",
            ),
        ):
            with self.subTest(said):
                self.assertIn(said, self.run_words(*words, status=2))
        self.assertEqual(sorted(os.listdir(self.folder)), ["r.cfg", "r.dat"])
        self.assertIn("usage: emtp convert", self.run_words("--help"))


if __name__ == "__main__":
    unittest.main()
