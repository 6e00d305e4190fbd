"""plot: what it prints, how it shares curves among panes, and what a page holds."""

import base64
import contextlib
import importlib.util
import io
import json
import math
import os
import pathlib
import re
import shutil
import struct
import unittest
from unittest import mock

import numpy as np

from wurdanei import drawing, page, summary
from wurdanei.__main__ import main
from wurdanei.drawing import Curve
from wurdanei.spectrum import peaks_of, spectrum_of

from .recorder import Wave, bay, current, voltage
from .test_record import Folder

EXAMPLES = pathlib.Path(__file__).resolve().parents[2] / "examples"
PICTURES = importlib.util.find_spec("matplotlib") is not None
CFG = (
    b"EMTP,CASE,1999\r\n5,4A,1D\r\n1,V A,,,V,0.5,0,0,-32767,32767,1,1,P\r\n2,I A-B,,,A,0.001,0,0,-32767,32767,1,1,P\r\n"
    b"3,T TRIP,,,PU,0.00005,0,0,-32767,32767,1,1,P\r\n4,I A-B,,,A,2,0,0,-32767,32767,1,1,P\r\n1,S A-B,,,0\r\n60\r\n0\r\n0,4\r\n"
    b"01/01/2000,00:00:00.000000\r\n01/01/2000,00:00:00.000000\r\nASCII\r\n100\r\n"
)
DAT = b"1,0,0,0,0,7,1\r\n2,1,8000,-5,20000,-9,0\r\n3,2,-4000,12,20000,8,0\r\n4,3,2,3,0,1,1\r\n\x1a"
SCAN = "F 50 RE 1 IM 2\nF 60 RE 30 IM 40\nF 70 RE 3 IM -4\nF 80 REFUSED LINE 3\nF 90 RE 1 IM 0\nRESONANCE 60\n"
BATCH = (
    "ROW 1 DONE PEAKS 75 2\nROW 2 DONE PEAKS 125 1\nROW 3 ENDED STEP 4 RANGE BUS PEAKS 0 1\n"
    "MAX 1 125 ROW 2\nMAX 2 2 ROW 1\n"
)


def page_of(path):
    """What a page draws, unpacked: its curves and bars in order, each with the place of its pane, its picture, and its text."""
    with open(path, encoding="utf-8") as file:
        text = file.read()
    drawing = json.loads(re.search(r'<script type="application/json" id="drawing">(.*?)</script>', text, re.S)[1])
    numbers = lambda packed, kind: np.frombuffer(base64.b64decode(packed), kind)
    xs = [
        numbers(it, "<f8") if isinstance(it, str) else it["first"] + it["step"] * np.arange(it["count"])
        for it in drawing["xs"]
    ]
    items, panes = [], drawing["picture"]["panes"]
    for place, pane in enumerate(panes):
        for it in pane.get("curves", pane.get("bars")):
            values = numbers(it.get("y") or it["values"], "<f4").astype(float)
            items.append({**it, "pane": place, "x": xs[it["x"]], "y": values, "bar": "values" in it})
    return items, drawing["picture"], text


class Plot(Folder):
    def run_words(self, *words, status=0):
        """What `plot` prints; on standard error where it can't."""
        out, told = io.StringIO(), io.StringIO()
        with contextlib.redirect_stdout(out), contextlib.redirect_stderr(told):
            try:
                got = main(["plot", *words])
            except SystemExit as left:  # of argparse
                got = left.code
        self.assertEqual(got, status, told.getvalue())
        return told.getvalue() if status else out.getvalue()

    def out(self, name):
        return os.path.join(self.folder, name)

    def text(self, name, data):
        with open(self.out(name), "w") as file:
            file.write(data)
        return self.out(name)

    @unittest.skipUnless(PICTURES, "matplotlib isn't there")
    def test_record(self):
        source = self.files(CFG, DAT)
        self.assertEqual(
            self.run_words(source, source[:-4] + ".dat").split("\n"),
            [
                "V A: least -2 kV at 0.2 ms, greatest 4 kV at 0.1 ms",
                "I A-B: least -0.005 A at 0.1 ms, greatest 0.012 A at 0.2 ms",
                "T TRIP: least 0 at 0 ms, greatest 1 at 0.1 ms",
                "I A-B.2: least -18 A at 0.1 ms, greatest 16 A at 0.2 ms",
                "r.cfg: names that stand more than once have .2, .3 behind the later ones: I A-B",
                f"drawn: {source[:-4]}.png",
                "",
            ],
        )
        with open(source[:-4] + ".png", "rb") as file:
            head = file.read(24)
        self.assertEqual(head[:8], b"\x89PNG\r\n\x1a\n")
        self.assertAlmostEqual(struct.unpack(">I", head[16:20])[0], 9 * 120, delta=120)  # about 9 inches
        os.remove(source[:-4] + ".png")
        self.assertIn("V A: least -2 kV", self.run_words(source, self.out("o.svg"), "--only", "V A,S*"))
        self.assertIn(b"<svg", open(self.out("o.svg"), "rb").read())

    def test_page(self):
        source = self.files(CFG, DAT)
        self.run_words(source, self.out("o.html"))
        items, picture, text = page_of(self.out("o.html"))
        shown = {it["name"]: it for it in items}
        self.assertEqual(list(shown), ["V A", "I A-B.2", "I A-B", "T TRIP", "S A-B"])
        np.testing.assert_allclose(shown["V A"]["y"], [0.0, 4.0, -2.0, 0.001], rtol=1e-7)
        np.testing.assert_allclose(shown["V A"]["x"], [0.0, 0.1, 0.2, 0.3], rtol=1e-12)
        self.assertEqual(
            [pane.get("unit") for pane in picture["panes"]], ["kV", "A", "A", None]
        )  # less than a twentieth, bars
        self.assertEqual([it["color"] for it in items], [0, 1, 2, 3, 4])
        np.testing.assert_allclose(shown["T TRIP"]["x"], [0.0, 0.1, 0.3, 0.3])
        self.assertEqual(shown["T TRIP"]["y"].tolist(), [0.0, 1.0, 0.0, 0.0])
        np.testing.assert_allclose(shown["S A-B"]["x"], [0.0, 0.0, 0.1, 0.3, 0.3, 0.3])
        self.assertIn("have .2, .3 behind the later ones: I A-B", text)
        self.assertNotRegex(text, r'<(?:script|link|img)[^>]+(?:src|href)="http')
        for words in ("<title>r.cfg</title>", '<html lang="en">', 'name="viewport"', "connect-src 'none'"):
            self.assertIn(words, text)

    def test_something_to_judge(self):
        """What `run` says of an arrester at a line; nothing of a divider, of another's record, and where no case is."""
        sentence = "Arresters, reactors or rounded branches may be off in this run; emtp judge {} tells by how much."
        for name, wanted in (("arrester_at_a_line", True), ("divider", False)):
            for ending in ("case", "cfg", "dat"):
                shutil.copy(EXAMPLES / name / f"{name}.{ending}", self.out(f"{name}.{ending}"))
            printed = self.run_words(self.out(f"{name}.cfg"), self.out("o.html"))
            said = sentence.format(self.out(f"{name}.case"))
            self.assertEqual([said in printed.splitlines(), said in page_of(self.out("o.html"))[2]], [wanted] * 2)
        record = pathlib.Path(self.out("arrester_at_a_line.cfg"))
        own = record.read_bytes()
        record.write_bytes(own.replace(b"EMTP,CASE", b"BAY 1,CASE", 1))
        self.assertNotIn("may be off", self.run_words(str(record), self.out("o.html")))
        record.write_bytes(own)
        os.remove(self.out("arrester_at_a_line.case"))
        self.assertNotIn("may be off", self.run_words(str(record), self.out("o.html")))

    def test_page_is_small(self):
        count = 1_401
        cfg = CFG[: CFG.index(b"2,I A-B")] + CFG[CFG.index(b"60\r\n") :]
        cfg = cfg.replace(b"5,4A,1D", b"1,1A,0D").replace(b"0,4\r\n", b"0,%d\r\n" % count)
        dat = b"".join(b"%d,%d,%d\r\n" % (at + 1, at, at % 700 - 350) for at in range(count))
        self.run_words(self.files(cfg, dat + b"\x1a"), self.out("o.html"))
        self.assertLessEqual(os.path.getsize(self.out("o.html")), 200_000)

    def test_all_samples_or_told(self):
        count = 7_000
        cfg = CFG[: CFG.index(b"2,I A-B")] + CFG[CFG.index(b"60\r\n") :]
        cfg = cfg.replace(b"5,4A,1D", b"1,1A,0D").replace(b"0,4\r\n", b"0,%d\r\n" % count).replace(b"ASCII", b"BINARY")
        values = np.arange(count) % 1000
        values[1_234], values[6_543] = 9_000, -9_000
        kind = np.dtype([("n", "<u4"), ("t", "<u4"), ("v", "<i2")])
        dat = np.zeros(count, kind)
        dat["n"], dat["t"], dat["v"] = np.arange(1, count + 1), np.arange(count), values
        source = self.files(cfg, dat.tobytes())
        few = mock.patch.object(page, "POINTS", 6_000)
        few.start()
        self.addCleanup(few.stop)
        self.run_words(source, self.out("o.html"))
        items, picture, text = page_of(self.out("o.html"))
        self.assertIn("<li>thinned: of each 4 samples the least and the greatest are drawn; --all", text)
        self.assertLessEqual(len(items[0]["y"]), 6_000)
        self.assertEqual((max(items[0]["y"]), min(items[0]["y"])), (4.5, -4.5))
        self.assertAlmostEqual(items[0]["x"][items[0]["y"].argmax()], 123.4)
        self.run_words(source, self.out("o.html"), "--all")
        items, picture, text = page_of(self.out("o.html"))
        self.assertEqual(len(items[0]["y"]), count)
        self.assertFalse("<li>thinned" in text)
        self.run_words(source, self.out("o.html"), "--from", "0.1", "--to", "0.2")
        items, picture, text = page_of(self.out("o.html"))
        self.assertEqual((len(items[0]["y"]), round(items[0]["x"][0], 9)), (1_001, 100.0))

    def test_two_records(self):
        first = bay().write(self.folder, "a")
        waves = [Wave("VA", "kV", lambda time: voltage(time) / 1e3, 110.0, ratio=(1000.0, 1.0), scaling="S", skew=25.0)]
        gone = {(place, 0) for place in range(20, 25)}
        second = bay(waves=waves, bars=[], form="BINARY", missing=gone, year=2013).write(self.folder, "b", cff=True)
        said = self.run_words(first, "--with", second, "--offset", "-0.04", self.out("o.html"))
        for words in (
            "b.cff: recorded as secondary values, answered as primary: VA\n",
            "b.cff: moved by -0.04 s\n",
            "values are missing, and left out: VA (b) (5)\n",
            "drawn at the times of their skew: VA (b)\n",
        ):
            self.assertIn(words, said)
        items, picture, text = page_of(self.out("o.html"))
        shown = {it["name"]: it for it in items}
        self.assertEqual(list(shown), ["VA", "VA (b)", "IA", "TRIP", "52A"])
        self.assertEqual(shown["VA"]["pane"], shown["VA (b)"]["pane"])
        self.assertAlmostEqual(shown["VA (b)"]["x"][0], -40.0 + 0.025)
        self.assertEqual(int(np.isnan(shown["VA (b)"]["y"][19:26]).sum()), 5)
        self.assertAlmostEqual(shown["VA (b)"]["y"][30], voltage(30 / 4800 + 25e-6) / 1e3, delta=0.005)
        self.assertAlmostEqual(shown["VA"]["y"][30], voltage(30 / 4800) / 1e3, delta=0.005)
        self.assertIn("moved by -0.04 s", text)
        said = self.run_words(first, "--with", second, "--only", "V*,NONE", self.out("n.html"), status=2)
        self.assertIn("b.cff has no channel 'NONE'; it has VA, IA, TRIP, 52A, VA", said)

    def test_one_over_another(self):
        source = bay().write(self.folder)
        self.run_words(source, self.out("o.html"), "--xy", "VA", "IA", "--from", "0.01", "--to", "0.02")
        items, picture, text = page_of(self.out("o.html"))
        self.assertEqual((len(items), len(items[0]["y"])), (1, 49))
        self.assertAlmostEqual(items[0]["x"][3], voltage(51 / 4800) / 1e3, delta=0.005)
        self.assertAlmostEqual(items[0]["y"][3], current(51 / 4800), delta=0.2)
        self.assertEqual(picture["axes"][0]["label"], "VA, kV")
        self.assertEqual(picture["panes"][0]["unit"], "IA, A")

    def test_names_stand_as_they_are(self):
        source = self.files(CFG.replace(b"1,V A", b"1,<b>$x&_y"), DAT)
        self.run_words(source, self.out("o.html"))
        self.assertEqual(page_of(self.out("o.html"))[0][0]["name"], "<b>$x&_y")
        self.run_words(source, self.out("o.png"))

    def test_spectrum(self):
        wave = (
            lambda time: 3.0 * math.cos(2 * math.pi * 53.7 * time + 1)
            + 0.4 * math.sin(2 * math.pi * 411.1 * time)
            + 0.5
        )
        source = bay(waves=[Wave("X", "A", wave, 4.0)]).write(self.folder)
        said = self.run_words(source, self.out("o.html"), "--fft", "X")
        found = [line.split() for line in said.split("\n") if "crest" in line and line.startswith("X:")]
        self.assertEqual(len(found), 2)
        for words, hertz, crest in zip(found, (53.7, 411.1), (3.0, 0.4)):
            self.assertAlmostEqual(float(words[1]), hertz, delta=0.1)
            self.assertAlmostEqual(float(words[4]), crest, delta=0.01 * crest)
        items, picture, text = page_of(self.out("o.html"))
        self.assertEqual(len(items[0]["y"]), 241)

    @unittest.skipUnless(PICTURES, "matplotlib isn't there")
    def test_scan(self):
        source = self.text("scan", SCAN)
        said = self.run_words(source, self.out("o.html"))
        self.assertEqual(
            said, f"resonance at 60 Hz: 50 ohm, 53.1301 degrees\n80 Hz: REFUSED LINE 3\ndrawn: {self.out('o.html')}\n"
        )
        items, picture, text = page_of(self.out("o.html"))
        np.testing.assert_allclose(items[0]["y"], [2.236068, 50.0, 5.0, math.nan, 1.0], rtol=1e-6)
        self.assertEqual(picture["panes"][0]["marks"], [{"x": 60.0, "y": 50.0, "text": "60 Hz"}])
        np.testing.assert_allclose(items[1]["y"][1:], [53.1301, -53.1301, math.nan, 0.0], rtol=1e-6)
        self.assertIn("drawn: " + self.out("scan.png"), self.run_words(source))

    @unittest.skipUnless(PICTURES, "matplotlib isn't there")
    def test_batch(self):
        source = self.text("peaks", BATCH)
        said = self.run_words(source, self.out("o.html"))
        self.assertIn("row 3 ENDED STEP 4 RANGE BUS\n", said)
        self.assertIn("channel 1: greatest 125 in row 2, at most 2 % of the rows exceed 125, half of them 75\n", said)
        items, picture, text = page_of(self.out("o.html"))
        self.assertEqual(items[0]["x"].tolist(), [0.0, 75.0, 125.0])
        self.assertEqual([round(share) for share in items[0]["y"]], [33, 67, 100])
        for told in (said, text):  # why a channel has a number alone
            self.assertIn("no names and no units; --cfg CFG, the record of a run of its case, gives them", told)
        cfg = CFG.replace(b"5,4A,1D", b"3,2A,1D")
        cfg = cfg[: cfg.index(b"3,T TRIP")] + cfg[cfg.index(b"1,S A-B") :]
        with open(self.out("case.cfg"), "wb") as file:
            file.write(cfg)
        said = self.run_words(source, "--cfg", self.out("case.cfg"), self.out("o.png"))
        self.assertIn("V A in V: greatest 125 in row 2", said)
        self.assertNotIn("--cfg CFG", said)

    def test_refusals(self):
        source = self.files(CFG, DAT)
        for words, said in (
            ([source, "--only", "V X"], "has no channel 'V X'; it has V A, I A-B, T TRIP, I A-B.2, S A-B"),
            ([source, "--from", "1"], "has no sample in the time that is asked for; it lasts from 0 to 0.0003 s"),
            ([source, "--fft", "S A-B"], "has no channel 'S A-B'"),
            ([source, "--fft", "I*"], "'I*' means several channels: I A-B, I A-B.2"),
            ([source, "--fft", "V A"], "V A has 4 values in the time that is asked for: a spectrum wants 8"),
            ([source, "--fft", "V A", "--xy", "V A", "V A"], "--fft and --xy are two drawings"),
            ([source, "--cfg", source], "--cfg names the channels of a batch, and a record was given"),
            ([source, "a", "b", "c"], "4 files: a record has two at most"),
            ([source, source], "a second record stands behind --with"),
            ([source, "--offset", "1"], "--offset moves the record behind --with"),
            ([source, source[:-4] + ".dat", source], "this would be written over what is read"),
            ([self.out("none")], "No such file"),
            ([self.text("s1", SCAN), "--only", "X"], "is a summary, of which all is drawn"),
            ([self.text("values.csv", "a,b\n1,2\n")], "is a table and no record"),
            ([self.text("s2", SCAN[:-1])], "is cut: its last line has no end"),
            ([self.text("s3", SCAN.replace("IM 40", "IM"))], "line 2 is cut, or no scan and no batch prints it"),
            ([self.text("s4", SCAN.replace("RE 30", "RE nan"))], "line 2 is cut, or no scan"),
            ([self.text("s5", BATCH.replace("MAX 2", "MIX 2"))], "is cut, or has rows of other channels"),
            ([self.text("s6", BATCH.replace("125 1\n", "125\n"))], "is cut, or has rows of other channels"),
            ([self.text("s7", "ROW 1 DONE PEAKS\n")], "has no lines of a scan or a batch with channels"),
            ([self.text("s8", BATCH), "--cfg", source], "has 2 channels, and"),
        ):
            with self.subTest(said):
                self.assertIn(said, self.run_words(*words, status=2))
        self.assertFalse([name for name in os.listdir(self.folder) if name.endswith((".png", ".html"))])
        self.assertIn("usage: emtp plot", self.run_words("--help"))


class Sharing(unittest.TestCase):
    """How curves are shared among panes, and thinned."""

    def curve(self, name, unit, values):
        values = np.asarray(values, float)
        return Curve(name, np.arange(float(len(values))), values, unit)

    def test_magnitudes(self):
        curves = [
            self.curve(*it)
            for it in (
                ("a", "V", [0, 2e5]),
                ("b", "A", [3, -4]),
                ("c", "V", [9.9e3, 0]),
                ("d", "V", [11e3, 0]),
                ("e", "V", [0, 0]),
                ("f", "V", [0, 3.0]),
            )
        ]
        panes = [(pane.y_label, [curve.name for curve in pane.curves]) for pane in drawing.panes_of(curves)]
        self.assertEqual(panes, [("kV", ["a", "d", "e"]), ("kV", ["c"]), ("V", ["f"]), ("A", ["b"])])
        self.assertEqual(list(curves[0].y), [0.0, 200.0])

    def test_rules(self):
        """The rows that the page's own rules are held to as well (systems/units)."""
        rows = json.loads((pathlib.Path(__file__).parent / "drawn.json").read_text(encoding="utf-8"))
        curves = lambda lists: [self.curve(str(at), "V", values) for at, values in enumerate(lists)]
        sizes = lambda those: [self.curve(str(at), "V", [0, size]) for at, size in enumerate(those)]
        places = lambda groups: [[int(curve.name) for curve in group] for group in groups]
        calls = {
            "base_unit": lambda unit: list(drawing.base_unit(unit)),
            "shown_unit": lambda given: list(drawing.shown_unit(*given)),
            "by_magnitude": lambda given: places(drawing.by_magnitude(sizes(given))),
            "covering": lambda given: drawing.covering(curves([given[0]])[0], curves(given[1])),
            "is_two_valued": lambda given: drawing.is_two_valued(np.array(given[0], float), given[1]),
            "time_unit": lambda span: list(drawing.time_unit(span)),
            "not_exceeded": lambda given: summary.two_percent(np.array(given, float)),
        }
        for name, call in calls.items():
            for given, wanted in rows[name]:
                with self.subTest(f"{name} {given}"):
                    self.assertEqual(call(given), wanted)
        for row in rows["panes"]:
            based = [(name, *drawing.base_unit(unit), values) for name, unit, values in row["channels"]]
            bars = [name for name, _, unit, values in based if drawing.is_two_valued(np.array(values, float), unit)]
            made = drawing.panes_of(
                [
                    self.curve(name, unit, factor * np.array(values))
                    for name, factor, unit, values in based
                    if name not in bars
                ]
            )
            found = [[it.y_label, [[curve.name, curve.style, curve.y.tolist()] for curve in it.curves]] for it in made]
            self.assertEqual((bars, found), (row["bars"], row["panes"]))

    def test_curves_over_each_other_differ(self):
        same = [self.curve("a", "V", [1, 2, 3]), self.curve("b", "V", [1, 2, 3]), self.curve("c", "V", [3, 0, 1])]
        (pane,) = drawing.panes_of(same)
        self.assertEqual([curve.style for curve in pane.curves], [0, 1, 0])

    def test_spans(self):
        times = np.array([0.0, 1.0, 2.0, 3.0, 4.0])
        self.assertEqual(drawing.spans_of(times, np.array([1, 1, 0, 0, 1])), [(0.0, 2.0), (4.0, 4.0)])
        self.assertEqual(drawing.spans_of(times, np.zeros(5)), [])
        self.assertEqual(drawing.spans_of(times, np.ones(5)), [(0.0, 4.0)])
        often = np.arange(40_000) % 2
        self.assertLessEqual(len(drawing.spans_of(np.arange(40_000.0), often)), drawing.MOST_SPANS)

    def test_thinning_keeps_extremes_and_gaps(self):
        values = np.sin(np.arange(10_000.0))
        values[[17, 8_888]] = 5.0, -6.0
        values[5_000:5_010] = math.nan
        x, y, size = drawing.thinned(self.curve("a", "V", values), 1_000)
        self.assertEqual(size, 30)
        self.assertLessEqual(len(y), 1_000)
        self.assertEqual((x[np.nanargmax(y)], x[np.nanargmin(y)]), (17.0, 8888.0))
        self.assertTrue(np.isnan(y).any())
        self.assertTrue((np.diff(x) > 0).all())
        whole = drawing.thinned(self.curve("a", "V", values), 10_000)
        self.assertEqual((len(whole[1]), whole[2]), (10_000, 1))

    def test_spectrum_of_uneven_times(self):
        times = np.arange(1000) * 1e-4 + 2e-5 * np.sin(np.arange(1000))
        made = spectrum_of(times, 7.0 * np.cos(2 * np.pi * 120.0 * times), "X")
        self.assertIn("aren't evenly spaced", made.told)
        (hertz, crest), *_ = peaks_of(made)
        self.assertAlmostEqual(hertz, 120.0, delta=0.2)
        self.assertAlmostEqual(crest, 7.0, delta=0.1)


if __name__ == "__main__":
    unittest.main()
