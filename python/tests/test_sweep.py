"""Sweeps: values of parameters, tables by hand, workers that are lost, and what is gone on with."""

import concurrent.futures
import csv
import os
import pathlib
import signal
import subprocess
import sys
import tempfile
import time
import unittest

import numpy as np

from wurdanei import chart, program, sweep
from wurdanei.case import Case
from wurdanei.record import RecordError

from . import sweep_rows

PACKAGE = pathlib.Path(__file__).resolve().parents[1]
needs_program = unittest.skipUnless(program.is_there(), "the program isn't built, so it answers nothing")


class Folder(unittest.TestCase):
    def setUp(self) -> None:
        room = tempfile.TemporaryDirectory()
        self.addCleanup(room.cleanup)
        self.room = pathlib.Path(room.name)


class Points(unittest.TestCase):
    def test_grid_and_rows(self) -> None:
        found = sweep.grid(a=[1, 2], b=np.array([0.5, 1.5]))
        self.assertEqual(found, [{"a": 1, "b": 0.5}, {"a": 1, "b": 1.5}, {"a": 2, "b": 0.5}, {"a": 2, "b": 1.5}])
        self.assertTrue(all(type(it) in (int, float) for point in found for it in point.values()))
        self.assertEqual(sweep.rows(a=[1, 2], b=["x", "y"]), [{"a": 1, "b": "x"}, {"a": 2, "b": "y"}])
        with self.assertRaisesRegex(sweep.SweepError, "2 of a, 1 of b"):
            sweep.rows(a=[1, 2], b=[3])
        with self.assertRaisesRegex(sweep.SweepError, "a parameter is a number or a text, and here None"):
            sweep.grid(a=[None])

    def test_random(self) -> None:
        values = {"a": (2.0, 4.0), "b": lambda chance: chance.normal(10, 0.1)}
        found = sweep.random(2000, 5, **values)
        self.assertEqual(found, sweep.random(2000, 5, **values))
        self.assertNotEqual(found, sweep.random(2000, 6, **values))
        a, b = (np.array([point[name] for point in found]) for name in "ab")
        self.assertTrue((a >= 2).all() and (a <= 4).all())
        self.assertAlmostEqual(a.std(), 2 / np.sqrt(12), delta=0.02)
        self.assertAlmostEqual(b.std(), 0.1, delta=0.006)
        with self.assertRaisesRegex(sweep.SweepError, "from a least to a greatest value"):
            sweep.random(1, 1, a=(2, 1))


@needs_program
class Table(Folder):
    def test_of_a_divider(self) -> None:
        """By hand: volts / (r + 1)."""
        points = sweep.grid(r_ohm=[1, 3, 9], volts=[100.0, 200.0])
        told: list[tuple[int, int, float]] = []
        found = sweep.run(sweep_rows.divider, points, ["V B"], jobs=2, progress=lambda *it: told.append(it))
        np.testing.assert_allclose(found["V B"], [50, 100, 25, 50, 10, 20], rtol=2e-5)
        self.assertEqual((found.parameters, found.names, len(found)), (["r_ohm", "volts"], ["V B"], 6))
        self.assertEqual(found["volts"].tolist(), [100.0, 200.0] * 3)
        self.assertEqual((told[-1][0], told[-1][1], sum(map(bool, found.errors + found.ends))), (6, 6, 0))
        with self.assertRaisesRegex(KeyError, "^the sweep has no column 'V C'; it has r_ohm, volts, V B$"):
            found["V C"]
        self.assertEqual(repr(found), "<Sweep of 6 rows over r_ohm, volts: V B; 0 errors, 0 early ends>")

    def test_what_is_measured(self) -> None:
        points = sweep.grid(r_ohm=[1, 3])
        self.assertEqual(sweep.run(sweep_rows.divider, points, jobs=1).names, ["V A", "V B"])
        local = 2.0  # functions of a session needn't be known to others
        mean = sweep.run(sweep_rows.divider, points, lambda record: {"mean": local * record.channel("V B")[1:].mean()})
        np.testing.assert_allclose(mean["mean"], [100, 50], rtol=2e-5)
        one = sweep.run(lambda **own: sweep_rows.divider(**own), points, lambda record: len(record.times))
        self.assertEqual(one["value"].tolist(), [11, 11])

    def test_rows_that_can_t_be_made(self) -> None:
        def case(end: bool, volts: float) -> Case:
            made = sweep_rows.divider(1, volts)
            if end:
                made.control.formula("X", "1./ZERO")
            return made

        found = sweep.run(case, [{"end": end, "volts": volts} for end, volts in ((False, 1), (True, 1), (False, 1e99))])
        self.assertEqual([bool(it) for it in found.errors], [False, False, True])
        self.assertRegex(found.errors[2], r"^CaseError: .*amplitude = .* is out of its range")
        self.assertEqual([bool(it) for it in found.ends], [False, True, False])
        self.assertTrue(np.isnan(found["V B"][2]))

    def test_files_and_pictures(self) -> None:
        points = sweep.grid(r_ohm=[1, 3], volts=[100.0, 200.0])
        found = sweep.run(sweep_rows.divider, points, ["V B"])
        found.write(self.room / "t.csv")
        with open(self.room / "t.csv", newline="") as file:
            rows = list(csv.DictReader(file))
        self.assertEqual([it["r_ohm"] for it in rows], ["1", "1", "3", "3"])
        self.assertAlmostEqual(float(rows[3]["V B"]), 50, 2)
        frame = found.frame()
        self.assertEqual((list(frame.columns), len(frame)), (["r_ohm", "volts", "V B", "ended", "error"], 4))
        found.draw(self.room / "map.png")
        sweep.run(sweep_rows.divider, sweep.grid(r_ohm=[1, 3]), ["V B"]).draw(self.room / "line.png")
        for name in ("map.png", "line.png"):
            self.assertTrue((self.room / name).read_bytes().startswith(b"\x89PNG"))
        with self.assertRaisesRegex(RecordError, "0 parameters change and 1 columns are measured"):
            chart.draw_table({"a": [1, 1]}, {"b": [1, 2]}, "x.png")
        with self.assertRaisesRegex(RecordError, "a has values that are no numbers"):
            chart.draw_table({"a": ["x", "y"]}, {"b": [1, 2]}, "x.png")

    def test_cases_of_a_study(self) -> None:
        """The same rows by `emtp study --cases`."""
        listed = sweep.cases(sweep_rows.divider, sweep.grid(r_ohm=[1, 3]), self.room / "own")
        ran = subprocess.run(
            [sys.executable, "-m", "wurdanei", "study", "--cases", str(listed), "--out", str(self.room / "s")],
            env={**os.environ, "PYTHONPATH": str(PACKAGE)}, capture_output=True, text=True, check=False,
        )  # fmt: skip
        self.assertEqual(ran.returncode, 0, ran.stderr)
        with open(self.room / "s" / "cases.csv", newline="") as file:
            self.assertEqual([round(float(it["V B (V)"]), 2) for it in csv.DictReader(file)], [50.0, 25.0])

    def test_refusals(self) -> None:
        for points, words, cause in (
            ([], {}, "a sweep has 1 to 1,000,000 rows"),
            ([{"r_ohm": 1}], {"jobs": 0}, "jobs is at least 1"),
        ):
            with self.assertRaisesRegex(sweep.SweepError, cause):
                sweep.run(sweep_rows.divider, points, **words)


@needs_program
class Lost(Folder):
    """Workers that end, and sweeps that are broken off."""

    def points(self, count: int = 40) -> list[sweep.Point]:
        return [{"number": number, "room": str(self.room)} for number in range(count)]

    def test_a_worker_of_the_pool(self) -> None:
        found = sweep.run(sweep_rows.slow, self.points(), jobs=2)
        self.assertEqual(found["value"].tolist(), [number**2 for number in range(40)])

    def test_one_that_is_lost_again_and_again(self) -> None:
        def ends(number: int) -> int:
            if number == 3:
                os.kill(os.getpid(), signal.SIGKILL)
            return number

        found = sweep.run(ends, sweep.grid(number=range(6)), jobs=1)
        np.testing.assert_equal(found["value"], [0, 1, 2, np.nan, 4, 5])
        self.assertRegex(found.errors[3], "^its process was lost 3 times: BrokenProcessPool")
        with self.assertRaisesRegex(sweep.SweepError, "no row could be run: BrokenProcessPool"):
            sweep.run(ends, sweep.grid(number=[3]))

    def test_resume(self) -> None:
        """Rows that are noted aren't run again; a line that was cut counts as none."""
        notes = self.room / "notes"
        first = sweep.run(sweep_rows.slow, self.points(), jobs=2, resume=notes)
        lines = notes.read_text().splitlines()
        self.assertEqual(len([it for it in lines if it]), 41)
        kept = [it for it in lines if it][:21]
        notes.write_text("\n".join(kept) + "\n" + lines[-1][:5])
        done = {int(it.partition(",")[0][1:]) for it in kept[1:]}
        before = {it.name for it in self.room.iterdir()}
        again = sweep.run(sweep_rows.slow, self.points(), jobs=2, resume=notes)
        self.assertEqual(again["value"].tolist(), first["value"].tolist())
        new = {int(it.name.partition(".")[0]) for it in self.room.iterdir() if it.name not in before}
        self.assertEqual(new, set(range(40)) - done)
        with self.assertRaisesRegex(sweep.SweepError, "is of other values or functions"):
            sweep.run(sweep_rows.slow, self.points(39), resume=notes)
        with self.assertRaisesRegex(sweep.SweepError, "is of other values or functions"):
            sweep.run(sweep_rows.divider, self.points(), resume=notes)
        (self.room / "no").write_text("text\n")
        with self.assertRaisesRegex(sweep.SweepError, "is no file of a sweep"):
            sweep.run(sweep_rows.slow, self.points(), resume=self.room / "no")

    def test_a_signal_ends_all_of_it(self) -> None:
        """SIGTERM and SIGKILL of a script leave no worker; what was done is noted."""
        text = (
            "import sys\nfrom wurdanei import sweep\nfrom tests import sweep_rows\n"
            f"points = [{{'number': it, 'room': {str(self.room)!r}}} for it in range(8, 4000)]\n"
            f"sweep.run(sweep_rows.slow, points, jobs=2, resume={str(self.room / 'notes')!r})\n"
        )
        for number in (signal.SIGTERM, signal.SIGKILL):
            ran = subprocess.Popen([sys.executable, "-c", text], cwd=PACKAGE, stderr=subprocess.DEVNULL)
            self.addCleanup(ran.kill)
            for _ in range(3000):
                time.sleep(0.02)
                names = {it.name.partition(".")[2] for it in self.room.iterdir() if it.name[0].isdigit()}
                workers = {it for it in names if os.path.exists(f"/proc/{it}")}
                if len(workers) == 2:
                    break
            self.assertEqual(len(workers), 2)
            ran.send_signal(number)
            ran.wait(timeout=60)
            for _ in range(3000):
                left = [it for it in workers if os.path.exists(f"/proc/{it}/exe")]
                if not left:
                    break
                time.sleep(0.02)
            self.assertEqual(left, [], number)

    def test_an_executor_that_is_given(self) -> None:
        with concurrent.futures.ThreadPoolExecutor(2) as pool:
            found = sweep.run(sweep_rows.product, sweep.grid(one=[1, 2], other=[3, 4]), executor=pool)
        self.assertEqual(found["value"].tolist(), [3, 4, 6, 8])

    def test_workers_of_a_cluster(self) -> None:
        """dask.distributed over two processes, one of which row 7 ends: no row is lost."""
        try:
            import distributed
        except ImportError:
            self.skipTest("dask.distributed isn't there (Debian: python3-distributed)")
        words = {"n_workers": 2, "threads_per_worker": 1, "processes": True, "dashboard_address": None}
        with distributed.LocalCluster(**words) as cluster, distributed.Client(cluster) as client:
            client.run(sys.path.insert, 0, str(PACKAGE))
            found = sweep.run(sweep_rows.slow, self.points(), executor=client.get_executor())
        self.assertEqual(found["value"].tolist(), [number**2 for number in range(40)])
        self.assertTrue((self.room / "ended").exists())


if __name__ == "__main__":
    unittest.main()
