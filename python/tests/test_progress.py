"""Tests of wurdanei.progress and wurdanei.together: what a terminal is told of a run, and that a batch or a scan in parts has the
bytes of one run."""

import os
import pathlib
import pty
import random
import subprocess
import sys
import tempfile
import threading
import typing
import unittest
from unittest import mock

from wurdanei import command, program, progress, together

TOP = pathlib.Path(__file__).resolve().parents[2]
SCATTERED = TOP / "examples" / "scattered_closing" / "scattered_closing.case"
FILTERS = TOP / "examples" / "impedance_of_filters" / "impedance_of_filters.case"
SLOW = "#!/bin/sh\nsleep 6\necho DONE STEPS 1 SAMPLES 2 REDONE 0\n"


def table_rows() -> list[str]:
    """The rows of a table of 100."""
    text = (SCATTERED.parent / "before" / "scattered_closing.times").read_text(encoding="ascii")
    return [line for line in text.splitlines() if not line.startswith("#")]


def one_run(words: list[str]) -> bytes:
    return subprocess.run(program.called(words), capture_output=True, check=False).stdout


@unittest.skipUnless(program.is_there(), "the programs aren't there")
class Together(unittest.TestCase):
    def setUp(self) -> None:
        room = tempfile.TemporaryDirectory()
        self.addCleanup(room.cleanup)
        self.table = pathlib.Path(room.name) / "times"

    def in_parts(self, words: list[str], processors: int = 3) -> bytes | None:
        parts = together.Parts(words, processors)
        return parts.run(lambda: None) if parts.count else None

    def test_a_table(self) -> None:
        """Rows between comments, with other ends of lines, a row without an end, a peak that two rows have."""
        times = table_rows()
        for rows in (times[:8], times[:9], times[:23], times[3:15] + times[3:15]):
            self.table.write_bytes(b"# times\n   \n" + "\r\n#\n".join(rows).encode())
            words = ["batch", str(SCATTERED), str(self.table)]
            printed = self.in_parts(words)
            self.assertEqual(printed, one_run(words))
            self.assertIn(b"MAX 3 ", printed or b"")

    def test_a_table_that_is_not_parted(self) -> None:
        rows = table_rows()
        for some in (rows[:7], rows * 11, [*rows[:20], "x"], []):
            self.table.write_text("".join(f"{row}\n" for row in some))
            self.assertIsNone(self.in_parts(["batch", str(SCATTERED), str(self.table)]))
        self.assertIsNone(self.in_parts(["batch", str(SCATTERED), str(self.table), "more"]))

    def test_scans(self) -> None:
        for first, last, step in ((50, 1000, 3), (1, 10_000, 1), (200, 400, 1), (60, 1003, 4)):
            words = ["scan", str(FILTERS), str(first), str(last), str(step)]
            printed = self.in_parts(words)
            self.assertEqual(printed, one_run(words))
            self.assertIn(b"RESONANCE", printed or b"")

    def test_scans_that_are_not_parted(self) -> None:
        for words in (
            ["1", "10001", "1"],
            ["1", "100", "1"],
            ["1", "1000", "0"],
            ["1", "1e3", "1"],
            ["01", "1000", "1"],
        ):
            self.assertIsNone(self.in_parts(["scan", str(FILTERS), *words]))

    def test_spans(self) -> None:
        """Each frequency is a part's own once, and each inner one stands between its neighbours in one part alone."""
        chance = random.Random(1)
        for _ in range(200):
            count, parts = chance.randrange(200, 10_001), chance.randrange(1, 65)
            found = together.spans(count, parts)
            own = [at for one in found[:-1] for at in one[: -together.OVERLAP]] + list(found[-1])
            inner = [at for one in found for at in one[1:-1]]
            self.assertEqual((own, inner), (list(range(count)), list(range(1, count - 1))))

    def test_by_the_command(self) -> None:
        rows = table_rows()
        self.table.write_text("".join(f"{row}\n" for row in rows[:20]))
        words = ["batch", str(SCATTERED), str(self.table)]
        with mock.patch.object(program, "processors", lambda: 4):
            self.assertEqual(command.in_parts(words), one_run(words))

    def test_a_part(self) -> None:
        with together.part_of(["scan", str(FILTERS), "1", "1000", "1"], 20) as (words, share, _):
            self.assertEqual((words[2:], share), (["1", "50", "1"], 0.05))
        with together.part_of(["run", str(FILTERS)], 20) as (words, share, _):
            self.assertEqual(words, [])


class Told(unittest.TestCase):
    def test_words(self) -> None:
        self.assertEqual(progress.told(3.4, None), "3 s")
        self.assertEqual(progress.told(3.0, 0.25), "25 %, 3 s, some 9 s left")
        self.assertEqual(progress.told(99.0, 1.7), "99 %, 99 s, some 1 s left")

    @unittest.skipUnless(program.is_there(), "the programs aren't there")
    def test_values(self) -> None:
        self.assertEqual(
            progress.values_of(str(TOP / "examples" / "breaker_recovery" / "breaker_recovery.case")) % 1401, 0
        )
        self.assertEqual(progress.values_of("/nowhere"), 0)


@unittest.skipUnless(program.is_there(), "the programs aren't there")
class Terminal(unittest.TestCase):
    """A run of six seconds, by the script of the checkout and by the command of the package."""

    def setUp(self) -> None:
        room = tempfile.TemporaryDirectory()
        self.addCleanup(room.cleanup)
        self.room = pathlib.Path(room.name)
        slow = self.room / "slow"
        slow.write_text(SLOW)
        slow.chmod(0o755)
        (self.room / "a.case").write_bytes((TOP / "examples" / "divider" / "divider.case").read_bytes())
        self.own = {**os.environ, "EMTP": str(slow), "EMTP_SHOW": str(program.shower()), "PYTHON": sys.executable}
        self.own |= {"PYTHONPATH": str(TOP / "python"), "EMTP_JUDGE": str(program.judge())}

    def told_of(self, call: list[str], terminal: bool) -> tuple[bytes, bytes]:
        """What a call prints, and what it says on standard error, a terminal or none."""
        ours, theirs = pty.openpty() if terminal else os.pipe()
        said: list[bytes] = []

        def listen() -> None:
            with os.fdopen(ours, "rb", buffering=0) as stream:
                try:
                    while some := stream.read(4096):
                        said.append(some)
                except OSError:  # nobody has the other end any more
                    return

        reader = threading.Thread(target=listen)
        reader.start()
        words = [*call, "run", "a.case", "a.cfg", "a.dat"]
        done = subprocess.run(words, cwd=self.room, env=self.own, stdout=subprocess.PIPE, stderr=theirs, check=False)
        os.close(theirs)
        reader.join()
        self.assertEqual(done.returncode, 0)
        return done.stdout, b"".join(said)

    def test_both(self) -> None:
        calls: list[typing.Any] = [[str(TOP / "emtp")], [sys.executable, "-m", "wurdanei.command"]]
        for call in calls:
            with self.subTest(call=call):
                printed, said = self.told_of(call, True)
                self.assertEqual(printed, b"DONE STEPS 1 SAMPLES 2 REDONE 0\n")
                self.assertRegex(said, rb"^(\r\d+ s +)+\r +\r$")
                self.assertEqual(self.told_of(call, False), (printed, b""))


if __name__ == "__main__":
    unittest.main()
