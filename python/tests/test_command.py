"""Tests of wurdanei.command: the command of a package does what the script `emtp` of a checkout does, to the byte."""

import concurrent.futures
import os
import pathlib
import shutil
import stat
import subprocess
import sys
import tempfile
import typing
import unittest
from unittest import mock

from wurdanei import command, program

TOP = pathlib.Path(__file__).resolve().parents[2]
SCRIPT = [str(TOP / "emtp")]
PACKAGE = [sys.executable, "-m", "wurdanei.command"]
DIVIDER = TOP / "examples" / "divider"
SLIPS: list[list[str | bytes]] = [
    [],
    ["--nope"],
    ["--help"],
    ["run"],
    ["run", "a"],
    ["run", "none.case", "a", "b"],
    ["run", "divider.case", "nowhere/a", "b"],
    ["run", "divider.case", "a", "a"],
    ["run", "divider.case", "x" * 300, "b"],
    ["run", "divider.case", "/dev/full", "b"],
    ["run", b"\xff.case", "a", "b"],
    ["run", "divider.case", "a,b", "c d"],
    ["show"],
    ["show", "none"],
    ["show", "."],
    ["show", "--kinds", "none"],
    ["show", "--kinds"],
    ["show", "--kinds", "divider.case"],
    ["show", "--xx", "divider.case"],
    ["judge"],
    ["judge", "divider.case"],
    ["judge", "none"],
    ["judge", "--samples", "none"],
    ["judge", "--samples", "divider.case"],
    ["scan", "divider.case", "0", "1", "2"],
    ["phasor", "/"],
    ["batch", "divider.case", "none"],
    ["audit", "divider.case", "x", "y"],
    ["trial", "901"],
    ["audit", "divider.case", "divider.cfg", "divider.dat"],
    ["ruler", "switch"],
    ["ruler", "machine"],
]
FOLDERS = ["cases/tools/*", "cases/shown/told_*", "cases/judged/*"]


class Left(typing.NamedTuple):
    """What a call leaves: its status, what it prints, what it says on standard error, and its files."""

    status: int
    printed: bytes
    said: bytes
    files: dict[str, bytes]


def left_by(call: list[str], words: typing.Sequence[str | bytes], folder: pathlib.Path) -> Left:
    """What a call leaves of these words, in a copy of a folder with its case and what lies beside it."""
    with tempfile.TemporaryDirectory() as name:
        room = pathlib.Path(name)
        if (folder / f"{folder.name}.case").is_file():
            shutil.copy(folder / f"{folder.name}.case", room)
        if (folder / "before").is_dir():
            shutil.copytree(folder / "before", room, dirs_exist_ok=True)
        own = {**os.environ, "PYTHONPATH": str(TOP / "python"), "PYTHONDONTWRITEBYTECODE": "1"}
        done = subprocess.run(
            [*call, *words], cwd=room, capture_output=True, stdin=subprocess.DEVNULL, env=own, check=False
        )
        files = {it.name: it.read_bytes() for it in room.iterdir() if it.is_file()}
        return Left(done.returncode, done.stdout, done.stderr, files)


def rows() -> typing.Iterator[tuple[pathlib.Path, list[str]]]:
    """The folders with a status of each kind, each with the words of its first call."""
    for group in FOLDERS:
        for folder in sorted(TOP.glob(group)):
            lists = sorted(folder.glob("words*"))
            if lists:
                yield folder, lists[0].read_text(encoding="utf-8").split("\n")[:-1]


@unittest.skipUnless(program.is_there(), "the programs aren't there")
class Command(unittest.TestCase):
    def setUp(self) -> None:
        names = {"EMTP": program.emtp(), "EMTP_SHOW": program.shower(), "EMTP_JUDGE": program.judge()}
        change = mock.patch.dict(os.environ, {key: str(path) for key, path in names.items()})
        change.start()
        self.addCleanup(change.stop)

    def equal(self, calls: list[tuple[pathlib.Path, typing.Sequence[str | bytes]]]) -> set[int]:
        """Both leave the same of each call; the statuses that were left."""

        def both(one: tuple[pathlib.Path, typing.Sequence[str | bytes]]) -> tuple[Left, Left]:
            return left_by(SCRIPT, one[1], one[0]), left_by(PACKAGE, one[1], one[0])

        with concurrent.futures.ThreadPoolExecutor(program.processors()) as pool:
            found = list(pool.map(both, calls))
        for (folder, words), (script, package) in zip(calls, found):
            with self.subTest(folder=folder.name, words=words):
                self.assertEqual(package, script)
        return {script.status for script, _ in found}

    def test_rows(self) -> None:
        statuses = self.equal(list(rows()))
        self.assertLessEqual({0, 1, 2, 3, 7, 8, 9}, statuses)

    def test_slips(self) -> None:
        statuses = self.equal([(DIVIDER, words) for words in SLIPS])
        self.assertLessEqual({0, 1, 4, 5}, statuses)

    def test_version(self) -> None:
        told = left_by(PACKAGE, ["--version"], DIVIDER)
        self.assertRegex(told.printed.decode(), r"^emtp [0-9.]+, .*emtp, as EMTP names it\n$")

    def test_program(self) -> None:
        told = left_by(PACKAGE, ["--program", "emtp_show"], DIVIDER)
        self.assertEqual((told.status, told.printed), (0, f"{program.shower()}\n".encode()))

    def test_a_closed_output(self) -> None:
        """A run whose note nobody takes ends as a fault in writing, its record whole; a refusal keeps its status."""
        for words, status in ((["run", "divider.case", "a", "b"], 5), (["--help"], 5), (["run", "a"], 1)):
            for call in (SCRIPT, PACKAGE):
                shell = ["sh", "-c", 'exec "$@" >/dev/full', "sh", *call]
                self.assertEqual(left_by(shell, words, DIVIDER).status, status)

    def test_no_program(self) -> None:
        with mock.patch.dict(os.environ, EMTP="/nowhere"):
            left = left_by(PACKAGE, ["run", "divider.case", "a", "b"], DIVIDER)
        self.assertEqual((left.status, left.said), (70, b"emtp: EMTP names /nowhere, and no program stands there\n"))


ONE = """#!/bin/sh
# one program that is all three, as those of other systems, which says of a status what it means by itself
case $1 in
  show) shift; exec "{shower}" "$@" ;;
  judge) shift; "{judge}" "$@" ;;
  *) "{emtp}" "$@" ;;
esac
status=$?
[ "$status" -eq 0 ] || echo "said by the program" >&2
exit "$status"
"""


@unittest.skipUnless(program.is_there(), "the programs aren't there")
class OfAPackage(unittest.TestCase):
    """A package that brings one program, as on Windows."""

    def setUp(self) -> None:
        room = tempfile.TemporaryDirectory()
        self.addCleanup(room.cleanup)
        self.package = pathlib.Path(room.name) / "wurdanei"
        shutil.copytree(TOP / "python" / "wurdanei", self.package, ignore=shutil.ignore_patterns("__pycache__"))
        one = self.package / "programs" / "emtp.exe"
        one.parent.mkdir()
        one.write_text(ONE.format(emtp=program.emtp(), shower=program.shower(), judge=program.judge()))
        one.chmod(one.stat().st_mode | stat.S_IXUSR)
        (one.parent / "made_of.txt").write_text("of the sources 0123\n")

    def left(self, words: list[str]) -> Left:
        with mock.patch.dict(os.environ):
            for name in program.VARIABLES.values():
                os.environ.pop(name, None)
            call = ["env", f"PYTHONPATH={self.package.parent}", *PACKAGE]
            return left_by(call, words, DIVIDER)

    def test_one_program(self) -> None:
        for words in (
            ["run", "divider.case", "a", "b"],
            ["show", "divider.case"],
            ["judge", "--samples", "divider.case"],
        ):
            script = left_by(SCRIPT, words, DIVIDER)
            self.assertEqual(self.left(words), script)
        self.assertEqual(
            self.left(["run", "divider.case", "a"]), left_by(SCRIPT, ["run", "divider.case", "a"], DIVIDER)
        )
        self.assertRegex(self.left(["--version"]).printed.decode(), "emtp.exe, of the sources 0123\n$")

    def test_files_on_disk(self) -> None:
        """Where a system has no files in memory, they stand on disk while they are needed."""
        with mock.patch.dict(os.__dict__):
            del os.memfd_create
            with program.memory(b"one") as first, program.memory(b"two") as second:
                self.assertTrue(first < 0 and second < 0 and first != second)
                paths = [pathlib.Path(program.path_of(it)) for it in (first, second)]
                self.assertEqual([it.read_bytes() for it in paths], [b"one", b"two"])
                ended = program.run(["show", "--kinds", str(DIVIDER / "divider.case")], files=(first,))
                self.assertEqual(ended.status, 0)
            self.assertFalse(any(it.exists() for it in paths))


if __name__ == "__main__":
    unittest.main()
