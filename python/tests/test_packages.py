"""Tests of packages/: the same bytes twice, with the members that they tell of; the page on `emtp` and the completions of three
shells have the words that the commands themselves tell; the manual has no link that leads nowhere."""

import hashlib
import importlib.util
import pathlib
import re
import shutil
import subprocess
import sys
import tempfile
import types
import typing
import unittest
import zipfile

import wurdanei
from wurdanei import __main__ as package
from wurdanei import columns, program

TOP = pathlib.Path(__file__).resolve().parents[2]
USAGE = (TOP / "python" / "wurdanei" / "usage.txt").read_text(encoding="utf-8")
PROVED = {"run", "show", "judge", "trial", "audit", "batch", "phasor", "scan"}


def commands() -> set[str]:
    """The commands that the usage tells."""
    return set(re.findall(r"(?:emtp|\|) ([a-z]+) ", USAGE))


def module(name: str) -> types.ModuleType:
    """A script of packages/ as a module."""
    spec = importlib.util.spec_from_file_location(f"packages_{name}", TOP / "packages" / f"{name}.py")
    assert spec and spec.loader
    found = importlib.util.module_from_spec(spec)
    sys.modules[spec.name] = found
    spec.loader.exec_module(found)
    return found


def text(name: str) -> str:
    return (TOP / "packages" / name).read_text(encoding="utf-8")


class Words(unittest.TestCase):
    def test_usage(self) -> None:
        self.assertEqual(commands(), PROVED | set(package.COMMANDS))
        told = subprocess.run([TOP / "emtp", "--help"], capture_output=True, text=True, check=True).stdout
        self.assertEqual(told, USAGE)

    def test_page(self) -> None:
        """The page names each command, with the words that stand behind it in the usage."""
        page = text("emtp.1")
        named = {word for line in re.findall(r"^\.It Cm (.*)$", page, re.M) for word in line.split(" , ")}
        self.assertEqual(named, commands())
        for line in re.findall(r"^(?:usage:|      ) emtp ([a-z]+(?: [A-Z0-9]+)+) ", USAGE, re.M):
            name, *words = line.split()
            self.assertIn(f".Cm {name}", page)
            self.assertIn(" ".join(words), page)

    def test_bash(self) -> None:
        def completed(*words: str) -> set[str]:
            script = 'source "$1"; shift; COMP_WORDS=("$@"); COMP_CWORD=$(($# - 1)); _emtp "$1"; printf "%s\\n" "${COMPREPLY[@]}"'
            call = ["bash", "-c", script, "bash", str(TOP / "packages" / "completions" / "emtp.bash"), *words]
            done = subprocess.run(call, cwd=TOP / "examples" / "divider", capture_output=True, text=True, check=False)
            self.assertEqual(done.stderr, "")
            return set(done.stdout.split())

        emtp = str(TOP / "emtp")
        self.assertEqual(completed(emtp, ""), commands() | {"--help", "--version", "--program"})
        self.assertEqual(completed(emtp, "ru"), {"run", "ruler"})
        self.assertEqual(completed(emtp, "run", "d"), {"divider.case"})
        self.assertEqual(completed(emtp, "run", "divider.case", "d"), {"divider.cfg", "divider.dat"})
        self.assertEqual(completed(emtp, "show", "--"), {"--count", "--kinds", "--why", "--fields"})
        self.assertEqual(completed(emtp, "judge", "--"), {"--samples", "--count"})
        self.assertEqual(completed(emtp, "ruler", "--"), {"--comment", "--help"})
        self.assertEqual(completed(emtp, "ruler", ""), {word for card in columns.CARDS for word in card.words})

    @unittest.skipUnless(shutil.which("fish"), "fish isn't there")
    def test_fish(self) -> None:
        def completed(line: str) -> set[str]:
            call = ["fish", "-c", f"source {TOP}/packages/completions/emtp.fish; complete -C '{line}'"]
            done = subprocess.run(call, cwd=TOP / "examples" / "divider", capture_output=True, text=True, check=False)
            return {row.partition("\t")[0] for row in done.stdout.splitlines()}

        self.assertEqual({it for it in completed("emtp ") if not it.startswith("-")}, commands())
        self.assertIn("divider.case", completed("emtp run d"))
        self.assertLessEqual({"--count", "--kinds", "--why"}, completed("emtp show --"))
        words = {word for card in columns.CARDS for word in card.words}
        self.assertEqual({it for it in completed("emtp ruler ") if it in words}, words)

    def test_zsh(self) -> None:
        own = text("completions/_emtp")
        self.assertEqual({it for it in re.findall(r"^  '([a-z]+):", own, re.M)}, commands())
        (cards,) = re.findall(r"_values card (.*?) ;;", own, re.S)
        self.assertEqual(
            set(cards.replace("\\\n", " ").split()), {word for card in columns.CARDS for word in card.words}
        )
        if shutil.which("zsh"):
            self.assertEqual(
                subprocess.run(["zsh", "-n", TOP / "packages/completions/_emtp"], check=False).returncode, 0
            )


@unittest.skipUnless(importlib.util.find_spec("markdown"), "python3-markdown isn't there")
class Manual(unittest.TestCase):
    def test_links(self) -> None:
        manual = module("manual")
        files = manual.site()
        self.assertEqual(manual.broken(files), [])
        self.assertLessEqual({"index.html", "CHANGELOG.html", "docs/cards.html", "examples/index.html"}, set(files))
        self.assertIn(b'href="docs/trust.html#trusted"', files["index.html"])


@unittest.skipUnless(program.is_there(), "the programs aren't there")
class Packages(unittest.TestCase):
    def setUp(self) -> None:
        room = tempfile.TemporaryDirectory()
        self.addCleanup(room.cleanup)
        self.room = pathlib.Path(room.name)
        self.systems = self.room / "systems"  # stand for programs of other systems
        self.systems.mkdir()
        for name in ("emtp.exe", "emtp-aarch64"):
            (self.systems / name).write_bytes(name.encode())
        self.build = module("build")

    def made(self, folder: str, kind: str) -> pathlib.Path:
        (self.room / folder).mkdir(exist_ok=True)
        own = self.build.parts(self.systems)
        return typing.cast(pathlib.Path, self.build.KINDS[kind](own, self.room / folder))

    def test_wheels(self) -> None:
        for kind, members in (
            ("the wheel for Linux on x86-64", {"emtp", "emtp_judge", "emtp_show", "made_of.txt"}),
            ("the wheel for Linux on aarch64", {"emtp", "made_of.txt"}),
            ("the wheel for Windows", {"emtp.exe", "made_of.txt"}),
        ):
            path = self.made("one", kind)
            self.assertEqual(path.read_bytes(), self.made("two", kind).read_bytes())
            with zipfile.ZipFile(path) as archive:
                names = archive.namelist()
                self.assertEqual({it.rpartition("/")[2] for it in names if "/programs/" in it}, members)
                info = f"wurdanei-{wurdanei.__version__}.dist-info"
                rows = archive.read(f"{info}/RECORD").decode().splitlines()
                self.assertEqual({row.split(",")[0] for row in rows}, set(names))
                self.assertIn("no licence yet", archive.read(f"{info}/METADATA").decode())
                self.assertIn("emtp = wurdanei.command:entry", archive.read(f"{info}/entry_points.txt").decode())
                own = {
                    it.name for it in (TOP / "python" / "wurdanei").rglob("*") if it.suffix != ".pyc" and it.is_file()
                }
                self.assertLessEqual(own - {"__init__.py"}, {it.rpartition("/")[2] for it in names})
                for name in program.VARIABLES:
                    if name in members and len(members) > 2:
                        data = archive.read(f"wurdanei/programs/{name}")
                        self.assertEqual(data, program.named(name).read_bytes())
                        told = archive.read("wurdanei/programs/made_of.txt").decode()
                        self.assertIn(f"{hashlib.sha256(data).hexdigest()}  {name}\n", told)

    @unittest.skipUnless(importlib.util.find_spec("markdown"), "python3-markdown isn't there")
    def test_windows(self) -> None:
        path = self.made("one", "the .zip for Windows")
        with zipfile.ZipFile(path) as archive:
            folder = f"wurdanei-{wurdanei.__version__}-windows"
            self.assertEqual(archive.read(f"{folder}/emtp.exe"), b"emtp.exe")
            self.assertEqual(archive.read(f"{folder}/emtp.html"), (TOP / "dist" / "emtp.html").read_bytes())
            self.assertIn(f"{folder}/manual/index.html", archive.namelist())
            self.assertIn(b"no licence yet", archive.read(f"{folder}/README.txt"))

    def test_what_is_missing_is_said(self) -> None:
        own = self.build.parts(None)
        for kind in ("the wheel for Linux on aarch64", "the wheel for Windows", "the .zip for Windows"):
            with self.assertRaisesRegex(self.build.Lacking, "isn't there .* makes it"):
                self.build.KINDS[kind](own, self.room)


if __name__ == "__main__":
    unittest.main()
