"""`emtp lsp` in real editors, each where it is installed, with the files of editors/; and the client for VS Code under node, with
a stand-in for the editor's module. Each opens a case with a slip, and has to get its mark, mend it and rename a node."""

import os
import pathlib
import shutil
import subprocess
import tempfile
import unittest

from wurdanei import program

TOP = pathlib.Path(__file__).resolve().parents[2]
EDITORS = TOP / "editors"
OWN = pathlib.Path(__file__).resolve().parent / "editors"
CASE = """\
BEGIN NEW DATA CASE
   1.E-5     .04
       1       1
  SRC   BUS                 1,0 10.25     5.
  BUS                        9.5
BLANK
BLANK
11SRC          100.0
BLANK
  BUS
BLANK
"""
MENDED = CASE.replace("1,0", "1.0").replace("BUS ", "LOAD").replace("\n  BUS\n", "\n  LOAD\n")


def has_eglot() -> bool:
    if not shutil.which("emacs"):
        return False
    asked = subprocess.run(
        ["emacs", "-q", "--batch", "-f", "package-initialize", "-l", "eglot"], capture_output=True, check=False
    )
    return asked.returncode == 0


@unittest.skipUnless(program.is_there(), "the programs aren't there")
class Editors(unittest.TestCase):
    def setUp(self) -> None:
        room = tempfile.TemporaryDirectory()
        self.addCleanup(room.cleanup)
        self.room = pathlib.Path(room.name)
        self.case = self.room / "slip.case"
        self.case.write_text(CASE, encoding="utf-8")

    def run_editor(self, *words: str) -> str:
        """What an editor says, which is called with these words. It has a home of its own."""
        programs = {"EMTP": program.emtp(), "EMTP_SHOW": program.shower(), "EMTP_JUDGE": program.judge()}
        own = {**os.environ, **{name: str(path) for name, path in programs.items()}}
        own |= {"HOME": str(self.room), "XDG_CONFIG_HOME": str(self.room), "XDG_DATA_HOME": str(self.room)}
        own |= {"XDG_STATE_HOME": str(self.room), "TOP": str(TOP), "CASE": str(self.case)}
        done = subprocess.run(
            words,
            cwd=self.room,
            env=own,
            capture_output=True,
            text=True,
            stdin=subprocess.DEVNULL,
            timeout=120,
            check=False,
        )
        self.assertEqual(done.returncode, 0, done.stdout + done.stderr)
        return done.stdout + done.stderr

    def mended(self) -> None:
        """The case is mended, and its node renamed."""
        self.assertEqual(self.case.read_text(encoding="utf-8"), MENDED)

    @unittest.skipUnless(shutil.which("nvim"), "neovim isn't there")
    def test_neovim(self) -> None:
        script = OWN / "neovim.lua"
        place = f"set runtimepath^={EDITORS / 'neovim'}"
        said = self.run_editor("nvim", "--headless", "-u", "NONE", "--cmd", place, "-c", f"luafile {script}")
        self.assertIn("R: a comma; a number has a point", said)
        self.assertIn("read as **10.25 mH**", said)
        self.mended()

    @unittest.skipUnless(has_eglot(), "emacs with eglot isn't there")
    def test_emacs(self) -> None:
        words = ["--batch", "-f", "package-initialize", "-L", str(EDITORS / "emacs"), "-l", str(OWN / "emacs.el")]
        said = self.run_editor("emacs", "-q", *words)
        self.assertIn("R: a comma; a number has a point", said)
        self.mended()

    @unittest.skipUnless(shutil.which("node"), "node isn't there")
    def test_vscode(self) -> None:
        said = self.run_editor("node", str(OWN / "vscode.js"))
        self.assertIn("R: a comma; a number has a point", said)
        self.assertIn("read as **10.25 mH**", said)
        self.mended()


if __name__ == "__main__":
    unittest.main()
