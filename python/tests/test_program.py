"""Tests of wurdanei.program: which program is found, and what a call answers."""

import os
import pathlib
import tempfile
import unittest
from unittest import mock

from wurdanei import program

SCRIPT = """#!/bin/sh
echo "$@"
pwd
echo told >&2
exit 3
"""


class Program(unittest.TestCase):
    def setUp(self) -> None:
        room = tempfile.TemporaryDirectory()
        self.addCleanup(room.cleanup)
        self.room = pathlib.Path(room.name).resolve()
        self.script = self.made("named", SCRIPT)

    def made(self, name: str, text: str) -> pathlib.Path:
        path = self.room / name
        path.write_text(text)
        path.chmod(0o755)
        return path

    def test_the_environment_names_the_programs(self) -> None:
        with mock.patch.dict(os.environ, EMTP=str(self.script), EMTP_SHOW=str(self.script)):
            self.assertEqual(program.emtp(), self.script)
            self.assertEqual(program.shower(), self.script)

    def test_a_call_answers_status_and_both_outputs(self) -> None:
        with mock.patch.dict(os.environ, EMTP=str(self.script), EMTP_SHOW=str(self.script)):
            ended = program.run(["run", "a b", "c"], self.room)
            self.assertEqual(ended, program.Ended(3, f"run a b c\n{self.room}\n", "told\n"))
            self.assertEqual(program.run(["show", "case"], self.room).note, f"case\n{self.room}\n")

    def test_what_is_no_program_is_refused_in_words(self) -> None:
        for text in (str(self.room / "none"), str(self.room)):
            with mock.patch.dict(os.environ, EMTP=text):
                with self.assertRaisesRegex(program.ProgramError, f"^EMTP names {text}, and no program stands there$"):
                    program.emtp()

    def test_a_program_that_a_signal_ends_is_told(self) -> None:
        killed = self.made("killed", "#!/bin/sh\nkill -9 $$\n")
        with mock.patch.dict(os.environ, EMTP=str(killed)):
            with self.assertRaisesRegex(program.ProgramError, "was ended by signal 9"):
                program.run(["run"], self.room)

    def test_without_a_checkout_it_is_that_of_the_path(self) -> None:
        self.made("emtp", SCRIPT)
        with mock.patch.object(program, "checkout", lambda: None), mock.patch.dict(os.environ, PATH=str(self.room)):
            os.environ.pop("EMTP", None)
            os.environ.pop("EMTP_SHOW", None)
            self.assertEqual(program.emtp(), self.room / "emtp")
            with self.assertRaisesRegex(program.ProgramError, "EMTP_SHOW may name it"):
                program.shower()

    def test_a_checkout_is_asked_for_its_own(self) -> None:
        built = self.made("built", SCRIPT)
        self.made(
            "emtp",
            f'#!/bin/sh\n[ "$*" = "--program emtp" ] || {{ echo "it isn\'t built" >&2; exit 70; }}\necho {built}\n',
        )
        with mock.patch.object(program, "checkout", lambda: self.room), mock.patch.dict(os.environ):
            os.environ.pop("EMTP", None)
            os.environ.pop("EMTP_SHOW", None)
            program._found.cache_clear()
            self.addCleanup(program._found.cache_clear)
            self.assertEqual(program.emtp(), built)
            with self.assertRaisesRegex(program.ProgramError, "has no emtp_show .it isn't built."):
                program.shower()


if __name__ == "__main__":
    unittest.main()
