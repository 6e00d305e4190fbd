"""The package as a whole: what goes without numpy, and its version."""

import pathlib
import re
import subprocess
import sys
import unittest

import wurdanei

PACKAGE = pathlib.Path(__file__).resolve().parents[1]
WITHOUT = "import sys\nfor it in ('numpy', 'scipy', 'matplotlib'):\n    sys.modules[it] = None\n"


class Package(unittest.TestCase):
    def run_without(self, text: str) -> str:
        """What a script prints where numpy isn't there."""
        ran = subprocess.run(
            [sys.executable, "-c", WITHOUT + text], cwd=PACKAGE, capture_output=True, text=True, check=False
        )
        self.assertEqual(ran.returncode, 0, ran.stderr)
        return ran.stdout

    def test_without_numpy(self) -> None:
        self.assertEqual(self.run_without("import wurdanei\nprint(wurdanei.__version__)"), f"{wurdanei.__version__}\n")
        ruler = "from wurdanei.__main__ import main\nsys.exit(main(['ruler', 'switch']))"
        self.assertIn("T-CLOSE", self.run_without(ruler))
        served = "from wurdanei.__main__ import main\nsys.stdin.close()\nsys.exit(main(['lsp', '--help']))"
        self.assertIn("language server", self.run_without(served))
        self.run_without("import wurdanei.command")
        self.assertIn("compare", self.run_without("from wurdanei.__main__ import main\nmain(['--help'])"))

    def test_one_version(self) -> None:
        top = PACKAGE.parent
        told = subprocess.run([top / "emtp", "--version"], capture_output=True, text=True, check=False).stdout
        self.assertRegex(told, rf"^emtp {re.escape(wurdanei.__version__)}, ")
        heads = re.findall("^## ([0-9.]+), 20[0-9-]{8}$", (top / "CHANGELOG.md").read_text(), re.M)
        self.assertEqual(heads[0], wurdanei.__version__)
        self.assertEqual(heads, sorted(heads, key=lambda it: [int(part) for part in it.split(".")], reverse=True))

    def test_names(self) -> None:
        from wurdanei import Case, CaseError, Record, RecordError, read

        self.assertEqual({it.__name__ for it in (Case, CaseError, Record, RecordError, read)}, set(wurdanei.__all__))
        self.assertTrue(set(wurdanei.__all__) <= set(dir(wurdanei)))
        with self.assertRaisesRegex(AttributeError, "has no attribute 'nope'"):
            wurdanei.nope


if __name__ == "__main__":
    unittest.main()
