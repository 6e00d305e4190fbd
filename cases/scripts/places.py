"""Where the programs and the rows of examples/NAME and cases/GROUP/NAME stand, and what a run left otherwise than its row."""

from __future__ import annotations

import functools
import os
import subprocess
import sys
import tempfile
from dataclasses import dataclass
from pathlib import Path

SCRIPTS = Path(__file__).resolve().parent
TOP = SCRIPTS.parent.parent
NAMES = ("emtp", "emtp_show", "emtp_judge")


# ---- programs


@functools.cache
def programs() -> tuple[str, ...]:
    """The programs emtp, emtp_show and emtp_judge: those that EMTP, EMTP_SHOW and EMTP_JUDGE name, else those that ./program
    finds."""
    named = [os.environ.get(name.upper(), "") for name in NAMES]
    if not all(named):
        told = subprocess.run([TOP / "program", *NAMES], stdout=subprocess.PIPE, check=False, encoding="utf-8")
        if told.returncode:
            sys.exit(told.returncode)
        named = [one or other for one, other in zip(named, told.stdout.splitlines())]
    return tuple(os.path.abspath(it) for it in named)


def program() -> str:
    """The program emtp."""
    return programs()[0]


def command_line(first: str, words: list[str]) -> list[str]:
    """What is run for the words of a row, where `first` is emtp: the program itself with them, or behind the word `show`
    emtp_show with the others, behind `judge` emtp_judge. That is the built one of the built program, and of another program the
    one beside it."""
    if words[:1] not in (["show"], ["judge"]):
        return [first, *words]
    name = f"emtp_{words[0]}"
    built = programs()[NAMES.index(name)] if first == program() else os.path.join(os.path.dirname(first), name)
    return [built, *words[1:]]


# ---- rows


def folders() -> dict[str, str]:
    """The path of each folder by its name, in the order of the names; no two folders have one name."""
    found: dict[str, str] = {}
    for path in sorted([*TOP.glob("examples/*/"), *TOP.glob("cases/*/*/")]):
        if not path.is_dir() or path.parent == SCRIPTS:
            continue
        if path.name in found:
            sys.exit(f"{path} has the name of {found[path.name]}")
        found[path.name] = str(path)
    return dict(sorted(found.items()))


def is_study(folder: Path) -> bool:
    """A study in Python is no row of the program."""
    return (folder / f"{folder.name}.py").is_file()


@dataclass(frozen=True)
class Row:
    """One run: its words, the files that stand there before it, and what it has to print and to make."""

    name: str  # of its folder below the repository, with that of its list of words where there are several
    folder: Path
    words: list[str]
    before: dict[str, bytes]
    status: int
    printed: bytes
    made: dict[str, bytes]

    @property
    def after(self) -> dict[str, bytes]:
        """The files that stand there behind the run."""
        return self.before | self.made

    @property
    def record(self) -> tuple[str, str]:
        """The names of the files of its record."""
        return f"{self.folder.name}.cfg", f"{self.folder.name}.dat"


def files_in(folder: Path) -> dict[str, bytes]:
    """The files of a folder by their names; none where it isn't there."""
    return {it.name: it.read_bytes() for it in sorted(folder.iterdir()) if it.is_file()} if folder.is_dir() else {}


def rows_of(folder: Path) -> list[Row]:
    """The rows of a folder: one for each list of words, or a plain run."""
    name, own = folder.name, files_in(folder)
    before = files_in(folder / "before")
    made = {file: own[file] for file in [f"{name}.cfg", f"{name}.dat", *before] if file in own}
    if f"{name}.case" in own:
        before[f"{name}.case"] = own[f"{name}.case"]
    lists = {
        file: own[file].decode("utf-8", "surrogateescape").split("\n")[:-1]
        for file in own
        if file.split(".")[0] == "words"
    }
    status, printed = int(own["expected.status"]), own["expected.note"]
    return [
        Row(str(folder.relative_to(TOP)) + f"/{label}" * bool(label), folder, words, before, status, printed, made)
        for label, words in lists.items() or [("", ["run", f"{name}.case", f"{name}.cfg", f"{name}.dat"])]
    ]


def all_rows() -> list[Row]:
    """All rows, in the order of their folders' names."""
    return [row for path in map(Path, folders().values()) if not is_study(path) for row in rows_of(path)]


# ---- runs


@dataclass(frozen=True)
class Left:
    """What a run left."""

    status: int
    printed: bytes
    files: dict[str, bytes]


def differences(row: Row, left: Left) -> list[str]:
    """What a run left otherwise than it has to, in words."""
    found = []
    if left.status != row.status:
        found.append(f"exit status {left.status}, and {row.status} is expected")
    if left.printed != row.printed:
        found.append(f"printed {left.printed[:120]!r}, and {row.printed[:120]!r} is expected")
    for name in sorted(left.files.keys() | row.after.keys()):
        if name not in left.files:
            found.append(f"no {name}")
        elif name not in row.after:
            found.append(f"{name} was made, and isn't expected")
        elif left.files[name] != row.after[name]:
            found.append(f"{name} differs")
    return found


def run(start: list[str], row: Row, words: list[str] | None = None) -> Left:
    """Runs a program on a row, in a folder of its own; `words` are others than the row's."""
    with tempfile.TemporaryDirectory(prefix="emtp-row-") as room:
        for name, data in row.before.items():
            (Path(room) / name).write_bytes(data)
        done = subprocess.run(
            [*start, *(row.words if words is None else words)],
            cwd=room,
            stdin=subprocess.DEVNULL,
            stdout=subprocess.PIPE,
            stderr=subprocess.DEVNULL,
            timeout=600,
            check=False,
        )
        return Left(done.returncode, done.stdout, files_in(Path(room)))
