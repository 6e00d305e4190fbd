"""Finds the programs emtp, emtp_show and emtp_judge, and calls them.

The environment variables EMTP, EMTP_SHOW and EMTP_JUDGE name them. Where they don't, it is those of the checkout in
which this package stands, else those that stand in it, else the ones of PATH. On other systems than Linux on x86-64
one program `emtp` is all three: `show` and `judge` are its first words.
"""

from __future__ import annotations

import contextlib
import ctypes
import functools
import os
import pathlib
import shutil
import signal
import subprocess
import tempfile
import threading
import typing
from dataclasses import dataclass

VARIABLES = {"emtp": "EMTP", "emtp_show": "EMTP_SHOW", "emtp_judge": "EMTP_JUDGE"}
# what a scheduler or a closed terminal sends, as far as a system has it
ENDING = tuple(getattr(signal, it) for it in ("SIGTERM", "SIGHUP") if hasattr(signal, it))
PR_SET_PDEATHSIG = 1  # of Linux: the signal that a process gets where its parent ends
GUARD = "setpriv"  # of util-linux: a program behind it ends with the process that called it
OWN = pathlib.Path(__file__).resolve().parent / "programs"  # of a package that brings the programs
MADE_OF = "made_of.txt"  # beside them: what they were made of, the first line in short


_following: set[int] = set()  # processes that SIGTERM ends with their parent, so that they end what they run


class ProgramError(Exception):
    """Why a program wasn't found, or didn't end by itself."""


class TimeoutExpired(ProgramError, TimeoutError):
    """A program was ended, since it took longer than it was given."""


@dataclass(frozen=True)
class Ended:
    """What a program left: its exit status (docs/record.md), its standard output, and its standard error."""

    status: int
    note: str
    told: str


def checkout() -> pathlib.Path | None:
    """The checkout that this package stands in, where it stands in one: the folder of the script `emtp` and of
    `crates`."""
    top = pathlib.Path(__file__).resolve().parents[2]
    return top if (top / "emtp").is_file() and (top / "crates").is_dir() else None


def emtp() -> pathlib.Path:
    """The program that runs cases. Raises ProgramError where there is none."""
    return named("emtp")


def shower() -> pathlib.Path:
    """The program that shows what was read of a case. Raises ProgramError where there is none."""
    return named("emtp_show")


def judge() -> pathlib.Path:
    """The program that tells all digits of a run. Raises ProgramError where there is none."""
    return named("emtp_judge")


def named(name: str) -> pathlib.Path:
    """The program of one of these three names. Raises ProgramError where there is none."""
    return _found(name, os.environ.get(VARIABLES[name], ""), os.environ.get("PATH", ""))


def has_judge() -> bool:
    """Whether the program that tells all digits of a run is found; what is said of an environment stays so."""
    return _has_judge(os.environ.get(VARIABLES["emtp_judge"], ""), os.environ.get("PATH", ""))


@functools.lru_cache
def _has_judge(given: str, path: str) -> bool:
    try:
        return bool(_found("emtp_judge", given, path))
    except ProgramError:
        if given:  # who names a program wants it
            raise
        return False


@functools.lru_cache
def _found(name: str, given: str, path: str) -> pathlib.Path:
    """The program of this name; the two texts are those of the environment, so that a changed one counts."""
    if given:
        return _given(VARIABLES[name], given)
    top = checkout()
    if top:
        return _of_checkout(top, name)
    own = _of_package(name)
    if own:
        return own
    found = shutil.which(name, path=path)
    if found is None:
        raise ProgramError(f"{name} isn't in a folder of PATH; the environment variable {VARIABLES[name]} may name it")
    return pathlib.Path(found).resolve()


def _given(variable: str, text: str) -> pathlib.Path:
    """The program that a variable of the environment names."""
    program = pathlib.Path(text).expanduser().resolve()
    if not program.is_file() or not os.access(program, os.X_OK):
        raise ProgramError(f"{variable} names {text}, and no program stands there")
    return program


def _of_package(name: str) -> pathlib.Path | None:
    """The program that the package brings, where it brings one: its own, or the one that is all three."""
    known = (OWN / it for it in (name, f"{name}.exe", "emtp", "emtp.exe"))
    return next((it.resolve() for it in known if it.is_file()), None)


def is_one() -> bool:
    """Whether one program is all three."""
    return shower().stem == "emtp"


def origin() -> str:
    """Which program it is, in words."""
    given = os.environ.get(VARIABLES["emtp"])
    top = checkout()
    if given:
        return f"{emtp()}, as EMTP names it"
    if top:
        asked = subprocess.run([top / "program", "--origin"], capture_output=True, text=True, check=False)
        return asked.stdout.strip() or "nothing built"
    made_of = OWN / MADE_OF
    told = made_of.read_text(encoding="ascii").splitlines()[0] if made_of.is_file() else "of no known sources"
    return f"{emtp()}, {told}"


def called(words: typing.Sequence[str]) -> list[str]:
    """The program for these words, with those that it is called with."""
    known = {"show": shower, "judge": judge}
    if not words or words[0] not in known:
        return [str(emtp()), *words]
    found = known[words[0]]()
    return [str(found), *(words if found.stem == "emtp" else words[1:])]


def _of_checkout(top: pathlib.Path, name: str) -> pathlib.Path:
    """The program of a checkout, as its script knows it."""
    asked = subprocess.run([top / "emtp", "--program", name], capture_output=True, text=True, check=False)
    program = pathlib.Path(asked.stdout.strip() or ".")
    if asked.returncode or not program.is_file():
        cause = (asked.stderr.strip() or f"{program} isn't there").splitlines()[0]
        raise ProgramError(f"{top} has no {name} ({cause}); the environment variable {VARIABLES[name]} may name one")
    return program.resolve()


def run(
    words: typing.Sequence[str],
    folder: str | os.PathLike[str] | None = None,
    *,
    files: typing.Sequence[int] = (),
    timeout: float | None = None,
) -> Ended:
    """Calls the program of these words in this folder, as `emtp run CASE CFG DAT`, `emtp show CASE` or `emtp judge
    --samples CASE` would be called there.

    `files` are descriptors that it inherits, as those of `memory`. Raises ProgramError where there is no program, or
    where a signal ended it, and TimeoutExpired where it takes longer than `timeout` seconds. It ends with this process,
    also where SIGTERM or SIGHUP ends that.
    """
    call = called(words)
    with ended_in_words():
        try:
            done = subprocess.run(
                [*(() if os.getpid() in _following else _guarded()), *call],
                cwd=folder,
                stdin=subprocess.DEVNULL,
                capture_output=True,
                check=False,
                pass_fds=[it for it in files if it >= 0],
                timeout=timeout,
            )
        except subprocess.TimeoutExpired:
            raise TimeoutExpired(f"{call[0]} was ended, since it took longer than {timeout:g} s") from None
        except OSError as fault:
            raise ProgramError(f"{call[0]} can't be started: {fault.strerror}") from None
    told = done.stderr.decode("utf-8", "replace")
    if done.returncode in (126, 127) and told.startswith(f"{GUARD}: "):
        raise ProgramError(f"{call[0]} can't be started: {told.strip().rpartition(': ')[2]}")
    if done.returncode < 0:
        raise ProgramError(f"{call[0]} was ended by signal {-done.returncode}")
    return Ended(done.returncode, done.stdout.decode("latin-1"), told)


def follow() -> None:
    """Ends this process, a worker of a pool, with the one that made it, and what it runs with it."""
    for it in ENDING:
        signal.signal(it, signal.SIG_DFL)
    with contextlib.suppress(AttributeError, OSError, TypeError):  # of systems without it
        ctypes.CDLL(None).prctl(PR_SET_PDEATHSIG, int(signal.SIGTERM))
        _following.add(os.getpid())


@functools.lru_cache
def _guarded() -> tuple[str, ...]:
    """The words before a program that end it with its caller, where the machine has them."""
    found = shutil.which(GUARD)
    if found is None:
        return ()
    words = (found, "--pdeathsig", "KILL", "--")
    tried = subprocess.run([*words, "true"], capture_output=True, check=False)
    return words if tried.returncode == 0 else ()


@contextlib.contextmanager
def ended_in_words() -> typing.Iterator[None]:
    """Within it SIGTERM and SIGHUP end this process as an exit does, so that what it runs and what it made for a while
    goes too.

    Signals that the caller has a way of its own for, and threads besides the main one, are left as they are.
    """
    mine = threading.current_thread() is threading.main_thread()
    taken = [it for it in ENDING if mine and signal.getsignal(it) == signal.SIG_DFL]
    for it in taken:
        signal.signal(it, _leave)
    try:
        yield
    finally:
        for it in taken:
            signal.signal(it, signal.SIG_DFL)


def _leave(number: int, _: object) -> typing.NoReturn:
    raise SystemExit(128 + number)


def is_there() -> bool:
    """Whether the two programs emtp and emtp_show are found."""
    try:
        return bool(emtp() and shower())
    except ProgramError:
        return False


@contextlib.contextmanager
def memory(data: bytes = b"") -> typing.Iterator[int]:
    """A file in memory that goes with this process, however it ends: its descriptor.

    Where a system has none, it is one of its usual folder, and a number below 0 stands for it.
    """
    if not hasattr(os, "memfd_create"):
        with _on_disk(data) as number:
            yield number
        return
    file = os.memfd_create("wurdanei")
    try:
        with open(file, "wb", closefd=False) as out:
            out.write(data)
        yield file
    finally:
        os.close(file)


_on_disks: dict[int, str] = {}  # the files that stand for those in memory, by their number


@contextlib.contextmanager
def _on_disk(data: bytes) -> typing.Iterator[int]:
    """A file that goes when it is left: the number that stands for it."""
    with tempfile.TemporaryDirectory(prefix="wurdanei.") as folder:
        number = min(_on_disks, default=0) - 1
        _on_disks[number] = os.path.join(folder, "file")
        pathlib.Path(_on_disks[number]).write_bytes(data)
        try:
            yield number
        finally:
            del _on_disks[number]


def path_of(file: int) -> str:
    """The name of what `memory` gave, for this process and for one that inherits it."""
    return _on_disks[file] if file < 0 else f"/proc/self/fd/{file}"


def processors() -> int:
    """How many processors this process may use."""
    return len(os.sched_getaffinity(0)) if hasattr(os, "sched_getaffinity") else os.cpu_count() or 1


@functools.lru_cache
def scratch() -> str | None:
    """Where short-lived files stand best: in memory where there is such a folder, else None for the usual one."""
    return "/dev/shm" if os.access("/dev/shm", os.W_OK | os.X_OK) else None


def room() -> tempfile.TemporaryDirectory[str]:
    """A folder that goes when it is left."""
    return tempfile.TemporaryDirectory(prefix="wurdanei.", dir=scratch())
