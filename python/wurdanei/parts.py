"""Runs the parts of a study on all processors, or on several machines by GNU parallel, and goes on after a break.

A study has a folder. Its file study.json has the plan, what the study is of; a part has its files there, what the program
printed (PART.out) and, written last, its exit status (PART.status), which is what says that it is done.
"""

from __future__ import annotations

import concurrent.futures
import contextlib
import hashlib
import json
import os
import shlex
import shutil
import signal
import subprocess
import sys
import threading
import time
from dataclasses import dataclass

from . import program
from .configuration import RecordError

STATUSES = {  # of a program that printed nothing
    4: "a file can't be read",
    5: "a file can't be written: is the disk full?",
    6: "there isn't enough memory",
}
WHOLE = 10  # below this a status is the program's own


class StudyError(ValueError):
    """Why a study can't be made, in words."""


@dataclass(frozen=True)
class Job:
    """What is run for a part {}, the files that all parts share, those that a part is given, and those it makes."""

    command: str
    shared: tuple[str, ...]
    sent: tuple[str, ...]
    made: tuple[str, ...]


BATCH = Job("./emtp batch case {}.times", ("case",), ("{}.times",), ())
VARIED = Job("./emtp batch {}.case {}.times", (), ("{}.case", "{}.times"), ())
RUN = Job(": >{}.cfg; : >{}.dat; ./emtp run {}.case {}.cfg {}.dat", (), ("{}.case",), ("{}.cfg", "{}.dat"))


@dataclass(frozen=True)
class Means:
    """With what the parts are run: the folder, how many at a time, a list of machines, and whether a study is gone on with."""

    room: str
    jobs: int
    machines: str | None = None
    resume: bool = False


def counted(count: int, what: str) -> str:
    """So many of these, in words."""
    return f"{count} {what}" + "s" * (count != 1)


def write_text(path: str, text: str) -> None:
    """Writes a text of bytes from 0 to 255 as they are."""
    with open(path, "w", encoding="latin-1", newline="") as file:
        file.write(text)


def sum_of(path: str | os.PathLike[str]) -> str:
    """The sum that says whether a file is the same."""
    with open(path, "rb") as file:
        return hashlib.sha256(file.read()).hexdigest()


def sum_of_text(text: str) -> str:
    """The sum of a text in bytes from 0 to 255."""
    return hashlib.sha256(text.encode("latin-1", "replace")).hexdigest()


def need(files: list[str]) -> None:
    """StudyError where a file isn't there."""
    for name in files:
        if "\0" in name or not os.access(name, os.R_OK):
            raise StudyError(f"{name} isn't there, or may not be read")


def noted_plan(means: Means, plan: dict) -> dict | None:
    """The plan of the study that was broken off, which has to be of the same files, or nothing where this one is new."""
    noted = os.path.join(means.room, "study.json")
    plan = {**plan, "program": sum_of(program.emtp())}
    if means.resume and os.path.exists(noted):
        with open(noted, encoding="ascii") as file:
            try:
                was = dict(json.load(file))
            except (ValueError, TypeError):
                raise StudyError(f"{means.room} was broken off before it had parts: remove it") from None
        if {**was, "size": 0} != {**plan, "size": 0}:
            raise StudyError(f"{means.room} is of other files, of other words or of another program")
        return was
    if os.path.exists(means.room):
        if means.resume:
            raise StudyError(f"{means.room} is no study, or was broken off before it had parts: remove it")
        raise StudyError(f"{means.room} is there: --resume goes on with it, or remove it")
    os.makedirs(means.room)
    shutil.copy(program.emtp(), os.path.join(means.room, "emtp"))
    return None


def note_plan(means: Means, plan: dict) -> None:
    """Notes what the study is of, once all its parts have their files."""
    with open(os.path.join(means.room, "study.json"), "w", encoding="ascii") as file:
        json.dump({**plan, "program": sum_of(program.emtp())}, file)


def draw_values(parameters: dict[str, list[float | str]], columns: dict[str, list[float]], stem: str) -> None:
    """The picture of a study over values, where one or two of them change and matplotlib is there; of one a page too."""
    from . import chart

    for ending in (".png", ".html") if len(chart.changing(parameters)) == 1 else (".png",):
        try:
            chart.draw_table(parameters, columns, stem + ending)
        except RecordError as fault:
            print(f"emtp study: no picture: {fault}", file=sys.stderr)
        else:
            print(f"drawn: {stem}{ending}")


def part_names(count: int) -> list[str]:
    """The names of so many parts."""
    return [f"part{number:06d}" for number in range(1, count + 1)]


def status_of(room: str, part: str) -> int | None:
    """The status that a part ended with, or nothing where it isn't done."""
    try:
        with open(os.path.join(room, part + ".status"), encoding="ascii") as file:
            status = int(file.read())
    except (OSError, ValueError):
        return None
    return status if status < WHOLE and os.path.exists(os.path.join(room, part + ".out")) else None


def output_of(room: str, part: str) -> list[str]:
    """The lines that the program printed of a part."""
    with open(os.path.join(room, part + ".out"), encoding="latin-1") as file:
        return file.read().split("\n")


def run_parts(means: Means, parts: list[str], job: Job) -> None:
    """Runs what isn't done of the parts, again as long as that does some: a machine may be lost with what it had done."""
    left = [part for part in parts if status_of(means.room, part) is None]
    while left:
        print(f"emtp study: {counted(len(left), 'part')} of {len(parts)} left", file=sys.stderr)
        _run_left(means, left, job)
        was, left = left, [part for part in left if status_of(means.room, part) is None]
        if len(left) == len(was):
            return


def _run_left(means: Means, left: list[str], job: Job) -> None:
    """One run of the parts that are left."""
    here = f"[ -e emtp ] || cd {shlex.quote(os.path.abspath(means.room))} || exit {WHOLE}"
    command = f"{here}; {job.command} >{{}}.out; status=$?; echo $status >{{}}.status; [ $status -lt {WHOLE} ]"
    if means.machines:
        _run_there(means, left, job, command)
    else:
        _run_here(means, left, command)


def _run_here(means: Means, left: list[str], command: str) -> None:
    """Runs the command for each part, so many at a time; job.log has a line a part, as it ended."""
    running: set[subprocess.Popen[bytes]] = set()
    ended, began, done = threading.Event(), time.monotonic(), 0

    def run(part: str) -> tuple[str, float, int]:
        if ended.is_set():
            return part, 0.0, -1
        first = time.monotonic()
        call = ["sh", "-c", command.replace("{}", part)]
        with subprocess.Popen(call, cwd=means.room, stdin=subprocess.DEVNULL, start_new_session=True) as process:
            running.add(process)
            if ended.is_set():
                _end(process)
            status = process.wait()
            running.discard(process)
        return part, time.monotonic() - first, status

    with (
        program.ended_in_words(),
        open(os.path.join(means.room, "job.log"), "a", encoding="ascii") as log,
        concurrent.futures.ThreadPoolExecutor(means.jobs) as pool,
    ):
        try:
            for future in concurrent.futures.as_completed([pool.submit(run, part) for part in left]):
                part, seconds, status = future.result()
                log.write(f"{part} {seconds:.3f} s, status {status}\n")
                done += 1
                if sys.stderr.isatty():
                    rest = (time.monotonic() - began) / done * (len(left) - done)
                    print(f"\r{done} of {counted(len(left), 'part')}, {rest:.0f} s left   ", end="", file=sys.stderr)
        except BaseException:
            ended.set()
            for process in list(running):
                _end(process)
            pool.shutdown(wait=True, cancel_futures=True)
            raise
        finally:
            if sys.stderr.isatty() and done:
                print(file=sys.stderr)


def _end(process: subprocess.Popen[bytes]) -> None:
    """Ends a part with all that it runs."""
    with contextlib.suppress(ProcessLookupError):
        os.killpg(process.pid, signal.SIGTERM)


def _run_there(means: Means, left: list[str], job: Job, command: str) -> None:
    """One run of GNU parallel over a list of machines. This one may stand among them, as `:`: nothing is sent there, so
    its parts run where they are."""
    if not shutil.which("parallel"):
        raise StudyError("a study on several machines needs GNU parallel; on Debian: apt install parallel")
    assert means.machines is not None
    there = ".emtp-study-" + sum_of(os.path.join(means.room, "study.json"))[:16]
    call = ["parallel", "--joblog", "+job.log", "--retries", "5"] + (["--bar"] if sys.stderr.isatty() else [])
    call += ["--sshloginfile", os.path.abspath(means.machines), "--workdir", there, "--basefile", "emtp", "--cleanup"]
    call += [word for it in job.shared for word in ("--basefile", it)]
    call += [word for it in job.sent for word in ("--transferfile", it)]
    call += [word for it in (*job.made, "{}.out", "{}.status") for word in ("--return", it)]
    with subprocess.Popen([*call, command], cwd=means.room, stdin=subprocess.PIPE, text=True) as ran:
        try:
            ran.communicate("\n".join(left) + "\n")
        except BaseException:
            for _ in range(2):  # at the second one parallel ends what it runs
                ran.terminate()
                time.sleep(0.5)
            raise
