#!/usr/bin/env python3
"""Makes packages of the programs, the Python package and the page: what anybody can install.

    packages/build.py FOLDER [PROGRAMS]   wheels, a .deb and a .zip for Windows in FOLDER, and SHA256SUMS of them

The programs for Linux on x86-64 are those of EMTP, EMTP_SHOW and EMTP_JUDGE, or else those that ./program finds; those of other
systems stand in the folder PROGRAMS, where `./build --systems` put them. What can't be made is said, and what can be made without it is made. The same sources and programs
give the same bytes: names are in order, there is one date, and no clock, user or network is asked.

It needs python3-markdown for the manual, and dpkg-deb for the .deb.
"""
from __future__ import annotations

import base64
import datetime
import email.utils
import gzip
import hashlib
import os
import re
import shutil
import subprocess
import sys
import tempfile
import textwrap
import tomllib
import zipfile
from dataclasses import dataclass
from pathlib import Path
from typing import Callable

HERE = Path(__file__).resolve().parent
TOP = HERE.parent
sys.path.insert(0, str(HERE))

import manual  # noqa: E402  (beside this file)

MAINTAINER = "Wurdanei <wurdanei@example.org>"
NAMES = ("emtp", "emtp_show", "emtp_judge")
NO_LICENCE = "There is no licence yet: it is the owner's to choose, and until then nobody else may pass copies on."
SUMS = "SHA256SUMS"


class Lacking(Exception):
    """Why a package can't be made, in words."""


@dataclass(frozen=True)
class File:
    """A file of a package: its bytes, and whether it is a program."""

    data: bytes
    runs: bool = False

    @property
    def mode(self) -> int:
        return 0o755 if self.runs else 0o644


Files = dict[str, File]  # by their places


@dataclass(frozen=True)
class Parts:
    """What all packages are made of. `systems` is the folder with programs of other systems, where there is one."""

    version: str
    date: datetime.datetime  # of the version, and of each file in a package
    project: dict
    package: Files  # the Python package, below wurdanei/
    sources: str  # the sum of the sources that the programs were made of
    systems: Path | None


def say(text: str) -> None:
    print(f"packages: {text}", file=sys.stderr, flush=True)


def taken(path: Path, runs: bool = False) -> File:
    return File(path.read_bytes(), runs)


def printed(*words: str | Path) -> str:
    """What a script of the repository prints."""
    done = subprocess.run([*map(str, words)], stdout=subprocess.PIPE, text=True, check=False)
    if done.returncode:
        raise Lacking(f"{words[0]} ended with {done.returncode}")
    return done.stdout


def parts(systems: Path | None) -> Parts:
    project = tomllib.loads((TOP / "python" / "pyproject.toml").read_text(encoding="utf-8"))
    package: Files = {}
    for name in project["tool"]["setuptools"]["packages"]:
        folder = TOP / "python" / name.replace(".", "/")
        files = sorted(folder.glob("*.py"))
        for pattern in project["tool"]["setuptools"]["package-data"].get(name, ()):
            files += sorted(folder.glob(pattern))
        package |= {it.relative_to(TOP / "python").as_posix(): taken(it) for it in files}
    version = re.findall(r'^__version__ = "(.*)"$', package["wurdanei/__init__.py"].data.decode(), re.M)[0]
    (newest, date, _), *_ = changes()
    if newest != version:
        raise Lacking(f"CHANGELOG.md begins with {newest}, and this is {version}")
    found = re.findall("^by files: (.*)$", printed(TOP / "program", "--sources"), re.M)
    return Parts(version, date, project["project"], package, found[0], systems)


def changes() -> list[tuple[str, datetime.datetime, list[str]]]:
    """What CHANGELOG.md tells of each version, newest first: its number, its date, and its items."""
    text = (TOP / "CHANGELOG.md").read_text(encoding="utf-8")
    found = []
    for head, body in re.findall(r"^## (.*)\n((?:(?!## ).*\n?)*)", text, re.M):
        number, _, date = head.partition(", ")
        items = [" ".join(it.split()) for it in re.split(r"^- |\n\n", body, flags=re.M) if it.strip()]
        at = datetime.datetime.fromisoformat(date).replace(tzinfo=datetime.timezone.utc)
        found.append((number, at, [re.sub(r"\[([^]]*)\]\([^)]*\)|`", r"\1", it) for it in items]))
    return found


def own_programs() -> Files:
    """The three programs of this system."""
    paths = [os.environ.get(name.upper(), "") for name in NAMES]
    if not all(paths):
        paths = printed(TOP / "program", *NAMES).split()
    return {name: taken(Path(path), True) for name, path in zip(NAMES, paths)}


def other_program(own: Parts, name: str, called: str) -> Files:
    """The program of another system, which is all three."""
    if own.systems is None or not (own.systems / name).is_file():
        raise Lacking(f"{name} isn't there (./build --systems makes it)")
    return {called: taken(own.systems / name, True)}


def made_of(own: Parts, programs: Files) -> File:
    """What stands beside the programs of a package: what they were made of, and their sums."""
    sums = "".join(f"{hashlib.sha256(it.data).hexdigest()}  {name}\n" for name, it in sorted(programs.items()))
    return File(f"of the sources {own.sources[:12]}\nby files: {own.sources}\n{sums}".encode())


# ---- archives


def zipped(path: Path, files: Files, date: datetime.datetime, last: str = "") -> None:
    """Writes a .zip; what stands below `last` comes behind the rest."""
    with zipfile.ZipFile(path, "w", zipfile.ZIP_DEFLATED, compresslevel=9) as archive:
        for name in sorted(files, key=lambda it: (bool(last) and it.startswith(last), it)):
            entry = zipfile.ZipInfo(name, date.timetuple()[:6])
            entry.create_system = 3
            entry.external_attr = (0o100000 | files[name].mode) << 16
            entry.compress_type = zipfile.ZIP_DEFLATED
            archive.writestr(entry, files[name].data)


def packed(data: bytes) -> File:
    """A text as a .gz without name and date."""
    return File(gzip.compress(data, 9, mtime=0))


# ---- wheels


def metadata(own: Parts) -> bytes:
    """What an installed package says of itself."""
    project = own.project
    needs = [f"Requires-Dist: {it}" for it in project["dependencies"]]
    for extra, its in project["optional-dependencies"].items():
        needs += [f"Provides-Extra: {extra}", *(f'Requires-Dist: {it} ; extra == "{extra}"' for it in its)]
    head = [
        "Metadata-Version: 2.1",
        f"Name: {project['name']}",
        f"Version: {own.version}",
        f"Summary: {project['description']}",
        f"Requires-Python: {project['requires-python']}",
        *needs,
        "Description-Content-Type: text/plain",
    ]
    return ("\n".join(head) + f"\n\n{project['description']}.\n\n{NO_LICENCE}\n").encode()


def wheel(own: Parts, programs: Files, platform: str, folder: Path) -> Path:
    """A wheel with programs, which stand in wurdanei/programs."""
    name = own.project["name"]
    info = f"{name}-{own.version}.dist-info"
    files = dict(own.package)
    files |= {f"{name}/programs/{program}": it for program, it in programs.items()}
    files[f"{name}/programs/made_of.txt"] = made_of(own, programs)
    scripts = {**own.project["scripts"], "emtp": f"{name}.command:entry"}
    points = "".join(f"{word} = {entry}\n" for word, entry in sorted(scripts.items()))
    tag = f"py3-none-{platform}"
    files[f"{info}/METADATA"] = File(metadata(own))
    files[f"{info}/WHEEL"] = File(
        f"Wheel-Version: 1.0\nGenerator: packages/build.py\nRoot-Is-Purelib: false\nTag: {tag}\n".encode()
    )
    files[f"{info}/entry_points.txt"] = File(f"[console_scripts]\n{points}".encode())
    rows = []
    for place, it in sorted(files.items()):
        digest = base64.urlsafe_b64encode(hashlib.sha256(it.data).digest()).rstrip(b"=").decode()
        rows.append(f"{place},sha256={digest},{len(it.data)}\n")
    files[f"{info}/RECORD"] = File("".join([*rows, f"{info}/RECORD,,\n"]).encode())
    path = folder / f"{name}-{own.version}-{tag}.whl"
    zipped(path, files, own.date, info)
    return path


def wheel_here(own: Parts, folder: Path) -> Path:
    """The tag tells the glibc that the programs need; that they need x86-64-v2 no tag can tell."""
    return wheel(own, own_programs(), "manylinux_2_34_x86_64", folder)


def wheel_aarch64(own: Parts, folder: Path) -> Path:
    """The program is static, so the tag names the oldest glibc that pip knows of aarch64."""
    return wheel(own, other_program(own, "emtp-aarch64", "emtp"), "manylinux_2_17_aarch64", folder)


def wheel_windows(own: Parts, folder: Path) -> Path:
    return wheel(own, other_program(own, "emtp.exe", "emtp.exe"), "win_amd64", folder)


# ---- Debian


def debian_files(own: Parts) -> Files:
    """What the .deb installs, by places below /."""
    programs, name = own_programs(), own.project["name"]
    library = "usr/lib/python3/dist-packages"
    doc = f"usr/share/doc/{name}"
    files = {f"{library}/{place}": it for place, it in own.package.items()}
    files[f"{library}/{name}-{own.version}.dist-info/METADATA"] = File(metadata(own))
    files |= {f"usr/lib/{name}/{program}": it for program, it in programs.items()}
    files[f"usr/lib/{name}/made_of.txt"] = made_of(own, programs)
    files["usr/bin/emtp"] = taken(HERE / "debian" / "emtp", True)
    files["usr/share/man/man1/emtp.1.gz"] = packed((HERE / "emtp.1").read_bytes())
    files["usr/share/bash-completion/completions/emtp"] = taken(HERE / "completions" / "emtp.bash")
    files["usr/share/zsh/vendor-completions/_emtp"] = taken(HERE / "completions" / "_emtp")
    files["usr/share/fish/vendor_completions.d/emtp.fish"] = taken(HERE / "completions" / "emtp.fish")
    files[f"usr/share/mime/packages/{name}.xml"] = taken(HERE / "debian" / "mime.xml")
    files[f"usr/share/applications/{name}.desktop"] = taken(HERE / "debian" / "emtp.desktop")
    files[f"usr/share/{name}/emtp.html"] = taken(TOP / "dist" / "emtp.html")
    editors = sorted(it for it in (TOP / "editors").rglob("*") if it.is_file() and it.name not in ("make", "try"))
    files |= {f"usr/share/{name}/editors/{it.relative_to(TOP / 'editors').as_posix()}": taken(it) for it in editors}
    files |= {f"{doc}/html/{place}": File(data) for place, data in manual.site().items()}
    files[f"{doc}/changelog.gz"] = packed(debian_changes(name).encode())
    files[f"{doc}/copyright"] = taken(HERE / "debian" / "copyright")
    files[f"usr/share/lintian/overrides/{name}"] = taken(HERE / "debian" / "overrides")
    return files


def debian_changes(name: str) -> str:
    """CHANGELOG.md as Debian has such a list."""
    found = []
    for number, date, items in changes():
        lines = "\n".join(textwrap.fill(it, 78, initial_indent="  * ", subsequent_indent="    ") for it in items)
        signed = f" -- {MAINTAINER}  {email.utils.format_datetime(date)}"
        found.append(f"{name} ({number}) unstable; urgency=medium\n\n{lines}\n\n{signed}\n")
    return "\n".join(found)


def deb(own: Parts, folder: Path) -> Path:
    if not shutil.which("dpkg-deb"):
        raise Lacking("no .deb: dpkg-deb isn't there (Debian's package dpkg)")
    name, files = own.project["name"], debian_files(own)
    control = (HERE / "debian" / "control").read_text(encoding="utf-8").replace("@VERSION@", own.version)
    kilobytes = sum(-(-len(it.data) // 1024) for it in files.values())
    files["DEBIAN/md5sums"] = File(
        "".join(f"{hashlib.md5(it.data).hexdigest()}  {place}\n" for place, it in sorted(files.items())).encode()
    )
    files["DEBIAN/control"] = File(control.replace("@SIZE@", str(kilobytes)).replace("@MAINTAINER@", MAINTAINER).encode())
    for script in ("postinst", "prerm"):
        files[f"DEBIAN/{script}"] = taken(HERE / "debian" / script, True)
    path, seconds = folder / f"{name}_{own.version}_amd64.deb", int(own.date.timestamp())
    with tempfile.TemporaryDirectory(prefix="emtp-deb-") as made:
        room = Path(made) / "tree"
        for place, it in files.items():
            (room / place).parent.mkdir(parents=True, exist_ok=True)
            (room / place).write_bytes(it.data)
            (room / place).chmod(it.mode)
        (room / "usr/lib/python3/dist-packages" / name / "programs").symlink_to(f"../../../{name}")
        (room / "usr/share/doc" / name / "examples").symlink_to("html/examples")
        for place in [room, *room.rglob("*")]:
            if place.is_dir() and not place.is_symlink():
                place.chmod(0o755)
            os.utime(place, (seconds, seconds), follow_symlinks=False)
        own_date = {**os.environ, "SOURCE_DATE_EPOCH": str(seconds)}
        words = ["dpkg-deb", "--root-owner-group", "-Zxz", "--build", str(room), str(path)]
        done = subprocess.run(words, env=own_date, capture_output=True, text=True, check=False)
        if done.returncode:
            raise Lacking(f"dpkg-deb: {done.stderr.strip()}")
    return path


# ---- Windows


def windows(own: Parts, folder: Path) -> Path:
    """The program, the page, the manual and the examples, for who has no Python."""
    programs = other_program(own, "emtp.exe", "emtp.exe")
    name = f"{own.project['name']}-{own.version}-windows"
    files = {f"{name}/{program}": it for program, it in programs.items()}
    files[f"{name}/made_of.txt"] = made_of(own, programs)
    files[f"{name}/emtp.html"] = taken(TOP / "dist" / "emtp.html")
    files[f"{name}/README.txt"] = File(
        (HERE / "windows.txt").read_text(encoding="utf-8").replace("\n", "\r\n").encode()
    )
    files |= {f"{name}/manual/{place}": File(data) for place, data in manual.site().items()}
    zipped(folder / f"{name}.zip", files, own.date)
    return folder / f"{name}.zip"


# ---- all of them

KINDS: dict[str, Callable[[Parts, Path], Path]] = {
    "the wheel for Linux on x86-64": wheel_here,
    "the wheel for Linux on aarch64": wheel_aarch64,
    "the wheel for Windows": wheel_windows,
    "the .deb": deb,
    "the .zip for Windows": windows,
}


def build(folder: Path, systems: Path | None) -> list[Path]:
    """Makes what can be made, and the sums of it."""
    folder.mkdir(parents=True, exist_ok=True)
    own, made = parts(systems), []
    for what, kind in KINDS.items():
        try:
            made.append(kind(own, folder))
        except (Lacking, ModuleNotFoundError) as fault:
            say(f"{what} isn't made: {fault}")
    sums = "".join(f"{hashlib.sha256(it.read_bytes()).hexdigest()}  {it.name}\n" for it in sorted(made))
    (folder / SUMS).write_text(sums, encoding="ascii")
    return made


def main() -> int:
    words = sys.argv[1:]
    if words == ["--help"]:
        print(__doc__.strip())
        return 0
    if not 1 <= len(words) <= 2 or words[0].startswith("-"):
        print(__doc__.strip(), file=sys.stderr)
        return 1
    try:
        for made in build(Path(words[0]), Path(words[1]) if len(words) == 2 else None):
            say(f"{made}: {made.stat().st_size:,} bytes")
    except (Lacking, OSError) as fault:
        say(str(fault))
        return 70
    return 0


if __name__ == "__main__":
    sys.exit(main())
