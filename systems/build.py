#!/usr/bin/env python3
"""Makes of the proved library emtp_page what runs on other systems than that of the program.

    systems/build.py page FOLDER      emtp.html: the program in a page of a browser, in one file
    systems/build.py systems FOLDER   emtp.exe (Windows), emtp-aarch64 and emtp-x86_64 (Linux, static)
    systems/build.py anew FILE        emtp.html once more, of its parts as they stand and the module that is in it
    systems/build.py same FILE        whether emtp.html is that
    systems/build.py proved FILE [FOLDER]   whether its module is that of the library, behind `rt ci` in a fresh checkout; where a
                                      FOLDER is named, it gets the programs of other systems, each made twice, alike

The first two begin with the LLVM module that the toolchain's compiler makes of the library once it is proved: `rt lib` proves and
builds it, and a second build, over what the first one kept, hands the same module out (its archive has to be the same, byte
for byte). `proved` builds over the libraries that `rt ci` has left, which `rt lib` would prove anew, and writes nothing into the
crates. The module is made for x86-64; its layout of data, triple and processor are replaced by those of the other
system, and clang compiles it. What it takes from around it are the three functions of the heap alone, which stand beside this
file; any other stops the build.

It needs the toolchain (rt). Addresses of 32 bits for the page are made by wasm-opt (Debian: binaryen), without which there is no
page; the programs are linked by x86_64-w64-mingw32-gcc (gcc-mingw-w64-x86-64), aarch64-linux-gnu-gcc (gcc-aarch64-linux-gnu) and
gcc with libc6-dev. What is missing is said, and what can be made without it is made.
"""
from __future__ import annotations

import contextlib
import os
import re
import shutil
import subprocess
import sys
import tempfile
from dataclasses import dataclass
from pathlib import Path
from typing import Callable

HERE = Path(__file__).resolve().parent
TOP = HERE.parent
sys.path.insert(0, str(HERE))

import page as pages  # noqa: E402  (beside this file)
import wide  # noqa: E402

CRATE = TOP / "crates" / "emtp_page"
EXPORTS = ["emtp_page_call", "emtp_page_show", "emtp_page_judge"]
HEAP = {"rattle_alloc", "rattle_realloc", "rattle_dealloc"}
STACK = 1 << 20  # bytes of the module's stack; it stands below all data, so that what needs more ends in a trap


class Lacking(Exception):
    """A tool isn't there, or did what it shouldn't; in words."""


@dataclass(frozen=True)
class Target:
    """A system that the module is compiled for: LLVM's names of it, and the flags of clang."""

    triple: str
    layout: str
    cpu: str
    flags: tuple[str, ...]


WASM = Target(
    "wasm64-unknown-unknown",
    "e-m:e-p:64:64-p10:8:8-p20:8:8-i64:64-i128:128-n32:64-S128-ni:1:10:20",
    "lime1",
    # divisions of 128 bits are written out; what a function may need of its own accord stands in memory.c
    ("-mcpu=lime1", "-mllvm", "-expand-div-rem-bits=64", "-mllvm", "-trap-unreachable"),
)
X86 = "i64:64-i128:128-f80:128-n8:16:32:64-S128"
PIECES = "p270:32:32-p271:32:32-p272:64:64"
NATIVE = ("-mllvm", "-no-trap-after-noreturn", "-mllvm", "-trap-unreachable")
WINDOWS = Target("x86_64-w64-windows-gnu", f"e-m:w-{PIECES}-{X86}", "x86-64", NATIVE)
LINUX = Target("x86_64-unknown-linux-gnu", f"e-m:e-{PIECES}-{X86}", "x86-64", (*NATIVE, "-fPIC"))
AARCH64 = Target(
    "aarch64-unknown-linux-gnu",
    f"e-m:e-{PIECES}-i8:8:32-i16:16:32-i64:64-i128:128-n32:64-S128-Fn32",
    "generic",
    (*NATIVE, "-fPIC"),
)
# each program: its name, its target, what links it with which flags, and Debian's package
PROGRAMS = [
    # no time stamp, so that the same sources give the same bytes
    (
        "emtp.exe",
        WINDOWS,
        "x86_64-w64-mingw32-gcc",
        ("-municode", "-static", "-s", "-Wl,--no-insert-timestamp"),
        "gcc-mingw-w64-x86-64",
    ),
    ("emtp-aarch64", AARCH64, "aarch64-linux-gnu-gcc", ("-static", "-s"), "gcc-aarch64-linux-gnu"),
    ("emtp-x86_64", LINUX, "gcc", ("-static", "-s"), "gcc and libc6-dev"),
]


def say(text: str) -> None:
    print(f"systems: {text}", file=sys.stderr, flush=True)


def ran(*words: str | Path, folder: Path | None = None, **how: object) -> str:
    """Runs a command, and gives what it prints."""
    done = subprocess.run(
        [str(it) for it in words],
        cwd=folder,
        stdin=subprocess.DEVNULL,
        stdout=subprocess.PIPE,
        stderr=subprocess.STDOUT,
        text=True,
        errors="replace",
        check=False,
        **how,
    )
    if done.returncode:
        raise Lacking(f"{Path(str(words[0])).name} ended with {done.returncode}: {done.stdout[-1500:].strip()}")
    return done.stdout


def kit() -> Path:
    """The folder of the toolchain, by where its command is."""
    found = shutil.which(os.environ.get("RT", "rt"))
    if not found:
        raise Lacking('rt isn\'t there (docs/trust.md, "Trusted")')
    folder = Path(found).resolve().parent.parent
    for file in ("bin/rattle", "toolchain/bin/clang", "toolchain/bin/ld.lld", "rattle/logic/antt-project.json"):
        if not (folder / file).exists():
            raise Lacking(f"the toolchain of {found} has no {file}")
    return folder


def clang(*words: str | Path, folder: Path) -> str:
    return ran(kit() / "toolchain" / "bin" / "clang", *words, folder=folder)


# ---- the module


def libraries() -> list[str]:
    """The libraries of this repository that the crate names."""
    for line in (TOP / "crates.txt").read_text(encoding="utf-8").split("\n"):
        name, _, below = line.split("#")[0].partition(":")
        if name.split()[:1] == [CRATE.name]:
            return below.split()
    raise Lacking(f"crates.txt has no {CRATE.name}")


def keeping_toolchain(room: Path) -> Path:
    """The toolchain's programs, with a clang that leaves the module that it is given in the room."""
    own, made = kit() / "toolchain", room / "toolchain"
    (made / "bin").mkdir(parents=True)
    for part in own.iterdir():
        if part.name != "bin":
            (made / part.name).symlink_to(part)
    for part in (own / "bin").iterdir():
        if part.name != "clang":
            (made / "bin" / part.name).symlink_to(part)
    script = made / "bin" / "clang"
    script.write_text(
        "#!/bin/sh\n"
        f"for word; do case $word in *.bc) cp -- \"$word\" '{room}/module.bc' ;; esac; done\n"
        f"exec '{own}/bin/clang' \"$@\"\n",
        encoding="utf-8",
    )
    script.chmod(0o755)
    return made


def words_of(room: Path) -> list[str | Path]:
    """The words by which the toolchain builds the library over those that are built, with a clang that keeps the module."""
    of_kit = kit() / "rlibs"
    words: list[str | Path] = ["--crate-name", CRATE.name, "src/lib.rt"]
    words += ["--extern", f"std={of_kit}/std.rlib", "-L", f"dependency={of_kit}"]
    for name in libraries():
        words += ["--extern", f"{name}={TOP}/crates/{name}/out/rlib/{name}.rlib"]
    for folder in sorted((TOP / "crates").glob("*/out/rlib")):
        words += ["-L", f"dependency={folder}"]
    words += ["--antt-project", kit() / "rattle/logic/antt-project.json", "--logic-built", kit() / "logic_built"]
    words += ["--jobs", "1", "--links", f"{CRATE.name}=", "--crate-type", "staticlib"]
    return [*words, "--backend", "llvm", "--toolchain", keeping_toolchain(room), "-o", room / "again.a"]


def module(room: Path) -> Path:
    """The compiler's module of the library, which `rt lib` proves and builds, as a text in LLVM's language."""
    say("proving and building crates/emtp_page")
    ran(os.environ.get("RT", "rt"), "lib", folder=CRATE)
    ran(kit() / "bin" / "rattle", "build", *words_of(room), "--incremental", "out/incremental", folder=CRATE)
    if (room / "again.a").read_bytes() != (CRATE / "out" / f"lib{CRATE.name}.a").read_bytes():
        raise Lacking("the module that was handed out isn't that of the library: the two archives differ")
    return as_text(room)


def proved_module(room: Path) -> Path:
    """The compiler's module of the library, proved once more over the libraries that `rt ci` has left."""
    say("proving and building crates/emtp_page over what rt ci has proved")
    ran(kit() / "bin" / "rattle", "build", *words_of(room), folder=CRATE)
    return as_text(room)


def as_text(room: Path) -> Path:
    """The module that clang was given, as a text."""
    made = room / "module.bc"
    if not made.is_file():
        raise Lacking("the compiler handed no module to clang")
    clang("-S", "-emit-llvm", "-Xclang", "-disable-llvm-passes", "-x", "ir", made, "-o", "module.ll", folder=room)
    return room / "module.ll"


def taken_by(text: str) -> set[str]:
    """What a module takes from around it, but what LLVM has of itself."""
    declared = re.findall(r'^declare [^@\n]*@("[^"]+"|[\w.$]+)\(', text, re.MULTILINE)
    return {name.strip('"') for name in declared if not name.strip('"').startswith("llvm.")}


def adapted(text: str, target: Target) -> str:
    """The module for another system: its layout, its triple and its processor are replaced."""
    for mark in (" asm ", " asm sideeffect ", "llvm.x86."):
        if mark in text:
            raise Lacking(f"the module has what is of x86-64 alone: {mark.strip()}")
    if taken_by(text) - HEAP:
        raise Lacking(f"the module takes more than the heap: {', '.join(sorted(taken_by(text) - HEAP))}")
    missing = [name for name in EXPORTS if f"@{name}(" not in text]
    if missing:
        raise Lacking(f"the module has no {', '.join(missing)}")
    text, layouts = re.subn(r'^target datalayout = ".*"', f'target datalayout = "{target.layout}"', text, flags=re.M)
    text, triples = re.subn(r'^target triple = ".*"', f'target triple = "{target.triple}"', text, flags=re.M)
    if (layouts, triples) != (1, 1):
        raise Lacking("the module names no layout or no triple, or more than one")
    own = f'"target-cpu"="{target.cpu}"'
    if target is WASM:
        own = f'"no-builtin-bcmp" "no-builtin-memcmp" "no-builtin-strlen" {own}'
    lines = []
    for line in text.split("\n"):
        if line.startswith("attributes "):
            line = re.sub(r'"target-cpu"="[^"]*"', own, line)
            line = re.sub(r' ?"target-features"="[^"]*"| ?"tune-cpu"="[^"]*"', "", line)
            if not target.triple.startswith("x86_64-unknown"):
                # a word that LLVM doesn't know, and so takes for nothing, since no group may be empty
                line = line.replace('"probe-stack"="inline-asm"', '"no-probe-stack"')
        lines.append(line)
    return "\n".join(lines)


COMMON = ("--no-default-config", "-fintegrated-cc1", "-ffunction-sections", "-fdata-sections", "-Wno-override-module")


def compiled(text: str, target: Target, room: Path) -> Path:
    """The object of the module for a system."""
    name = target.triple.split("-")[0] + "-" + target.triple.split("-")[2]
    (room / f"{name}.ll").write_text(adapted(text, target), encoding="utf-8")
    made = room / f"{name}.o"
    how = (f"--target={target.triple}", *target.flags, *COMMON, "-O3", "-x", "ir")
    if target is not WASM:
        clang(*how, "-c", room / f"{name}.ll", "-o", made, folder=room)
        return made
    optimised = room / "optimised.ll"
    clang(*how, "-S", "-emit-llvm", room / f"{name}.ll", "-o", optimised, folder=room)
    optimised.write_text(wide.narrowed(optimised.read_text(encoding="utf-8")), encoding="utf-8")
    clang(*how, "-Xclang", "-disable-llvm-passes", "-c", optimised, "-o", made, folder=room)
    return made


# ---- WebAssembly


def wasm(text: str, room: Path) -> bytes:
    """The module of WebAssembly with addresses of 64 bits. It takes nothing from its host."""
    objects = [compiled(text, WASM, room)]
    for name in ("heap", "memory"):
        objects.append(room / f"{name}.o")
        how = (f"--target={WASM.triple}", *WASM.flags, *COMMON, "-O2", "-ffreestanding", "-c")
        clang(*how, "-x", "c", HERE / f"{name}.c", "-o", objects[-1], folder=room)
    words: list[str | Path] = [
        kit() / "toolchain/bin/ld.lld",
        "-flavor",
        "wasm",
        "-mwasm64",
        "--no-entry",
        "--stack-first",
    ]
    words += ["-z", f"stack-size={STACK}", "--gc-sections", "--fatal-warnings", "--threads=1", "--strip-all"]
    words += [f"--export={name}" for name in EXPORTS]
    ran(*words, "-o", room / "module64.wasm", *objects, folder=room)
    return (room / "module64.wasm").read_bytes()


def with_table_of_32(module64: bytes) -> bytes:
    """The module with a table of 32 bits: Debian's binaryen reads no other. The table is empty and used by nothing."""
    table, kept = bytes.fromhex("0405017005010105"), bytes.fromhex("0405017001010105")
    count = module64.count(table)
    if count > 1:
        raise Lacking("the module's section of tables isn't the one that is known")
    return module64.replace(table, kept) if count else module64


def lowered(module64: bytes, room: Path) -> bytes:
    """The module with addresses of 32 bits, which all browsers have; by wasm-opt."""
    (room / "table.wasm").write_bytes(with_table_of_32(module64))
    features = ["memory64", "bulk-memory", "sign-ext", "mutable-globals", "nontrapping-float-to-int", "multivalue"]
    flags = [f"--enable-{it}" for it in features]
    ran("wasm-opt", *flags, "--memory64-lowering", "table.wasm", "-o", "module32.wasm", folder=room)
    return (room / "module32.wasm").read_bytes()


@contextlib.contextmanager
def in_room():
    """A folder for what is made on the way."""
    with tempfile.TemporaryDirectory(prefix="emtp-systems-") as room:
        yield Path(room)


def module_text(made: Callable[[Path], Path], room: Path) -> str:
    """The compiler's module, for a page. What is missing for that is said before an hour of proving."""
    if not shutil.which("wasm-opt"):
        raise Lacking("no page: wasm-opt isn't there, which gives its module addresses of 32 bits (Debian: binaryen)")
    return made(room).read_text(encoding="utf-8")


def page_module(text: str, room: Path) -> bytes:
    """The page's module of WebAssembly, of the compiler's module."""
    return lowered(wasm(text, room), room)


# ---- what is made


def dist(folder: Path) -> list[Path]:
    """Makes the page in a folder."""
    with in_room() as room:
        made = page_module(module_text(module, room), room)
        version = ran(os.environ.get("RT", "rt"), "version").strip().split("\n")[0]
        made_page = pages.page(TOP, pages.packed(made), f"the proved library emtp_page, by {version}")
    folder.mkdir(parents=True, exist_ok=True)
    (folder / "emtp.html").write_text(made_page, encoding="utf-8", newline="\n")
    return [folder / "emtp.html"]


def of_parts(file: Path) -> str:
    """A page of the parts as they stand, with the module of a page that was made before."""
    made = file.read_text(encoding="utf-8")
    return pages.page(TOP, pages.module_of(made), pages.source_of(made))


def anew(file: Path) -> list[Path]:
    """Makes a page once more of its parts; its module stays."""
    made = of_parts(file)
    file.write_text(made, encoding="utf-8", newline="\n")
    return [file]


def same(file: Path) -> list[Path]:
    """Holds a page to its parts."""
    if of_parts(file).encode() != file.read_bytes():
        raise Lacking(f"{file} isn't what its parts make: systems/build.py anew {file}")
    return [file]


def proved(file: Path, folder: Path | None = None) -> list[Path]:
    """Holds the module of a page to the library as `rt ci` has proved it, and makes programs of it where a folder is given."""
    there = pages.unpacked(pages.module_of(file.read_text(encoding="utf-8")))
    with in_room() as room:
        text = module_text(proved_module, room)
        if page_module(text, room) != there:
            raise Lacking(f"the module in {file} isn't that of the proved library: ./build --dist")
        return [file, *(alike(text, room, folder) if folder else [])]


def linked(name: str, target: Target, linker: str, flags: tuple[str, ...], text: str, room: Path, folder: Path) -> Path:
    """Makes the program of a system."""
    objects = [compiled(text, target, room), room / f"{name}.heap.o"]
    how = (f"--target={target.triple}", *target.flags, *COMMON, "-O2", "-c")
    clang(*how, "-x", "ir", HERE / "heap.ll", "-o", objects[1], folder=room)
    made = folder / name
    own = ("-std=c11", "-O2", "-Wall", "-Wextra", "-Werror", "-Wl,--gc-sections")
    ran(linker, *own, *flags, "-o", made, HERE / "shell.c", *objects, folder=room)
    return made


def programs(text: str, room: Path, folder: Path) -> list[Path]:
    """Makes the programs of other systems in a folder, as far as their linkers are there."""
    folder.mkdir(parents=True, exist_ok=True)
    made = []
    for name, target, linker, flags, package in PROGRAMS:
        if shutil.which(linker):
            made.append(linked(name, target, linker, flags, text, room, folder.resolve()))
        else:
            say(f"{name} isn't made: {linker} isn't there (Debian: {package})")
    return made


def alike(text: str, room: Path, folder: Path) -> list[Path]:
    """The same, each made twice, whose bytes have to be the same."""
    made = programs(text, room, folder)
    for one, other in zip(made, programs(text, room, room / "again")):
        if one.read_bytes() != other.read_bytes():
            raise Lacking(f"{one.name}, made twice, has other bytes")
    return made


def systems(folder: Path) -> list[Path]:
    """Makes the programs of other systems in a folder."""
    with in_room() as room:
        return programs(module(room).read_text(encoding="utf-8"), room, folder)


def main() -> int:
    words = sys.argv[1:]
    kinds: dict[str, Callable[..., list[Path]]] = {"page": dist, "systems": systems, "anew": anew, "same": same, "proved": proved}
    if words == ["--help"]:
        print(__doc__.strip())
        return 0
    most = 3 if words[:1] == ["proved"] else 2
    if not 2 <= len(words) <= most or words[0] not in kinds:
        print(__doc__.strip(), file=sys.stderr)
        return 1
    try:
        for made in kinds[words[0]](*map(Path, words[1:])):
            say(f"{made}: {made.stat().st_size:,} bytes")
    except (Lacking, OSError, ValueError) as fault:
        say(str(fault))
        return 70
    return 0


if __name__ == "__main__":
    try:
        sys.exit(main())
    except KeyboardInterrupt:
        sys.exit(130)
