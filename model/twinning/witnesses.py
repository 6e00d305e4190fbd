"""What a changed model is run on: rows of folders and tables, random cases, and laws; and what it leaves."""
import ast
import hashlib
import importlib.machinery
import importlib.util
import itertools
import os
import random
import signal
import sys
import time
from collections.abc import Iterable, Iterator
from pathlib import Path
from types import CodeType, ModuleType

from emtp_model.size import size

from .changes import HERE, MODULES, noting, source

SCRIPTS = os.path.join(os.path.dirname(HERE), "cases", "scripts")
MOST = 6_000  # branches in all steps, as `size` counts them, of a row
MOST_RANDOM = 800  # of a random case
LARGEST = 10_000_000  # bytes of the files of a row
RANDOM = {"run": 480, "phasor": 100, "scan": 60, "batch": 80, "audit": 80}  # cases of a command
SEED = "1"


OF_RUNS = ("row", "random", "refusal", "difference")
OF_CARDS = ("refusal", "row", "difference", "random")

Outcome = tuple[
    int, list[tuple[bytes | None, bytes]]
]  # status, and the name of each output (standard output: none) with its bytes


class Witness:
    """Words and files."""

    def __init__(self, name: str, words: list[str], files: dict[str, bytes], expected: Outcome | None = None):
        self.name, self.kind, self.words, self.files = name, name.split()[0], words, files
        self.expected = None if expected is None else told(expected)
        self.answer, self.seconds = "", 0.0
        self.seen: dict[str, int] = {}  # of each module the lines of the statements that it runs, as bits

    def runs(self, module: str, line: int | None) -> bool:
        """Whether it runs a statement; what stands outside of functions any does."""
        return line is None or bool(self.seen[module] >> line & 1)


def told(outcome: Outcome) -> str:
    """The sum of what is left."""
    return hashlib.sha256(repr(outcome).encode()).hexdigest()


class Late(BaseException):
    """The model takes longer than it should."""


def late(*_: object) -> None:
    """Ends what runs."""
    raise Late()


signal.signal(signal.SIGVTALRM, late)


# ---- the model's modules, one of them changed


class Model:
    """The modules of the model from their trees, as a package of their own."""

    def __init__(self, changed: dict[str, CodeType], seen: dict[str, dict[int, int]] | None = None, anew: bool = True):
        """Without `anew` only the changed modules and those that stand on them are made, beside others of the model before."""
        made = MODULES if anew else [name for name in MODULES if STANDS_ON[name] & changed.keys()]
        if anew:
            for name in [name for name in sys.modules if name.split(".")[0] == "emtp_model"]:
                del sys.modules[name]
            package = ModuleType("emtp_model")
            package.__path__ = [os.path.join(HERE, "emtp_model")]
            sys.modules["emtp_model"] = package
        for name in made:
            module = ModuleType(f"emtp_model.{name}")
            module.__package__ = "emtp_model"
            if seen is not None:
                module.__dict__["_seen"] = seen.setdefault(name, {})
            sys.modules[module.__name__] = module
            setattr(sys.modules["emtp_model"], name, module)
            exec(changed.get(name, CODE[name]), module.__dict__)
        self.main = sys.modules["emtp_model.main"]

    def outcome(self, words: list[str], files: dict[str, bytes]) -> Outcome:
        """Status and outputs."""
        main = self.main

        def read_file(name: bytes, bound: int) -> bytes:
            data = files.get(os.fsdecode(name))
            if data is None:
                raise main.ReadFault()
            return data[:bound]

        setattr(main, "read_file", read_file)
        found: Outcome = main.outcome([os.fsencode(word) for word in words])
        return found

    def answer(self, witness: Witness, seconds: float) -> str:
        """The sum of what is left, or what kept the model from its end."""
        signal.setitimer(signal.ITIMER_VIRTUAL, seconds)
        try:
            return told(self.outcome(witness.words, witness.files))
        except Late:
            return "late"
        except Exception as error:  # a changed model may fail in any way
            return f"fails: {type(error).__name__}"
        finally:
            signal.setitimer(signal.ITIMER_VIRTUAL, 0)

    def broken_law(self) -> str | None:
        """The law that this model, the last one made, breaks, or None."""
        sys.modules.pop("twinning.laws", None)
        laws = importlib.import_module("twinning.laws")
        for law, it, *_ in laws.TWINS:
            signal.setitimer(signal.ITIMER_VIRTUAL, 60)
            try:
                if not law(it):
                    return f"law {law.__doc__}"
            except (Late, Exception):
                return f"law {law.__doc__}"
            finally:
                signal.setitimer(signal.ITIMER_VIRTUAL, 0)
        return None


sys.path.append(SCRIPTS)  # of places.py


def stands_on() -> dict[str, set[str]]:
    """Each module with itself and those that it stands on, near and far."""
    found: dict[str, set[str]] = {}
    for name in MODULES:
        own = {name}
        for node in ast.walk(ast.parse(source(name))):
            if isinstance(node, ast.ImportFrom) and node.level:
                names = [node.module] if node.module else [alias.name for alias in node.names]
                own = own.union(*(found[other] for other in names))
        found[name] = own
    return found


STANDS_ON = stands_on()
CODE = {name: compile(source(name), name, "exec") for name in MODULES}


# ---- the witnesses


def script(name: str, place: str = SCRIPTS) -> ModuleType:
    """A script as a module."""
    loader = importlib.machinery.SourceFileLoader("script_" + name, os.path.join(place, name))
    spec = importlib.util.spec_from_loader(loader.name, loader)
    assert spec is not None
    found = importlib.util.module_from_spec(spec)
    loader.exec_module(found)
    return found


def folders(wanted: str | None = None) -> Iterator[Witness]:
    """The rows of examples/ and cases/ that the model knows."""
    check = script("check", HERE)
    for name, path in check.folders().items():
        if wanted in (None, name) and not check.is_study(Path(path)):
            for number, row in enumerate(check.rows_of(Path(path)), 1):
                if check.is_known(row.words):
                    yield Witness(f"row {name} {number}", row.words, dict(row.before))


def refusals() -> Iterator[Witness]:
    """The rows of the tables of refusals."""
    table = script("refusals")
    counts: dict[str, int] = {}
    for row in table.Table().rows:
        key = f"refusal {row.name.split(':')[0]} {row.case} {bars(row.text)}"
        counts[key] = counts.get(key, 0) + 1
        expected: Outcome | None = (2, [(None, row.note(False).encode())]) if row.answer in table.REASONS else None
        yield Witness(f"{key} {counts[key]}", ["run", "CASE", "CFG", "DAT"], {"CASE": row.data()}, expected)


def differences() -> Iterator[Witness]:
    """The rows of the tables of differences."""
    table = script("differences")
    counts: dict[str, int] = {}
    for name in table.TABLES:
        for section in table.sections_of(name):
            for row in section.rows:
                key = f"difference {section.file} {section.line} {bars(row.text)}"
                counts[key] = counts.get(key, 0) + 1
                files = {"CASE": row.record.case, "CFG": row.files["cfg"].data(), "DAT": row.files["dat"].data()}
                status, printed = row.expected()
                expected: Outcome = (status, [(None, printed.encode())])
                yield Witness(f"{key} {counts[key]}", ["audit", "CASE", "CFG", "DAT"], files, expected)


def bars(text: str) -> str:
    """The text of a row in a list whose items are parted by bars."""
    return " ".join(text.replace("|", "/").split())


class Own:
    """The model as the program that makes the records of random audits."""

    def __init__(self, many: ModuleType):
        self.many, self.model = many, Model({})

    def run(self, words: list[str], files: dict[str, bytes]) -> object:
        """What a run leaves."""
        status, outputs = self.model.outcome(words, files)
        made = {os.fsdecode(name): data for name, data in outputs if name is not None}
        return self.many.Answer(status, b"", made)


class Randoms:
    """Random cases, as cases/scripts/many makes them."""

    def __init__(self) -> None:
        self.many, self.profiles = script("many"), script("generate", HERE).PROFILES
        self.own = Own(self.many)

    def one(self, command: str, number: int) -> Witness | None:
        """The case of this number, unless it is too large."""
        profile = command if command in ("phasor", "scan", "batch") else self.many.PROFILES[number % len(self.many.PROFILES)]
        name = f"random {command} {number}"
        case = self.profiles[profile](random.Random(f"{SEED} {profile} {number + 1}"))
        if self.many.size(["run", "CASE", "CFG", "DAT"], {"CASE": case}) > MOST_RANDOM:
            return None
        words, files = self.many.asked(command, random.Random(name), case, self.own)
        return Witness(name, words, files) if self.many.size(words, files) <= MOST_RANDOM else None


def randoms() -> Iterator[Witness]:
    """All of them."""
    made = Randoms()
    for command, count in RANDOM.items():
        yield from (it for it in (made.one(command, number) for number in range(count)) if it is not None)


def is_case(name: str) -> bool:
    """Whether the name is that of a witness with a case."""
    return name.split()[0] in OF_RUNS


def named(name: str) -> Witness | None:
    """The witness of this name."""
    kind, word, *rest = name.split()
    if kind == "random":
        return Randoms().one(word, int(rest[0]))
    among = {"row": lambda: folders(word), "refusal": refusals, "difference": differences}[kind]()
    return next((it for it in among if it.name == name), None)


def small(witness: Witness) -> bool:
    """Whether a witness is run at all."""
    if sum(map(len, witness.files.values())) > LARGEST:
        return False
    try:
        return int(size(witness.words, witness.files)) <= MOST
    except (ValueError, IndexError):
        return True


def witnesses() -> list[Witness]:
    """All of them; no law is among them."""
    return [it for it in itertools.chain(folders(), refusals(), differences(), randoms()) if small(it)]


def bits(lines: Iterable[int]) -> int:
    """The number that has these bits."""
    return sum(1 << line for line in lines)


class Watched:
    """The model as it is, with notes of the statements that it runs."""

    def __init__(self) -> None:
        self.seen: dict[str, dict[int, int]] = {}
        self.model = Model(NOTING, self.seen)
        self.at_start = {name: bits(lines) for name, lines in self.seen.items()}  # what any run does

    def run(self, witness: Witness) -> Witness:
        """The witness with the model's answer, its time, and the statements that it runs."""
        for lines in self.seen.values():
            lines.clear()
        began = time.process_time()
        witness.answer = self.model.answer(witness, 600)
        witness.seconds = time.process_time() - began
        witness.seen = {name: bits(lines) | self.at_start[name] for name, lines in self.seen.items()}
        return witness


NOTING = {name: compile(noting(name), name, "exec", dont_inherit=True) for name in MODULES}
