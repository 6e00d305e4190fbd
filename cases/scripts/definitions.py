"""The definitions of crates/*/specs and the types of crates/*/src, and what cites which of them.

A clause cites definitions, and these cite others. A name is followed by the imports of its file, a type that the code declares by
the types of its fields.
"""
import itertools
import os
import re
from typing import AbstractSet, Iterator

TOP = os.path.join(os.path.dirname(os.path.realpath(__file__)), os.pardir, os.pardir)
CRATES = os.path.join(TOP, "crates")
WORD = re.compile(r"[^\s(){}\[\],;]+")

Cited = tuple[str, str]  # a module, and a name in it
Place = tuple[str, str, str]  # a file of src/, the words with which clauses begin there, and those with which they end

# Where clauses stand: those of the program's call and of what it is called over, of real files, of show and of judge.
CALL: list[Place] = [
    ("emtp_run/src/run.rt", "pub fn emtp<", "\n{"),
    ("emtp_run/src/status.rt", "pub fn code", "\n    {"),
    ("emtp_io/src/cabinet.rt", "pub trait Cabinet", "\n}"),
]
PROGRAM: list[Place] = [*CALL, ("emtp_io/src/disk.rt", "Cabinet for DiskCabinet", "\n}")]
SHOW: list[Place] = [("emtp_inspect/src/showing.rt", "pub fn inspect<", "\n{")]
JUDGE: list[Place] = [("emtp_assess/src/assessing.rt", "pub fn assess<", "\n{")]


def crate_of(module: str) -> str:
    """The crate of a module."""
    return module.split(".")[1]


def clauses_at(place: Place) -> tuple[str, str]:
    """The text of a file of src/, and of it what stands at a place."""
    file, first, last = place
    with open(os.path.join(CRATES, file), encoding="utf-8") as source:
        text = source.read()
    start = text.index(first)
    return text, text[start : text.index(last, start)]


def imports_of(text: str, words: str) -> dict[str, Cited]:
    """What the imports of a text bring in: the name that is used, with the module and the name there."""
    found = {}
    for match in re.finditer(words + r"\s+([^;{\s]+?)\.?(?:\{([^}]*)\}|(?:\s+as\s+(\w+))?(?=[;\s]))", text):
        module, names, other = match.groups()
        if names is None:
            above, _, last = module.rpartition(".")
            found[other or last] = (above, last)
        for name in (names or "").split(","):
            name, _, other = name.strip().partition(" as ")
            if name:
                found[other.strip() or name] = (module, name)
    return found


def begins(line: str) -> str | None:
    """The name that a definition's first line defines."""
    match = re.match(
        r"(?:(?:abbrev|unfoldable|opaque)\s+)*(?:pub\s+)?(?:(?:record|data)\s+(\S+)|([^\s(]+)\s*:(?=\s|$))", line
    )
    if match is None or re.match(r"(pub\s+)?(use|mod)\s", line):
        return None
    return match[1] or match[2]


class Definitions:
    """A file of definitions: the lines of each, and what each cites."""

    def __init__(self, module: str, path: str) -> None:
        self.module = module
        self.path = path
        with open(path, encoding="utf-8") as file:
            text = file.read()
        self.imports = imports_of(text, r"(?m)^(?:pub\s+)?use")
        self.bodies: dict[str, list[str]] = {}
        body: list[str] | None = None
        code = [re.sub(r"(^|\s)--.*", "", line) for line in text.split("\n")]
        self.fixities = [" ".join(line.split()) for line in code if line.startswith("infix")]
        for line in code:
            if re.match(r"(pub\s+)?(use|mod)\s|infix", line):
                body = None
            elif line and not line[0].isspace() and (name := begins(line)):
                body = self.bodies[name] = []
            if body is not None and line.strip():
                body.append(line)
        for name, body in list(self.bodies.items()):
            if re.match(r"(pub\s+)?data\s", body[0]):
                for line in body[1:]:
                    made = re.match(r"\s+(\S+)\s*:(\s|$)", line)
                    if made:
                        self.imports.setdefault(made[1], (module, name))
        head = "".join(itertools.takewhile(lambda line: line.startswith("-- "), text.splitlines(keepends=True)))
        self.says = re.split(r"[.] ", head.replace("-- ", "").replace("\n", " ") + " ")[0].strip()
        self.lines = sum(bool(line.strip()) and not re.match(r"(pub\s+)?use\s", line) for line in text.split("\n"))

    def names_in(self, body: list[str]) -> Iterator[Cited]:
        """What a body cites."""
        for word in WORD.findall(" ".join(body)):
            first, _, rest = word.partition(".")
            for name in (word, first, f"◌{word}◌", f"◌{word}", word.strip("«»")):
                if name in self.bodies:
                    yield self.module, name
                elif name in self.imports:
                    yield self.imports[name]
            if rest and first in self.imports:
                yield ".".join(self.imports[first]), rest.split(".")[0]
            if word == "do" and ("◌>>=◌" in self.bodies or "◌>>=◌" in self.imports):
                yield (self.module, "◌>>=◌") if "◌>>=◌" in self.bodies else self.imports["◌>>=◌"]
            if word == "if" and "if◌then◌else◌" in self.imports:
                yield self.imports["if◌then◌else◌"]

    def text_of(self, name: str) -> str:
        """A definition without comments and as if on one line."""
        return " ".join(" ".join(self.bodies[name]).split())

    def empty_headings(self) -> Iterator[str]:
        """The headings, which stand apart from a definition and are no sentence, under which nothing stands."""
        with open(self.path, encoding="utf-8") as file:
            parts = [part for part in re.split(r"\n\s*\n", file.read().strip("\n")) if part.strip()]
        heads = [part.startswith("--") and "\n" not in part and not part.endswith(".") for part in parts]
        for part, is_head, next_is_head in zip(parts[1:], heads[1:], heads[2:] + [True]):
            if is_head and next_is_head:
                yield part


class Sources:
    """All definitions, what clauses cite of them, and what they cite of the standard library and of the code."""

    def __init__(self) -> None:
        self.files: dict[str, Definitions] = {}
        for crate in sorted(os.listdir(CRATES)):
            top = os.path.join(CRATES, crate, "specs")
            for folder, _, files in os.walk(top):
                for file in files:
                    if file.endswith(".antt"):
                        path = os.path.join(folder, file)
                        place = os.path.relpath(path, top)[:-5].replace(os.sep, ".")
                        module = f"Rattle.{crate}.specs.{place}"
                        self.files[module] = Definitions(module, path)

    def resolved(self, cited: Cited) -> Cited:
        """Where a name is defined: files may hand on what others define."""
        module, name = cited
        while module in self.files and name not in self.files[module].bodies and name in self.files[module].imports:
            module, name = self.files[module].imports[name]
        return module, name

    def is_defined(self, cited: Cited) -> bool:
        return cited[0] in self.files and cited[1] in self.files[cited[0]].bodies

    def cites(self, cited: Cited) -> Iterator[Cited]:
        """What a definition cites, of specs/ or of anything else."""
        file = self.files[cited[0]]
        return (self.resolved(name) for name in file.names_in(file.bodies[cited[1]]))

    def reached(self, roots: list[Cited], without: AbstractSet[str] = frozenset()) -> set[Cited]:
        """The definitions that are reached, but for those of some crates."""
        found, todo = set(), [self.resolved(root) for root in roots]
        while todo:
            cited = todo.pop()
            if cited not in found and self.is_defined(cited) and crate_of(cited[0]) not in without:
                found.add(cited)
                todo += self.cites(cited)
        return found

    def cited_elsewhere(self, reached: set[Cited]) -> dict[str, set[str]]:
        """What definitions cite that specs/ don't define: the names by their modules."""
        found: dict[str, set[str]] = {}
        for at in reached:
            for module, name in self.cites(at):
                if module not in self.files and not module.endswith(".specs"):
                    found.setdefault(module, set()).add(name)
        return found

    @staticmethod
    def clauses_cite(places: list[Place]) -> list[Cited]:
        """What clauses cite."""
        found = []
        for text, clauses in map(clauses_at, places):
            imports = imports_of(text, "ghost use")
            for word in WORD.findall(clauses):
                found += [imports[name] for name in (word, word.split(".")[0]) if name in imports]
        return found


class Declared:
    """The types and constants that the code declares, and the types of their fields."""

    def __init__(self, elsewhere: dict[str, set[str]]) -> None:
        self.texts: dict[str, str] = {}
        self.homes: dict[Cited, str] = {}  # by crate and name
        for crate in sorted(os.listdir(CRATES)):
            top = os.path.join(CRATES, crate, "src")
            for folder, _, files in os.walk(top):
                for file in files:
                    path = os.path.join(folder, file)
                    with open(path, encoding="utf-8") as source:
                        self.texts[path] = source.read()
                    for name in re.findall(
                        r"(?m)^(?:pub(?:\([^)]*\))? )?(?:struct|enum|const) (\w+)", self.texts[path]
                    ):
                        self.homes.setdefault((crate, name), path)
        self.found: dict[str, list[str]] = {}
        self.items: dict[Cited, str] = {}  # by crate and name, without what is said of them
        self.lines = 0
        for module in sorted(elsewhere):
            if ".specs.declared." in module and module.startswith("Rattle.emtp"):
                names = elsewhere[module]
                if "TheConstants." in module or module.endswith(".TheVariants"):
                    names = {module.split(".")[-1 if "TheConstants." in module else -2]}
                for name in sorted(names - {"TheVariants"}):
                    self.follow(crate_of(module), name)

    def follow(self, crate: str, name: str) -> None:
        """Takes a type or a constant, and the types of its fields."""
        path = self.homes.get((crate, name))
        if path is None or name in self.found.get(path, []):
            return
        self.found.setdefault(path, []).append(name)
        text = self.texts[path]
        item = re.search(
            rf"(?m)((?:^(?:///|#\[).*\n)*)^(?:pub(?:\([^)]*\))? )?(?:struct|enum|const) {name}\b[^;{{]*(;|\{{(?:.*\n)*?\}})",
            text,
        )
        if item is None:
            return
        self.lines += item[0].strip().count("\n") + 1
        self.items[crate, name] = re.sub(r"//.*|#\[.*\]", "", item[0])
        body = re.sub(r"//.*|ghost .*", "", item[0])
        uses = dict(self.uses_of(text, crate))
        for word in dict.fromkeys(re.findall(r"\b[A-Z]\w+\b", body)):
            self.follow(uses.get(word, crate), word)

    @staticmethod
    def uses_of(text: str, crate: str) -> Iterator[Cited]:
        """The names that a file of src/ uses, with the crates that they are from."""
        for at, names in re.findall(r"(?m)^use (\w+)(?:::\w+)*::(\{[^}]*\}|\w+)", text):
            for name in re.findall(r"\w+", names):
                yield name, crate if at == "crate" else at

    def files(self) -> Iterator[tuple[str, str, list[str]]]:
        """The crate and the name of each file, and what is cited of it."""
        for path in sorted(self.found):
            crate, _, file = os.path.relpath(path, CRATES).partition(os.sep + "src" + os.sep)
            yield crate, file, sorted(self.found[path])
