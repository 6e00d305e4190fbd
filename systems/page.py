"""The page: one file of HTML with the program, its script, the examples and the tables of the cards in it.

`page(top, module, source)` gives its text. `module` is the WebAssembly module with addresses of 32 bits, as `packed` makes it. What
the page is made of stands in the folder page/ beside this file, and its plot in python/wurdanei/web/, since `emtp plot` writes the
same one.
"""
from __future__ import annotations

import base64
import gzip
import hashlib
import json
import re
from pathlib import Path
from typing import Any

import tables

PARTS = Path(__file__).resolve().parent / "page"
PACKAGE = Path(__file__).resolve().parent.parent / "python" / "wurdanei"
SHARED = PACKAGE / "web"  # what pages of `emtp plot` have too
# what the page's own script is made of, in order: what needs no page, the plot, the parts of the page; and that of its workers
PURE = [f"{it}.js" for it in ("record", "cards", "measures", "pictures", "study", "fixes", "markdown")]
PARTED = (
    "elements",
    "references",
    "case",
    "store",
    "program",
    "editor",
    "checking",
    "running",
    "meaning",
    "live",
    "results",
    "worth",
)
SCRIPT = [*PURE, *(f"{it}.js" for it in PARTED), "files.js", "manual.js", "form.js", "page.js"]
WORKER = ["record.js", "call.js", "worker.js"]
FIRST = "breaker_recovery"  # the example that is open at first
MOST_GIVEN = 300_000  # bytes of a record that an example brings along at most


def text(path: Path) -> str:
    return path.read_text(encoding="utf-8")


def joined(names: list[str], shared: bool = False) -> str:
    """Files of scripts, one behind the other; where `shared`, behind those of the plot."""
    parts = [text(PARTS / name) for name in names]
    return '"use strict";\n' + "\n".join((plot() if shared else []) + parts)


def plot() -> list[str]:
    """The scripts of the plot: the numbers of its rules, the rules, the curves, the panel around them."""
    rules = json.dumps(json.loads(text(SHARED / "rules.json")), ensure_ascii=False, separators=(",", ":"))
    return [f"const RULES = {rules};", *(text(SHARED / f"{it}.js") for it in ("rules", "plot", "panel"))]


def manual(top: Path) -> str:
    """The pages of the manual that the page has (`*` in docs/manual.list), packed."""
    marked = [line.split()[1] for line in text(top / "docs" / "manual.list").splitlines() if line.startswith("* ")]
    names = {it: "examples" if it == "examples/README.md" else Path(it).stem for it in marked}
    pages = [{"name": name, "text": text(top / it)} for it, name in names.items()]
    return packed(json.dumps(pages, ensure_ascii=False, separators=(",", ":")).encode())


def groups(top: Path) -> dict[str, str]:
    """Of each example that examples/README.md shows: the heading that it stands below."""
    found: dict[str, str] = {}
    heading = ""
    for line in text(top / "examples" / "README.md").split("\n"):
        heading = line[3:] if line.startswith("## ") else heading
        for name in re.findall(r"`(\w+)`|\]\((\w+)/", line):
            found.setdefault(name[0] or name[1], heading)
    return found


def within(script: str) -> str:
    """A text as it may stand in an element of a script."""
    return script.replace("</", "<\\/")


def example(folder: Path) -> dict[str, Any] | None:
    """An example as the page opens it: its cards, and what its words ask for; none where it isn't a page's."""
    name = folder.name
    case = folder / f"{name}.case"
    words = text(folder / "words").split("\n")[:-1] if (folder / "words").is_file() else ["run"]
    if not case.is_file() or not (folder / "expected.note").is_file():
        return None
    found: dict[str, Any] = {"name": name, "text": text(case), "what": words[0]}
    about = [line[2:].strip() for line in found["text"].split("\n") if line.startswith("C ")]
    found["about"] = about[0] if about else ""
    if words[0] == "scan":
        found["numbers"] = dict(zip(("first", "last", "by"), words[2:]))
    elif words[0] == "batch":
        found["times"] = text(folder / "before" / words[2])
    elif words[0] == "audit":
        files = {kind: folder / "before" / word for kind, word in zip(("cfg", "dat"), words[2:])}
        if sum(file.stat().st_size for file in files.values()) > MOST_GIVEN:
            return None
        found |= {kind: file.read_bytes().decode("latin-1") for kind, file in files.items()}
    return found


def examples(top: Path) -> list[dict[str, Any]]:
    """The examples of the repository, by name, the first one of the page before them."""
    folders = sorted(it for it in (top / "examples").iterdir() if it.is_dir())
    found = [it for it in map(example, folders) if it]
    known = groups(top)
    for it in found:
        heading = known.get(it["name"], "")
        plain = heading in ("", "Recipes", "Studies in Python", "Those without a picture")
        it["group"] = "Recipes" if heading == "Recipes" else "More examples" if plain else "Worked examples"
    return sorted(found, key=lambda it: it["name"] != FIRST)


def packed(module: bytes) -> str:
    """A module as it stands in a page: packed by gzip, in base64."""
    return base64.b64encode(gzip.compress(module, 9, mtime=0)).decode()


def unpacked(module: str) -> bytes:
    return gzip.decompress(base64.b64decode(module))


def module_of(made: str) -> str:
    """The module that stands in a page, packed as it is there."""
    found = re.search(r'id="module32">([A-Za-z0-9+/=]+)</script>', made)
    if not found:
        raise ValueError("the page has no module")
    return found[1]


def source_of(made: str) -> str:
    """What a page says that its module was made of."""
    found = re.search(r'"about":"(?:[^"]*?[Pp]age \w+, made|Made) of (.*?); the module', made)
    return found[1] if found else ""


def number() -> str:
    """The version of Wurdanei, which the package has."""
    return re.findall(r'^__version__ = "(.*)"$', text(PACKAGE / "__init__.py"), re.M)[0]


def sum_of(part: str) -> str:
    """The sum by which the page's policy lets a script or a style through."""
    return f"'sha256-{base64.b64encode(hashlib.sha256(part.encode()).digest()).decode()}'"


def page(top: Path, module: str, source: str) -> str:
    """The page, of this packed module, made of what `source` names."""
    told = tables.tables(top)
    script, style = joined(SCRIPT, True), text(SHARED / "plot.css") + text(PARTS / "page.css")
    body = text(PARTS / "page.html")
    # which page of a version it is: a sum of all that it is made of
    version = hashlib.sha256("\0".join([body, script, style, module, source]).encode()).hexdigest()[:8]
    told["about"] = f"Wurdanei {number()}, page {version}, made of {source}; the module has {len(unpacked(module)):,} bytes."
    parts = {
        "STYLE_SUM": sum_of(style),
        "SCRIPT_SUM": sum_of(script),
        "STYLE": style,
        "TABLES": within(json.dumps(told, ensure_ascii=False, separators=(",", ":"))),
        "EXAMPLES": within(json.dumps(examples(top), ensure_ascii=False, separators=(",", ":"))),
        "OWN": "",
        "MANUAL": manual(top),
        "MODULE32": module,
        "WORKER": joined(WORKER),
        "SCRIPT": script,
    }
    if any("</script" in part or "<!--" in part for name, part in parts.items() if name in ("SCRIPT", "WORKER")):
        raise ValueError("a script of the page would end its own element")
    # one pass, so that no part is looked through for marks
    pieces = body.split("@")
    return "".join(parts.get(piece, f"@{piece}") if at % 2 else piece for at, piece in enumerate(pieces))
