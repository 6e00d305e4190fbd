"""The pages of the repository as a small site: each page of Markdown as one of HTML, with a list of them all beside it.

A link to what isn't part of the site, as a crate, keeps its text alone. It needs python3-markdown.
"""

from __future__ import annotations

import html
import posixpath
import re
from pathlib import Path

TOP = Path(__file__).resolve().parent.parent
LIST = TOP / "docs" / "manual.list"  # where it is there: the pages of the manual, in order
STYLE = """
:root { color-scheme: light dark; }
body { margin: 0; font: 16px/1.5 system-ui, sans-serif; }
nav { padding: 1em; font-size: 15px; }
nav a { display: inline-block; margin-right: 1em; }
main { padding: 1em; max-width: 62em; min-width: 0; }
pre { overflow-x: auto; padding: .6em; background: rgba(128, 128, 128, .12); }
code { font-size: 90%; }
table { border-collapse: collapse; display: block; overflow-x: auto; }
td, th { border: 1px solid rgba(128, 128, 128, .5); padding: .2em .5em; text-align: left; vertical-align: top; }
img { max-width: 100%; height: auto; background: white; }
@media (min-width: 70em) { body { display: flex; } nav { flex: 0 0 14em; } nav a { display: block; } }
"""
PAGE = """<!DOCTYPE html>
<html lang="en">
<head>
<meta charset="utf-8">
<meta name="viewport" content="width=device-width, initial-scale=1">
<title>{title}</title>
<style>{style}</style>
</head>
<body>
<nav>{nav}</nav>
<main>
{body}
</main>
</body>
</html>
"""
GIVEN = (".case", ".png", ".cfg", ".dat", ".times", ".py")  # what of the examples is part of the site


def anchor(heading: str, _: str) -> str:
    """A heading as links name it."""
    return re.sub(" ", "-", re.sub(r"[^\w\- ]", "", heading.lower()))


def sources() -> list[Path]:
    """The pages, in the order in which they stand in the list of them."""
    if LIST.is_file():
        lines = LIST.read_text(encoding="utf-8").splitlines()
        pages = [TOP / line.split()[1] for line in lines if line.startswith(("* ", "- "))]
    else:
        pages = [TOP / "examples" / "README.md", *sorted((TOP / "docs").glob("*.md"))]
    return [TOP / "README.md", *pages, TOP / "CHANGELOG.md"]


def place_of(source: Path) -> str:
    """Where a file of the repository stands in the site."""
    name = source.relative_to(TOP).as_posix()
    return re.sub(r"(^|/)README\.html$", r"\1index.html", re.sub(r"\.md$", ".html", name))


def title_of(source: Path) -> str:
    return source.read_text(encoding="utf-8").split("\n")[0].lstrip("# ").replace("`", "")


def link(own: str, given: str, known: dict[Path, str]) -> str | None:
    """A link of a page at the place `own` within the site; none where it leads out of it."""
    if re.match(r"[a-z]+:|#", given):
        return given
    file, mark, heading = given.partition("#")
    goal = known.get((TOP / posixpath.dirname(own) / file).resolve())
    return None if goal is None else posixpath.relpath(goal, posixpath.dirname(own) or ".") + mark + heading


def text_of(source: Path) -> str:
    """The text of a page, its indented code by two blanks, as lists are within lists."""
    lines, fenced = [], False
    for line in source.read_text(encoding="utf-8").split("\n"):
        fenced ^= line.startswith("```")
        lines.append(line[2:] if line.startswith("    ") and not fenced else line)
    return "\n".join(lines)


def rendered(source: Path, known: dict[Path, str]) -> str:
    """A page."""
    import markdown

    own = place_of(source)
    converter = markdown.Markdown(
        extensions=["tables", "fenced_code", "sane_lists", "toc"],
        extension_configs={"toc": {"slugify": anchor}},
        tab_length=2,
    )
    body = converter.convert(text_of(source))

    def led(found: re.Match[str]) -> str:
        goal = link(own, html.unescape(found[1]), known)
        return found[2] if goal is None else f'<a href="{html.escape(goal)}">{found[2]}</a>'

    body = re.sub(r'<a href="([^"]*)">(.*?)</a>', led, body, flags=re.S)
    rows = [(posixpath.relpath(place_of(it), posixpath.dirname(own) or "."), title_of(it)) for it in sources()]
    nav = "\n".join(f'<a href="{goal}">{html.escape(title)}</a>' for goal, title in rows)
    return PAGE.format(title=html.escape(title_of(source)), style=STYLE, nav=nav, body=body)


def site() -> dict[str, bytes]:
    """The files of the site, by their places in it."""
    folders = sorted(it for it in (TOP / "examples").iterdir() if it.is_dir())
    given = [it for folder in folders for it in sorted(folder.rglob("*")) if it.suffix in GIVEN and it.is_file()]
    known = {it: place_of(it) for it in [*sources(), *given]}
    cases = {folder: folder / f"{folder.name}.case" for folder in folders}
    known |= {folder: place_of(case) for folder, case in cases.items() if case in given}
    known[TOP / "examples"] = known[TOP / "docs"] = place_of(TOP / "examples" / "README.md")
    found = {place_of(it): it.read_bytes() for it in given}
    return found | {place_of(it): rendered(it, known).encode() for it in sources()}


def broken(files: dict[str, bytes]) -> list[str]:
    """The links and pictures of a site that lead nowhere."""
    marks = {name: set(re.findall(rb'\bid="([^"]+)"', text)) for name, text in files.items() if name.endswith(".html")}
    found = []
    for name in marks:
        for given in re.findall(r'(?:href|src)="([^"]+)"', files[name].decode()):
            if re.match(r"[a-z]+:", given):
                continue
            file, _, heading = html.unescape(given).partition("#")
            goal = posixpath.normpath(posixpath.join(posixpath.dirname(name), file)) if file else name
            if goal not in files or heading and heading.encode() not in marks.get(goal, ()):
                found.append(f"{name}: {given} leads nowhere")
    return found
