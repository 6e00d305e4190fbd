"""`emtp lsp`: a language server for cases, for any editor that has a client of the protocol (version 3.16).

It speaks over standard input and output. Diagnostics, hints and fixes are answers of the proved program; it has no rule
of the cards of its own, and it doesn't format: numbers that were moved to the right of their fields would hide a slip.
"""

from __future__ import annotations

import argparse
import json
import os
import queue
import re
import sys
import threading
import time
import typing
from decimal import Decimal

from . import columns, deck, fields, mending, names, program, reading, ruler
from .columns import Card, Field
from .reading import Mark, Reading

WAIT = 0.15  # seconds without a change before a case is judged
MOST = 100  # completions in an answer
ERROR, WARNING = 1, 2  # severities of a diagnostic
TOKENS = ["comment", "keyword", "enumMember", "variable", "property", "number", "operator", "string"]
TOKEN_OF_KIND = {"number": "number", "whole": "enumMember", "sign": "operator", "text": "string"}
NAME_ITEM, VALUE_ITEM, CARD_ITEM = 6, 12, 15  # kinds of completions: variable, value, snippet
SECTION_SYMBOL, CARD_SYMBOL = 2, 8  # kinds of symbols: module, field
REQUEST_FAILED, INTERNAL, UNKNOWN_METHOD = -32803, -32603, -32601
# the kinds of cards that may stand in a section
OF_SECTION = {
    "blocks": ("block", "coefficients"),
    "TACS sources": ("control source",),
    "supplemental cards": ("formula", "device", "point of a table"),
    "TACS outputs": ("output",),
    "branches": ("series branch", "line", "nonlinear branch", "point of a characteristic"),
    "switches": ("switch", "valve"),
    "sources": ("source",),
    "node outputs": ("output",),
}
CARDS = {card.name: card for card in columns.CARDS}
Json = dict[str, typing.Any]


class Fault(Exception):
    """Why a request isn't answered, in words."""


# ---- places: the protocol counts in UTF-16, the program in bytes


def units(text: str) -> int:
    """How long a text is in UTF-16."""
    return len(text.encode("utf-16-le", "surrogatepass")) // 2


def offset(text: str, place: Json) -> int:
    """Where a place of the protocol is in a text."""
    begin = 0
    for _ in range(place["line"]):
        end = text.find("\n", begin)
        if end < 0:
            return len(text)
        begin = end + 1
    end = text.find("\n", begin)
    left, at = place["character"], begin
    while left > 0 and at < (len(text) if end < 0 else end):
        left -= units(text[at])
        at += 1
    return at


def span(it: Reading, line: int, first: int, last: int) -> Json:
    """A range of columns of a line."""
    raw = it.lines[line].encode("latin-1")
    begin, end = (units(raw[:column].decode("utf-8", "replace")) for column in (first, max(first, last)))
    return {"start": {"line": line, "character": begin}, "end": {"line": line, "character": end}}


def whole_line(it: Reading, line: int) -> Json:
    return span(it, line, 0, len(it.lines[line]))


def replaced(it: Reading, line: int, text: str) -> Json:
    """An edit that puts a text in place of a line: of what differs alone, so that nothing else of the line is touched."""
    old = it.lines[line]
    front = len(os.path.commonprefix([old, text]))
    back = len(os.path.commonprefix([old[front:][::-1], text[front:][::-1]]))
    return {"range": span(it, line, front, len(old) - back), "newText": plain(text[front : len(text) - back])}


def plain(text: str) -> str:
    """The text of bytes."""
    return text.encode("latin-1").decode("utf-8", "replace")


# ---- documents


class Document:
    """An open case: its text, and what is known of it since its last change. `due` is when it is judged next, 0 never."""

    def __init__(self, text: str, version: int) -> None:
        self.text, self.version, self.due = text, version, time.monotonic()
        self._reading: Reading | None = None
        self._judged = False

    def change(self, changes: list[Json], version: int) -> None:
        """Takes the changes of a client, one after the other."""
        for one in changes:
            if "range" in one:
                start, end = (offset(self.text, one["range"][edge]) for edge in ("start", "end"))
                self.text = self.text[:start] + one["text"] + self.text[end:]
            else:
                self.text = one["text"]
        self.version, self._reading, self._judged = version, None, False
        self.due = time.monotonic() + WAIT

    def read(self) -> Reading:
        """The case as it is read."""
        if self._reading is None:
            self._reading = reading.read(self.text)
        return self._reading

    def judged(self) -> Reading:
        """The same with what is refused and warned of."""
        it = self.read()
        if not self._judged:
            reading.judge(it)
            self._judged = True
        return it


# ---- the server


class Server:
    """Open cases, and the answers to what a client asks of them. `send` takes each message to the client."""

    def __init__(self, send: typing.Callable[[Json], None]) -> None:
        self.documents: dict[str, Document] = {}
        self.stopped = False
        self._send = send
        self._methods: dict[str, typing.Callable[[Json], typing.Any]] = {
            "initialize": self.initialize,
            "shutdown": self.shutdown,
            "textDocument/didOpen": self.opened,
            "textDocument/didChange": self.changed,
            "textDocument/didClose": self.closed,
            "textDocument/hover": self.hover,
            "textDocument/completion": self.completion,
            "textDocument/documentSymbol": self.symbols,
            "textDocument/foldingRange": self.folds,
            "textDocument/semanticTokens/full": self.tokens,
            "textDocument/definition": self.definitions,
            "textDocument/references": self.references,
            "textDocument/documentHighlight": self.highlights,
            "textDocument/prepareRename": self.prepare_rename,
            "textDocument/rename": self.rename,
            "textDocument/codeAction": self.actions,
        }

    def take(self, message: Json) -> None:
        """Answers a request, or takes a note; of an answer, and of notes that it doesn't know, it does nothing."""
        method, number = message.get("method"), message.get("id")
        if method is None:
            return
        if method not in self._methods:
            answer: Json = {"error": {"code": UNKNOWN_METHOD, "message": f"no {method}"}}
        else:
            try:
                answer = {"result": self._methods[method](message.get("params") or {})}
            except Fault as fault:
                answer = {"error": {"code": REQUEST_FAILED, "message": str(fault)}}
            except Exception as fault:  # a server that ends takes the editor's marks with it
                answer = {"error": {"code": INTERNAL, "message": f"{type(fault).__name__}: {fault}"}}
        if number is not None:
            self._send({"id": number, **answer})

    def wait(self) -> float | None:
        """The seconds until a case has to be judged, none where nothing is due."""
        due = [it.due for it in self.documents.values() if it.due]
        return max(0.0, min(due) - time.monotonic()) if due else None

    def publish_due(self) -> None:
        """Tells of the cases whose time has come what is refused and warned of."""
        for uri, document in self.documents.items():
            if document.due and document.due <= time.monotonic():
                document.due = 0.0
                try:
                    it = document.judged()
                except program.ProgramError as fault:
                    self._send({"method": "window/showMessage", "params": {"type": ERROR, "message": str(fault)}})
                    continue
                told = {"uri": uri, "version": document.version, "diagnostics": [diagnostic(it, at) for at in it.marks]}
                self._send({"method": "textDocument/publishDiagnostics", "params": told})

    # ---- its life

    def initialize(self, _: Json) -> Json:
        provided = ("hover", "documentSymbol", "foldingRange", "definition", "references", "documentHighlight")
        return {
            "capabilities": {
                **{f"{name}Provider": True for name in provided},
                "textDocumentSync": {"openClose": True, "change": 2},
                "completionProvider": {},
                "renameProvider": {"prepareProvider": True},
                "codeActionProvider": {"codeActionKinds": ["quickfix"]},
                "semanticTokensProvider": {"legend": {"tokenTypes": TOKENS, "tokenModifiers": []}, "full": True},
            },
            "serverInfo": {"name": "emtp lsp"},
        }

    def shutdown(self, _: Json) -> None:
        self.stopped = True

    def opened(self, given: Json) -> None:
        it = given["textDocument"]
        self.documents[it["uri"]] = Document(it["text"], it["version"])

    def changed(self, given: Json) -> None:
        it = given["textDocument"]
        self.documents[it["uri"]].change(given["contentChanges"], it["version"])

    def closed(self, given: Json) -> None:
        uri = given["textDocument"]["uri"]
        self.documents.pop(uri, None)
        self._send({"method": "textDocument/publishDiagnostics", "params": {"uri": uri, "diagnostics": []}})

    def _document(self, given: Json) -> Document:
        uri = given["textDocument"]["uri"]
        if uri not in self.documents:
            raise Fault(f"{uri} isn't open")
        return self.documents[uri]

    def _place(self, given: Json) -> tuple[Reading, int, int]:
        """The case of a request, the line and the column that are meant."""
        document, place = self._document(given), given["position"]
        it = document.read()
        line = min(place["line"], len(it.lines) - 1)
        text = plain(it.lines[line])
        head = text[: offset(text, {"line": 0, "character": place["character"]})]
        return it, line, len(head.encode("utf-8")) + max(0, place["character"] - units(text))

    # ---- hints

    def hover(self, given: Json) -> Json | None:
        it, line, column = self._place(given)
        card = it.cards[line]
        if card is None:
            return {"contents": {"kind": "markdown", "value": it.kinds[line]}} if it.kinds[line] else None
        self._document(given).judged()
        parts = [f"```\n{card.legend()}\n{plain(it.lines[line])}\n{' ' * column}^\n```"]
        found = it.field_at(line, column)
        if found:
            blank = f"; blank: {found.blank}" if found.kind != "sign" else ""
            place = f"columns {found.first}-{found.last}" if found.width > 1 else f"column {found.first}"
            parts.append(f"**{found.name}**, {place}: {range_of(it, line, found)}{blank}")
            parts += [f"read as **{value}**"] if (value := as_read(it, line, found)) else []
        else:
            parts.append("this column isn't read")
        parts.append(f"*{card.name}* (docs/{card.page}.md, {card.heading})")
        parts += [f"    {told}" for told in it.told.get(line, [])]
        return {"contents": {"kind": "markdown", "value": "\n\n".join(parts)}}

    def completion(self, given: Json) -> Json:
        it, line, column = self._place(given)
        found = self._completions(it, line, column)
        return {"isIncomplete": len(found) > MOST, "items": found[:MOST]}

    def _completions(self, it: Reading, line: int, column: int) -> list[Json]:
        text = it.lines[line]
        if not text.strip() or not it.kinds[line]:
            return [template(name, it, line) for name in cards_due(it, line)]
        part = it.field_at(line, column)
        if part and part.choices:
            return [into(it, line, part, str(one), str(one).rjust(part.width), VALUE_ITEM) for one in part.choices]
        if not part or part.kind != "name":
            return []
        kind = names.NODE if names.is_node(part, it.kinds[line]) else names.VARIABLE
        known = {name.text for name in names.names_of(it) if name.kind == kind and name.line != line}
        known |= set(names.KNOWN) if kind == names.VARIABLE else set()
        head = text[part.first - 1 : column].strip()
        begun = sorted(name for name in known if name.startswith(head))
        return [into(it, line, part, name, name.ljust(part.width), NAME_ITEM) for name in begun]

    # ---- the whole

    def symbols(self, given: Json) -> list[Json]:
        it = self._document(given).read()
        found = []
        for section in it.sections:
            inner = [symbol(it, at) for at in range(section.first, section.last) if it.cards[at]]
            whole = whole_line(it, section.last) | {"start": {"line": section.first, "character": 0}}
            own = {"name": section.name, "kind": SECTION_SYMBOL, "range": whole, "selectionRange": whole}
            found.append(own | {"children": inner})
        return found

    def folds(self, given: Json) -> list[Json]:
        it = self._document(given).read()
        return [{"startLine": one.first, "endLine": one.last} for one in it.sections if one.last > one.first]

    def tokens(self, given: Json) -> Json:
        it = self._document(given).read()
        found, before = [], (0, 0)
        for line, (card, kind, text) in enumerate(zip(it.cards, it.kinds, it.lines)):
            for first, last, token in tokens_of(card, kind, text):
                ends = span(it, line, first, last)
                start, length = ends["start"]["character"], ends["end"]["character"] - ends["start"]["character"]
                moved = start - before[1] if line == before[0] else start
                found += [line - before[0], moved, length, TOKENS.index(token), 0]
                before = (line, start)
        return {"data": found}

    # ---- names

    def _names(self, given: Json) -> tuple[Reading, list[names.Name]]:
        """All names that name what the one at a place does."""
        it, line, column = self._place(given)
        own = names.name_at(it, line, column)
        return it, names.same(it, own) if own else []

    def _locations(self, given: Json, it: Reading, found: list[names.Name]) -> list[Json]:
        uri = given["textDocument"]["uri"]
        places = dict.fromkeys((name.line, name.first, name.last) for name in found)
        return [{"uri": uri, "range": span(it, *place)} for place in places]

    def references(self, given: Json) -> list[Json]:
        return self._locations(given, *self._names(given))

    def definitions(self, given: Json) -> list[Json]:
        it, found = self._names(given)
        return self._locations(given, it, ([name for name in found if name.defines] or found)[:1])

    def highlights(self, given: Json) -> list[Json]:
        return [{"range": it["range"]} for it in self.references(given)]

    def prepare_rename(self, given: Json) -> Json | None:
        it, line, column = self._place(given)
        own = names.name_at(it, line, column)
        return {"range": span(it, own.line, own.first, own.last), "placeholder": own.text} if own else None

    def rename(self, given: Json) -> Json:
        it, line, column = self._place(given)
        own = names.name_at(it, line, column)
        if own is None:
            raise Fault("no name stands here")
        try:
            lines = names.renamed(it, own, given["newName"].strip())
        except names.NameFault as fault:
            raise Fault(str(fault)) from None
        return {"changes": {given["textDocument"]["uri"]: [replaced(it, at, text) for at, text in lines.items()]}}

    # ---- quick fixes

    def actions(self, given: Json) -> list[Json]:
        it, uri = self._document(given).judged(), given["textDocument"]["uri"]
        first, last = given["range"]["start"]["line"], given["range"]["end"]["line"]
        found = []
        for mark in it.marks:
            for title, new in mending.mended(it, mark) if first <= mark.line <= last else ():
                edit = {"changes": {uri: [replaced(it, mark.line, new)]}}
                found.append({"title": title, "kind": "quickfix", "diagnostics": [diagnostic(it, mark)], "edit": edit})
        return found


# ---- what answers are made of


def diagnostic(it: Reading, mark: Mark) -> Json:
    """A mark as the protocol has it."""
    place = span(it, mark.line, mark.first, mark.last)
    found = {"range": place, "severity": ERROR if mark.refused else WARNING, "source": "emtp", "message": mark.text}
    return found | ({"code": mark.code} if mark.code else {})


def range_of(it: Reading, line: int, found: Field) -> str:
    """What a field may hold: of a number as the program tells it."""
    number = it.numbers.get((line, found.first))
    if number is None or found.choices:
        return ruler.range_of(found)
    span = re.sub(r"\d+(?:\.\d+)?", lambda digits: fields.brief(Decimal(digits[0])), number.span)
    ends, comma, more = span.partition(", ")
    return f"{ends} {number.unit if found.kind == 'number' else ''}".rstrip() + comma + more


def as_read(it: Reading, line: int, found: Field) -> str:
    """What a field was read as: a number as the program tells it, else by the listing, or else its number."""
    number = it.numbers.get((line, found.first))
    if number is not None:
        has_unit = found.kind == "number" and number.value not in ("", "never")
        return f"{number.value} {number.unit if has_unit else ''}".strip()
    for told in it.told.get(line, []):
        for entry in told.split(", ")[1:]:
            name, is_there, value = entry.partition("=")
            if is_there and name.lower() == found.name.lower():
                return value
    text = it.text_of(line, found)
    if found.kind == "number" and text.strip():
        try:
            return f"{deck.number(text)} {found.unit}".strip()
        except ValueError:
            return ""
    return ""


def symbol(it: Reading, line: int) -> Json:
    """A card by its names."""
    card = typing.cast(Card, it.cards[line])
    own = [it.text_of(line, part).strip() for part in card.fields if part.name in (*names.NODES, "name")]
    place = whole_line(it, line)
    label = " ".join(filter(None, own)) or card.name
    return {"name": label, "detail": card.name, "kind": CARD_SYMBOL, "range": place, "selectionRange": place}


def tokens_of(card: Card | None, kind: str, text: str) -> typing.Iterator[tuple[int, int, str]]:
    """First column, last column and kind of what is coloured of a line."""
    if card is None:
        if text.strip():
            yield 0, len(text), "comment" if kind == reading.COMMENT else "keyword"
        return
    if card.text:
        yield card.text_at - 1, card.text_at - 1 + len(card.text), "keyword"
    for part in card.fields:
        own = text[part.first - 1 : part.last]
        if own.strip():
            first = part.first - 1 + len(own) - len(own.lstrip())
            named = "variable" if names.is_node(part, kind) else "property"
            yield first, first + len(own.strip()), TOKEN_OF_KIND.get(part.kind, named)


def cards_due(it: Reading, line: int) -> list[str]:
    """The kinds of cards that may stand at a line."""
    for section in it.sections:
        if section.first <= line <= section.last:
            return list(OF_SECTION.get(section.name, ()))
    before = [kind for kind in it.kinds[:line] if kind and kind != reading.COMMENT]
    last = before[-1] if before else ""
    if not before or "BEGIN" in last or "TOLERANCE" in last:
        return ["tolerance", "first miscellaneous card"]
    if last == "the first miscellaneous card":
        return ["second miscellaneous card"]
    every = [*reading.CONTROL, *reading.NETWORK] if reading.HYBRID in it.kinds else list(reading.NETWORK)
    left = every[len(it.sections) :]
    return list(OF_SECTION.get(left[0], ())) if left else []


def template(name: str, it: Reading, line: int) -> Json:
    """A card with its legend above it as a comment, and the type that it has to have."""
    card = CARDS[name]
    text = "".join(card.blank()).rstrip()
    kind = card.fields[0]
    if kind.name == "type" and kind.blank == "refused":
        text = names.filled(text, 0, kind.width, str(kind.choices[0]).rjust(kind.width))
    edit = {"range": whole_line(it, line), "newText": f"C {card.legend()[2:]}\n{text}"}
    known = {"label": name, "kind": CARD_ITEM, "detail": card.heading, "documentation": ruler.text_of(card, False)}
    return known | {"textEdit": edit}


def into(it: Reading, line: int, part: Field, label: str, text: str, kind: int) -> Json:
    """A completion that fills the columns of a field, whatever stands there."""
    length = len(it.lines[line])
    start = min(part.first - 1, length)
    pad = " " * (part.first - 1 - start)
    edit = {"range": span(it, line, start, min(part.last, length)), "newText": pad + text}
    return {"label": label, "kind": kind, "textEdit": edit, "filterText": it.lines[line][start : part.last] or label}


# ---- the wire


def messages(read: typing.Callable[[], bytes]) -> typing.Iterator[Json]:
    """The messages of a stream, until it ends. `read` gives its next bytes, none at its end."""
    got = b""
    while True:
        head, end, rest = got.partition(b"\r\n\r\n")
        lengths = [line for line in head.split(b"\r\n") if line.lower().startswith(b"content-length:")] if end else []
        length = int(lengths[0].partition(b":")[2]) if lengths else 0
        if end and len(rest) >= length:
            got = rest[length:]
            if length:
                yield json.loads(rest[:length])
            continue
        more = read()
        if not more:
            return
        got += more


def send(message: Json) -> None:
    """Takes a message to the client."""
    body = json.dumps({"jsonrpc": "2.0", **message}).encode()
    sys.stdout.buffer.write(b"Content-Length: %d\r\n\r\n" % len(body) + body)
    sys.stdout.buffer.flush()


def serve() -> int:
    """Answers until the client says exit, or goes; 0 where it said shutdown before."""
    came: queue.Queue[Json | None] = queue.Queue()
    server = Server(send)

    def listen() -> None:
        for message in messages(lambda: os.read(0, 1 << 16)):
            came.put(message)
        came.put(None)

    threading.Thread(target=listen, daemon=True).start()
    while True:
        try:
            message = came.get(timeout=server.wait())
        except queue.Empty:
            server.publish_due()
            continue
        if message is None or message.get("method") == "exit":
            return 0 if server.stopped else 1
        server.take(message)


def main(words: list[str]) -> int:
    """Serves an editor, by standard input and output."""
    parser = argparse.ArgumentParser(
        prog="emtp lsp",
        description="Serves an editor that has a client of the language server protocol, over standard input and output: "
        "marks of what is refused and warned of, hints, quick fixes, names, symbols, colours. docs/install.md says how "
        "editors are told of it.",
    )
    parser.parse_args(words)
    return serve()
