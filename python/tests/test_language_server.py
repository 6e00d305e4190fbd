"""Tests of `emtp lsp`: what a client gets of it. What is refused, warned of and read is the program's own answer."""

import json
import os
import pathlib
import random
import re
import subprocess
import sys
import tempfile
import typing
import unittest
from unittest import mock

from wurdanei import language_server, mending, names, program, reading
from wurdanei.language_server import Document, Json, Server

TOP = pathlib.Path(__file__).resolve().parents[2]
URI = "file:///divider.case"
# a divider whose inductance stands a column too far to the right, with a refused card behind it
SLIPPED = """\
BEGIN NEW DATA CASE
C R with Ü and 𝄞
   1.E-5     .04
       1       1
  SRC   BUS                 1.0 10.25     5.
  BUS                        9.5
BLANK
  BUS   END       0,5
BLANK
11SRC          100.0
BLANK
  BUS
BLANK
"""
ACCEPTED = SLIPPED.replace("  BUS   END       0,5\n", "")


def place(line: int, character: int) -> Json:
    return {"line": line, "character": character}


class Client:
    """A client within the process: what it asks, and the notes that it gets."""

    def __init__(self, text: str) -> None:
        self.got: list[Json] = []
        self.server = Server(self.got.append)
        self.ask("initialize")
        self.note("textDocument/didOpen", textDocument={"uri": URI, "languageId": "emtp", "version": 1, "text": text})

    def note(self, method: str, **params: typing.Any) -> None:
        self.server.take({"method": method, "params": params})

    def ask(self, method: str, **params: typing.Any) -> typing.Any:
        self.server.take({"id": 1, "method": method, "params": params})
        answer = self.got.pop()
        if "error" in answer:
            raise language_server.Fault(answer["error"]["message"])
        return answer["result"]

    def at(self, method: str, line: int, character: int, **more: typing.Any) -> typing.Any:
        where = {"textDocument": {"uri": URI}, "position": place(line, character)}
        return self.ask(f"textDocument/{method}", **where, **more)

    def whole(self, method: str, **more: typing.Any) -> typing.Any:
        return self.ask(f"textDocument/{method}", textDocument={"uri": URI}, **more)

    def marks(self) -> list[Json]:
        self.server.documents[URI].due = 1e-9
        self.server.publish_due()
        return typing.cast(list[Json], self.got.pop()["params"]["diagnostics"])

    def change(self, *changes: Json) -> None:
        self.note("textDocument/didChange", textDocument={"uri": URI, "version": 2}, contentChanges=list(changes))

    @property
    def text(self) -> str:
        return self.server.documents[URI].text


def edited(text: str, edits: list[Json]) -> str:
    """A text behind edits, as a client makes them."""
    document = Document(text, 1)
    for one in sorted(edits, key=lambda it: (-it["range"]["start"]["line"], -it["range"]["start"]["character"])):
        document.change([{"range": one["range"], "text": one["newText"]}], 2)
    return document.text


@unittest.skipUnless(program.is_there(), "the programs aren't there")
class Answers(unittest.TestCase):
    def test_marks(self) -> None:
        """A refusal at its field and, once it is gone, the warnings; ranges in UTF-16."""
        client = Client(SLIPPED)
        (mark,) = client.marks()
        self.assertEqual((mark["code"], mark["severity"]), ("NotANumber", 1))
        self.assertEqual(mark["range"], {"start": place(7, 14), "end": place(7, 21)})
        self.assertTrue(mark["message"].startswith("T-CLOSE: a comma; a number has a point."))
        client.change({"range": {"start": place(7, 0), "end": place(8, 0)}, "text": ""})
        self.assertEqual([it["severity"] for it in client.marks()], [])

    def test_warnings(self) -> None:
        """An inductance a column too far to the right touches the capacitance, and is read as less."""
        name = "shown_inductance_one_column_off"  # as docs/show.md has it
        client = Client((TOP / "cases" / "shown" / name / f"{name}.case").read_text(encoding="utf-8"))
        (mark,) = client.marks()
        self.assertEqual((mark["message"], mark["severity"]), ("two numbers touch: L=10.2, C=5", 2))
        self.assertEqual(mark["range"], {"start": place(4, 37), "end": place(4, 39)})

    def test_columns_behind_other_letters(self) -> None:
        """A byte outside is marked at its letter, whatever stands before it."""
        client = Client(ACCEPTED.replace("  BUS                        9.5", "  𝄞Ü                         9.5"))
        (mark,) = client.marks()
        self.assertEqual((mark["code"], mark["range"]["start"]), ("ByteOutside", place(5, 2)))

    def test_hover(self) -> None:
        value = Client(ACCEPTED).at("hover", 4, 34)["contents"]["value"]
        self.assertIn("**L**, columns 33-38: 0 to 1e9 mH; blank: 0", value)
        self.assertIn("read as **10.25 mH**", value)
        self.assertIn("*series branch* (docs/cards.md, Series branch: resistance, inductance, capacitance)", value)
        self.assertEqual(Client(ACCEPTED).at("hover", 6, 0)["contents"]["value"], "the end of a section")

    def test_fix(self) -> None:
        """The offer is the card as it was meant, and says as what it is read."""
        client = Client(SLIPPED)
        client.marks()
        found = client.whole("codeAction", range={"start": place(7, 0), "end": place(7, 9)}, context={})
        self.assertEqual(found[0]["title"], "write a point for the comma")
        self.assertEqual(edited(SLIPPED, found[0]["edit"]["changes"][URI]), SLIPPED.replace("0,5", "0.5"))

    def test_names(self) -> None:
        client = Client(ACCEPTED)
        self.assertEqual(len(client.at("references", 4, 9)), 3)
        self.assertEqual(client.at("prepareRename", 4, 9)["placeholder"], "BUS")
        self.assertEqual(client.at("definition", 10, 3)[0]["range"]["start"], place(4, 8))
        edits = client.at("rename", 4, 9, newName="LOAD")["changes"][URI]
        self.assertEqual(edited(ACCEPTED, edits), re.sub(r"BUS\b ?", "LOAD", ACCEPTED))
        for name, why in (("TOOLONG", "1 to 6 characters"), ("SRC", "there is a node SRC already")):
            with self.assertRaisesRegex(language_server.Fault, why):
                client.at("rename", 4, 9, newName=name)

    def test_completion(self) -> None:
        client = Client(ACCEPTED)
        self.assertEqual([it["label"] for it in client.at("completion", 4, 9)["items"]], ["BUS"])
        client.change({"range": {"start": place(6, 0), "end": place(6, 0)}, "text": "\n"})
        labels = [it["label"] for it in client.at("completion", 6, 0)["items"]]
        self.assertEqual(labels, ["series branch", "line", "nonlinear branch", "point of a characteristic"])
        client.change({"range": {"start": place(6, 0), "end": place(7, 0)}, "text": ""})
        line = client.text.split("\n").index("11SRC          100.0")
        labels = [it["label"] for it in client.at("completion", line, 1)["items"]]
        self.assertEqual(labels, ["11", "12", "14", "60"])

    def test_whole(self) -> None:
        client = Client(ACCEPTED)
        sections = client.whole("documentSymbol")
        self.assertEqual([it["name"] for it in sections], ["branches", "switches", "sources", "node outputs"])
        self.assertEqual([it["name"] for it in sections[0]["children"]], ["SRC BUS", "BUS"])
        self.assertEqual(client.whole("foldingRange")[0], {"startLine": 4, "endLine": 6})
        data = client.whole("semanticTokens/full")["data"]
        self.assertEqual(data[:5], [0, 0, 19, language_server.TOKENS.index("keyword"), 0])

    def test_below_a_refusal(self) -> None:
        """Cards below a refused one keep their kinds, and only the program's own refusal is marked."""
        client = Client(SLIPPED.replace("SRC   BUS                 1.0", "SRC   BUS                 1,0"))
        self.assertEqual(len(client.marks()), 1)
        self.assertEqual(len(client.whole("documentSymbol")), 4)

    def test_what_it_does_not_know(self) -> None:
        client = Client(ACCEPTED)
        with self.assertRaisesRegex(language_server.Fault, "no textDocument/formatting"):
            client.whole("formatting")
        with self.assertRaisesRegex(language_server.Fault, "isn't open"):
            client.ask("textDocument/foldingRange", textDocument={"uri": "file:///other"})
        client.note("$/cancelRequest", id=1)
        self.assertEqual(client.got, [])


class Changes(unittest.TestCase):
    def test_edits(self) -> None:
        """3,000 random changes leave the text that they would leave of the whole."""
        chance, text = random.Random(3), SLIPPED
        document = Document(text, 1)

        def position(at: int) -> Json:
            begin = text.rfind("\n", 0, at) + 1
            return place(text.count("\n", 0, at), language_server.units(text[begin:at]))

        for version in range(3000):
            first = chance.randrange(len(text) + 1)
            last = min(len(text), first + chance.choice([0, 0, 1, 3, 40]))
            new = chance.choice(["", "x", "𝄞", "\n", "ab\ncd", " "])
            document.change([{"range": {"start": position(first), "end": position(last)}, "text": new}], version)
            text = text[:first] + new + text[last:]
            self.assertEqual(document.text, text)

    def test_messages(self) -> None:
        """Messages are taken apart however they come."""
        sent = [{"id": number, "method": "é" * number} for number in range(9)]
        bodies = [json.dumps(it, ensure_ascii=False).encode() for it in sent]
        wire = b"".join(b"Content-Type: x\r\nContent-Length: %d\r\n\r\n%s" % (len(it), it) for it in bodies)
        for size in (1, 7, 4096):
            pieces = iter([wire[at : at + size] for at in range(0, len(wire), size)])
            self.assertEqual(list(language_server.messages(lambda: next(pieces, b""))), sent)


@unittest.skipUnless(program.is_there(), "the programs aren't there")
class Names(unittest.TestCase):
    def test_each_name_renamed(self) -> None:
        """With another name the listing is the old one but for the name."""
        for case in ("control/current_as_node", "examples/thyristor_bridge", "examples/transformer_by_control"):
            folder = TOP / (case if case.startswith("examples") else f"cases/{case}")
            path = folder / f"{folder.name}.case"
            if not path.is_file():
                continue
            text = path.read_text(encoding="utf-8")
            it = reading.read(text)
            before = reading.shown(it.lines)
            for own in {(name.text, name.kind): name for name in names.names_of(it)}.values():
                if own.text in names.KNOWN:
                    continue
                lines = list(it.lines)
                for at, new in names.renamed(it, own, "QZ9").items():
                    lines[at] = new
                after = reading.shown(lines)
                with self.subTest(case=case, name=own.text):
                    self.assertNotEqual(after, before)
                    self.assertEqual(sorted(after.replace("QZ9", own.text)), sorted(before))


@unittest.skipUnless(program.is_there(), "the programs aren't there")
class Process(unittest.TestCase):
    def test_by_its_streams(self) -> None:
        """The command answers over standard input and output, judges once the keys rest, and ends with 0 behind exit."""
        own = {**os.environ, "PYTHONPATH": str(TOP / "python")}
        call = [sys.executable, "-m", "wurdanei", "lsp"]
        with subprocess.Popen(call, stdin=subprocess.PIPE, stdout=subprocess.PIPE, env=own) as server:
            assert server.stdin and server.stdout
            out = server.stdout
            got = language_server.messages(lambda: out.read1(1 << 16))

            def send(**message: typing.Any) -> None:
                body = json.dumps({"jsonrpc": "2.0", **message}).encode()
                assert server.stdin
                server.stdin.write(b"Content-Length: %d\r\n\r\n%s" % (len(body), body))
                server.stdin.flush()

            send(id=1, method="initialize", params={})
            self.assertTrue(next(got)["result"]["capabilities"]["hoverProvider"])
            document = {"uri": URI, "languageId": "emtp", "version": 1, "text": SLIPPED}
            send(method="textDocument/didOpen", params={"textDocument": document})
            self.assertEqual(len(next(got)["params"]["diagnostics"]), 1)
            for version in range(2, 22):
                key = {"range": {"start": place(1, 3), "end": place(1, 3)}, "text": "k"}
                params = {"textDocument": {"uri": URI, "version": version}, "contentChanges": [key]}
                send(method="textDocument/didChange", params=params)
            told = [next(got)["params"]["version"]]
            while told[-1] != 21:
                told.append(next(got)["params"]["version"])
            self.assertLess(len(told), 10)  # one, unless the keys come slowly here
            send(id=2, method="shutdown")
            self.assertIsNone(next(got)["result"])
            send(method="exit")
            self.assertEqual(server.wait(20), 0)


FIELDS = """\
1\tthe card BEGIN NEW DATA CASE\t
5\ta branch card\tTYBUS1--BUS2--BUS3--BUS4--R-----L-----C-----                                   A
\t1-2\tTY\t
\t3-8\tBUS1\tSRC\t\t\t
\t27-32\tR\t1.0\tohm\t0 to 1000000000\t1
\t80-80\tA\t
7\tthe end of a section\t
refused\t6\t27-32\tR
"""
TELLS_FIELDS = """#!/bin/sh
# emtp_show, with an answer of its own to --fields
case $1 in --fields) cat "{room}/fields" ;; *) exec "{shower}" "$@" ;; esac
"""


@unittest.skipUnless(program.is_there(), "the programs aren't there")
class Fields(unittest.TestCase):
    def test_fields_that_the_program_tells(self) -> None:
        """Where the program tells the fields of a line, the others of its card aren't there."""
        with tempfile.TemporaryDirectory() as name:
            room = pathlib.Path(name)
            (room / "fields").write_text(FIELDS, encoding="ascii")
            teller = room / "emtp_show"
            teller.write_text(TELLS_FIELDS.format(room=room, shower=program.shower()), encoding="ascii")
            teller.chmod(0o755)
            with mock.patch.dict(os.environ, EMTP_SHOW=str(teller)):
                self.assertTrue(reading.has_fields())
                it = reading.read(ACCEPTED)
        card = it.cards[4]
        assert card
        self.assertEqual([part.name for part in card.fields], ["type", "BUS1", "R", "asked"])
        self.assertEqual(it.numbers, {(4, 27): ("ohm", "0 to 1000000000", "1")})
        (r,) = (part for part in card.fields if part.name == "R")
        self.assertEqual(language_server.range_of(it, 4, r), "0 to 1e9 ohm")
        self.assertEqual(language_server.as_read(it, 4, r), "1 ohm")


@unittest.skipUnless(program.is_there(), "the programs aren't there")
class Mending(unittest.TestCase):
    def offers(self, text: str) -> list[str]:
        it = reading.read(text)
        reading.judge(it)
        return [new for mark in it.marks for _, new in mending.mended(it, mark)]

    def slipped(self, line: int, text: str) -> str:
        lines = ACCEPTED.split("\n")
        lines[line] = text
        return "\n".join(lines)

    def test_slips_that_are_told(self) -> None:
        for line, slip, offer in (
            (6, "Blank", "BLANK"),
            (1, "c R", "C R"),
            (1, "CR", "C R"),
            (5, "  BUS\t                     9.5", "  BUS                        9.5"),
        ):
            with self.subTest(slip=slip):
                self.assertEqual(self.offers(self.slipped(line, slip)), [offer])

    def test_a_column_off(self) -> None:
        """What a slip of a column glues together or puts between fields is given back."""
        wanted = reading.shown(reading.lines_of(ACCEPTED))
        for line, slip in (
            (4, "  SRC   BUS                 1.0    10.25  5."),
            (4, " SRC    BUS                 1.0 10.25     5."),
            (8, "11SRC                  100.0"),
        ):
            with self.subTest(slip=slip):
                found = [
                    reading.shown(reading.lines_of(self.slipped(line, it)))
                    for it in self.offers(self.slipped(line, slip))
                ]
                self.assertIn(wanted, found)


if __name__ == "__main__":
    unittest.main()
