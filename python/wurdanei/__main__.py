"""The commands of the package: `python3 -m wurdanei WORD ..`, which `./emtp WORD ..` calls."""

from __future__ import annotations

import importlib
import io
import os
import sys

COMMANDS = {  # the word, its module, what it does
    "arrester": ("arrester", "energy, charge and crests of an arrester, and the insulation beside it"),
    "atp": ("atp", "reads a deck of ATP as far as it is alike, and writes the case"),
    "compare": ("compare", "lays the record of a case beside a measured one"),
    "converge": ("converge", "runs a case at its step, a half and a quarter, and says what a smaller step changes"),
    "convert": ("convert", "makes another COMTRADE record of a record, or a table (csv)"),
    "ct": ("current_transformers", "writes the secondary currents of saturable current transformers"),
    "lineconst": ("lineconst", "computes the constants of an overhead line from its tower"),
    "locate": ("locate", "finds where a fault was, and its resistance, from a measured record"),
    "lsp": ("language_server", "serves an editor: marks, hints, quick fixes and names"),
    "play": ("play", "makes measured voltages or currents the sources of a case"),
    "plot": ("plot", "draws a record, a scan or a batch as a picture or a page"),
    "relay": ("relay", "impedances, zones, overcurrent and differential current of a record"),
    "ruler": ("ruler", "prints the columns of a card and the names of its fields"),
    "scan": ("scan_at", "prints the impedance at a node of a case, its sources dead (with --at NODE)"),
    "study": ("study", "runs a case under many switch times or values, or many cases, on all processors"),
    "trv": ("trv", "lays the recovery voltage of a breaker's pole beside the envelope of a duty"),
}


def usage() -> str:
    """What the words may be."""
    rows = [f"  {word:<10}{what}" for word, (_, what) in sorted(COMMANDS.items())]
    return "\n".join(["usage: emtp WORD .., with WORD one of", *rows, "`emtp WORD --help` says more of one."])


def main(words: list[str]) -> int:
    """Runs a command; exit status 0 done, 1 as the command says, 2 can't (its words are on standard error)."""
    if words in (["--help"], ["-h"]):
        print(usage())
        return 0
    if not words or words[0] not in COMMANDS:
        print(usage(), file=sys.stderr)
        return 2
    module = importlib.import_module("." + COMMANDS[words[0]][0], __package__)
    from .configuration import RecordError

    try:
        status = int(module.main(words[1:]))
        if sys.stdout:
            sys.stdout.flush()
        return status
    except RecordError as fault:
        print(f"emtp {words[0]}: {fault}", file=sys.stderr)
    except BrokenPipeError:  # nobody reads what is printed
        os.dup2(os.open(os.devnull, os.O_WRONLY), 1)
    except OSError as fault:
        print(
            f"emtp {words[0]}: {fault.filename}: {fault.strerror}" if fault.filename else f"emtp {words[0]}: {fault}",
            file=sys.stderr,
        )
    except MemoryError:
        print(f"emtp {words[0]}: there isn't enough memory", file=sys.stderr)
    except KeyboardInterrupt:
        return 130
    return 2


def prepare() -> None:
    """Names of another alphabet than the terminal's are printed all the same."""
    for stream in (sys.stdout, sys.stderr):
        if isinstance(stream, io.TextIOWrapper):
            stream.reconfigure(errors="backslashreplace")


def entry() -> None:
    """The package as a program."""
    prepare()
    sys.exit(main(sys.argv[1:]))


if __name__ == "__main__":
    entry()
