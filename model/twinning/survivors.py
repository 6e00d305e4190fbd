"""The list of the twins: those that survive, each with its reason, and of the others what refuses them."""
import os
import textwrap

from .changes import HERE, Twin

PATH = os.path.join(HERE, "survivors")
HEAD = """\
# What model/twins found: the twins that survive, and behind them by what the others are refused. It is written by
# `model/twins --all`, but for the reason behind a survivor's second bar, which stays as long as its change does. A reason
# begins with `same` where the twin does the same on all cases, with `stopped` where the program can't be changed so, since
# a proof, a law or a limit of the prover stands against it, and with `open` where a case might tell them apart.
"""


class List:
    """The sum of the model, the survivors with their changes and reasons, and the witness of each other twin."""

    def __init__(self, path: str = PATH):
        self.sum = ""
        self.survivors: dict[str, tuple[str, str]] = {}
        self.refused: dict[str, str] = {}
        if not os.path.exists(path):
            return
        with open(path, encoding="utf-8") as file:
            for line in file:
                word, _, rest = line.rstrip("\n").partition(" ")
                if word == "sum":
                    self.sum = rest
                elif word == "survives":
                    name, change, why = (part.strip() for part in rest.split(" | ", 2))
                    self.survivors[name] = (change, why)
                elif word == "refused":
                    witness, _, names = rest.partition(" | ")
                    self.refused.update((name, witness) for name in names.split())

    def found(self) -> dict[str, str | None]:
        """What refuses each twin of the list, or None."""
        return {**dict.fromkeys(self.survivors), **self.refused}

    def reasons(self) -> dict[tuple[str, str], str]:
        """The reason of each survivor by place and change, whatever its number was."""
        return {(name.rpartition(".")[0], change): why for name, (change, why) in self.survivors.items()}


def written(total: str, twins: list[Twin], found: dict[str, str | None], old: List, path: str = PATH) -> None:
    """Writes the list anew with all that was found, and with the reasons of the old one."""
    reasons = old.reasons()
    tried = [twin for twin in twins if twin.name in found]
    survivors = [twin for twin in tried if found[twin.name] is None]
    lines = [HEAD, f"sum {total}\n"]
    lines.append(
        f"# {len(twins)} twins, {len(tried)} of them tried: {len(tried) - len(survivors)} refused, {len(survivors)} survive\n\n"
    )
    for twin in survivors:
        change = shown(twin)
        lines.append(f"survives {twin.name} | {change} | {reasons.get((twin.place, change), 'open')}\n")
    lines.append("\n")
    by: dict[str, list[str]] = {}
    for twin in tried:
        witness = found[twin.name]
        if witness is not None:
            by.setdefault(witness, []).append(twin.name)
    for witness, names in sorted(by.items()):
        for line in textwrap.wrap(" ".join(names), 100, break_on_hyphens=False):
            lines.append(f"refused {witness} | {line}\n")
    with open(path + ".new", "w", encoding="utf-8") as file:
        file.writelines(lines)
    os.replace(path + ".new", path)


def shown(twin: Twin) -> str:
    """The change of a twin in one line without bars."""
    return " ".join(twin.what.replace("|", "/").split())
