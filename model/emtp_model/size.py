"""About how long a run takes the model."""
from .cards import Bad
from .deck import deck
from .main import fits


def size(words: list[str], files: dict[str, bytes]) -> int:
    """About how many branches and cards of the control the run of these words computes in all its steps, rows of times or
    frequencies; `files` are those that the words name."""
    if not fits([word.encode("utf-8", "surrogateescape") for word in words]):
        return 0
    if words[0] == "trial":
        return 2000 * 2 * int(words[1])
    try:
        case = deck(files.get(words[2 if words[0] == "judge" else 1], b""))
    except Bad:
        return 0
    parts = len(case.branches) + len(case.blocks) + len(case.extras) + 1
    if words[0] == "phasor":
        return parts
    if words[0] == "scan":
        return parts * ((int(words[3]) - int(words[2])) // int(words[4]) + 1)
    if words[0] == "batch":
        parts *= sum(not line.startswith(b"#") for line in files.get(words[2], b"").split(b"\n"))
    return parts * case.run.steps


def time_switches(data: bytes) -> int:
    """The number of time switches of a case; 0 where it is none."""
    try:
        return sum(switch.kind == "time" for switch in deck(data).switches)
    except Bad:
        return 0
