"""Names of nodes and variables: usual ones, and ones that read like something else."""
import random
import re
import string

FUNCTIONS = ("ABS", "SQRT", "TRUNC", "SIGN")
STANDING = ("TIMEX", "ISTEP", "DELTAT", "ZERO", "PLUS1", "MINUS1")
ODD = """a 1 9999 -1 . + A.B A-B BLANK C 0 # " ' % * \\ / $ $VINT BEGIN ~ @! V {} nOdE = () A=1 1E5 98 ZERO TIMEX ABCDEF abcdef
 ...... ` ? ; : <> [x] ^ _ | & ABS SQRT TRUNC SIGN ISTEP PLUS1 .GT. TACS - -- E D 1.E-4""".split()
ODD += ["A B", "X Y Z", "C C", "A  B", "I A", "C1 C2"]


def is_word(name: str) -> bool:
    """Whether an expression can have the name as a variable."""
    return re.fullmatch("[A-Za-z][A-Za-z0-9]{0,5}", name) is not None and name not in FUNCTIONS


def usual(pick: random.Random, prefix: str) -> str:
    """A usual name."""
    kind = pick.randrange(8)
    if kind < 4:
        return (prefix + str(pick.randint(0, 999)))[:6]
    if kind < 6:
        return "".join(pick.choices(string.ascii_uppercase, k=pick.randint(1, 6)))
    if kind < 7:
        return pick.choice("ABCDXYZabcxyz") + "".join(pick.choices("ABC123abc09", k=pick.randint(0, 5)))
    return "".join(pick.choices("ABCDEFGHIJ0123456789", k=6))


def names(pick: random.Random, number: int, odd: float = 0, words: bool = False) -> list[str]:
    """So many names, each once; odd ones at this chance, or all of them words of expressions."""
    prefix = pick.choice(["N", "B", "BUS", "n", "Q", "NODE", "K0"])
    found: dict[str, None] = {}
    while len(found) < number:
        name = pick.choice(ODD) if pick.random() < odd else usual(pick, prefix)
        if not words or is_word(name) and name not in STANDING:
            found[name] = None
    return list(found)
