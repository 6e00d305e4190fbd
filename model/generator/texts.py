"""Texts for the fields of cards: the ends of their ranges, and what reads nearly like a number, a name or a type."""
from .cards import E18, Field, just_above, shortest

NUMBERS = """ . + - +. 1. .5 5 1.. 1.2.3 1E 1E+ 1E- E5 .E5 1E1234 1E-1234 1E+001 1E999 1-999 1+3 1-3 1.+3 1D3 1d3 1e3 1E+3 1d-2 ++1
 --1 +1 -1 1+ 1- 1E1. 1E1E1 1F3 x 0x1 1_0 1,0 , # / : 1: 1/2 NaN inf Infin 00 -0 +0 -.0 0E999 0E-999 0.E0 000001 1E00 1E-0 1E+0
 1E000 1+0 1-0 1E0000 1+0000 .0E99""".split()
NUMBERS += ["", "1 2", "1. E3", "+ 1", "- 1", "1E+ 1", "\x001", "\t1", "1\x7f", "1\xa0"]
WHOLES = "0 +0 -0 1 +1 -1 2 3 1. 1.0 x + - 1E1 07 007 +7 --1 1-".split() + ["", "1 1", "- 1", "\xd9\xa3"]
NAMES = [
    "",
    "NONE",
    "A,",
    ",",
    "SRC",
    "src",
    "MID",
    " MID",
    "M ID",
    "TERRA",
    "ZERO",
    "U",
    "X",
    "\x01",
    "\x7f",
    "\xff",
    "~",
    " ",
]
ASKED = ["", *"0123456789+-x.,C", "\x00", "\xb2"]
BRANCH_TYPES = "0 00 +0 -0 -1 98 99 -2 -3 -4 1 2 3 51 52 91 92 x 9x +9 -- 1. C CC $ - 1- 97".split() + [
    "",
    " 0",
    " 9",
    "- ",
]
SWITCH_TYPES = "0 11 13 12 00 1 +0 -1 x 1. 92 14 -0".split() + ["", " 0"]
SOURCE_TYPES = "11 12 14 60 10 13 15 1 61 -1 x 1. 59 18 0 16 90 23".split() + ["", " 1"]
CONTROL_TYPES = "11 14 23 24 90 91 93 92 12 13 60 x 1 -1 94 0".split() + [""]
GROUPS = "99 98 88 97 0 -1 x 9 8 89 87 66".split() + [""]
CODES = [str(code) for code in range(50, 68)] + ["", "0", "-1", "x", "6", " 6", "6 ", "1.", "5x"]
MARKS = "0 1 01 +1 2 -1 x -0 00 1. 11 10 C".split() + ["", " 1"]
WORDS = "MEASURING MEASURIN MEASURINGX measuring CLOSED 0 MEAS , .".split() + ["", " MEASURING", "M EASURING", "\x01"]
SIGNS = ["", *"+-x01*, ", "\x01"]
EQUALS = ["=", "", "+", "-", "x", "0"]
VINTAGES = [
    "$VINTAGE, 1",
    "$VINTAGE,1",
    "$VINTAGE,0",
    "$VINTAGE, 2",
    "$VINTAGE 1",
    "$VINTAGE",
    "$VINTAGE,",
    "$VINTAGE,  ",
]
VINTAGES += ["$VINTAGE,11", "$VINTAGE,1 1", "$VINTAGE,1 x", "$VINTAGE,1,", "$VINTAGE,+1", "$VINTAGE,-1", "$VINTAGE, 1."]
VINTAGES += [
    "$VINTAGEX1",
    "$VINTAGE;1",
    "$VINTAG, 1",
    "$vintage, 1",
    " $VINTAGE, 1",
    "$VINTAGE,\t1",
    "$VINTAGE,01",
    "$",
]
VINTAGES += ["$DISABLE", "$VINTAGE,x", "$VINTAGE,9", "$VINTAGE, 1" + " " * 80]
VINTAGES += ["$VINTAGE," + " " * 70 + "1", "$VINTAGE," + " " * 71 + "1"]
LAST_POINTS = """9999 9999. 9999.0 +9999 -9999 9.999E3 9999000-3 9999E0 99990E-1 9999.0000000001 9998.9999999999 9999.00000000049
 9999.0000000005 9999.000000001 99999 999 0 BLANK x 9999x 09999 9999D0 9999.0000000004 9999E-0""".split()
LAST_POINTS += ["", " 9999", "99 99"]

BAD_EXPRESSIONS = """+ ( ) () (1 1) .NOT. ABS ABS( ABS() ABS(1 SQRT(1)) 1..2 1.2.3 . .. sin(1) SIN(1) EXP(1) 1E 1E+ 1E1234 1D2D3
 1.E5.E5 9999999999 1000000000 1000000001 1000000000.0000000004 1000000000.0000000005 1E9 1E10 1.E999 1E-999 # 1,2 1=2 ABCDEFG
 ABCDEF1 ABS1 A.GT.B 1.GT.2 1.GT..5 1..GT.2 1.E5 1.EQ.5 1.E.5 1.OR.2 1.AND2 -1 1*-1 (-1) -(1) .NOT.1 .NOT..NOT.1 .5.5 1.5E2.5 "
 1e5 1d5 1.e5 TIMEX TIMEX2 1TIMEX NOTDEF 1A 1.A 1.D 1.D5 1.D5E 1.DX SQRT(MINUS1) SQRT(0-1) 1E9+1E9 1E5*1E4 1E5*1E5 TRUNC(-1.5)
 SIGN(0) 0.0000000005 0.0000000004 .00000000049999 123456789.1234567894 A ZERO.AND.ZERO 1.0.GT.0 1.LT.2 1.LE.2 1.GE.2 1.NE.2
 1.NOT.2 1.EQ 1.EQX 1.0E5.EQ.2 1E5.EQ.2 (1).GT.(2) ABS(1)ABS(1) 1(2) (1)(2) TIMEX(1) ABS*1 0 00 0. .0 1.+1. 1.-.5 1./2.
 1.*2.""".split()
BAD_EXPRESSIONS += [
    "",
    "   ",
    "1 +",
    " 1.0 +",
    "1 2",
    "A B",
    "1 * / 2",
    "* 1",
    "1 ** 2",
    ".NOT. 1 .AND.",
    "ABS 1",
    "1 # 2",
]
BAD_EXPRESSIONS += [
    "1 .GT. 2 .GT. 3",
    "1 .XX. 2",
    ".GT. 1",
    "1 .gt. 2",
    "ABSX + 1",
    "- -1",
    "+ + 1",
    "1 - - 1",
    "1 + .NOT. 1",
]
BAD_EXPRESSIONS += [
    "(.NOT. 1) + 1",
    "1 .AND. .NOT. 0",
    ".NOT. -1",
    "2.0*1 + 1.0",
    "1 .AND. .OR. 1",
    "1.0 / ZERO",
    "1E9 * 1E9",
]
BAD_EXPRESSIONS += ["1E9 - 1E9", "a + 1", "ZERO .EQ. ZERO", "ABS(1) 1", "1 ABS(1)", "ABS + ABS", "1\t+1", "1 +\x7f"]
BAD_EXPRESSIONS += ["(" * deep + "1" + ")" * ends for deep, ends in ((16, 16), (17, 17), (16, 15), (16, 17))]
BAD_EXPRESSIONS += ["(" * deep + "ABS(1)" + ")" * deep for deep in (15, 16)]
BAD_EXPRESSIONS += ["ABS(" * 15 + "1", ".NOT." * 13 + "1", ".NOT." * 13]

LISTS = {
    "name": NAMES,
    "asked": ASKED,
    "branch type": BRANCH_TYPES,
    "switch type": SWITCH_TYPES,
    "source type": SOURCE_TYPES,
    "control type": CONTROL_TYPES,
    "group": GROUPS,
    "code": CODES,
    "mark": MARKS,
    "word": WORDS,
    "sign": SIGNS,
    "equals": EQUALS,
    "vintage": VINTAGES,
    "last point": LAST_POINTS,
    "expression": BAD_EXPRESSIONS,
}
LINE_FIELDS = {
    "line A": [(6, 1, 10**12), (6, 10, 10**15), (6, 10, 10**15)],
    "line B": [(9, 1, 10**12), (6, 1, E18), (12, 1, E18)],
}


def around(scale: int, low: int, high: int, width: int) -> list[str]:
    """Numbers at the ends of a range, beyond them, and half a unit from them."""
    found = [
        shortest(units, -scale)
        for units in sorted({low - 1, low, low + 1, high - 1, high, high + 1, 0, 1, -1, 2, 9, 10, 11})
    ]
    for units in sorted({low, high, 0, 1, 10, 9}):
        for part in (5, 4, 6, 49, 51):
            places = len(str(part))
            found.append(shortest(units * 10**places + part, -scale - places))
            found.append(shortest(units * 10**places - part, -scale - places))
    found.append(just_above(high, scale, width))
    found.append("-" + just_above(max(0, -low), scale, width - 1))
    return found


def texts(field: Field, form: int = 0) -> list[str]:
    """The texts for a field, each once; `form` says how a line card gives its numbers."""
    if field.kind in LINE_FIELDS:
        found = around(*LINE_FIELDS[field.kind][form], field.width()) + NUMBERS
    elif field.kind in ("number", "held"):
        found = around(field.scale, field.low, field.high, field.width()) + NUMBERS
    elif field.kind == "whole":
        ends = (field.low, field.high)
        found = WHOLES + [str(end + more) for end in ends for more in (-1, 0, 1)]
        found += ["1000000000", "1000000001", "-1000000000", "-1000000001", "99999999"]
    else:
        found = LISTS[field.kind]
    return [text for text in dict.fromkeys(found) if field.kind == "vintage" or len(text) <= field.width()]
