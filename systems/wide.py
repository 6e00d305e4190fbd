"""Products of 128 bits as products of 64, in a module of LLVM that has been optimised.

WebAssembly multiplies no 128-bit numbers, so LLVM makes a call of each such product, which hands its result over in memory.
Nearly all of the program's are products of two numbers of 64 bits, and often one is a constant or only the upper half is wanted.
`narrowed(text)` writes each product out where it stands: its lower half is the product of the lower halves, its upper half the
sum of four products of 32 bits, with those that a constant spares left out.
"""
from __future__ import annotations

import re

PRODUCT = re.compile(r"  (%\S+) = mul (?:nuw |nsw )*i128 ([^\s,]+), ([^\s,]+)(?:, !.*)?$")
VALUE = re.compile(r"  (%\S+) = (.*)$")
NUMBER = re.compile(r"-?\d+$")
HALF = 32
MASK = (1 << HALF) - 1
WORD = 1 << 64


class Lines:
    """The instructions that take the place of one; each has a name of its own."""

    def __init__(self, name: str) -> None:
        self.name = name.strip('%"')
        self.made: list[str] = []

    def new(self, what: str) -> str:
        name = f'%"{self.name}.product.{len(self.made)}"'
        self.made.append(f"  {name} = {what}")
        return name

    def product(self, a: str, b: str) -> str:
        if "0" in (a, b):
            return "0"
        return self.new(f"mul i64 {a}, {b}")

    def total(self, *terms: str) -> str:
        some = [it for it in terms if it != "0"]
        total = some[0] if some else "0"
        for it in some[1:]:
            total = self.new(f"add i64 {total}, {it}")
        return total

    def low(self, word: str) -> str:
        """The lower 32 bits of a word."""
        if NUMBER.match(word):
            return str(int(word) & MASK)
        return self.new(f"and i64 {word}, {MASK}")

    def high(self, word: str, signed: bool) -> str:
        """The upper 32 bits of a word, with its sign where it has one."""
        if NUMBER.match(word):
            number = int(word)
            return str((number - WORD if signed and number >= WORD // 2 else number) >> HALF)
        return self.new(f"{'ashr' if signed else 'lshr'} i64 {word}, {HALF}")

    def lower_word(self, wide: str) -> str:
        if NUMBER.match(wide):
            return str(int(wide) % WORD)
        return self.new(f"trunc i128 {wide} to i64")

    def upper_word(self, wide: str) -> str:
        if NUMBER.match(wide):
            return str((int(wide) >> 64) % WORD)
        return self.new(f"trunc i128 {self.new(f'lshr i128 {wide}, 64')} to i64")

    def upper_of_product(self, a: str, b: str, signed: bool) -> str:
        """The upper word of the product of two words. No sum in it leaves its word."""
        a_low, b_low, a_high, b_high = self.low(a), self.low(b), self.high(a, signed), self.high(b, signed)
        one = self.total(self.product(a_high, b_low), self.high(self.product(a_low, b_low), False))
        other = self.product(a_low, b_high)
        carried = "0" if other == "0" else self.high(self.total(other, self.low(one)), signed)
        return self.total(self.product(a_high, b_high), self.high(one, signed), carried)


def fits(operand: str, values: dict[str, str]) -> set[str]:
    """As what a number of 128 bits is known to fit 64: "signed", "unsigned", both or neither."""
    if NUMBER.match(operand):
        number = int(operand)
        kinds = {"signed": -WORD // 2 <= number < WORD // 2, "unsigned": 0 <= number < WORD}
        return {kind for kind, holds in kinds.items() if holds}
    made = values.get(operand, "")
    if re.match(r"zext (nneg i64|(nneg )?i(1|8|16|32)) ", made):
        return {"signed", "unsigned"}
    if re.match(r"zext i64 ", made):
        return {"unsigned"}
    return {"signed"} if re.match(r"sext i(1|8|16|32|64) ", made) else set()


def written_out(name: str, a: str, b: str, values: dict[str, str]) -> list[str]:
    """The instructions of a product."""
    lines = Lines(name)
    kinds = fits(a, values) & fits(b, values)
    a_word, b_word = lines.lower_word(a), lines.lower_word(b)
    low = lines.product(a_word, b_word)
    if kinds:
        high = lines.upper_of_product(a_word, b_word, "unsigned" not in kinds)
    else:
        high = lines.total(
            lines.upper_of_product(a_word, b_word, False),
            lines.product(lines.upper_word(a), b_word),
            lines.product(a_word, lines.upper_word(b)),
        )
    upper = lines.new(f"shl nuw i128 {lines.new(f'zext i64 {high} to i128')}, 64")
    lower = lines.new(f"zext i64 {low} to i128")
    return [*lines.made, f"  {name} = or disjoint i128 {upper}, {lower}"]


def narrowed(text: str) -> str:
    """A module without products of 128 bits. A value's name is its function's own."""
    parts = []
    for function in re.split(r"(?m)^(?=define )", text):
        lines = function.split("\n")
        values = dict(found.groups() for found in map(VALUE.match, lines) if found)
        made: list[str] = []
        for line in lines:
            found = PRODUCT.match(line)
            made += written_out(*found.groups(), values) if found else [line]
        parts.append("\n".join(made))
    return "".join(parts)
