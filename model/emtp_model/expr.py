"""The grammar of expressions, and their values.

A tree is ("num", value), ("var", name), (unary op, tree) or (binary op, tree, tree).
"""
import re
from collections.abc import Callable

from .cards import scaled
from .fix import E9, E18, isqrt, near

FUNCS = (b"ABS", b"SQRT", b"TRUNC", b"SIGN")
DOTTED = (b".GT.", b".GE.", b".LT.", b".LE.", b".EQ.", b".NE.", b".AND.", b".OR.", b".NOT.")
RELATIONS = (b".GT.", b".GE.", b".LT.", b".LE.", b".EQ.", b".NE.")
NAME = re.compile(rb"[A-Za-z][A-Za-z0-9]{0,5}")
EXPONENT = re.compile(rb"[ED]([+-]?[0-9]{1,3})")
DEEPEST = 16


class Column(Exception):
    """The text isn't in the grammar; the column counts from 1 in the text."""

    def __init__(self, column: int):
        super().__init__(column)
        self.column = column


class OutOfRange(Exception):
    """A value that can't be kept."""


def dotted_at(text: bytes, at: int) -> bytes | None:
    """The operator in dots that stands here."""
    for word in DOTTED:
        if text.startswith(word, at):
            return word
    return None


def number_at(text: bytes, at: int) -> tuple[tuple[int, int, int], int] | None:
    """The longest number at `at` as (value parts, end), or None."""
    here = at
    digits = b""
    while here < len(text) and text[here : here + 1].isdigit():
        digits += text[here : here + 1]
        here += 1
    places = 0
    if text[here : here + 1] == b"." and dotted_at(text, here) is None:
        after = here + 1
        while after < len(text) and text[after : after + 1].isdigit():
            after += 1
        if digits or after > here + 1:
            places = after - here - 1
            digits += text[here + 1 : after]
            here = after
    if not digits:
        return None
    power = 0
    m = EXPONENT.match(text, here)
    if m:
        power = int(m.group(1))
        here = m.end()
    return (1, int(digits), power - places), here


def words(text: bytes) -> list[tuple[str, object, int]]:
    """The words as (kind, value, column); a byte that begins no word has the kind "none"."""
    found = []
    at = 0
    while at < len(text):
        byte = text[at : at + 1]
        if byte == b" ":
            at += 1
            continue
        column = at + 1
        dotted = dotted_at(text, at)
        if dotted is not None:
            found.append(("op", dotted, column))
            at += len(dotted)
            continue
        number = number_at(text, at)
        if number is not None:
            parts, at = number
            value = scaled(parts, 9)
            found.append(("large" if value > E18 else "number", value, column))
            continue
        m = NAME.match(text, at)
        if m:
            name = m.group(0)
            found.append(("func" if name in FUNCS else "name", name, column))
            at = m.end()
            continue
        if byte in (b"+", b"-", b"*", b"/", b"(", b")"):
            found.append(("op", byte, column))
            at += 1
            continue
        found.append(("none", byte, column))
        break
    end = len(text.rstrip(b" ")) + 1
    found.append(("end", None, end))
    return found


class Parser:
    """Reads a text from left to right, one method a level of the grammar."""

    def __init__(self, text: bytes):
        self.words = words(text)
        self.at = 0
        self.depth = 0
        self.names = []

    def here(self, *ops):
        kind, value, _ = self.words[self.at]
        return kind == "op" and value in ops

    def take(self):
        word = self.words[self.at]
        self.at += 1
        return word

    def fail(self):
        raise Column(self.words[self.at][2])

    def parse(self):
        tree = self.p_or()
        if self.words[self.at][0] != "end":
            self.fail()
        return tree

    def p_or(self):
        tree = self.p_and()
        while self.here(b".OR."):
            self.take()
            tree = (".OR.", tree, self.p_and())
        return tree

    def p_and(self):
        tree = self.p_not(1)
        while self.here(b".AND."):
            self.take()
            tree = (".AND.", tree, self.p_not(1))
        return tree

    def p_not(self, row):
        if self.here(b".NOT."):
            if row > DEEPEST:
                self.fail()
            self.take()
            return (".NOT.", self.p_not(row + 1))
        return self.p_rel()

    def p_rel(self):
        tree = self.p_sum()
        if self.here(*RELATIONS):
            op = self.take()[1].decode()
            tree = (op, tree, self.p_sum())
        return tree

    def p_sum(self):
        sign = None
        if self.here(b"+", b"-"):
            sign = self.take()[1]
        tree = self.p_term()
        if sign == b"-":
            tree = ("minus", tree)
        while self.here(b"+", b"-"):
            op = self.take()[1].decode()
            tree = (op, tree, self.p_term())
        return tree

    def p_term(self):
        tree = self.p_factor()
        while self.here(b"*", b"/"):
            op = self.take()[1].decode()
            tree = (op, tree, self.p_factor())
        return tree

    def p_factor(self):
        kind, value, _ = self.words[self.at]
        if kind == "number":
            self.take()
            return ("num", value)
        if kind == "name":
            self.take()
            if value not in self.names:
                self.names.append(value)
            return ("var", value)
        func = None
        if (kind == "func" or self.here(b"(")) and self.depth == DEEPEST:
            self.fail()  # no expression begins so: its parenthesis is too deep
        if kind == "func":
            func = value.decode()
            self.take()
        if not self.here(b"("):
            self.fail()
        self.depth += 1
        self.take()
        tree = self.p_or()
        if not self.here(b")"):
            self.fail()
        self.take()
        self.depth -= 1
        return tree if func is None else (func, tree)


def parse(text: bytes) -> tuple[tuple, list[bytes]]:
    """The tree and its names in order, or Column."""
    parser = Parser(text)
    tree = parser.parse()
    return tree, parser.names


def held(x: int) -> int:
    """x, where it is in range."""
    if abs(x) > E18:
        raise OutOfRange()
    return x


def truth(flag: bool) -> int:
    """1 or 0."""
    return E9 if flag else 0


def evaluate(tree: tuple, value_of: Callable[[bytes], int]) -> int:
    """The value of a tree; `value_of` gives the value of a name."""
    op = tree[0]
    if op == "num":
        return tree[1]
    if op == "var":
        return value_of(tree[1])
    a = evaluate(tree[1], value_of)
    if op == "minus":
        return held(-a)
    if op == ".NOT.":
        return truth(not a > 0)
    if op == "ABS":
        return held(abs(a))
    if op == "SQRT":
        if a < 0:
            raise OutOfRange()
        return held(isqrt(a * E9))
    if op == "TRUNC":
        return a // E9 * E9 if a >= 0 else -(-a // E9 * E9)
    if op == "SIGN":
        return E9 if a > 0 else (-E9 if a < 0 else 0)
    b = evaluate(tree[2], value_of)
    if op == "+":
        return held(a + b)
    if op == "-":
        return held(a - b)
    if op == "*":
        return held(near(a * b, E9))
    if op == "/":
        if b == 0:
            raise OutOfRange()
        return held(near(a * E9, b))
    if op == ".GT.":
        return truth(a > b)
    if op == ".GE.":
        return truth(a >= b)
    if op == ".LT.":
        return truth(a < b)
    if op == ".LE.":
        return truth(a <= b)
    if op == ".EQ.":
        return truth(a == b)
    if op == ".NE.":
        return truth(a != b)
    if op == ".AND.":
        return truth(a > 0 and b > 0)
    if op == ".OR.":
        return truth(a > 0 or b > 0)
    raise AssertionError(op)
