"""The formulas of the control: their words, and whether they go on as the grammar of docs/control.md says."""

import re
from dataclasses import dataclass

from .fields import kept_of

DOTTED = r"\.(?:GT|GE|LT|LE|EQ|NE|AND|OR|NOT)\."
WORD = re.compile(
    rf" *(?P<word>{DOTTED}"
    rf"|(?P<number>(?:\d+(?:(?!{DOTTED})\.\d*)?|\.\d+)(?:[ED][+-]?\d{{1,3}})?)"
    r"|(?P<name>[A-Za-z][A-Za-z0-9]{0,5})"
    r"|[-+*/()])"
)
FUNCTIONS = ("ABS", "SQRT", "TRUNC", "SIGN")
RELATIONS = (".GT.", ".GE.", ".LT.", ".LE.", ".EQ.", ".NE.")
DEEPEST = 16  # parentheses within one another, and .NOT. in a row
GREATEST = 10**18  # of a number, in 1e-9


class FormulaError(ValueError):
    """Why a text is no formula, in words; `at` counts its characters from 1."""

    def __init__(self, words: str, at: int) -> None:
        super().__init__(words)
        self.at = at


@dataclass(frozen=True)
class Word:
    text: str
    kind: str  # number, name, other, or none for what is no word
    at: int


@dataclass(frozen=True)
class Formula:
    """A formula that was read: its words, the variables that it names, each once, and its tree.

    A tree is a number's text or a name, (operator, tree) or (operator, tree, tree).
    """

    words: tuple[str, ...]
    names: tuple[str, ...]
    tree: str | tuple


def words_of(text: str) -> list[Word]:
    """The words of a text up to a character that begins none, which stands in its place; behind them the empty one of
    the end."""
    found, at, end = [], 0, len(text.rstrip(" "))
    while at < end:
        match = WORD.match(text, at)
        if match is None:
            at += len(text[at:]) - len(text[at:].lstrip(" "))
            found.append(Word(text[at], "none", at + 1))
            break
        kind = "number" if match["number"] else "name" if match["name"] else "other"
        found.append(Word(match["word"], kind, match.start("word") + 1))
        at = match.end()
    return found + [Word("", "other", end + 1)]


class _Reader:
    """Goes through the words once, one method a level of the grammar."""

    def __init__(self, text: str, deepest: int) -> None:
        self.words = words_of(text)
        self.at = 0
        self.depth = 0
        self.deepest = deepest

    @property
    def word(self) -> Word:
        return self.words[self.at]

    def takes(self, *texts: str) -> str:
        """The next word where it is one of these, which is then behind."""
        if self.word.kind != "other" or not self.word.text or self.word.text not in texts:
            return ""
        self.at += 1
        return self.words[self.at - 1].text

    def fault(self, wanted: str) -> FormulaError:
        found = repr(self.word.text) if self.word.text else "its end"
        return FormulaError(f"{wanted} is due where {found} stands", self.word.at)

    def either(self) -> str | tuple:
        tree = self.both()
        while self.takes(".OR."):
            tree = (".OR.", tree, self.both())
        return tree

    def both(self) -> str | tuple:
        tree = self.negated(0)
        while self.takes(".AND."):
            tree = (".AND.", tree, self.negated(0))
        return tree

    def negated(self, before: int) -> str | tuple:
        if self.word.text != ".NOT.":
            return self.relation()
        if before == DEEPEST:
            raise FormulaError(f".NOT. stands more than {DEEPEST} times in a row", self.word.at)
        self.at += 1
        return (".NOT.", self.negated(before + 1))

    def relation(self) -> str | tuple:
        tree = self.sum()
        operator = self.takes(*RELATIONS)
        return (operator, tree, self.sum()) if operator else tree

    def sum(self) -> str | tuple:
        sign = self.takes("+", "-")
        tree = self.term()
        tree = ("-", tree) if sign == "-" else tree
        while operator := self.takes("+", "-"):
            tree = (operator, tree, self.term())
        return tree

    def term(self) -> str | tuple:
        tree = self.factor()
        while operator := self.takes("*", "/"):
            tree = (operator, tree, self.factor())
        return tree

    def factor(self) -> str | tuple:
        word = self.word
        if word.kind == "number":
            if kept_of(word.text, 9) > GREATEST:
                raise FormulaError(f"{word.text} is above 1e9", word.at)
        elif word.text in FUNCTIONS or word.text == "(":
            return self.parenthesis(word.text)
        elif word.kind != "name":
            raise self.fault("a number, a variable, a function or a parenthesis")
        self.at += 1
        return word.text

    def parenthesis(self, text: str) -> str | tuple:
        if self.depth == self.deepest:
            raise FormulaError(f"parentheses stand more than {self.deepest} deep", self.word.at)
        self.at += 1
        if text != "(" and not self.takes("("):
            raise self.fault(f"the parenthesis of {text}")
        self.depth += 1
        tree = self.either()
        if not self.takes(")"):
            raise self.fault("an operator or a closing parenthesis")
        self.depth -= 1
        return tree if text == "(" else (text, tree)


def read(text: str, deepest: int = DEEPEST) -> Formula:
    """The formula of a text, with parentheses so deep at most. Raises FormulaError where it is none."""
    reader = _Reader(text, deepest)
    tree = reader.either()
    if reader.word.text:
        raise reader.fault("an operator")
    words = reader.words[:-1]
    names = dict.fromkeys(word.text for word in words if word.kind == "name" and word.text not in FUNCTIONS)
    return Formula(tuple(word.text for word in words), tuple(names), tree)


def laid(text: str, width: int) -> str:
    """The text without blanks at its ends, and with none between its words where it is longer than the card."""
    text = text.strip(" ")
    return text if len(text) <= width else "".join(word.text for word in words_of(text))
