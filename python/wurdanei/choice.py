"""The channels that the words of a command name: names as the record has them, or patterns with `*` for any
characters."""

from __future__ import annotations

import re
from typing import Iterable, Sequence

from .configuration import RecordError
from .record import listed


def matching(word: str, names: Sequence[str]) -> list[str]:
    """The names that a word means, in their order; that there is one is for the caller to judge."""
    if word in names:
        return [word]
    pattern = re.compile(".*".join(re.escape(part) for part in word.split("*")))
    return [name for name in names if "*" in word and pattern.fullmatch(name)]


def chosen(words: Iterable[str], names: Sequence[str], where: str) -> list[str]:
    """The names that some words mean, each once, in the order of the words; a word may hold several between commas."""
    found: list[str] = []
    for word in (part.strip() for text in words for part in text.split(",")):
        these = matching(word, names)
        if not these:
            raise RecordError(f"{where} has no channel {word!r}; it has {listed(names)}")
        found += [name for name in these if name not in found]
    return found


def assigned(words: Iterable[str], names: Sequence[str], where: str) -> dict[str, str]:
    """What words as NAME=VALUE give to each name that they mean; a word may hold several between commas."""
    given: dict[str, str] = {}
    for text in (part.strip() for word in words for part in word.split(",")):
        name, equals, value = text.rpartition("=")
        if not equals:
            raise RecordError(f"{text!r} isn't of the form NAME=VALUE")
        for own in chosen([name], names, where):
            given[own] = value.strip()
    return given
