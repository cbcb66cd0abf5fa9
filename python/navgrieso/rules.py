"""What a value of a document may be: rules that tell what is wrong with one, and where."""
from __future__ import annotations

import json
import re
from collections.abc import Callable, Iterator
from dataclasses import dataclass
from typing import Any

from .kinds import RANGES

MOST_NUMBER = 2**64 - 1
# Halves of the pairs of UTF-16, which no text has alone.
HALVES = re.compile("[\ud800-\udfff]")


@dataclass(frozen=True)
class Flaw:
    """What is wrong, and where: a path as `nodes[1][2]`, empty for the whole."""

    path: str
    why: str

    def __str__(self) -> str:
        return f"{self.path}: {self.why}" if self.path else self.why


@dataclass(frozen=True)
class NotWhole:
    """A number of JSON that isn't written as a whole number, or is too long to be one that counts."""

    text: str


# Tells what is wrong with a value at a path.
Rule = Callable[[Any, str], Iterator[Flaw]]


def shown(value: Any) -> str:
    """A value of JSON as a short text."""
    if isinstance(value, NotWhole):
        return value.text if len(value.text) < 30 else value.text[:27] + ".."
    if isinstance(value, list):
        return f"an array of {len(value)}"
    if isinstance(value, dict):
        return "an object"
    text = json.dumps(value, ensure_ascii=False)
    return text if len(text) < 40 else text[:37] + ".."


def wanted(what: str, value: Any, path: str) -> Iterator[Flaw]:
    """That something else stands at a path than what is wanted."""
    yield Flaw(path, f"{what} is wanted, and not {shown(value)}")


def is_whole(value: Any) -> bool:
    """Whether a value of JSON is a whole number; truth values are none."""
    return isinstance(value, int) and not isinstance(value, bool)


def number(value: Any, path: str, least: int = 0, greatest: int = MOST_NUMBER) -> Iterator[Flaw]:
    """A whole number in a range."""
    if not is_whole(value):
        yield from wanted(
            "a whole number" if isinstance(value, NotWhole) else "a number", value, path
        )
    elif not least <= value <= greatest:
        yield from wanted(f"a number from {least} to {greatest}", value, path)


def signed(value: Any, path: str) -> Iterator[Flaw]:
    """A whole number of 64 bits with a sign."""
    return number(value, path, *RANGES["int"])


def row(value: Any, path: str) -> Iterator[Flaw]:
    """A whole number of 32 bits without a sign."""
    return number(value, path, *RANGES["idx"])


def text(value: Any, path: str) -> Iterator[Flaw]:
    """A text, which has no lone half of a pair of UTF-16."""
    if not isinstance(value, str):
        yield from wanted("a text", value, path)
    elif HALVES.search(value):
        yield Flaw(path, "a text has the half of a character")


def flag(value: Any, path: str) -> Iterator[Flaw]:
    """true or false."""
    if not isinstance(value, bool):
        yield from wanted("true or false", value, path)


def one_of(*words: str) -> Rule:
    """One of these words."""

    def rule(value: Any, path: str) -> Iterator[Flaw]:
        if value not in words:
            yield from wanted(f"one of {', '.join(words)}", value, path)

    return rule


def some(item: Rule) -> Rule:
    """An array of such items."""

    def rule(value: Any, path: str) -> Iterator[Flaw]:
        if not isinstance(value, list):
            yield from wanted("an array", value, path)
        else:
            for place, it in enumerate(value):
                yield from item(it, f"{path}[{place}]")

    return rule


def together(*parts: Rule) -> Rule:
    """An array of just these parts."""

    def rule(value: Any, path: str) -> Iterator[Flaw]:
        if not isinstance(value, list) or len(value) != len(parts):
            yield from wanted(f"an array of {len(parts)}", value, path)
        else:
            for place, (part, it) in enumerate(zip(parts, value)):
                yield from part(it, f"{path}[{place}]")

    return rule


def or_null(item: Rule) -> Rule:
    """null, or such a value."""

    def rule(value: Any, path: str) -> Iterator[Flaw]:
        if value is not None:
            yield from item(value, path)

    return rule
