"""What breaks the rules at a node that the program refused: which kinds don't agree, and which
numbers name nothing."""
from __future__ import annotations

from collections.abc import Callable, Iterator
from typing import Any

from .expression_text import SIGNS, text_of
from .labels import tree
from .query_plan import QueryPlan
from .schemas import ARITHMETIC, COMPARISONS, Kinds, Schema, inputs_of, is_scalar

# How many functions the program has for `map`.
FUNCTIONS = 2
# Deeper parts of an expression are told by dots.
DEPTH = 6

# What a query does in place of comparing a count, or of a mean.
COUNTING = (
    "with one = 1 | group .. agg n = sum(one), mean = sum(x) // sum(one) | filter n > 1"
)


def mismatch(built: Any, node: int) -> str | None:
    """Which kinds don't agree at a node, and why that is refused; None where it isn't seen here."""
    document = built.document
    exprs, entry = document["exprs"], document["nodes"][node]
    below = [built.schemas[it] for it in inputs_of(entry)]
    if None in below:
        return None
    texts = built.texts if isinstance(built, QueryPlan) else {}

    def text(number: int) -> str:
        return texts.get(number) or text_of(tree(exprs, number, DEPTH), DEPTH)

    if entry[0] == "union":
        return _unlike_inputs(below)
    for side, number in _expressions_of(entry):
        told = _Rules(exprs, below[side], text).broken(number)
        if told is not None:
            return told
    kinds = [Kinds(exprs, schema) for schema in below]
    if entry[0] == "filter" and kinds[0].of(entry[2]) != "bool":
        return f"{text(entry[2])} is {kinds[0].of(entry[2])}, and a filter wants bool"
    if entry[0] == "join":
        for left, right in zip(entry[4], entry[5]):
            one, two = kinds[0].of(left), kinds[1].of(right)
            if one != two:
                return f"{text(left)} is {one} on the left and {text(right)} is {two} on the right"
    if entry[0] == "group_by":
        for name, number in entry[3]:
            if not is_scalar(exprs, number):
                return (
                    f"{name} = {text(number)} isn't one cell for a group, as sum, count, min, max, "
                    "first and last are"
                )
    return None


def is_count_beside_a_number(told: str) -> bool:
    """Whether a told mismatch is of a row count and a whole number."""
    return " is idx and " in told and " is int" in told or (
        " is int and " in told and " is idx" in told
    )


def shape(document: dict[str, Any], node: int) -> str | None:
    """Which number names nothing at a node, or what else its shape lacks; None where that isn't
    seen here."""
    nodes, exprs = document["nodes"], document["exprs"]
    if node >= len(nodes):
        return f"there is no node {node}: there are {_counted(len(nodes))}"
    entry = nodes[node]
    below = inputs_of(entry)
    if entry[0] in ("union", "hconcat") and not below:
        return "it has no input"
    for it in below:
        if it >= len(nodes):
            return f"it reads node {it}, and there are {_counted(len(nodes))}"
    if entry[0] == "sink" and node != document["root"]:
        return "a sink stands below the root, which alone may be one"
    if entry[0] == "map" and entry[2] >= FUNCTIONS:
        return f"it names function {entry[2]}, and there are {_counted(FUNCTIONS)}"
    for _, number in _expressions_of(entry):
        told = _out_of_range(exprs, number)
        if told is not None:
            return told
    return "it reads itself, by whatever way" if _reaches(nodes, node, node) else None


def _counted(count: int) -> str:
    return f"{count}, from 0 on" if count else "none"


def _expressions_of(entry: list) -> Iterator[tuple[int, int]]:
    """The numbers of the expressions that an entry names, each with the input that it reads."""
    word = entry[0]
    if word == "filter":
        yield 0, entry[2]
    elif word == "sort":
        yield from ((0, it) for it in entry[2])
    elif word in ("select", "hstack"):
        yield from ((0, it) for _, it in entry[2])
    elif word == "group_by":
        yield from ((0, it) for _, it in entry[2] + entry[3])
    elif word == "join":
        yield from ((0, it) for it in entry[4])
        yield from ((1, it) for it in entry[5])


def parts_of(entry: list) -> list[int]:
    """The numbers of the expressions that an expression names."""
    word = entry[0]
    if word in ("col", "null", "bool", "int", "idx", "str", "len", "left_out"):
        return []
    if word == "sort_by":
        return [entry[1], *entry[2]]
    many = {"gather": 2, "slice": 3, "ternary": 3, "filter": 2, **dict.fromkeys(SIGNS, 2)}
    return entry[1 : 1 + many.get(word, 1)]


def _out_of_range(exprs: list[list], number: int) -> str | None:
    seen: set[int] = set()
    waiting: list[tuple[int, int | None]] = [(number, None)]
    while waiting:
        at, by = waiting.pop()
        if at >= len(exprs):
            who = "it" if by is None else f"expression {by}"
            return f"{who} names expression {at}, and there are {_counted(len(exprs))}"
        if at not in seen:
            seen.add(at)
            waiting.extend((it, at) for it in parts_of(exprs[at]))
    return None


def _reaches(nodes: list[list], begin: int, end: int) -> bool:
    seen: set[int] = set()
    waiting = list(inputs_of(nodes[begin]))
    while waiting:
        at = waiting.pop()
        if at == end:
            return True
        if at not in seen and at < len(nodes):
            seen.add(at)
            waiting.extend(inputs_of(nodes[at]))
    return False


def _unlike_inputs(below: list[Schema | None]) -> str | None:
    first = below[0] or []
    for place, schema in enumerate(below[1:], 1):
        if schema is None or schema == first:
            continue
        if len(schema) != len(first):
            return f"input 0 has {len(first)} columns and input {place} has {len(schema)}"
        one, two = next(pair for pair in zip(first, schema) if pair[0] != pair[1])
        return f"input 0 has {one[0]} {one[1]} where input {place} has {two[0]} {two[1]}"
    return None


class _Rules:
    """The rules on kinds, for expressions over one schema."""

    def __init__(
        self, exprs: list[list], schema: Schema | None, text: Callable[[int], str]
    ) -> None:
        self._exprs = exprs
        self._kinds = Kinds(exprs, schema)
        self._text = text

    def broken(self, number: int) -> str | None:
        """The rule that is broken furthest inside an expression, if one is."""
        order: dict[int, None] = {}
        waiting = [number]
        while waiting:
            at = waiting.pop()
            if at not in order and 0 <= at < len(self._exprs):
                order[at] = None
                waiting.extend(parts_of(self._exprs[at]))
        told = (self._rule(self._exprs[at]) for at in reversed(order))
        return next((it for it in told if it is not None), None)

    def _is(self, number: int) -> str:
        return f"{self._text(number)} is {self._kinds.of(number)}"

    def _rule(self, entry: list) -> str | None:
        word, parts = entry[0], parts_of(entry)
        kinds = [self._kinds.of(it) for it in parts]
        if None in kinds or not parts:
            return None
        if word in COMPARISONS or word in ARITHMETIC:
            sign = SIGNS[word]
            if kinds[0] != kinds[1]:
                both = " and ".join(map(self._is, parts))
                return f"{both}: both sides of {sign} have one kind"
            if word in ARITHMETIC and kinds[0] not in ("int", "idx"):
                return f"{self._is(parts[0])}: {sign} is of whole numbers"
        elif word in ("and", "or", "not"):
            for it, kind in zip(parts, kinds):
                if kind != "bool":
                    return f"{self._is(it)}, and {word} wants bool"
        elif word == "cast" and {kinds[0], entry[2]} == {"bool", "str"}:
            return f"{self._is(parts[0])}, and no cast leads from there to {entry[2]}"
        elif word == "sum" and kinds[0] == "str":
            return f"{self._is(parts[0])}: sum is of numbers and truth values"
        elif word == "ternary":
            if kinds[0] != "bool":
                return f"{self._is(parts[0])}, and a choice wants bool"
            if kinds[1] != kinds[2]:
                both = " and ".join(map(self._is, parts[1:]))
                return f"{both}: both branches of a choice have one kind"
        elif word == "filter" and kinds[1] != "bool":
            return f"{self._is(parts[1])}, and a filter wants bool"
        elif word == "gather" and kinds[1] not in ("int", "idx"):
            return f"{self._is(parts[1])}, and a place is a whole number"
        elif word == "slice":
            for it, kind in zip(parts[1:], kinds[1:]):
                if kind != "int":
                    return f"{self._is(it)}, and a bound of a slice is int"
        return None
