"""The kinds of a document's expressions and the schemas of its nodes, by the rules of
docs/MEANING.md.

They serve to print nodes, to read an answer, and to say which columns there are. Whether a plan is
valid is the program's to say: where a rule is broken a schema may be unknown (None), or what the
rule would otherwise give.
"""
from __future__ import annotations

from collections.abc import Sequence
from typing import Any

# The names of a node's columns with their kinds, in order.
Schema = list[tuple[str, str]]
Document = dict[str, Any]

COMPARISONS = {"eq", "ne", "lt", "le", "gt", "ge"}
ARITHMETIC = {"add", "sub", "mul", "floordiv", "mod"}
LOGIC = {"and", "or", "not"}
# What has the kind of its first operand.
LIKE_FIRST = {
    "sort",
    "sort_by",
    "gather",
    "filter",
    "slice",
    "reverse",
    "min",
    "max",
    "first",
    "last",
}
VALUES = {"null", "bool", "int", "idx", "str"}
AGGREGATES = {"min", "max", "sum", "first", "last", "n_unique", "count"}
# No valid plan is deeper.
MOST_DEPTH = 256


class Kinds:
    """The kinds of expressions over one schema, each worked out once."""

    def __init__(self, exprs: Sequence[list], schema: Schema | None) -> None:
        self._exprs = exprs
        self._columns = dict(schema or [])
        self._known: dict[int, str | None] = {}

    def of(self, number: int, depth: int = MOST_DEPTH) -> str | None:
        """The kind of an expression, or None where it has none or isn't known."""
        if number not in self._known:
            # What leads back to itself has no kind.
            self._known[number] = None
            if depth and 0 <= number < len(self._exprs):
                self._known[number] = self._rule(self._exprs[number], depth - 1)
        return self._known[number]

    def _rule(self, entry: list, depth: int) -> str | None:
        word, parts = entry[0], entry[1:]
        if word == "col":
            return self._columns.get(parts[0])
        if word == "null":
            return parts[0]
        if word in ("bool", "int", "idx", "str"):
            return word
        if word == "len":
            return "idx"
        if word == "left_out":
            return None
        first = self.of(parts[0], depth)
        if first is None or word in LIKE_FIRST:
            return first
        if word in COMPARISONS:
            return "bool" if self.of(parts[1], depth) == first else None
        if word in ARITHMETIC:
            return first if first in ("int", "idx") and self.of(parts[1], depth) == first else None
        if word in LOGIC:
            return "bool" if all(self.of(it, depth) == "bool" for it in parts) else None
        if word in ("is_null", "is_not_null"):
            return "bool"
        if word == "cast":
            return None if {first, parts[1]} == {"bool", "str"} else parts[1]
        if word == "ternary":
            then = self.of(parts[1], depth)
            return then if first == "bool" and self.of(parts[2], depth) == then else None
        if word == "sum":
            return {"bool": "idx", "str": None}.get(first, first)
        return "idx" if word in ("count", "n_unique") else None


def is_scalar(exprs: Sequence[list], number: int, depth: int = MOST_DEPTH) -> bool:
    """Whether an expression gives one cell whatever its table has."""
    if not depth or not 0 <= number < len(exprs):
        return False
    word, *parts = exprs[number]
    if word in VALUES or word in AGGREGATES or word == "len":
        return True
    if word in ("col", "filter", "slice", "left_out"):
        return False
    if word == "gather":
        return bool(parts[2])
    if word in ("sort", "cast", "sort_by"):
        parts = parts[:1]
    return all(is_scalar(exprs, it, depth - 1) for it in parts)


class Schemas:
    """The schemas of a document's nodes, each worked out once."""

    def __init__(self, document: Document) -> None:
        self._document = document
        self._known: dict[int, Schema | None] = {}

    def of(self, number: int) -> Schema | None:
        """The schema of a node, or None where it isn't known."""
        waiting = [number]
        while waiting:
            at = waiting[-1]
            below = [it for it in self.inputs(at) if it not in self._known]
            if at in self._known or not below:
                waiting.pop()
                if self._known.get(at) is None:
                    self._known[at] = self._rule(at)
            else:
                # What leads back to itself has no schema.
                self._known[at] = None
                waiting.extend(below)
        return self._known[number]

    def inputs(self, number: int) -> list[int]:
        """The nodes that a node reads."""
        nodes = self._document["nodes"]
        return inputs_of(nodes[number]) if 0 <= number < len(nodes) else []

    def _rule(self, number: int) -> Schema | None:
        nodes, exprs = self._document["nodes"], self._document["exprs"]
        if not 0 <= number < len(nodes):
            return None
        entry = nodes[number]
        below = [self._known.get(it) for it in inputs_of(entry)]
        if None in below:
            return None
        return schema_of(
            entry, [it for it in below if it is not None], exprs, self._document["tables"]
        )


def inputs_of(entry: list) -> list[int]:
    """The numbers of the nodes that an entry names as its inputs."""
    word = entry[0]
    if word in ("scan", "left_out"):
        return []
    if word in ("union", "hconcat"):
        return list(entry[1])
    return [entry[1], entry[2]] if word == "join" else [entry[1]]


def with_inputs(entry: list, numbers: list[int]) -> list:
    """The entry with other numbers of its inputs."""
    if entry[0] in ("union", "hconcat"):
        return [entry[0], numbers, *entry[2:]]
    return [entry[0], *numbers, *entry[1 + len(numbers) :]]


def schema_of(
    entry: list, below: list[Schema], exprs: Sequence[list], tables: Sequence[list]
) -> Schema | None:
    """The schema of a node over the schemas of its inputs, or None where it isn't known."""
    word = entry[0]
    if word == "scan":
        return _named([(name, kind) for name, kind, _ in tables[entry[1]]], entry[2])
    if word == "left_out" or not below:
        return None
    first = below[0]
    if word == "project":
        return _named(first, entry[2])
    if word in ("select", "hstack", "group_by"):
        named = entry[2] + entry[3] if word == "group_by" else entry[2]
        kinds = Kinds(exprs, first)
        made = {name: kinds.of(number) for name, number in named}
        if None in made.values():
            return None
        # A column of the same name is replaced in its place.
        columns = dict(first) | made if word == "hstack" else made
        return [(name, kind) for name, kind in columns.items() if kind is not None]
    if word == "row_index":
        return [(entry[2], "idx"), *first]
    if word == "hconcat":
        return [column for schema in below for column in schema]
    return _joined(entry, first, below[1], exprs) if word == "join" else first


def _named(schema: Schema, names: list[str] | None) -> Schema | None:
    if names is None:
        return schema
    kinds = dict(schema)
    return (
        [(name, kinds[name]) for name in names] if all(name in kinds for name in names) else None
    )


def _joined(entry: list, left: Schema, right: Schema, exprs: Sequence[list]) -> Schema:
    how, left_on, right_on, suffix = entry[3], entry[4], entry[5], entry[6]
    if how in ("semi", "anti"):
        return left
    # The keys of one side aren't repeated where they are columns by themselves.
    if how in ("inner", "left"):
        right = _without(right, right_on, exprs)
    elif how == "right":
        left = _without(left, left_on, exprs)
    taken = {name for name, _ in left}
    suffix = "_right" if suffix is None else suffix
    return left + [(name + suffix if name in taken else name, kind) for name, kind in right]


def _without(schema: Schema, keys: list[int], exprs: Sequence[list]) -> Schema:
    plain = {exprs[key][1] for key in keys if 0 <= key < len(exprs) and exprs[key][0] == "col"}
    return [(name, kind) for name, kind in schema if name not in plain]
