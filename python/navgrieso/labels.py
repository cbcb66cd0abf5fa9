"""The nodes of a document as one line of text each."""
from __future__ import annotations

from collections.abc import Sequence
from typing import Any

from .expression_text import orders, text_of
from .expressions import Expr
from .schemas import Document

DEPTH = 8
# Longer lists are cut.
MOST_LISTED = 6


def label_of(document: Document, number: int, names: Sequence[str] = ()) -> str:
    """A node without its inputs, as `filter(col("a") > 1)`. A scan has the name of its table,
    where it has one, and else its number."""
    entry = document["nodes"][number]
    word, exprs = entry[0], document["exprs"]

    def one(number: int) -> str:
        return text_of(tree(exprs, number, DEPTH), DEPTH)

    def named(made: list[list]) -> str:
        return _listed(
            f"{name} = {one(it)}" if _is_renamed(exprs, name, it) else one(it) for name, it in made
        )

    if word == "scan":
        name = names[entry[1]] if entry[1] < len(names) else f"table {entry[1]}"
        return f"scan {name}" if entry[2] is None else f"scan {name} ({_listed(entry[2])})"
    if word == "project":
        return f"project({_listed(entry[2])})"
    if word in ("select", "hstack"):
        return f"{'with_columns' if word == 'hstack' else 'select'}({named(entry[2])})"
    if word == "filter":
        return f"filter({one(entry[2])})"
    if word == "slice":
        return f"slice{_cut(entry[2:])}"
    if word == "row_index":
        return f"with_row_index({entry[2]}, {entry[3] or 0})"
    if word == "map":
        return {0: "negate()", 1: "reverse()"}.get(entry[2], f"map({entry[2]})")
    if word == "sort":
        return f"sort({_listed(map(one, entry[2]))}{orders(entry[3], entry[4])}){_slice(entry[5])}"
    if word == "group_by":
        return f"group_by({named(entry[2])}).agg({named(entry[3])}){_slice(entry[5])}"
    if word == "join":
        keys = _listed(f"{one(left)} = {one(right)}" for left, right in zip(entry[4], entry[5]))
        return f"{entry[3]} join({keys}){_slice(entry[9])}"
    if word == "distinct":
        columns = "all columns" if entry[2] is None else _listed(entry[2])
        return f"unique({columns}, keep {entry[4]}){_slice(entry[5])}"
    if word == "union":
        return f"concat vertical{_slice(entry[2])}"
    if word == "hconcat":
        return "concat horizontal"
    return f"{word} {entry[-1]}" if word in ("cache", "left_out") else word


def tree(exprs: list[list], number: int, depth: int) -> Expr:
    """An expression of a document as a tree, as deep as it is printed."""
    if depth == 0 or not 0 <= number < len(exprs):
        return Expr("col", ("..",), "")
    word, *parts = exprs[number]
    if word == "null":
        return Expr("null", tuple(parts), "")
    if word in ("col", "bool", "int", "idx", "str", "left_out"):
        return Expr("free" if word == "idx" else word, tuple(parts), "")
    return Expr(word, tuple(_part(exprs, it, depth - 1) for it in parts), "")


def _part(exprs: list[list], part: Any, depth: int) -> Any:
    if isinstance(part, list):
        return [_part(exprs, it, depth) for it in part]
    return (
        tree(exprs, part, depth) if isinstance(part, int) and not isinstance(part, bool) else part
    )


def _is_renamed(exprs: list[list], name: str, number: int) -> bool:
    return not (0 <= number < len(exprs) and exprs[number] == ["col", name])


def _listed(texts: Any) -> str:
    found = list(texts)
    return ", ".join(found[:MOST_LISTED]) + (
        f", .. {len(found) - MOST_LISTED} more" if len(found) > MOST_LISTED else ""
    )


def _cut(bounds: list[int]) -> str:
    offset, length = bounds
    return f"({offset})" if length >= 2**63 - 1 else f"({offset}, {length})"


def _slice(bounds: list[int] | None) -> str:
    return "" if bounds is None else f".slice{_cut(bounds)}"
