"""Expressions as the user writes them."""
from __future__ import annotations

from typing import Any

SIGNS = {
    "add": "+",
    "sub": "-",
    "mul": "*",
    "floordiv": "//",
    "mod": "%",
    "eq": "==",
    "ne": "!=",
    "lt": "<",
    "le": "<=",
    "gt": ">",
    "ge": ">=",
    "and": "&",
    "or": "|",
}
# How tightly Python binds them.
BINDING = {sign: 3 for sign in ("*", "//", "%")} | {"+": 2, "-": 2, "&": 1, "|": 0}
# Below this depth three dots stand.
DEPTH = 12


def text_of(expr: Any, depth: int = DEPTH) -> str:
    """An expression as Python's text, for messages and pictures."""
    word, parts = expr.word, expr.parts
    if depth == 0:
        return ".."
    if word == "left_out" and hasattr(expr, "shown"):
        return expr.shown()
    shown = [_part(part, depth - 1) for part in parts]
    if word == "many":
        names = "all()" if parts[0] is None else f"col({', '.join(map(_quoted, parts[0]))})"
        return f"{names}.exclude({', '.join(map(_quoted, expr.but))})" if expr.but else names
    if word in ("col", "left_out"):
        return f"{word}({_quoted(parts[0])})"
    if word in ("free", "bool", "int", "idx", "str"):
        return _quoted(parts[0]) if word != "idx" else f"lit({parts[0]}, idx)"
    if word == "null":
        return f"lit(None, {parts[0]})"
    if word == "len":
        return "len()"
    if word in SIGNS:
        return " ".join(
            (
                _bound(parts[0], word, shown[0], False),
                SIGNS[word],
                _bound(parts[1], word, shown[1], True),
            )
        )
    if word == "not":
        return f"~{shown[0]}" if parts[0].word not in SIGNS else f"~({shown[0]})"
    if word == "ternary":
        return f"when({shown[0]}).then({shown[1]}).otherwise({shown[2]})"
    on = f"({shown[0]})" if parts[0].word in SIGNS or parts[0].word == "not" else shown[0]
    return f"{on}.{_call(word, parts, shown)}"


def _call(word: str, parts: tuple, shown: list[str]) -> str:
    if word == "count":
        return "len()" if parts[1] else "count()"
    if word == "cast":
        return f"cast({parts[1]})" if parts[2] else f"cast({parts[1]}, strict=False)"
    if word == "sort":
        return f"sort({orders(parts[1], parts[2], '')})"
    if word == "sort_by":
        return f"sort_by({shown[1]}{orders(parts[2], parts[3])})"
    if word == "gather":
        return f"get({shown[1]})" if parts[2] else f"gather({shown[1]})"
    if word == "slice" and shown[2] == str(2**63 - 1):
        return f"slice({shown[1]})"
    return f"{word}({', '.join(shown[1:])})"


def named_text(expr: Any) -> str:
    """An expression with its alias, where it has a name of its own."""
    if expr.output_name == "*":
        return text_of(expr)
    leftmost = expr
    while leftmost.parts and hasattr(leftmost.parts[0], "word"):
        leftmost = leftmost.parts[1] if leftmost.word == "ternary" else leftmost.parts[0]
    name = {
        "col": leftmost.parts[0] if leftmost.parts else "",
        "len": "len",
        "left_out": expr.output_name,
    }.get(leftmost.word, "literal")
    own = expr.output_name
    return text_of(expr) if name == own else f"{text_of(expr)}.alias({_quoted(own)})"


def orders(descending: bool | list[bool], nulls_last: bool | list[bool], first: str = ", ") -> str:
    """The flags of a sort, where they aren't all false, behind what stands before the first one."""
    said = [
        f"{name}={_flags(given)}"
        for name, given in (("descending", descending), ("nulls_last", nulls_last))
        if given is True or isinstance(given, list) and any(given)
    ]
    return first + ", ".join(said) if said else ""


def _flags(given: bool | list[bool]) -> str:
    return str(given[0] if isinstance(given, list) and len(given) == 1 else given)


def _part(part: Any, depth: int) -> str:
    if isinstance(part, list):
        return ", ".join(_part(it, depth) for it in part)
    return text_of(part, depth) if hasattr(part, "word") else str(part)


def _bound(part: Any, word: str, shown: str, is_right: bool) -> str:
    """An operand, in parentheses where Python would bind it otherwise."""
    if part.word not in SIGNS or shown == "..":
        return shown
    # Comparisons bind least.
    inner, outer = BINDING.get(SIGNS[part.word], -1), BINDING.get(SIGNS[word], -1)
    return f"({shown})" if inner < outer or inner == outer and (is_right or inner == -1) else shown


def _quoted(given: Any) -> str:
    text = repr(given)
    return '"' + text[1:-1] + '"' if text.startswith("'") and '"' not in text else text
