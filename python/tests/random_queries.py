"""Random queries, each made twice: as a frame of the client, and as rows that are computed plainly
beside it."""
from __future__ import annotations

import random
from collections.abc import Callable
from dataclasses import dataclass

import navgrieso as nav

from . import reference
from .reference import Cell, Rows

KINDS = ("bool", "int", "idx", "str")
TEXTS = ("", "a", "b", "ab", "é", "日", "12", "-7", "+1", "x, y", '"', "two\nlines", "true")
NUMBERS = (0, 1, 2, 3, -1, -7, 10, 2**63 - 1, -(2**63), 4294967296)
ROWS = (0, 1, 2, 7, 4294967295)


@dataclass
class Both:
    """An expression of the client, and what its cells are over a table: one for each row, or one
    alone."""

    expr: nav.Expr
    cells: Callable[[Rows], list[Cell]]


class Chance:
    """Random cells, tables and expressions."""

    def __init__(self, seed: int) -> None:
        self.rng = random.Random(seed)

    def cell(self, kind: str) -> Cell:
        if self.rng.random() < 0.15:
            return None
        values = {"bool": (True, False), "int": NUMBERS, "idx": ROWS, "str": TEXTS}[kind]
        return self.rng.choice(values[: self.rng.choice((3, len(values)))])

    def table(self, names: list[str]) -> tuple[nav.LazyFrame, Rows]:
        kinds = [self.rng.choice(KINDS) for _ in names]
        height = self.rng.choice((0, 1, 2, 3, 5, 8))
        rows = [tuple(self.cell(kind) for kind in kinds) for _ in range(height)]
        columns = {name: [row[at] for row in rows] for at, name in enumerate(names)}
        return nav.table(columns, dict(zip(names, kinds))), Rows(names, kinds, rows)

    def column(self, table: Rows, kind: str) -> Both:
        """A column of a kind, or a literal where there is none."""
        names = [name for name, it in zip(table.names, table.kinds) if it == kind]
        return self.named(self.rng.choice(names)) if names else self.literal(kind)

    def named(self, name: str) -> Both:
        return Both(nav.col(name), lambda rows: rows.column(name))

    def literal(self, kind: str) -> Both:
        cell = self.cell(kind)
        return Both(nav.lit(cell, kind), lambda rows: [cell])

    def expr(self, table: Rows, kind: str, depth: int = 3, aggregates: bool = True) -> Both:
        """An expression of a kind over a table, of at most such a depth."""
        if depth == 0 or self.rng.random() < 0.2:
            return self.column(table, kind) if self.rng.random() < 0.8 else self.literal(kind)

        def make(wanted: str) -> Both:
            return self.expr(table, wanted, depth - 1, aggregates)

        choices = [
            "ternary",
            "ternary",
            *{
                "bool": ["compare", "compare", "logic", "not", "null", "cast"],
                "int": ["compute", "compute", "cast"],
                "idx": ["compute", "cast"],
                "str": ["cast"],
            }[kind],
        ]
        if aggregates:
            choices += ["aggregate", "whole"]
        return getattr(self, f"_{self.rng.choice(choices)}")(make, kind)

    def _ternary(self, make: Callable[[str], Both], kind: str) -> Both:
        test, then, other = make("bool"), make(kind), make(kind)
        expr = nav.when(test.expr).then(then.expr).otherwise(other.expr)
        return each(expr, lambda cond, one, two: one if cond is True else two, test, then, other)

    def _compare(self, make: Callable[[str], Both], kind: str) -> Both:
        operands, word = self.rng.choice(KINDS), self.rng.choice(
            ("eq", "ne", "lt", "le", "gt", "ge")
        )
        left, right = make(operands), make(operands)
        expr = getattr(left.expr, f"__{word}__")(right.expr)
        return each(expr, lambda one, two: reference.comparison(word, one, two), left, right)

    def _compute(self, make: Callable[[str], Both], kind: str) -> Both:
        word = self.rng.choice(("add", "sub", "mul", "floordiv", "mod"))
        left, right = make(kind), make(kind)
        expr = getattr(left.expr, f"__{word}__")(right.expr)
        return each(expr, lambda one, two: reference.arithmetic(word, kind, one, two), left, right)

    def _logic(self, make: Callable[[str], Both], kind: str) -> Both:
        word, left, right = self.rng.choice(("and", "or")), make("bool"), make("bool")
        expr = left.expr & right.expr if word == "and" else left.expr | right.expr
        return each(expr, lambda one, two: reference.logic(word, one, two), left, right)

    def _not(self, make: Callable[[str], Both], kind: str) -> Both:
        of = make("bool")
        return each(~of.expr, lambda cell: None if cell is None else not cell, of)

    def _null(self, make: Callable[[str], Both], kind: str) -> Both:
        of, is_null = make(self.rng.choice(KINDS)), self.rng.random() < 0.5
        expr = of.expr.is_null() if is_null else of.expr.is_not_null()
        return each(expr, lambda cell: (cell is None) == is_null, of)

    def _cast(self, make: Callable[[str], Both], kind: str) -> Both:
        barred = {"bool": "str", "str": "bool"}.get(kind)
        of = make(self.rng.choice([it for it in KINDS if it != barred]))
        # From texts to texts and the like nothing is changed.
        return each(of.expr.cast(kind, strict=False), lambda cell: same_or_cast(cell, kind), of)

    def _aggregate(self, make: Callable[[str], Both], kind: str) -> Both:
        words = [
            "min",
            "max",
            "first",
            "last",
            *{"int": ["sum"], "idx": ["sum", "count", "len", "n_unique"]}.get(kind, []),
        ]
        word = self.rng.choice(words)
        of_kind = self.rng.choice(KINDS) if word in ("count", "len", "n_unique") else kind
        if word == "sum" and kind == "idx" and self.rng.random() < 0.5:
            of_kind = "bool"
        of = make(of_kind)
        return Both(
            getattr(of.expr, word)(),
            lambda rows: [reference.aggregate(word, of_kind, of.cells(rows))],
        )

    def _whole(self, make: Callable[[str], Both], kind: str) -> Both:
        of = make(kind)
        if self.rng.random() < 0.5:
            return Both(of.expr.reverse(), lambda rows: of.cells(rows)[::-1])
        down, last = self.rng.random() < 0.5, self.rng.random() < 0.5

        def cells(rows: Rows) -> list[Cell]:
            found = of.cells(rows)
            return [
                row[0]
                for row in reference.ordered([(cell,) for cell in found], [found], [down], [last])
            ]

        return Both(of.expr.sort(descending=down, nulls_last=last), cells)


def same_or_cast(cell: Cell, kind: str) -> Cell:
    """A cell as a kind; truth values, whose numbers are 0 and 1, stay themselves as truth values."""
    if isinstance(cell, str) and kind == "str" or isinstance(cell, bool) and kind == "bool":
        return cell
    return reference.cast(cell, kind)


def beside(columns: list[list[Cell]]) -> list[tuple[Cell, ...]]:
    """Columns side by side: one cell is repeated beside columns of another length."""
    lengths = {len(cells) for cells in columns} - {1} or {1}
    assert len(lengths) == 1, lengths
    height = lengths.pop()
    return list(zip(*(cells * height if len(cells) == 1 else cells for cells in columns)))


def each(expr: nav.Expr, function: Callable[..., Cell], *operands: Both) -> Both:
    """A function of cells that stand beside each other."""
    return Both(
        expr,
        lambda rows: [function(*cells) for cells in beside([it.cells(rows) for it in operands])],
    )
