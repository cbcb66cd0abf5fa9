"""What expressions are begun with: `col`, `lit`, `len` and `when`."""
from __future__ import annotations

from collections.abc import Iterable
from functools import reduce

from .expressions import Expr, LeftOut, Many, Operand, all_of, column, columns, flat_names, literal
from .kinds import Kind


def col(name: str | Iterable[str], *more: str) -> Expr:
    """The column of that name. Of several names it stands for each of these columns, and `"*"` for
    all that there are."""
    names = flat_names((name, *more))
    if names == ["*"]:
        return Many(None)
    return column(names[0]) if isinstance(name, str) and not more else Many(tuple(names))


def all(*names: str) -> Expr:
    """All columns, each by itself; of columns that are named, whether all their cells are true."""
    return col(*names).all() if names else Many(None)


def exclude(*names: str | Iterable[str]) -> Many:
    """All columns but these."""
    return Many(None).exclude(*names)


def sum(*names: str) -> Expr:
    """The sum of a column, or of each of several."""
    return col(*names).sum()


def min(*names: str) -> Expr:
    """The least value of a column, or of each of several."""
    return col(*names).min()


def max(*names: str) -> Expr:
    """The greatest value of a column, or of each of several."""
    return col(*names).max()


def first(*names: str) -> Expr:
    """The first cell of a column, or of each of several."""
    return col(*names).first()


def last(*names: str) -> Expr:
    """The last cell of a column, or of each of several."""
    return col(*names).last()


def count(*names: str) -> Expr:
    """How many cells of a column aren't null."""
    return col(*names).count()


def n_unique(*names: str) -> Expr:
    """How many different values a column has."""
    return col(*names).n_unique()


def mean(name: str) -> Expr:
    """Left out by the engine: a plan with it is refused as `Unsupported Mean`."""
    return LeftOut("Mean", name, lambda: f'mean("{name}")')


def head(name: str, n: int = 10) -> Expr:
    """The first n cells of a column."""
    return col(name).head(n)


def tail(name: str, n: int = 10) -> Expr:
    """The last n cells of a column."""
    return col(name).tail(n)


def any(*names: str) -> Expr:
    """Whether some cell of a column is true."""
    return col(*names).any()


def all_horizontal(*exprs: Operand | Iterable[Operand]) -> Expr:
    """In each row whether all are true, three-valued as in SQL."""
    return all_of(exprs)


def any_horizontal(*exprs: Operand | Iterable[Operand]) -> Expr:
    """In each row whether one is true, three-valued as in SQL."""
    return reduce(lambda one, two: one | two, columns(*exprs))


def coalesce(*exprs: Operand | Iterable[Operand]) -> Expr:
    """In each row the first that isn't null."""
    *before, made = columns(*exprs)
    for it in reversed(before):
        made = it.fill_null(made)
    return made


def lit(given: bool | int | float | str | None, dtype: Kind | str | type | None = None) -> Expr:
    """One cell, which is repeated as far as it has to be.

    Without a kind a whole number or a null takes the kind of what stands beside it, else a number
    is an Int64. Raises ValueError for what the kind doesn't hold. A float is left out by the
    engine, which refuses it.
    """
    return literal(given, dtype)


def len() -> Expr:
    """How many rows there are; its column is named `len`."""
    return Expr("len", (), "len")


class Then:
    """`when(..).then(..)`, which waits for `otherwise`, or for one more `when`."""

    def __init__(self, cases: list[tuple[Expr, Expr]]) -> None:
        self._cases = cases

    def when(self, *predicates: Operand) -> When:
        """A further case, for rows where no earlier one is true."""
        return When(self._cases, all_of(predicates))

    def otherwise(self, statement: Operand) -> Expr:
        """The value where no case is true. A text names a column, as in Polars."""
        made = column(statement)
        for predicate, then in reversed(self._cases):
            made = Expr("ternary", (predicate, then, made), self._cases[0][1].output_name)
        return made


class When:
    """`when(..)`, which waits for `then`."""

    def __init__(self, cases: list[tuple[Expr, Expr]], predicate: Expr) -> None:
        self._cases = cases
        self._predicate = predicate

    def then(self, statement: Operand) -> Then:
        """The value where the predicates are true. A text names a column, as in Polars."""
        return Then([*self._cases, (self._predicate, column(statement))])


def when(*predicates: Operand) -> When:
    """A choice row by row: `when(..).then(..).otherwise(..)`, where `otherwise(None)` says null.

    Unlike Polars, `otherwise` is never left out.
    """
    return When([], all_of(predicates))
