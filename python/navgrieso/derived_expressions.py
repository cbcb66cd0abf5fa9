"""Expressions that are made of others: Polars' methods for which the engine needs no word of its
own."""
from __future__ import annotations

from collections.abc import Callable, Iterable
from typing import Any, Self

from .operators import Operators


class Derived(Operators):
    """The methods of an expression that are made of its other ones."""

    __slots__ = ()

    # Operators by name.

    def add(self, other: object) -> Self:
        """`+`."""
        return self + other

    def sub(self, other: object) -> Self:
        """`-`."""
        return self - other

    def mul(self, other: object) -> Self:
        """`*`."""
        return self * other

    def floordiv(self, other: object) -> Self:
        """`//`: rounded down, and null by 0."""
        return self // other

    def mod(self, other: object) -> Self:
        """`%`: what `//` leaves, which has the divisor's sign."""
        return self % other

    def truediv(self, other: object) -> Self:
        """`/`, which the engine leaves out."""
        return self / other

    def neg(self) -> Self:
        """`-` in front."""
        return -self

    def eq(self, other: object) -> Self:
        """`==`."""
        return self == other

    def ne(self, other: object) -> Self:
        """`!=`."""
        return self != other

    def lt(self, other: object) -> Self:
        """`<`."""
        return self < other

    def le(self, other: object) -> Self:
        """`<=`."""
        return self <= other

    def gt(self, other: object) -> Self:
        """`>`."""
        return self > other

    def ge(self, other: object) -> Self:
        """`>=`."""
        return self >= other

    def and_(self, *others: object) -> Self:
        """`&`."""
        made = self
        for it in others:
            made = made & it
        return made

    def or_(self, *others: object) -> Self:
        """`|`."""
        made = self
        for it in others:
            made = made | it
        return made

    def xor(self, other: object) -> Self:
        """Of truth values: whether just one is true; null where either is null."""
        return self != other

    def eq_missing(self, other: object) -> Self:
        """`==`, where null equals null and nothing else."""
        right = self._value(other)
        return self._choice(
            self.is_null() | right.is_null(), self.is_null() & right.is_null(), self == right
        )

    def ne_missing(self, other: object) -> Self:
        """`!=`, where null equals null and nothing else."""
        return ~self.eq_missing(other)

    # Values cell by cell.

    def fill_null(self, value: object = None, strategy: str | None = None) -> Self:
        """The cells, with a value in place of null. Fillings by neighbours are left out."""
        if strategy is not None:
            raise ValueError("fill_null takes a value here: a strategy needs the rows beside it")
        return self._choice(self.is_not_null(), self, value)

    def is_in(self, other: Iterable[object]) -> Self:
        """Whether each cell is one of some values; null where it is null. For the values of a
        column, join with how="semi"."""
        if isinstance(other, (str, Operators)) or not isinstance(other, Iterable):
            raise TypeError('is_in takes a list of values; of a column join with how="semi"')
        level = [self == it for it in other if it is not None]
        if not level:
            return self.is_null() & False
        # Halves and not a chain, since a plan isn't deep without end.
        while len(level) > 1:
            pairs = zip(level[::2], [*level[1::2], None])
            level = [one if two is None else one | two for one, two in pairs]
        return level[0].alias(self.output_name)

    def is_between(self, lower_bound: object, upper_bound: object, closed: str = "both") -> Self:
        """Whether each cell lies between two values; `closed` is both, left, right or none."""
        if closed not in ("both", "left", "right", "none"):
            raise ValueError(f"closed is one of both, left, right, none, and not {closed!r}")
        lower, upper = self._column(lower_bound), self._column(upper_bound)
        above = self >= lower if closed in ("both", "left") else self > lower
        return above & (self <= upper if closed in ("both", "right") else self < upper)

    def clip(self, lower_bound: object = None, upper_bound: object = None) -> Self:
        """The cells, moved up to a value and down to another; null stays null."""
        made = self
        if lower_bound is not None:
            low = self._column(lower_bound)
            made = self._choice(made < low, low, made).alias(self.output_name)
        if upper_bound is not None:
            high = self._column(upper_bound)
            made = self._choice(made > high, high, made).alias(self.output_name)
        return made

    def abs(self) -> Self:
        """The size of each number; the least one stays itself."""
        return self._choice(self < 0, -self, self)

    def sign(self) -> Self:
        """-1, 0 or 1; null of null."""
        below = self._choice(self < 0, -1, self)
        return self._choice(below > 0, 1, below).alias(self.output_name)

    def drop_nulls(self) -> Self:
        """The cells that aren't null."""
        return self.filter(self.is_not_null())

    # Aggregates.

    def null_count(self) -> Self:
        """How many cells are null."""
        return self.is_null().sum()

    def has_nulls(self) -> Self:
        """Whether some cell is null."""
        return self.null_count() > 0

    def any(self, *, ignore_nulls: bool = True) -> Self:
        """Whether some truth value is true, nulls left out."""
        _nulls_left_out("any", ignore_nulls)
        return self.sum() > 0

    def all(self, *, ignore_nulls: bool = True) -> Self:
        """Whether no truth value is false, nulls left out."""
        _nulls_left_out("all", ignore_nulls)
        return (~self).sum() == 0

    # Whole columns.

    def top_k(self, k: int = 5) -> Self:
        """The k greatest values, from the greatest down."""
        return self.sort(descending=True, nulls_last=True).head(k)

    def bottom_k(self, k: int = 5) -> Self:
        """The k least values, from the least up."""
        return self.sort(nulls_last=True).head(k)

    def limit(self, n: int = 10) -> Self:
        """The first n cells, as `head`."""
        return self.head(n)

    def pipe(self, function: Callable[..., Any], *words: Any, **named: Any) -> Any:
        """What a function gives for this expression."""
        return function(self, *words, **named)


def _nulls_left_out(name: str, ignore_nulls: bool) -> None:
    if not ignore_nulls:
        raise ValueError(f"{name} leaves nulls out here: ignore_nulls=False isn't there")
