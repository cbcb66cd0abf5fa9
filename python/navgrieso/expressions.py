"""Expressions, with the methods that Polars' have.

An expression is a tree and computes nothing. A number or a null that is written beside an
expression takes that one's kind, so that `len() > 2` compares two row counts; `lit(2, Int64)` says
the kind.
"""
from __future__ import annotations

from collections.abc import Callable, Iterable, Iterator
from functools import reduce
from typing import NoReturn

from .derived_expressions import Derived
from .errors import NotHere
from .expression_text import text_of
from .kinds import Kind
from .polars_names import EXPR, refused

# What stands where an expression is wanted: an expression, or a value of Python's.
Operand = object


class Expr(Derived):
    """An expression: a word of the document's, its parts (expressions, lists of them, and plain
    values), and the name that its column has where none is given, which is that of its leftmost
    column."""

    __slots__ = ("word", "parts", "output_name")

    def __init__(self, word: str, parts: tuple, name: str) -> None:
        self.word = word
        self.parts = parts
        self.output_name = name

    def alias(self, name: str) -> Expr:
        """The same values under another name."""
        return Expr(self.word, self.parts, name)

    def __getattr__(self, name: str) -> NoReturn:
        """Refuses the names of Polars that aren't here, with what to use instead."""
        raise NotHere(refused("Expr", name, EXPR))

    def __bool__(self) -> bool:
        raise TypeError(
            "an expression is neither true nor false: write & for and, | for or, ~ for not"
        )

    def __repr__(self) -> str:
        return text_of(self)

    def _before(self, word: str, other: Operand) -> Expr:
        return Expr(word, (self, value(other)), self.output_name)

    def _behind(self, word: str, other: Operand) -> Expr:
        left = value(other)
        return Expr(word, (left, self), left.output_name)

    def _alone(self, word: str) -> Expr:
        return self._of(word)

    def _choice(self, predicate: Expr, then: Operand, otherwise: Operand) -> Expr:
        return Expr("ternary", (predicate, value(then), value(otherwise)), self.output_name)

    def _value(self, given: Operand) -> Expr:
        return value(given)

    def _column(self, given: Operand) -> Expr:
        return column(given)

    def _of(self, word: str, *parts: object) -> Expr:
        return Expr(word, (self, *parts), self.output_name)

    def __neg__(self) -> Expr:
        return self._behind("sub", 0).alias(self.output_name)

    def __truediv__(self, other: Operand) -> Expr:
        """Left out by the engine, which has no floats: a plan with it is refused as `Unsupported
        TrueDivide`."""
        return LeftOut("TrueDivide", self.output_name, lambda: f"{self!r} / {other!r}")

    def not_(self) -> Expr:
        """`~`: not; of null it is null."""
        return self._of("not")

    def is_null(self) -> Expr:
        """Whether each cell is null."""
        return self._of("is_null")

    def is_not_null(self) -> Expr:
        """Whether each cell is not null."""
        return self._of("is_not_null")

    def cast(self, dtype: Kind | str | type, *, strict: bool = True) -> Expr:
        """The values as another kind. What has no counterpart is a DataFault, or null where
        `strict` is false.

        Unlike Polars: a text with a `+` or with blanks is no number, and truth values are no
        texts.
        """
        return self._of("cast", Kind.of(dtype).value, bool(strict))

    # Aggregates: one cell.

    def min(self) -> Expr:
        """The least value; null where there is none."""
        return self._of("min")

    def max(self) -> Expr:
        """The greatest value; null where there is none."""
        return self._of("max")

    def sum(self) -> Expr:
        """The sum of the values, which wraps; 0 where there are none. Truth values are counted."""
        return self._of("sum")

    def first(self) -> Expr:
        """The first cell. Unlike Polars: null where there is no row."""
        return self._of("first")

    def last(self) -> Expr:
        """The last cell. Unlike Polars: null where there is no row."""
        return self._of("last")

    def n_unique(self) -> Expr:
        """How many different values there are, null counted as one."""
        return self._of("n_unique")

    def count(self) -> Expr:
        """How many cells are not null."""
        return self._of("count", False)

    def len(self) -> Expr:
        """How many cells there are."""
        return self._of("count", True)

    # Whole columns.

    def sort(self, *, descending: bool = False, nulls_last: bool = False) -> Expr:
        """The cells in order. Always stable; nulls come first unless `nulls_last`, whatever
        `descending` says."""
        return self._of("sort", bool(descending), bool(nulls_last))

    def sort_by(
        self,
        by: Operand | Iterable[Operand],
        *more_by: Operand,
        descending: bool | Iterable[bool] = False,
        nulls_last: bool | Iterable[bool] = False,
    ) -> Expr:
        """The cells in the order of other expressions. Always stable; nulls come first unless
        `nulls_last`."""
        return self._of("sort_by", columns(by, *more_by), flags(descending), flags(nulls_last))

    def gather(self, indices: Operand) -> Expr:
        """The cells at places, counted from 0: those of an expression, or a number alone.

        Unlike Polars: a place below 0 is a DataFault, as is one past the end.
        """
        return self._of("gather", value(indices), False)

    def get(self, index: Operand) -> Expr:
        """The one cell at a place, counted from 0. A place below 0 or past the end is a DataFault."""
        return self._of("gather", value(index), True)

    def filter(self, *predicates: Operand) -> Expr:
        """The cells beside which every predicate is true."""
        return self._of("filter", all_of(predicates))

    def slice(self, offset: Operand, length: Operand = None) -> Expr:
        """The cells from an offset on, from the end where it is below 0; at most `length` of them
        where it is given."""
        return self._of("slice", whole(offset), whole(2**63 - 1 if length is None else length))

    def head(self, n: int = 10) -> Expr:
        """The first n cells."""
        return self.slice(0, n)

    def tail(self, n: int = 10) -> Expr:
        """The last n cells."""
        return self.slice(-n, n)

    def reverse(self) -> Expr:
        """The cells from the last to the first."""
        return self._of("reverse")

    # What the engine leaves out: a plan with one of these is refused, and the refusal names it.

    def mean(self) -> Expr:
        """Left out by the engine: a plan with it is refused as `Unsupported Mean`."""
        return LeftOut("Mean", self.output_name, lambda: f"{self!r}.mean()")

    def median(self) -> Expr:
        """Left out by the engine: a plan with it is refused as `Unsupported Median`."""
        return LeftOut("Median", self.output_name, lambda: f"{self!r}.median()")

    def over(self, *partition_by: Operand) -> Expr:
        """Left out by the engine: a plan with it is refused as `Unsupported Window`."""
        return LeftOut(
            "Window",
            self.output_name,
            lambda: f"{self!r}.over({', '.join(map(repr, partition_by))})",
        )


class Many(Expr):
    """One expression for each of some columns: those of these names, or all but some."""

    __slots__ = ("but",)

    def __init__(self, names: tuple[str, ...] | None, but: tuple[str, ...] = ()) -> None:
        super().__init__("many", (names,), MANY)
        self.but = but

    def exclude(self, *names: str | Iterable[str]) -> Many:
        """The same but for these columns."""
        return Many(self.parts[0], (*self.but, *flat_names(names)))

    def of(self, there: Callable[[], list[str]]) -> list[str]:
        """The names that are meant, where `there` gives those that there are."""
        names = there() if self.parts[0] is None else self.parts[0]
        return [name for name in names if name not in self.but]


# The name of an expression that takes that of its column.
MANY = "*"


def flat_names(names: Iterable[str | Iterable[str]]) -> list[str]:
    """Names, and lists of names, as one list. Raises TypeError for what is none."""
    found: list[str] = []
    for it in names:
        if isinstance(it, str):
            found.append(it)
        elif isinstance(it, Iterable) and not isinstance(it, Expr):
            found.extend(flat_names(it))
        else:
            raise TypeError(f"a column's name is a text, and not {it!r}")
    return found


def expanded(exprs: Iterable[Expr], there: Callable[[], list[str]]) -> list[Expr]:
    """The expressions, where one over many columns stands once for each of them."""
    found: list[Expr] = []
    for expr in exprs:
        many = _many_in(expr)
        if many is None:
            found.append(expr)
        else:
            found.extend(_over(expr, name, there) for name in many.of(there))
    return found


def _many_in(expr: Expr) -> Many | None:
    seen: set[int] = set()
    waiting = [expr]
    while waiting:
        at = waiting.pop()
        if isinstance(at, Many):
            return at
        if id(at) not in seen:
            seen.add(id(at))
            waiting.extend(parts_of(at))
    return None


def _over(expr: Expr, name: str, there: Callable[[], list[str]]) -> Expr:
    """The expression over the one column."""
    own = name if expr.output_name == MANY else expr.output_name
    if isinstance(expr, Many):
        return Expr("col", (name,), own)
    if _many_in(expr) is None:
        return expr

    def part(it: object) -> object:
        if isinstance(it, list):
            return [part(each) for each in it]
        return _over(it, name, there) if isinstance(it, Expr) else it

    return Expr(expr.word, tuple(map(part, expr.parts)), own)


class LeftOut(Expr):
    """What the engine leaves out, by the word that a document has for it, and as the user wrote
    it."""

    __slots__ = ("shown",)

    def __init__(self, word: str, name: str, shown: Callable[[], str]) -> None:
        super().__init__("left_out", (word,), name)
        self.shown = shown

    def alias(self, name: str) -> Expr:
        """The same under another name."""
        return LeftOut(self.parts[0], name, self.shown)


def parts_of(expr: Expr) -> Iterator[Expr]:
    """The expressions that an expression is made of, one step below it."""
    for part in expr.parts:
        if isinstance(part, Expr):
            yield part
        elif isinstance(part, list):
            yield from (it for it in part if isinstance(it, Expr))


def literal(given: object, dtype: Kind | str | type | None = None) -> Expr:
    """One cell of a value of Python's. Without a kind a whole number or a null takes that of what
    stands beside it.

    Raises ValueError for what no kind holds, TypeError for what is no value of Python's that a
    column could hold.
    """
    if hasattr(given, "item") and hasattr(given, "dtype"):
        given = given.item()  # a value of numpy
    if isinstance(given, float):
        return LeftOut("FloatLiteral", "literal", lambda: repr(given))
    if given is not None and not isinstance(given, (bool, int, str)):
        raise TypeError(f"{given!r} is no expression, truth value, whole number, text or None")
    if dtype is None and isinstance(given, (bool, str)):
        dtype = type(given)
    kind = Kind.INT64 if dtype is None else Kind.of(dtype)
    if not kind.holds(given):
        raise ValueError(f"{given!r} is no value of kind {kind.value}")
    if dtype is None:
        return Expr("free", (given,), "literal")
    return (
        Expr("null", (kind.value,), "literal")
        if given is None
        else Expr(kind.value, (given,), "literal")
    )


def value(given: Operand) -> Expr:
    """What stands where a value is wanted: a text is itself."""
    return given if isinstance(given, Expr) else literal(given)


def column(given: Operand) -> Expr:
    """What stands where a column is wanted: a text is a column's name."""
    return Expr("col", (given,), given) if isinstance(given, str) else value(given)


def columns(*given: Operand | Iterable[Operand], **named: Operand) -> list[Expr]:
    """What stands where columns are wanted, lists of them too, and then those that have a name."""
    found: list[Expr] = []
    for it in given:
        if isinstance(it, Iterable) and not isinstance(it, (str, Expr)):
            found.extend(columns(*it))
        else:
            found.append(column(it))
    return [*found, *(column(it).alias(name) for name, it in named.items())]


def all_of(predicates: Iterable[Operand | Iterable[Operand]]) -> Expr:
    """The predicate that is true where all of these are. Raises ValueError where there is none."""
    found = columns(*predicates)
    if not found:
        raise ValueError("a predicate is wanted")
    return reduce(lambda left, right: left & right, found)


def whole(given: Operand) -> Expr:
    """What stands where a number of kind Int64 is wanted."""
    return literal(given, int) if isinstance(given, int) else value(given)


def flags(given: bool | Iterable[bool]) -> list[bool]:
    """One flag for all keys, or one for each."""
    return [bool(it) for it in given] if isinstance(given, Iterable) else [bool(given)]
