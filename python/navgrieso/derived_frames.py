"""Frames that are made of others: Polars' methods for which the engine needs no node of its own."""
from __future__ import annotations

from collections.abc import Callable, Collection, Iterable, Mapping
from typing import Any, Self

from .expressions import Expr, Many, Operand, all_of, column, expanded, flags, flat_names, value
from .functions import col, len, lit
from .kinds import Kind


class DerivedFrame:
    """The methods of a frame that are made of its other ones."""

    def collect_schema(self) -> dict[str, Kind]:
        """The columns with their kinds. Raises what the program refuses, where the plan isn't
        valid."""
        raise NotImplementedError

    @property
    def schema(self) -> dict[str, Kind]:
        """The columns with their kinds, as `collect_schema` gives them."""
        return self.collect_schema()

    @property
    def columns(self) -> list[str]:
        """The names of the columns, in order."""
        return list(self.collect_schema())

    @property
    def dtypes(self) -> list[Kind]:
        """The kinds of the columns, in order."""
        return list(self.collect_schema().values())

    @property
    def width(self) -> int:
        """How many columns there are."""
        return self.columns.__len__()

    def pipe(self, function: Callable[..., Any], *words: Any, **named: Any) -> Any:
        """What a function gives for this frame."""
        return function(self, *words, **named)

    def lazy(self) -> Self:
        """This frame."""
        return self

    def clone(self) -> Self:
        """This frame."""
        return self

    def set_sorted(self, *_columns: str, **_named: Any) -> Self:
        """This frame: a sort knows by itself what is in order."""
        return self

    # Columns.

    def select_seq(self, *exprs: Operand, **named: Operand) -> Self:
        """`select`."""
        return self.select(*exprs, **named)

    def with_columns_seq(self, *exprs: Operand, **named: Operand) -> Self:
        """`with_columns`."""
        return self.with_columns(*exprs, **named)

    def rename(
        self, mapping: Mapping[str, str] | Callable[[str], str], *, strict: bool = True
    ) -> Self:
        """The columns under other names. A name that isn't there is refused as `ColumnNotFound`
        where the plan is answered, unless `strict` is false."""
        names = self.columns
        given = {it: mapping(it) for it in names} if callable(mapping) else dict(mapping)
        missing = [it for it in given if it not in names] if strict else []
        return self.select(
            [col(it).alias(given.get(it, it)) for it in names], [col(it) for it in missing]
        )

    def drop(self, *columns: str | Expr | Iterable[str], strict: bool = True) -> Self:
        """The frame without these columns. One that isn't there is refused as `ColumnNotFound`
        where the plan is answered, unless `strict` is false."""
        names = self.columns
        gone: list[str] = []
        for it in columns:
            if isinstance(it, Expr):
                gone += [made.output_name for made in expanded([it], lambda: names)]
            else:
                gone += flat_names([it])
        missing = [it for it in gone if it not in names] if strict else []
        return self.select([it for it in names if it not in gone], missing)

    def cast(
        self,
        dtypes: Mapping[str, Kind | str | type] | Kind | str | type,
        *,
        strict: bool = True,
    ) -> Self:
        """The columns as other kinds: some by their names, or all as one."""
        given = (
            dtypes if isinstance(dtypes, Mapping) else dict.fromkeys(self.columns, dtypes)
        )
        return self.with_columns([col(it).cast(kind, strict=strict) for it, kind in given.items()])

    def fill_null(self, value_: Operand = None, strategy: str | None = None) -> Self:
        """A value in place of null, in the columns of its kind."""
        if strategy is not None:
            raise ValueError("fill_null takes a value here: a strategy needs the rows beside it")
        given = value(value_)
        schema = self.collect_schema()
        kinds = {"bool": (Kind.BOOLEAN,), "str": (Kind.STRING,), "idx": (Kind.IDX,)}.get(
            given.word, (Kind.INT64, Kind.IDX)
        )
        return self.with_columns(
            [col(it).fill_null(given) for it, kind in schema.items() if kind in kinds]
        )

    # Rows.

    def drop_nulls(self, subset: str | Iterable[str] | None = None) -> Self:
        """The rows without null in some columns, or in all."""
        names = self.columns if subset is None else flat_names([subset])
        return self.filter([col(it).is_not_null() for it in names])

    def remove(self, *predicates: Operand, **constraints: Any) -> Self:
        """The rows where not every predicate is true; where one is null the row stays."""
        equal = [col(name) == given for name, given in constraints.items()]
        predicate = all_of(expanded(map(column, (*predicates, *equal)), lambda: self.columns))
        return self.filter(~predicate.fill_null(False))

    def top_k(
        self,
        k: int,
        *,
        by: Operand | Iterable[Operand],
        reverse: bool | Iterable[bool] = False,
    ) -> Self:
        """The k greatest rows by some keys, from the greatest down; nulls are the least."""
        return self.sort(by, descending=[not it for it in flags(reverse)], nulls_last=True).head(k)

    def bottom_k(
        self,
        k: int,
        *,
        by: Operand | Iterable[Operand],
        reverse: bool | Iterable[bool] = False,
    ) -> Self:
        """The k least rows by some keys, from the least up; nulls come last."""
        return self.sort(by, descending=flags(reverse), nulls_last=True).head(k)

    def gather_every(self, n: int, offset: int = 0) -> Self:
        """Each n-th row, from the offset on."""
        names, number = self.columns, "row"
        while number in names:
            number += "'"
        counted = self.slice(offset).with_row_index(number)
        return counted.filter(col(number) % n == 0).select(names)

    def first(self) -> Self:
        """The first row."""
        return self.head(1)

    def last(self) -> Self:
        """The last row."""
        return self.tail(1)

    def clear(self, n: int = 0) -> Self:
        """The same columns without rows."""
        if n:
            raise ValueError("clear gives no rows here: n is 0")
        return self.head(0)

    # Aggregates of all columns.

    def count(self) -> Self:
        """Of each column how many cells aren't null."""
        return self.select(Many(None).count())

    def null_count(self) -> Self:
        """Of each column how many cells are null."""
        return self.select(Many(None).null_count())

    def min(self) -> Self:
        """The least value of each column."""
        return self.select(Many(None).min())

    def max(self) -> Self:
        """The greatest value of each column."""
        return self.select(Many(None).max())

    def sum(self) -> Self:
        """The sum of each column that isn't of texts, and null of these."""
        kinds = self.collect_schema()
        return self.select(
            [
                lit(None, kind).alias(it) if kind is Kind.STRING else col(it).sum()
                for it, kind in kinds.items()
            ]
        )


class DerivedGroups:
    """The methods of groups that are made of `agg`."""

    def len(self, name: str = "len") -> Any:
        """How many rows each group has."""
        return self.agg(len().alias(name))

    def count(self) -> Any:
        """How many cells of each column aren't null."""
        return self.agg(Many(None).count())

    def first(self) -> Any:
        """The first cell of each column."""
        return self.agg(Many(None).first())

    def last(self) -> Any:
        """The last cell of each column."""
        return self.agg(Many(None).last())

    def min(self) -> Any:
        """The least value of each column."""
        return self.agg(Many(None).min())

    def max(self) -> Any:
        """The greatest value of each column."""
        return self.agg(Many(None).max())

    def n_unique(self) -> Any:
        """How many different values each column has."""
        return self.agg(Many(None).n_unique())

    def sum(self) -> Any:
        """The sum of each column, of which none is of texts."""
        return self.agg(Many(None).sum())


def diagonal(frames: Collection[Any]) -> list[Any]:
    """The frames with all columns that one of them has, in the order in which these come first;
    what a frame lacks is null."""
    schemas = [frame.collect_schema() for frame in frames]
    kinds: dict[str, Kind] = {}
    for schema in schemas:
        for name, kind in schema.items():
            kinds.setdefault(name, kind)
    return [
        frame.select(
            [col(it) if it in schema else lit(None, kind).alias(it) for it, kind in kinds.items()]
        )
        if list(schema) != list(kinds)
        else frame
        for frame, schema in zip(frames, schemas)
    ]
