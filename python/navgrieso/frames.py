"""Lazy frames as Polars has them: a plan that grows step by step, and is answered by the program
when it is asked."""
from __future__ import annotations

from collections.abc import Iterable, Mapping
from typing import Any, NoReturn

from .answers import Answer
from .asking import collect, explain, schema_of, write_csv
from .derived_frames import DerivedFrame, DerivedGroups, diagonal
from .errors import NotHere
from .expression_text import named_text, orders
from .expressions import Expr, Operand, all_of, column, columns, expanded, flags
from .kinds import Kind
from .pictures import Picture, picture
from .plans import Step, Table, build
from .polars_names import FRAME, refused
from .source import source_line

REST = 2**64 - 1


class LazyFrame(DerivedFrame):
    """A plan over tables. Each method gives a new frame, and nothing is computed before `collect`.

    Sorts are always stable. The order of rows is fixed but after `group_by` and `unique` without
    `maintain_order`.
    """

    def __init__(
        self, data: Any = None, schema: Mapping[str, Kind | str | type] | None = None
    ) -> None:
        """A frame of columns by name, as `table` takes them."""
        if not isinstance(data, Step):
            from .tables import table

            data = table({} if data is None else data, schema)._step
        self._step = data

    def __getattr__(self, name: str) -> NoReturn:
        """Refuses the names of Polars that aren't here, with what to use instead."""
        raise NotHere(refused("LazyFrame", name, FRAME))

    def __repr__(self) -> str:
        return f"<a lazy frame: {self._step.text()}; collect() answers it>"

    def _repr_html_(self) -> str:
        return self.show().svg()

    def collect_schema(self) -> dict[str, Kind]:
        """The columns with their kinds. Raises what the program refuses, where the plan isn't
        valid."""
        return schema_of(build(self._step))

    def _columns(self, *given: Operand | Iterable[Operand], **named: Operand) -> list[Expr]:
        """What stands where columns are wanted; one over many columns stands for each of them."""
        return expanded(columns(*given, **named), lambda: self.columns)

    def _then(self, entry: Any, text: Any, *others: LazyFrame) -> LazyFrame:
        inputs = (self._step, *(it._step for it in others))
        return LazyFrame(Step(inputs, entry, text, source_line()))

    # Rows.

    def filter(self, *predicates: Operand, **constraints: Any) -> LazyFrame:
        """The rows where every predicate is true, and each column of the constraints has its value;
        where one is null the row is dropped."""
        equal = [column(name) == given for name, given in constraints.items()]
        predicate = all_of(self._columns(*predicates, *equal))
        return self._then(
            lambda i, e: ["filter", i[0], e(predicate)], lambda: f"filter({predicate!r})"
        )

    def slice(self, offset: int, length: int | None = None) -> LazyFrame:
        """The rows from an offset on, counted from the end where it is below 0; all of them
        without a length."""
        long = REST if length is None else length
        shown = f"slice({offset})" if length is None else f"slice({offset}, {length})"
        return self._then(lambda i, e: ["slice", i[0], offset, long], lambda: shown)

    def head(self, n: int = 5) -> LazyFrame:
        """The first n rows."""
        return self.slice(0, n)

    def limit(self, n: int = 5) -> LazyFrame:
        """The first n rows, as `head`."""
        return self.slice(0, n)

    def tail(self, n: int = 5) -> LazyFrame:
        """The last n rows."""
        return self.slice(-n, n)

    def reverse(self) -> LazyFrame:
        """The rows from the last to the first: the program's function 1."""
        return self._then(lambda i, e: ["map", i[0], 1], lambda: "reverse()")

    def negate(self) -> LazyFrame:
        """Each whole number of kind Int64 negated: the program's function 0. The least one stays
        itself."""
        return self._then(lambda i, e: ["map", i[0], 0], lambda: "negate()")

    def sort(
        self,
        by: Operand | Iterable[Operand],
        *more_by: Operand,
        descending: bool | Iterable[bool] = False,
        nulls_last: bool | Iterable[bool] = False,
    ) -> LazyFrame:
        """The rows in order. Unlike Polars it is always stable; nulls come first unless
        `nulls_last`, also in a sort that descends."""
        keys, down, last = self._columns(by, *more_by), flags(descending), flags(nulls_last)
        return self._then(
            lambda i, e: ["sort", i[0], [e(key) for key in keys], down, last, None],
            lambda: f"sort({_listed(keys)}{orders(down, last)})",
        )

    def unique(
        self,
        subset: str | Iterable[str] | None = None,
        *,
        keep: str = "any",
        maintain_order: bool = False,
    ) -> LazyFrame:
        """One row of those that are equal in some columns, or in all: the `first`, the `last`, or
        `any`; or `none`, only the rows that are alone."""
        names = [subset] if isinstance(subset, str) else None if subset is None else list(subset)
        _one_of("keep", keep, ("first", "last", "any", "none"))
        kept = f"keep={keep!r}, maintain_order={maintain_order}"
        return self._then(
            lambda i, e: ["distinct", i[0], names, bool(maintain_order), keep, None],
            lambda: f"unique({kept})" if names is None else f"unique({names}, {kept})",
        )

    # Columns.

    def select(self, *exprs: Operand | Iterable[Operand], **named: Operand) -> LazyFrame:
        """The expressions side by side. One cell is repeated; columns of other lengths must agree
        (DataFault)."""
        made = self._columns(*exprs, **named)

        def text() -> str:
            return f"select({_listed(made)})"

        if made and all(it.word == "col" and it.output_name == it.parts[0] for it in made):
            return self._then(lambda i, e: ["project", i[0], [it.output_name for it in made]], text)
        return self._then(lambda i, e: ["select", i[0], _named(made, e)], text)

    def with_columns(self, *exprs: Operand | Iterable[Operand], **named: Operand) -> LazyFrame:
        """The rows with more columns; one of the same name is replaced in its place."""
        made = self._columns(*exprs, **named)
        return self._then(
            lambda i, e: ["hstack", i[0], _named(made, e)],
            lambda: f"with_columns({_listed(made)})",
        )

    def with_row_index(self, name: str = "index", offset: int = 0) -> LazyFrame:
        """A first column of numbers, of kind IdxSize, from the offset on."""
        shown = f"with_row_index({name!r}, {offset})"
        return self._then(lambda i, e: ["row_index", i[0], name, offset], lambda: shown)

    # Groups, joins, sharing.

    def group_by(
        self, *by: Operand | Iterable[Operand], maintain_order: bool = False, **named_by: Operand
    ) -> GroupBy:
        """The rows by keys, for `agg`. Null is a key. With `maintain_order` the groups stand in
        the order in which their keys come first, else in any."""
        return GroupBy(self, self._columns(*by, **named_by), bool(maintain_order))

    def join(
        self,
        other: LazyFrame,
        on: Operand | Iterable[Operand] = None,
        how: str = "inner",
        *,
        left_on: Operand | Iterable[Operand] = None,
        right_on: Operand | Iterable[Operand] = None,
        suffix: str = "_right",
        validate: str = "m:m",
        nulls_equal: bool = False,
    ) -> LazyFrame:
        """The pairs of rows whose keys are equal. `how` is inner, left, right, full, semi, anti or
        cross.

        Unlike Polars the order is fixed: by the left row, then the right row; a left row without a
        partner stands in its place, and right rows without one come last. Any `validate` but `m:m`
        is refused.
        """
        _one_of("how", how, ("inner", "left", "right", "full", "semi", "anti", "cross"))
        if on is not None and (left_on is not None or right_on is not None):
            raise ValueError("give on, or left_on and right_on")
        if (left_on is None) != (right_on is None):
            raise ValueError("left_on and right_on stand together")
        left, right = (
            (_keys(on), _keys(on)) if left_on is None else (_keys(left_on), _keys(right_on))
        )
        equal = ", nulls_equal=True" if nulls_equal else ""
        shown = (
            ""
            if not left
            else f"{_listed(left)}, "
            if on is not None
            else (f"left_on={_listed(left)}, right_on={_listed(right)}, ")
        )
        return self._then(
            lambda i, e: [
                "join",
                *i,
                how,
                [e(key) for key in left],
                [e(key, 1) for key in right],
                suffix,
                bool(nulls_equal),
                validate,
                None,
            ],
            lambda: f"join(other, {shown}how={how!r}{equal})",
            other,
        )

    def cache(self) -> LazyFrame:
        """The same rows, computed once for all who read them. What two steps read is cached
        without being asked."""
        return self._then(lambda i, e: ["cache", i[0], None], lambda: "cache()")

    # Answers.

    def collect(
        self,
        *,
        workers: int | None = None,
        rows: int | None = None,
        serial: bool = False,
        plan_tool: str | None = None,
    ) -> Answer:
        """Asks the program, with these settings, and gives its columns by name.

        Raises what the program refuses, as `InvalidPlan` or `DataFault`, with the step that it
        names.
        """
        return collect(
            build(self._step), workers=workers, rows=rows, serial=serial, plan_tool=plan_tool
        )

    def write_csv(self, path: str, *, plan_tool: str | None = None) -> None:
        """Writes the answer to a file, as the program writes it: null and the empty text look
        alike."""
        write_csv(build(self._step), path, plan_tool=plan_tool)

    def sink_csv(self, path: str, *, plan_tool: str | None = None) -> None:
        """`write_csv`."""
        self.write_csv(path, plan_tool=plan_tool)

    def document(self) -> dict[str, Any]:
        """The document that the program is asked, as JSON's values."""
        return build(self._step).document

    def explain(self, *, plan_tool: str | None = None) -> str:
        """The physical plan as the program tells it. Raises NotYet where the program has no
        command for it."""
        return explain(build(self._step), plan_tool=plan_tool)

    def show(self, path: str | None = None) -> Picture:
        """A picture of the plan, which a notebook shows; written to a file (.svg or .dot) where a
        path is given."""
        built = build(self._step)
        made = picture(built.document, built.schemas, built.names)
        if path is not None:
            made.save(path)
        return made


class GroupBy(DerivedGroups):
    """Rows by keys, which wait for `agg`."""

    def __init__(self, frame: LazyFrame, keys: list[Expr], maintain_order: bool) -> None:
        self._frame, self._keys, self._is_ordered = frame, keys, maintain_order

    def agg(self, *aggs: Operand | Iterable[Operand], **named: Operand) -> LazyFrame:
        """A row for each key: the keys, then the aggregates, each of which gives one cell for a
        group."""
        keys, is_ordered = self._keys, self._is_ordered
        taken = {key.output_name for key in keys}

        def others() -> list[str]:
            return [name for name in self._frame.columns if name not in taken]

        made = expanded(columns(*aggs, **named), others)
        return self._frame._then(
            lambda i, e: ["group_by", i[0], _named(keys, e), _named(made, e), is_ordered, None],
            lambda: f"group_by({_listed(keys)}).agg({_listed(made)})",
        )


def scan(table: Table, text: str) -> LazyFrame:
    """A frame of a table, told by this text."""
    return LazyFrame(Step((), lambda i, e: [], lambda: text, source_line(), table))


def concat(items: Iterable[LazyFrame], *, how: str = "vertical") -> LazyFrame:
    """Frames one after the other (`vertical`), which have one schema, or which get one, with null
    where a column lacks (`diagonal`), or side by side (`horizontal`), where shorter ones are filled
    with null."""
    _one_of("how", how, ("vertical", "diagonal", "horizontal"))
    frames = list(items)
    if not frames:
        raise ValueError("there are no frames to concat")
    if how == "diagonal":
        frames = diagonal(frames)
    rest = [] if how == "horizontal" else [None]
    word = "hconcat" if how == "horizontal" else "union"
    return frames[0]._then(
        lambda i, e: [word, i, *rest], lambda: f"concat(.., how={how!r})", *frames[1:]
    )


def _named(made: list[Expr], number: Any) -> list[list]:
    return [[it.output_name, number(it)] for it in made]


def _listed(made: list[Expr]) -> str:
    return ", ".join(map(named_text, made))


def _keys(given: Operand | Iterable[Operand]) -> list[Expr]:
    return [] if given is None else columns(given)


def _one_of(word: str, given: str, allowed: tuple[str, ...]) -> None:
    if given not in allowed:
        raise ValueError(f"{word} is one of {', '.join(allowed)}, and not {given!r}")
