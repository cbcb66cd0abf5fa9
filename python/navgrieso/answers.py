"""What the program answers: a table, by its columns."""
from __future__ import annotations

from collections.abc import ItemsView, Iterator, KeysView, Mapping, Sequence, ValuesView
from html import escape
from typing import Any

from .csv_text import sheet_of, text_of
from .errors import ProgramFailed
from .kinds import Cell, Kind
from .printing import aligned, shown

# How many rows are printed of a longer answer.
MOST_SHOWN = 20


class Answer(Mapping[str, list]):
    """A table: its columns by name, each a list of cells, and their kinds in `schema`."""

    def __init__(self, schema: dict[str, Kind], columns: dict[str, list[Cell]]) -> None:
        self.schema = schema
        self._columns = columns

    def __getitem__(self, name: str) -> list[Cell]:
        return self._columns[name]

    def __iter__(self) -> Iterator[str]:
        return iter(self._columns)

    def __len__(self) -> int:
        """How many rows there are, as of a DataFrame."""
        return self.height

    def __contains__(self, name: object) -> bool:
        return name in self._columns

    def __eq__(self, other: object) -> bool:
        return dict(self._columns) == (dict(other) if isinstance(other, Mapping) else other)

    __hash__ = None  # type: ignore[assignment]

    def keys(self) -> KeysView[str]:
        """The names of the columns."""
        return self._columns.keys()

    def values(self) -> ValuesView[list[Cell]]:
        """The columns."""
        return self._columns.values()

    def items(self) -> ItemsView[str, list[Cell]]:
        """The columns with their names."""
        return self._columns.items()

    @property
    def columns(self) -> list[str]:
        """The names of the columns, in order."""
        return list(self._columns)

    @property
    def height(self) -> int:
        """How many rows there are."""
        return next((len(cells) for cells in self._columns.values()), 0)

    @property
    def width(self) -> int:
        """How many columns there are."""
        return len(self._columns)

    @property
    def shape(self) -> tuple[int, int]:
        """How many rows there are, and how many columns."""
        return self.height, self.width

    def rows(self, *, named: bool = False) -> list[Any]:
        """The rows, each a tuple of cells, or a dict where `named` says so."""
        rows = zip(*self._columns.values())
        return [dict(zip(self._columns, row)) for row in rows] if named else list(rows)

    def to_dicts(self) -> list[dict[str, Cell]]:
        """The rows, each a dict."""
        return self.rows(named=True)

    def item(self) -> Cell:
        """The one cell. Raises ValueError where there is another number of them."""
        if self.shape != (1, 1):
            raise ValueError(f"one cell is wanted, and there are {self.height} x {self.width}")
        return next(iter(self._columns.values()))[0]

    def to_dict(self) -> dict[str, list[Cell]]:
        """The columns by name."""
        return dict(self._columns)

    def csv(self) -> str:
        """The table as CSV text, byte for byte as the program writes it."""
        return text_of([self.columns, *self.rows()])

    def write_csv(self, path: str) -> None:
        """Writes the CSV text to a file."""
        with open(path, "w", encoding="utf-8", newline="") as file:
            file.write(self.csv())

    def to_polars(self) -> Any:
        """A DataFrame of Polars, where that is installed."""
        import polars

        kinds = {
            Kind.BOOLEAN: polars.Boolean,
            Kind.INT64: polars.Int64,
            Kind.IDX: polars.UInt32,
            Kind.STRING: polars.String,
        }
        return polars.DataFrame(
            self._columns, schema={name: kinds[kind] for name, kind in self.schema.items()}
        )

    def to_pandas(self) -> Any:
        """A DataFrame of pandas, of its kinds that hold nulls, where that is installed."""
        import pandas

        kinds = {
            Kind.BOOLEAN: "boolean",
            Kind.INT64: "Int64",
            Kind.IDX: "UInt32",
            Kind.STRING: "string",
        }
        return pandas.DataFrame(
            {it: pandas.array(cells, dtype=kinds[self.schema[it]]) for it, cells in self.items()}
        )

    def to_arrow(self) -> Any:
        """A Table of Arrow, where pyarrow is installed."""
        import pyarrow

        kinds = {
            Kind.BOOLEAN: pyarrow.bool_(),
            Kind.INT64: pyarrow.int64(),
            Kind.IDX: pyarrow.uint32(),
            Kind.STRING: pyarrow.string(),
        }
        return pyarrow.table(
            {name: pyarrow.array(cells, kinds[self.schema[name]]) for name, cells in self.items()}
        )

    def __repr__(self) -> str:
        rows = self.rows()
        head = f"{self.height} rows, {self.width} columns"
        more = f"\n({len(rows) - MOST_SHOWN} more rows)" if len(rows) > MOST_SHOWN else ""
        text = aligned(self.columns, rows[:MOST_SHOWN], self.numeric(), null="null")
        return f"{head}\n{text}{more}"

    def _repr_html_(self) -> str:
        """The same as a table for notebooks."""
        names = "".join(f"<th>{escape(shown(name))}</th>" for name in self.columns)
        kinds = "".join(f"<td><i>{kind!r}</i></td>" for kind in self.schema.values())
        rows = "".join(
            "<tr>" + "".join(f"<td>{escape(shown(cell, 'null'))}</td>" for cell in row) + "</tr>"
            for row in self.rows()[:MOST_SHOWN]
        )
        more = self.height - MOST_SHOWN
        foot = f"<p>({more} more rows)</p>" if more > 0 else ""
        return (
            f"<p>{self.height} rows, {self.width} columns</p><table><thead><tr>{names}</tr>"
            f"<tr>{kinds}</tr></thead><tbody>{rows}</tbody></table>{foot}"
        )

    def numeric(self) -> list[bool]:
        """Of each column whether it holds whole numbers."""
        return [kind in (Kind.INT64, Kind.IDX) for kind in self.schema.values()]


def read_answer(output: bytes, schema: list[tuple[str, str]], marks: dict[str, str]) -> Answer:
    """The table of the program's CSV text.

    `schema` has the names and kinds of its columns, and `marks` for some columns of texts the name
    of the column that says where they are null; such columns are taken out. An empty field is null
    otherwise. Raises ProgramFailed where the header isn't that of the schema.
    """
    sheet = sheet_of(output.decode("utf-8"))
    if sheet.names != [name for name, _ in schema]:
        raise ProgramFailed(
            f"the program answered the columns {sheet.names}, and not those of {schema}"
        )
    fields = dict(zip(sheet.names, sheet.columns))
    kinds = {name: Kind.of(kind) for name, kind in schema if name not in marks.values()}
    return Answer(
        kinds,
        {
            name: _cells(kind, fields[name], fields.get(marks.get(name)))
            for name, kind in kinds.items()
        },
    )


def _cells(
    kind: Kind, fields: Sequence[str | None], nulls: Sequence[str | None] | None
) -> list[Cell]:
    if kind is not Kind.STRING:
        read = {"true": True, "false": False}.get if kind is Kind.BOOLEAN else int
        return [read(field) if field else None for field in fields]  # type: ignore[operator]
    if nulls is None:
        return [field or None for field in fields]
    return [None if null == "true" else field or "" for field, null in zip(fields, nulls)]
