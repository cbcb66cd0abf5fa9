"""Tables that come from Python's values, from other libraries' tables, and from CSV files."""
from __future__ import annotations

import os
import warnings
from collections.abc import Collection, Mapping
from typing import Any

from .csv_files import CsvFile, GivenSchema, Reading, refuse_unknown
from .errors import CsvFault, SurprisingKind
from .frames import LazyFrame, scan
from .kinds import Kind, kind_of_cells
from .plans import Table


def table(data: Any, schema: GivenSchema | None = None) -> LazyFrame:
    """A frame of columns by name: of a dict of lists, of an answer, or of a DataFrame of Polars or
    pandas or a table of Arrow.

    A column's kind is the one that the schema names, else that of its values: truth values, whole
    numbers (Int64) or texts; a column of nulls alone is of texts. Raises ValueError for columns of
    unlike lengths, for values of two kinds or out of range, and for a name in the schema that is
    no column's.
    """
    if schema is None:
        schema = getattr(data, "schema", {}) if isinstance(data, Mapping) else {}
    columns = {name: _plain(cells) for name, cells in _columns_of(data).items()}
    refuse_unknown(schema, columns)
    heights = {len(cells) for cells in columns.values()}
    if len(heights) > 1:
        lengths = ", ".join(f"{name} has {len(cells)}" for name, cells in columns.items())
        raise ValueError(f"the columns of a table have one length: {lengths}")
    made = []
    for name, cells in columns.items():
        try:
            kind = Kind.of(schema[name]) if name in schema else kind_of_cells(cells)
        except ValueError as error:
            hint = _floats_hint(cells) if hasattr(data, "isna") else ""
            raise ValueError(f"column {name!r}: {error}{hint}") from None
        bad = kind.first_other(cells)
        if bad is not None:
            raise ValueError(
                f"column {name!r}, row {bad}: {cells[bad]!r} is no value of kind {kind.value}"
            )
        made.append([_text(name), kind.value, cells])
    return scan(Table(made), f"table({', '.join(map(repr, columns))})")


def read_csv(
    path: str | os.PathLike[str],
    schema: GivenSchema | None = None,
    *,
    separator: str = ",",
    null_values: str | Collection[str] = (),
    strict: bool = False,
) -> LazyFrame:
    """A frame of a CSV file (UTF-8, a header, quotes as in RFC 4180), also of one that gzip has
    packed (`.gz`).

    Kinds are guessed from all rows where the schema doesn't name them: whole numbers (as they are
    printed, so that `007` and `+3` stay texts) and truth values (`true`, `false`), else texts. Row
    counts (`idx`) come by the schema alone. An empty field is null, and so is one of `null_values`;
    between quotes it is an empty text in a column of texts. Empty lines are left out.

    A column that is read as text though most of its fields look like numbers, truth values or
    dates is told by a warning (SurprisingKind), and refused where `strict` says so (CsvFault).

    Raises CsvFault, with the line, for rows of another length than the header's, quotes in the
    wrong place, and fields that aren't of their kind; DocumentTooLong for a file of more than 64
    MiB, and OSError.
    """
    name = os.fspath(path)
    values = (null_values,) if isinstance(null_values, str) else tuple(null_values)
    read = CsvFile(name, Reading(schema or {}, separator, values)).table()
    told = [f"{name}: {it}" for it in read.told()]
    if told and strict:
        raise CsvFault("\n".join(told))
    for it in told:
        warnings.warn(it, SurprisingKind, stacklevel=2)
    return scan(read.table, f"read_csv({name!r})")


def _columns_of(data: Any) -> Mapping[str, Any]:
    if isinstance(data, Mapping):
        return data
    if hasattr(data, "to_pydict"):
        return data.to_pydict()  # Arrow
    if hasattr(data, "with_columns"):
        return data.to_dict(as_series=False)  # Polars
    if hasattr(data, "isna"):
        return {str(name): _pandas_cells(data[name]) for name in data.columns}
    raise TypeError(
        f"{type(data).__name__} is no dict of columns, and no table that is known here"
    )


def _plain(cells: Any) -> list:
    """Cells as Python's values, of which numpy has its own."""
    if hasattr(cells, "tolist"):
        return cells.tolist()  # an array of numpy
    found = list(cells)
    is_plain = not any(hasattr(cell, "dtype") for cell in found)
    return found if is_plain else [it.item() if hasattr(it, "dtype") else it for it in found]


def _pandas_cells(column: Any) -> list:
    """The cells of a column of pandas, which tells missing ones by a call, and whose numbers are
    no Python's."""
    return [
        None if is_missing else cell.item() if hasattr(cell, "item") else cell
        for cell, is_missing in zip(column, column.isna())
    ]


def _floats_hint(cells: list) -> str:
    """What is told where pandas has made decimals of whole numbers, since some are missing."""
    filled = [cell for cell in cells if cell is not None]
    if not all(isinstance(cell, float) and cell.is_integer() for cell in filled):
        return ""
    return (
        ". pandas makes decimals of whole numbers where some are missing: "
        "table(frame.convert_dtypes())"
    )


def _text(name: object) -> str:
    if not isinstance(name, str):
        raise ValueError(f"a column's name is a text, and not {name!r}")
    return name
