"""A client of Navgrieso's program `plan_tool`: lazy frames as Polars has them, answered by the
program.

    import navgrieso as nav

    orders = nav.table({"customer": [1, 2, 1], "amount": [30, 20, 50]})
    totals = orders.group_by("customer", maintain_order=True).agg(total=nav.col("amount").sum())
    print(totals.collect())

This package computes nothing by itself: a frame is a plan, `collect` writes its document and asks
the program.
"""
from .answers import Answer
from .asking import collect as _collect
from .asking import read_document as _read_document
from .errors import (
    ColumnNotFound,
    CsvFault,
    DataFault,
    DocumentTooLong,
    InvalidDocument,
    InvalidPlan,
    NavgriesoError,
    NotHere,
    NotYet,
    OutOfMemory,
    ProgramFailed,
    ProgramNotFound,
    ReadFault,
    SurprisingKind,
    WordsRefused,
    WriteFault,
)
from .expressions import Expr
from .frames import GroupBy, LazyFrame, concat
from .functions import (
    all,
    all_horizontal,
    any,
    any_horizontal,
    coalesce,
    col,
    count,
    exclude,
    first,
    head,
    last,
    len,
    lit,
    max,
    mean,
    min,
    n_unique,
    sum,
    tail,
    when,
)
from .kinds import Kind
from .pictures import Picture
from .polars_names import MODULE as _MODULE
from .polars_names import refused as _refused
from .tables import read_csv, table
from .version import VERSION as __version__

Boolean = Kind.BOOLEAN
Int64 = Kind.INT64
IdxSize = Kind.IDX
# Names that Polars has for these kinds.
UInt32 = Kind.IDX
String = Kind.STRING

# A file is read where it is named, so that its columns are known.
scan_csv = read_csv


def __getattr__(name: str) -> object:
    """Refuses the names of Polars that aren't here, with what to use instead."""
    raise NotHere(_refused("polars", name, _MODULE) if name in _MODULE else _no_name(name))


def _no_name(name: str) -> str:
    return f"module {__name__!r} has no attribute {name!r}"


def answer(
    document: dict | bytes | str,
    *,
    workers: int | None = None,
    rows: int | None = None,
    serial: bool = False,
    plan_tool: str | None = None,
) -> Answer:
    """The answer to a document that wasn't made by a frame, as JSON's values or as text.

    Raises InvalidDocument, with the paths of its flaws, where it is none, and what
    `LazyFrame.collect` raises.
    """
    return _collect(
        _read_document(document), workers=workers, rows=rows, serial=serial, plan_tool=plan_tool
    )


__all__ = [
    "Answer",
    "Boolean",
    "ColumnNotFound",
    "CsvFault",
    "DataFault",
    "DocumentTooLong",
    "Expr",
    "GroupBy",
    "IdxSize",
    "Int64",
    "InvalidDocument",
    "InvalidPlan",
    "Kind",
    "LazyFrame",
    "NavgriesoError",
    "NotHere",
    "NotYet",
    "OutOfMemory",
    "Picture",
    "ProgramFailed",
    "ProgramNotFound",
    "ReadFault",
    "String",
    "SurprisingKind",
    "UInt32",
    "WordsRefused",
    "WriteFault",
    "all",
    "all_horizontal",
    "answer",
    "any",
    "any_horizontal",
    "coalesce",
    "col",
    "concat",
    "count",
    "exclude",
    "first",
    "head",
    "last",
    "len",
    "lit",
    "max",
    "mean",
    "min",
    "n_unique",
    "read_csv",
    "scan_csv",
    "sum",
    "table",
    "tail",
    "when",
]
