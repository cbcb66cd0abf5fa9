"""CSV files as tables: where they are read from, the kinds of their columns, and what of these may
surprise."""
from __future__ import annotations

import gzip
import os
import sys
import zlib
from collections import Counter
from collections.abc import Collection, Mapping, Sequence
from dataclasses import dataclass, field

from .csv_text import Sheet, sheet_of
from .doubts import Doubt, doubt_of, separator_doubt
from .errors import CsvFault, DocumentTooLong
from .kinds import Kind, guessed_cells, read_cells
from .plans import MOST_BYTES, Table

# The path of standard input.
STANDARD_INPUT = "-"
# So much of a file is read to learn its header.
HEAD = 2**16

# Kinds by the names of columns; what isn't named is guessed.
GivenSchema = Mapping[str, Kind | str | type]


@dataclass(frozen=True)
class Reading:
    """How a CSV file is read: the kinds that are given, what stands between fields, and which
    fields are null beside the empty one."""

    schema: GivenSchema = field(default_factory=dict)
    separator: str = ","
    null_values: Collection[str] = ()

    def __post_init__(self) -> None:
        if len(self.separator) != 1 or self.separator in '"\r\n':
            raise ValueError(
                f"one sign stands between fields, no quote and no line end: not {self.separator!r}"
            )


@dataclass(frozen=True)
class CsvTable:
    """The table of a CSV file, and what may surprise in it: its columns that are read as texts,
    and what is to be said of the whole."""

    table: Table
    height: int
    doubts: list[Doubt]
    notes: list[str]

    def told(self) -> list[str]:
        """What may surprise, a line each."""
        return [*self.notes, *map(str, self.doubts)]


class CsvFile:
    """A CSV file: a path, `-` for standard input, or a file that gzip has packed (`.gz`)."""

    def __init__(self, path: str, reading: Reading) -> None:
        self.path = path
        self._reading = reading
        self._data: bytes | None = None

    def size(self) -> int:
        """How many bytes the file has; 0 where that isn't known before it is read. Raises
        OSError."""
        return 0 if self.path == STANDARD_INPUT else os.path.getsize(self.path)

    def head(self) -> Table:
        """A table without rows, with the kinds that the first rows seem to have. Raises CsvFault
        where these don't tell a header."""
        data = self._read(HEAD)
        if self._data is None and len(data) >= HEAD:
            # The last line may be cut.
            data = data[: data.rfind(b"\n") + 1]
        columns = self._table(data).table.columns
        return Table([[name, kind, []] for name, kind, _ in columns])

    def table(self) -> CsvTable:
        """The whole table.

        Raises CsvFault, with the line, for rows of another length than the header's, quotes in the
        wrong place, and fields that aren't of their kind; DocumentTooLong for more than 64 MiB, and
        OSError.
        """
        size = self.size()
        if size > MOST_BYTES:
            raise DocumentTooLong(
                f"{self.path} has {size:,} bytes: a document, which holds the tables of a query, "
                f"has at most 64 MiB ({MOST_BYTES:,}), and takes up to twice what its files have"
            )
        data = self._read(MOST_BYTES + 1)
        if len(data) > MOST_BYTES:
            raise DocumentTooLong(
                f"{self.path} has more than 64 MiB ({MOST_BYTES:,} bytes) of text: a document, "
                "which holds the tables of a query, has at most that"
            )
        return self._table(data)

    def _read(self, most: int) -> bytes:
        if self._data is not None:
            return self._data
        if self.path == STANDARD_INPUT:
            # It can be read but once.
            self._data = sys.stdin.buffer.read(MOST_BYTES + 1)
            return self._data
        if not self.path.endswith(".gz"):
            with open(self.path, "rb") as file:
                return file.read(most)
        try:
            with gzip.open(self.path, "rb") as packed:
                return packed.read(most)
        except (EOFError, zlib.error, gzip.BadGzipFile) as error:
            raise CsvFault(f"{self.path} is no file that gzip has packed: {error}") from None

    def _table(self, data: bytes) -> CsvTable:
        try:
            return _table_of(data, self._reading, self.path)
        except UnicodeDecodeError as error:
            line = data.count(b"\n", 0, error.start) + 1
            raise CsvFault(f"{self.path}, line {line}: this is no UTF-8 text") from None
        except CsvFault as error:
            raise CsvFault(f"{self.path}, {error}") from None
        except ValueError as error:
            raise CsvFault(f"{self.path}: {error}") from None


def _table_of(data: bytes, reading: Reading, path: str) -> CsvTable:
    sheet = sheet_of(data.decode("utf-8-sig"), reading.separator)
    names = sheet.names
    twice = [name for name, count in Counter(names).items() if count > 1]
    if twice:
        raise CsvFault(f"line {sheet.header_line}: two columns are named {twice[0]!r}")
    refuse_unknown(reading.schema, names)
    if reading.null_values:
        sheet = _without(sheet, reading.null_values)
    made, doubts = [], []
    for name, texts in zip(names, sheet.columns):
        kind, cells = _column(name, texts, reading.schema.get(name), sheet.lines)
        made.append([name, kind.value, cells])
        if kind is Kind.STRING and name not in reading.schema:
            doubt = doubt_of(name, texts, sheet.lines)
            if doubt is not None:
                doubts.append(doubt)
    note = separator_doubt(names) if reading.separator == "," else None
    return CsvTable(Table(made, path), len(sheet.lines), doubts, [] if note is None else [note])


def _without(sheet: Sheet, null_values: Collection[str]) -> Sheet:
    """The sheet with None where a field is one of those that are null."""
    taken = set(null_values)
    columns: list[Sequence[str | None]] = [
        [None if text in taken else text for text in column] for column in sheet.columns
    ]
    return Sheet(sheet.header_line, sheet.names, sheet.lines, columns)


def _column(
    name: str,
    texts: Sequence[str | None],
    given: Kind | str | type | None,
    lines: Sequence[int],
) -> tuple[Kind, list]:
    if given is None:
        return guessed_cells(texts)
    kind = Kind.of(given)
    try:
        return kind, read_cells(kind, texts)
    except ValueError:
        for line, it in zip(lines, texts):
            try:
                kind.read(it)
            except ValueError as error:
                raise CsvFault(f"line {line}, column {name}: {error}") from None
        raise


def refuse_unknown(schema: GivenSchema, names: Collection[str]) -> None:
    """Raises ValueError where the schema names a column that isn't there."""
    known = set(names)
    unknown = [name for name in schema if name not in known]
    if unknown:
        told, there = ", ".join(map(repr, unknown)), ", ".join(map(repr, names))
        raise ValueError(f"the schema names {told}; the columns are {there}")
