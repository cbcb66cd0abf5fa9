"""CSV as text: its fields by rows and by columns, and rows as text (RFC 4180)."""
from __future__ import annotations

import re
from collections.abc import Iterable, Iterator, Sequence
from dataclasses import dataclass
from functools import cache
from itertools import repeat

from .errors import CsvFault

ROW_END = re.compile(r"\r\n|\n|\r")
NEEDS_QUOTES = re.compile(r'[",\r\n]')

Field = str | None
Row = tuple[int, list[Field]]


@dataclass(frozen=True)
class Sheet:
    """What a CSV text holds: the line and the names of its header, the line in which each row
    begins, and the fields by columns, of which an empty one is None."""

    header_line: int
    names: list[str]
    lines: Sequence[int]
    columns: list[Sequence[Field]]


@cache
def _field(separator: str) -> re.Pattern[str]:
    """A field in quotes or one without, and what ends it."""
    end = re.escape(separator)
    return re.compile(rf'(?:"([^"]*(?:""[^"]*)*)"|([^"{end}\r\n]*))({end}|\r\n|\n|\r|\Z)')


def rows_of(text: str, separator: str = ",") -> Iterator[Row]:
    """The rows of a CSV text, each with the number of the line in which it begins, from 1 on.

    A field that is empty is None, and one of two quotes is the empty text. Empty lines are left
    out. Raises CsvFault for a quote that stands inside a field without quotes, or that isn't
    closed.
    """
    return _quoted_rows(text, separator) if '"' in text else _plain_rows(text, separator)


def _plain_rows(text: str, separator: str) -> Iterator[Row]:
    for number, line in enumerate(ROW_END.split(text) if "\r" in text else text.split("\n"), 1):
        if line:
            yield number, [field or None for field in line.split(separator)]


def _quoted_rows(text: str, separator: str) -> Iterator[Row]:
    at, line, match = 0, 1, _field(separator).match
    while at < len(text):
        begins, fields, end = line, [], separator
        while end == separator:
            found = match(text, at)
            if found is None:
                raise CsvFault(f"line {line}: {_why(text, at)}")
            quoted, plain, end = found.groups()
            if quoted is None:
                fields.append(plain or None)
            else:
                line += len(ROW_END.findall(quoted))
                fields.append(quoted.replace('""', '"'))
            at = found.end()
        line += 1
        if fields != [None]:
            yield begins, fields


def _why(text: str, at: int) -> str:
    if text[at] != '"':
        return "a quote stands inside a field that doesn't begin with one"
    if re.compile(r'"[^"]*(?:""[^"]*)*"').match(text, at):
        return "something stands behind the quote that ends a field"
    return "a quote that begins a field is never closed"


def sheet_of(text: str, separator: str = ",") -> Sheet:
    """The header of a CSV text and its fields by columns.

    Raises CsvFault, with the line, where there is no header, where a row has another length than
    it, and what `rows_of` raises.
    """
    if '"' not in text:
        return _plain_sheet(text, separator)
    rows = _quoted_rows(text, separator)
    header_line, header = next(rows, (1, None))
    if header is None:
        raise _no_header()
    lines: list[int] = []
    fields: list[list[Field]] = []
    for line, row in rows:
        if len(row) != len(header):
            raise _ragged(line, len(row), len(header))
        lines.append(line)
        fields.append(row)
    columns: list[Sequence[Field]] = list(zip(*fields)) if fields else [()] * len(header)
    return Sheet(header_line, [name or "" for name in header], lines, columns)


def _plain_sheet(text: str, separator: str) -> Sheet:
    """The sheet of a text without quotes, cut as a whole and not row by row."""
    if "\r" in text:
        text = text.replace("\r\n", "\n").replace("\r", "\n")
    rows = text.split("\n")
    lines: Sequence[int] = range(1, len(rows) + 1)
    if "" in rows:
        lines = [line for line, row in zip(lines, rows) if row]
        rows = [row for row in rows if row]
    if not rows:
        raise _no_header()
    width = rows[0].count(separator) + 1
    if set(map(str.count, rows, repeat(separator))) != {width - 1}:
        found = ((line, row.count(separator) + 1) for line, row in zip(lines, rows))
        line, count = next(it for it in found if it[1] != width)
        raise _ragged(line, count, width)
    fields = separator.join(rows).split(separator) if width > 1 else rows
    columns: list[Sequence[Field]] = []
    for place in range(width):
        column = fields[width + place :: width]
        columns.append([field or None for field in column] if "" in column else column)
    return Sheet(lines[0], fields[:width], lines[1:], columns)


def _no_header() -> CsvFault:
    return CsvFault("line 1: a header is wanted, and the file is empty")


def _ragged(line: int, count: int, wanted: int) -> CsvFault:
    return CsvFault(f"line {line}: {count} fields stand under a header of {wanted}")


def field_of(cell: object) -> str:
    """A cell as a field: a null is empty, a truth value is `true` or `false`."""
    if cell is None:
        return ""
    if isinstance(cell, bool):
        return "true" if cell else "false"
    text = str(cell)
    return '"' + text.replace('"', '""') + '"' if NEEDS_QUOTES.search(text) else text


def text_of(rows: Iterable[Sequence[object]]) -> str:
    """Rows as CSV text, as the program writes it: each row ends with a line feed, and a row that
    would show nothing is two quotes."""
    return "".join((",".join(map(field_of, row)) or '""') + "\n" for row in rows)
