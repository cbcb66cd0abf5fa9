"""The tables of a query: the CSV files that the words of `nav` name."""
from __future__ import annotations

import argparse
import os
import sys
from collections.abc import Sequence

from .csv_files import STANDARD_INPUT, CsvFile, CsvTable, Reading
from .errors import CsvFault, DocumentTooLong, NavgriesoError
from .kinds import Kind
from .plans import MOST_BYTES, Table
from .progress import Progress

# What a separator may be called, where a shell makes it hard to write.
SEPARATORS = {"tab": "\t", "\\t": "\t", "comma": ",", "semicolon": ";", "pipe": "|"}
# This part of the time goes into reading, as far as a bar is concerned.
READING = 0.5


def add_words(parser: argparse.ArgumentParser) -> None:
    """Adds what says how CSV files are read."""
    parser.add_argument(
        "--schema",
        action="append",
        default=[],
        metavar="TABLE.COLUMN=KIND",
        help="the kind of a column, bool, int, idx or str, in place of a guess from all its rows",
    )
    parser.add_argument(
        "--sep", default=",", metavar="SIGN", help="what stands between fields: a sign, or tab"
    )
    parser.add_argument(
        "--null",
        action="append",
        default=[],
        metavar="TEXT",
        help="a field that is null, as NA; an empty one always is",
    )
    parser.add_argument(
        "--strict",
        action="store_true",
        help="refuse a column that is read as text though most of it looks like something else",
    )


class Files:
    """The files that `nav` was given, by the names of their tables."""

    def __init__(self, given: argparse.Namespace) -> None:
        self.paths = _named(given.files)
        schemas = _schemas(given.schema, list(self.paths))
        separator = SEPARATORS.get(given.sep, given.sep)
        self._is_strict = given.strict
        try:
            self._files = {
                name: CsvFile(path, Reading(schemas[name], separator, tuple(given.null)))
                for name, path in self.paths.items()
            }
        except ValueError as error:
            raise NavgriesoError(f"--sep {given.sep}: {error}") from None

    def heads(self) -> dict[str, Table] | None:
        """The tables without rows, with the kinds that the first rows seem to have; None where
        these don't tell it. Raises OSError."""
        try:
            return {name: file.head() for name, file in self._files.items()}
        except CsvFault:
            return None

    def read(self, progress: Progress) -> dict[str, CsvTable]:
        """The tables. Raises DocumentTooLong where the files are longer together than a document
        may be, and what CsvFile raises."""
        sizes = {name: file.size() for name, file in self._files.items()}
        total = sum(sizes.values())
        if total > MOST_BYTES:
            name = max(sizes, key=lambda it: sizes[it])
            raise DocumentTooLong(
                f"the files have {total:,} bytes, {self.paths[name]} alone {sizes[name]:,}: a "
                f"document, which holds the tables of a query, has at most 64 MiB "
                f"({MOST_BYTES:,}), and takes up to twice what its files have"
            )
        tables, done = {}, 0
        for name, file in self._files.items():
            progress.at(f"reading {self.paths[name]}", READING * done / max(total, 1))
            tables[name] = file.table()
            done += sizes[name]
        return tables

    def refuse(self, tables: dict[str, CsvTable]) -> None:
        """Raises CsvFault where something may surprise in the tables and that is refused."""
        told = self._told(tables)
        if told and self._is_strict:
            raise CsvFault("\n".join(told))

    def tell(self, tables: dict[str, CsvTable]) -> None:
        """Says on standard error what may surprise in the tables. Raises CsvFault where that is
        refused."""
        self.refuse(tables)
        told = self._told(tables)
        doubted = ((name, doubt) for name, it in tables.items() for doubt in it.doubts)
        name, doubt = next(doubted, ("", None))
        if doubt is not None:
            told.append(
                f"(--schema '{name}.{doubt.column}=str' says that it is text, "
                f"--null '{doubt.field}' that such a field is null, --strict refuses)"
            )
        if told:
            print("\n".join(told), file=sys.stderr)

    def _told(self, tables: dict[str, CsvTable]) -> list[str]:
        return [f"{self.paths[name]}: {line}" for name, it in tables.items() for line in it.told()]


def _named(files: Sequence[str]) -> dict[str, str]:
    """The paths by the names of their tables: a file's name without its ending, or the name in
    NAME=FILE."""
    paths: dict[str, str] = {}
    for word in files:
        name, equals, path = word.partition("=")
        if not equals or os.path.exists(word):
            name, path = table_name(word), word
        if name in paths:
            raise NavgriesoError(
                f"two tables are named {name}: {paths[name]} and {path}. Name one by NAME=FILE"
            )
        if path == STANDARD_INPUT and STANDARD_INPUT in paths.values():
            raise NavgriesoError("standard input can be read but once")
        paths[name] = path
    return paths


def table_name(path: str) -> str:
    """The name of a file's table: without folders and endings, and `stdin` of standard input."""
    if path == STANDARD_INPUT:
        return "stdin"
    return os.path.splitext(os.path.basename(path).removesuffix(".gz"))[0]


def _schemas(given: Sequence[str], names: list[str]) -> dict[str, dict[str, str]]:
    schemas: dict[str, dict[str, str]] = {name: {} for name in names}
    for word in given:
        column, _, kind = word.rpartition("=")
        name = max((it for it in names if column.startswith(f"{it}.")), key=len, default=None)
        if name is None:
            raise NavgriesoError(
                f"--schema {word}: TABLE.COLUMN=KIND is wanted; the tables are {', '.join(names)}"
            )
        try:
            schemas[name][column[len(name) + 1 :]] = Kind.of(kind).value
        except ValueError as error:
            raise NavgriesoError(f"--schema {word}: {error}") from None
    return schemas
