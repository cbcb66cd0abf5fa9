"""`nav QUERY FILE..`: a query of the pipeline language over CSV files, which the program's command
`text` answers."""
from __future__ import annotations

import argparse
import gzip
import itertools
import shutil
import sys
from collections.abc import Mapping
from typing import Any

from . import query_files
from .asking import without_rows
from .csv_text import rows_of
from .errors import BY_STATUS, InvalidDocument, NavgriesoError, NotYet
from .kinds import Kind, guessed_cells
from .plans import Table, encoded
from .printing import aligned
from .program import Reply, ask, find, settings
from .progress import Progress
from .query_files import READING, Files
from .query_json import json_of
from .query_place import no_query
from .query_plan import NoReading, QueryPlan, plan_of
from .refusals import near_to, refusal
from .schemas import Schema
from .stages import stages_of, table_named

ABOUT = """\
Answers a query over CSV files. Each file is a table under its name without the ending, or under
the name that NAME=FILE gives it; - is standard input, whose table is stdin, and a file that ends in
.gz is unpacked. The answer is an aligned table on a terminal, and CSV elsewhere.
"""
EXAMPLES = """\
example:
  nav 'from orders | join inner customers on id | group name = name agg total = sum(amount)
       | sort total desc' orders.csv customers.csv

A query is `from TABLE` and then any number of stages behind a bar:
  filter EXPR | select ITEMS | with ITEMS | group ITEMS agg ITEMS | sort KEYS
  slice OFFSET LENGTH | distinct | join HOW TABLE on NAMES
HOW is inner, left, right, full, semi, anti or cross (which has no `on`), an item NAME = EXPR, and
a key EXPR or EXPR desc. Names that are no words stand in ", texts in '.

A filter by a count, and a mean (of whole numbers, rounded down; x has no nulls):
  with one = 1 | group city = city agg n = sum(one), mean = sum(x) // sum(one) | filter n > 1

Kinds are guessed from all rows: whole numbers as they are printed, true and false, else text.
What that may get wrong is told on standard error. A document has at most 64 MiB, and takes up to
twice what its files have."""
# Rows are left to the prompt and to what is said beside the table.
BESIDE = 6
LEAST_SHOWN = 5


def add_words(parser: argparse.ArgumentParser) -> None:
    """Adds what a query takes."""
    parser.add_argument("query", help="the query, as one word")
    parser.add_argument(
        "files", nargs="+", metavar="FILE", help="a CSV file, NAME=FILE, or - for standard input"
    )
    query_files.add_words(parser)
    form = parser.add_mutually_exclusive_group()
    form.add_argument("--csv", action="store_true", help="CSV, on a terminal too")
    form.add_argument("--json", action="store_true", help="an array of an object for each row")
    form.add_argument(
        "--all", action="store_true", help="all rows on a terminal, and not only those that fit"
    )
    parser.add_argument(
        "-o",
        "--output",
        metavar="FILE",
        help="write the answer to a file: CSV, or JSON where its name ends in .json; packed by "
        "gzip where it ends in .gz",
    )
    parser.add_argument("--workers", type=int, metavar="N", help="read, and changes nothing yet")
    parser.add_argument("--rows", type=int, metavar="N", help="read, and changes nothing yet")
    parser.add_argument("--serial", action="store_true", help="read, and changes nothing yet")


def run(given: argparse.Namespace) -> int:
    """Asks the program over tables without rows, reads the files, asks it again, and prints its
    answer."""
    words = settings(given.workers, given.rows, given.serial)
    if words:
        print(
            "nav: --workers, --rows and --serial change nothing yet: one thread computes the nodes "
            "in order",
            file=sys.stderr,
        )
    asked = Asked(given.query.strip(), ["text", *words], given.plan_tool)
    progress = Progress()
    try:
        document, output = asked.answer(Files(given), progress)
        is_json = given.json or _stem(given.output).endswith(".json")
        if is_json:
            progress.at("writing JSON", 0.9)
            output = json_of(document, output, asked.schema(document), given.plan_tool).encode()
    finally:
        progress.end()
    if given.output is not None:
        _write(given.output, output)
    elif is_json or given.csv or not sys.stdout.isatty():
        sys.stdout.buffer.write(output)
    else:
        print(as_table(output, is_whole=given.all))
    return 0


class Asked:
    """A query, and how the program is asked for it."""

    def __init__(self, query: str, words: list[str], plan_tool: str | None) -> None:
        self._query = query
        self._words = words
        self._plan_tool = plan_tool

    def answer(self, files: Files, progress: Progress) -> tuple[dict[str, Any], bytes]:
        """The document of the query, and what the program answers to it.

        It is asked over tables without rows first: so a slip costs no reading. Raises an exception
        for each status but 0, and what the files raise.
        """
        heads = files.heads()
        slip = None if heads is None else self.refused(self.document(heads))
        # The kinds of the first rows may not be those of the column.
        is_of_kinds = slip is not None and slip.line.startswith("SchemaMismatch")
        if slip is not None and not is_of_kinds:
            raise slip
        read = files.read(progress)
        files.tell(read)
        tables = {name: it.table for name, it in read.items()}
        document = self.document(tables)
        kinds = {name: without_rows_of(table) for name, table in tables.items()}
        if heads is None or is_of_kinds or kinds != {it: heads[it].columns for it in heads}:
            slip = self.refused(document)
            if slip is not None:
                raise slip
        progress.at("writing the document", READING)
        text = encoded(document)
        progress.at("the program answers", READING + 0.1)
        reply = ask(self._words, text, self._plan_tool, progress.wait)
        if reply.status:
            raise self._refusal(reply, document)
        return document, reply.output

    def document(self, tables: Mapping[str, Table]) -> dict[str, Any]:
        """The document of the query over these tables."""
        return {
            "tables": [it.columns for it in tables.values()],
            "names": list(tables),
            "query": self._query,
        }

    def schema(self, document: dict[str, Any]) -> Schema:
        """The columns of the answer with their kinds."""
        plan = self.plan(document)
        schema = None if plan is None else plan.schemas[plan.document["root"]]
        if schema is None:
            raise NavgriesoError("the kinds of the answer's columns aren't known")
        return schema

    def plan(self, document: dict[str, Any]) -> QueryPlan | None:
        """The plan of the query; None where its text has none."""
        try:
            return plan_of(document["query"], document["names"], document["tables"])
        except NoReading:
            return None

    def refused(self, document: dict[str, Any]) -> NavgriesoError | None:
        """What the program refuses of a query over the same tables without rows, on which that
        doesn't hang."""
        asked = without_rows(document)
        reply = ask(self._words, encoded(asked), self._plan_tool)
        return self._refusal(reply, asked) if reply.status else None

    def _refusal(self, reply: Reply, document: dict[str, Any]) -> NavgriesoError:
        """The exception for a reply, with the stage of the query that its line names."""
        if reply.status == 2:
            if ask(["text"], b"", self._plan_tool).status == 2:
                path = find(self._plan_tool)
                return NotYet(
                    f"this program has no command `text`, which answers queries: {path}"
                )
            return BY_STATUS[2](f"the program refused its settings ({reply.line})")
        if reply.status == 3:
            return InvalidDocument(self._why_none(reply.line, document), line=reply.line)
        plan = self.plan(document) if reply.status in (4, 5) else None
        return refusal(reply, plan)

    def _why_none(self, line: str, document: dict[str, Any]) -> str:
        """Why a document holds no query that can be answered, by the line that the program
        wrote."""
        if line == "BadQuery":
            return no_query(document["query"], self._plan_tool)
        if line == "UnknownTable":
            names = document["names"]
            named = (table_named(stage) for stage in stages_of(document["query"]))
            missing = next(it for it in named if it is not None and it not in names)
            near = near_to(missing, names)
            mean = f": did you mean {' or '.join(near)}?" if near else ":"
            return f"there is no table {missing}{mean} the tables are {', '.join(names)}"
        return f"the program found no document ({line})"


def without_rows_of(table: Table) -> list[list]:
    """The columns of a table without their cells."""
    return [[name, kind, []] for name, kind, _ in table.columns]


def as_table(output: bytes, *, is_whole: bool) -> str:
    """The program's text as an aligned table that fits the terminal as far as it can: its width,
    and unless the whole is wanted its height. Columns whose fields all look like numbers stand at
    the right."""
    size = shutil.get_terminal_size()
    most = None if is_whole else max(size.lines - BESIDE, LEAST_SHOWN)
    lines = rows_of(output.decode("utf-8"))
    _, header = next(lines)
    rows = [row for _, row in itertools.islice(lines, most)]
    kinds = [guessed_cells(texts)[0] for texts in zip(*rows)] or [Kind.STRING] * len(header)
    table = aligned(
        [name or "" for name in header],
        rows,
        [kind is Kind.INT64 for kind in kinds],
        width=size.columns,
    )
    more = sum(1 for _ in lines)
    return f"{table}\n({more:,} more rows: --all shows them)" if more else table


def _stem(path: str | None) -> str:
    return (path or "").removesuffix(".gz")


def _write(path: str, text: bytes) -> None:
    with open(path, "wb") as file:
        file.write(gzip.compress(text, mtime=0) if path.endswith(".gz") else text)
