"""`nav kinds FILE..`: the columns of CSV files, and the kinds that were guessed."""
from __future__ import annotations

import argparse
import sys

from . import query_files
from .csv_files import CsvTable
from .csv_text import field_of
from .printing import aligned, cut_to, shown
from .progress import Progress
from .query_files import Files

ABOUT = """\
Shows how CSV files are read: each column with its kind, how many of its fields are null, and its
first value. Kinds are guessed from all rows: int where each field that isn't empty is a whole
number as it is printed (no +, no zero in front, no decimals), bool where each is true or false,
else str.
"""
EXAMPLES = "example:\n  nav kinds examples/orders.csv examples/customers.csv"
MOST_SHOWN = 30


class KindsCommand:
    """`nav kinds`."""

    ABOUT = ABOUT
    EXAMPLES = EXAMPLES

    @staticmethod
    def add_words(parser: argparse.ArgumentParser) -> None:
        """Adds what `nav kinds` takes."""
        parser.add_argument(
            "files",
            nargs="+",
            metavar="FILE",
            help="a CSV file, NAME=FILE, or - for standard input",
        )
        query_files.add_words(parser)

    @staticmethod
    def run(given: argparse.Namespace) -> int:
        """Reads the files, and prints their columns."""
        files = Files(given)
        progress = Progress()
        try:
            read = files.read(progress)
        finally:
            progress.end()
        for place, (name, it) in enumerate(read.items()):
            if place:
                print()
            rows = "1 row" if it.height == 1 else f"{it.height:,} rows"
            print(f"{name} ({files.paths[name]}), {rows}")
            print(_columns(it))
            sys.stdout.flush()
            for note in it.notes:
                print(note)
        files.refuse(read)
        return 0


KINDS = KindsCommand()


def _columns(it: CsvTable) -> str:
    doubts = {doubt.column: doubt.short() for doubt in it.doubts}
    rows = []
    for name, kind, cells in it.table.columns:
        first = next((cell for cell in cells if cell is not None), None)
        value = cut_to(shown(None if first is None else field_of(first)), MOST_SHOWN)
        rows.append([name, kind, cells.count(None), value, doubts.get(name, "")])
    return aligned(
        ["column", "kind", "nulls", "first", "why not another kind"],
        rows,
        [False, False, True, False, False],
    )
