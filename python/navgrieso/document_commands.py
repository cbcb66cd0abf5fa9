"""`nav check`, `nav plan` and `nav explain`: documents and queries, checked, drawn and
explained."""
from __future__ import annotations

import argparse
import re
import sys

from . import query_files
from .asking import explain, read_document, without_rows
from .checker import flaws_of
from .errors import NavgriesoError, ProgramNotFound
from .labels import label_of
from .pictures import picture
from .plans import MOST_BYTES, Built, encoded
from .program import ask
from .progress import Progress
from .query_command import Asked
from .query_files import Files
from .query_plan import NoReading, QueryPlan, plan_of
from .refusals import refusal, shown
from .schemas import inputs_of

# How many flaws are told.
MOST_FLAWS = 20
QUERY = re.compile(r"\s*from\b")


class Check:
    """`nav check`."""

    ABOUT = (
        "Tells what is wrong with a document, or with a query over CSV files, and where; prints "
        "each node with its columns."
    )
    EXAMPLES = (
        "examples:\n  nav check examples/totals.json\n"
        "  nav check 'from orders | filter amount > 15' examples/orders.csv"
    )

    @staticmethod
    def add_words(parser: argparse.ArgumentParser) -> None:
        """Adds what `nav check` takes."""
        _add_subject(parser)

    @staticmethod
    def run(given: argparse.Namespace) -> int:
        """Checks the form by docs/FORMATS.md, and asks the program whether the plan is valid."""
        if QUERY.match(given.subject):
            built: Built = _query(given)
        else:
            text = _read(given.subject)
            flaws = flaws_of(text)
            if flaws:
                for flaw in flaws[:MOST_FLAWS]:
                    print(flaw)
                if len(flaws) > MOST_FLAWS:
                    print(f"({len(flaws) - MOST_FLAWS} more)")
                return 3
            built = read_document(text)
        for number in range(len(built.document["nodes"])):
            print(_line(built, number))
        try:
            reply = ask(["run"], encoded(without_rows(built.document)), given.plan_tool)
        except ProgramNotFound as error:
            print(
                f"The form is right. Whether the plan is valid was not asked: {error}",
                file=sys.stderr,
            )
            return 0
        # Of no rows a fault of the data says nothing about the plan.
        if reply.status not in (0, 5):
            raise refusal(reply, built)
        print("The plan is valid.")
        return 0


class Plan:
    """`nav plan`."""

    ABOUT = (
        "Draws the plan of a document, or of a query over CSV files: by Graphviz where it is "
        "installed, else plainly."
    )
    EXAMPLES = (
        "examples:\n  nav plan examples/totals.json --svg > totals.svg\n"
        "  nav plan 'from orders | sort amount' examples/orders.csv > sorted.svg"
    )

    @staticmethod
    def add_words(parser: argparse.ArgumentParser) -> None:
        """Adds what `nav plan` takes."""
        _add_subject(parser)
        form = parser.add_mutually_exclusive_group()
        form.add_argument("--dot", action="store_true", help="as DOT, the language of Graphviz")
        form.add_argument(
            "--svg", action="store_true", help="as SVG (this is done where nothing is said)"
        )
        form.add_argument(
            "--physical", action="store_true", help="the physical plan, as `nav explain` tells it"
        )

    @staticmethod
    def run(given: argparse.Namespace) -> int:
        """Writes the picture to standard output."""
        built = _subject(given)
        if given.physical:
            sys.stdout.write(explain(built, plan_tool=given.plan_tool))
            return 0
        made = picture(built.document, built.schemas, built.names)
        sys.stdout.write(made.dot() if given.dot else made.svg())
        return 0


class Explain:
    """`nav explain`."""

    ABOUT = (
        "Tells the physical plan of a document, or of a query over CSV files: a line for each "
        "node, with its number, its kind, the node of the plan that it comes from, and its inputs."
    )
    EXAMPLES = (
        "examples:\n  nav explain examples/totals.json\n"
        "  nav explain 'from orders | sort amount' examples/orders.csv"
    )

    @staticmethod
    def add_words(parser: argparse.ArgumentParser) -> None:
        """Adds what `nav explain` takes."""
        _add_subject(parser)

    @staticmethod
    def run(given: argparse.Namespace) -> int:
        """Asks the program, and prints what it tells."""
        sys.stdout.write(explain(_subject(given), plan_tool=given.plan_tool))
        return 0


CHECK, PLAN, EXPLAIN = Check(), Plan(), Explain()


def _add_subject(parser: argparse.ArgumentParser) -> None:
    parser.add_argument(
        "subject",
        metavar="DOCUMENT",
        help="a document, - for standard input, or a query with its files",
    )
    parser.add_argument("files", nargs="*", metavar="FILE", help="the files of a query")
    query_files.add_words(parser)


def _subject(given: argparse.Namespace) -> Built:
    """The plan of the document, or of the query over its files."""
    if QUERY.match(given.subject):
        return _query(given)
    if given.files:
        raise NavgriesoError(f"{given.subject} is no query, so no files belong to it")
    return read_document(_read(given.subject))


def _query(given: argparse.Namespace) -> QueryPlan:
    """The plan of a query over the tables of its files without rows. Raises what the program
    refuses of it."""
    files = Files(given)
    progress = Progress()
    try:
        read = files.read(progress)
    finally:
        progress.end()
    files.tell(read)
    asked = Asked(given.subject.strip(), ["text"], given.plan_tool)
    document = without_rows(asked.document({name: it.table for name, it in read.items()}))
    slip = asked.refused(document)
    if slip is not None:
        raise slip
    try:
        plan = plan_of(document["query"], document["names"], document["tables"])
    except NoReading as error:
        raise NavgriesoError(f"the plan of this query isn't known here: {error}") from None
    plan.names = [f"{name} ({path})" for name, path in files.paths.items()]
    return plan


def _read(path: str) -> bytes:
    """A file, or standard input. One byte past the limit is enough to know that it is too long."""
    if path == "-":
        text = sys.stdin.buffer.read(MOST_BYTES + 1)
    else:
        with open(path, "rb") as file:
            text = file.read(MOST_BYTES + 1)
    if len(text) > MOST_BYTES:
        raise NavgriesoError(
            f"{path} is longer than a document may be: 64 MiB ({MOST_BYTES:,} bytes)"
        )
    return text


def _line(built: Built, number: int) -> str:
    below = inputs_of(built.document["nodes"][number])
    of = f" of {', '.join(map(str, below))}" if below else ""
    schema = built.schemas[number]
    columns = "its columns aren't known" if schema is None else shown(schema)
    return f"{number}: {label_of(built.document, number, built.names)}{of}\n    {columns}"
