"""What can go wrong, an exception for each status of the program, and for what goes wrong before
it is asked."""
from __future__ import annotations


class NavgriesoError(Exception):
    """What all exceptions of this package are.

    Where the program told it, `status` is the program's status and `line` the line that it wrote.
    Where the line names a node, `node` is its number, `entry` the node as the user wrote it (or as
    it stands in the document), `source` the user's line of code, and `names` the columns that
    there are at the node's inputs.
    """

    status: int | None = None

    def __init__(
        self,
        message: str,
        *,
        line: str = "",
        node: int | None = None,
        entry: str = "",
        source: str = "",
        names: list[str] | None = None,
    ) -> None:
        super().__init__(message)
        self.line = line
        self.node = node
        self.entry = entry
        self.source = source
        self.names = names


class WordsRefused(NavgriesoError):
    """Status 2: the program has no such command or setting."""

    status = 2


class InvalidDocument(NavgriesoError):
    """Status 3: the document isn't one. The message says where, by a path into it."""

    status = 3


class InvalidPlan(NavgriesoError):
    """Status 4: the plan isn't valid."""

    status = 4


class ColumnNotFound(InvalidPlan):
    """Status 4: the plan names a column that isn't there; `names` has those that are."""


class DataFault(NavgriesoError):
    """Status 5: the plan is valid, and the data broke it, as a strict cast of what has no
    counterpart."""

    status = 5


class ReadFault(NavgriesoError):
    """Status 6: the program couldn't read the document."""

    status = 6


class WriteFault(NavgriesoError):
    """Status 7: the program couldn't write its answer."""

    status = 7


class DocumentTooLong(NavgriesoError):
    """Status 8: the document, or a file that is to go into it, has more than 64 MiB (67,108,864
    bytes)."""

    status = 8


class OutOfMemory(NavgriesoError):
    """Status 9: the program was refused memory."""

    status = 9


class ProgramFailed(NavgriesoError):
    """The program ended in a way that it doesn't promise, as by a signal."""


class ProgramNotFound(NavgriesoError):
    """There is no program to ask."""


class NotYet(NavgriesoError):
    """The program that was found hasn't this command."""


class NotHere(NavgriesoError, AttributeError):
    """A name of Polars that isn't here. The message says what to use instead."""


class CsvFault(NavgriesoError):
    """A CSV file can't be read as a table. The message says in which line."""


class SurprisingKind(UserWarning):
    """A column of a CSV file was read as text, though most of its fields look like something
    else."""


BY_STATUS: dict[int, type[NavgriesoError]] = {
    kind.status: kind
    for kind in (
        WordsRefused,
        InvalidDocument,
        InvalidPlan,
        DataFault,
        ReadFault,
        WriteFault,
        DocumentTooLong,
        OutOfMemory,
    )
}
