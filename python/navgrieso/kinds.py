"""The kinds of values, the values that each kind holds, and how a kind is guessed."""
from __future__ import annotations

import enum
import re
from collections.abc import Iterable, Sequence

Cell = bool | int | str | None

RANGES = {"int": (-(2**63), 2**63 - 1), "idx": (0, 2**32 - 1)}

# What a column that is said to be of whole numbers may hold.
DIGITS = re.compile(r"-?[0-9]+")
TRUTHS = {"true": True, "false": False}
# Longer texts of digits are out of every range; Python refuses to read very long ones.
MOST_DIGITS = 400


class Kind(enum.Enum):
    """The kind of a column. The value is the word that a document has for it."""

    BOOLEAN = "bool"
    INT64 = "int"
    IDX = "idx"
    STRING = "str"

    @classmethod
    def of(cls, given: Kind | str | type) -> Kind:
        """The kind that is meant by a kind, by its word, or by Python's `bool`, `int` or `str`.

        Raises ValueError for anything else.
        """
        if isinstance(given, cls):
            return given
        word = (
            {bool: "bool", int: "int", str: "str"}.get(given, given)
            if isinstance(given, type)
            else given
        )
        try:
            return cls(word)
        except ValueError:
            raise ValueError(
                f"{given!r} is no kind: the kinds are bool, int, idx and str"
            ) from None

    def __repr__(self) -> str:
        return {"bool": "Boolean", "int": "Int64", "idx": "IdxSize", "str": "String"}[self.value]

    def holds(self, cell: object) -> bool:
        """Whether a column of this kind may hold the cell."""
        if cell is None:
            return True
        if self is Kind.BOOLEAN:
            return isinstance(cell, bool)
        if self is Kind.STRING:
            return isinstance(cell, str)
        least, greatest = RANGES[self.value]
        return isinstance(cell, int) and not isinstance(cell, bool) and least <= cell <= greatest

    def first_other(self, cells: Sequence[object]) -> int | None:
        """The place of the first cell that a column of this kind doesn't hold; None where it holds
        them all."""
        # Mostly the types tell it, and of numbers the least and the greatest.
        types = set(map(type, cells)) - {type(None)}
        if types <= {{"bool": bool, "str": str}.get(self.value, int)}:
            numbers = [cell for cell in cells if cell is not None] if int in types else []
            if all(map(self.holds, (min(numbers), max(numbers)) if numbers else ())):
                return None
        return next((place for place, cell in enumerate(cells) if not self.holds(cell)), None)

    def read(self, text: str | None) -> Cell:
        """The cell that a field of a CSV text stands for; an empty field is null, but for a text
        in quotes.

        Raises ValueError where the field is no value of this kind.
        """
        if text is None or self is Kind.STRING:
            return text
        if text == "":
            return None
        cell: Cell = None
        if self is Kind.BOOLEAN:
            cell = TRUTHS.get(text)
        elif len(text) <= MOST_DIGITS and DIGITS.fullmatch(text):
            cell = int(text)
        if cell is None or not self.holds(cell):
            raise ValueError(f"{text!r} is no value of kind {self.value}")
        return cell


def kind_of_cells(cells: Iterable[object]) -> Kind:
    """The kind of a column of Python's values: of truth values, of whole numbers, or of texts.

    A column of nulls alone is of texts. Raises ValueError for values of two kinds, or of none.
    """
    found = set(map(type, cells)) - {type(None)}
    if len(found) > 1:
        names = ", ".join(sorted(it.__name__ for it in found))
        raise ValueError(f"values of several types stand together: {names}")
    if not found:
        return Kind.STRING
    try:
        return Kind.of(found.pop())
    except ValueError as error:
        raise ValueError(f"no kind holds such values: {error}") from None


def guessed_cells(texts: Sequence[str | None]) -> tuple[Kind, list[Cell]]:
    """The kind that the fields of a CSV column are taken to have, and their cells: whole numbers
    or truth values where each field that isn't empty is one, else texts.

    A whole number is one as it is printed: without a plus, without a needless zero.
    """
    # Most columns of texts are told by their first field.
    first = next((text for text in texts if text), None)
    cells = None
    if first is not None:
        kind = Kind.BOOLEAN if first in TRUTHS else Kind.INT64
        cells = _truths(texts) if kind is Kind.BOOLEAN else _numbers(texts)
    return (Kind.STRING, list(texts)) if cells is None else (kind, cells)


def read_cells(kind: Kind, texts: Sequence[str | None]) -> list[Cell]:
    """The cells of a CSV column of a kind. Raises ValueError where a field is no value of it."""
    cells = (
        _numbers(texts) if kind is Kind.INT64 else _truths(texts) if kind is Kind.BOOLEAN else None
    )
    return [kind.read(text) for text in texts] if cells is None else cells


def _truths(texts: Sequence[str | None]) -> list[Cell] | None:
    return (
        [TRUTHS[text] if text else None for text in texts]
        if set(texts) <= {"true", "false", "", None}
        else None
    )


def _numbers(texts: Sequence[str | None]) -> list[Cell] | None:
    """Whole numbers of kind Int64, each written as it is printed; None where a field is no such
    number."""
    filled = [text for text in texts if text]
    try:
        cells = list(map(int, filled))
    except ValueError:
        return None
    # What Python reads besides, as `+1`, `1_0` or `007`, is printed in another way.
    if list(map(str, cells)) != filled:
        return None
    least, greatest = RANGES["int"]
    if cells and not (least <= min(cells) and max(cells) <= greatest):
        return None
    if len(filled) == len(texts):
        return cells
    rest = iter(cells)
    return [next(rest) if text else None for text in texts]
