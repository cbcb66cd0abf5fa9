"""Tables as aligned text."""
from __future__ import annotations

import unicodedata
from collections.abc import Sequence

GAP = "  "
CUT = "…"


def shown(cell: object, null: str = "") -> str:
    """A cell as one line of text: what would move a terminal's cursor is written as an escape."""
    if cell is None:
        return null
    if isinstance(cell, bool):
        return "true" if cell else "false"
    text = str(cell)
    if text.isprintable():
        return text
    return "".join(
        it if it.isprintable() else it.encode("unicode_escape").decode("ascii") for it in text
    )


def width_of(text: str) -> int:
    """How many places a text takes on a terminal."""
    if text.isascii():
        return len(text)
    return sum(_places(it) for it in text)


def _places(character: str) -> int:
    if unicodedata.combining(character) or unicodedata.category(character) in ("Mn", "Me", "Cf"):
        return 0
    return 2 if unicodedata.east_asian_width(character) in "WF" else 1


def cut_to(text: str, most: int) -> str:
    """As much of a text as takes at most so many places, with three dots where something was cut."""
    if width_of(text) <= most:
        return text
    kept, taken = [], 0
    for it in text:
        taken += _places(it)
        if taken > most - 1:
            break
        kept.append(it)
    return "".join(kept) + CUT


def aligned(
    names: Sequence[str],
    rows: Sequence[Sequence[object]],
    is_right: Sequence[bool],
    *,
    null: str = "",
    width: int | None = None,
) -> str:
    """A table as text, without a line feed at its end: the names, a line, and the rows, each
    column as wide as its widest cell.

    Columns with `is_right` stand at the right. Where a width is given, wide columns are cut so
    that a line takes no more places, as far as each column keeps some.
    """
    cells = [
        [shown(name) for name in names],
        *([shown(cell, null) for cell in row] for row in rows),
    ]
    widths = [max(width_of(row[at]) for row in cells) for at in range(len(names))]
    if width is not None:
        widths = _narrowed(widths, width - len(GAP) * (len(names) - 1))
    lines = [_line(row, widths, is_right) for row in cells]
    return "\n".join([lines[0], GAP.join("-" * it for it in widths), *lines[1:]])


def _narrowed(widths: list[int], room: int, least: int = 4) -> list[int]:
    """The widths, of which the greatest are made less until they fit, but no column less than some
    places."""
    if sum(widths) <= room:
        return widths
    low, high = least, max([*widths, least])
    while low < high:
        most = (low + high + 1) // 2
        low, high = (
            (most, high) if sum(min(it, most) for it in widths) <= room else (low, most - 1)
        )
    return [min(it, low) for it in widths]


def _line(cells: Sequence[str], widths: Sequence[int], is_right: Sequence[bool]) -> str:
    placed = []
    for cell, width, right in zip(cells, widths, is_right):
        text = cut_to(cell, width)
        blank = " " * (width - width_of(text))
        placed.append(blank + text if right else text + blank)
    return GAP.join(placed).rstrip()
