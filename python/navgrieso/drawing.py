"""A plain drawing of boxes over what they read, as SVG."""
from __future__ import annotations

from collections.abc import Iterator, Sequence
from dataclasses import dataclass
from html import escape

# Sizes in pixels: of a letter, of a line, around a text, between boxes beside and over each other.
LETTER, LINE, PAD, BESIDE, OVER = 7.0, 16.0, 10.0, 24.0, 40.0
# How long the head of a line is.
HEAD = 8.0
STYLE = 'font-family="DejaVu Sans Mono, Menlo, Consolas, monospace" font-size="11"'


@dataclass(frozen=True)
class Box:
    """A box: its number, the lines of its label, those of a note under it, and the numbers of the
    boxes below."""

    number: int
    lines: tuple[str, ...]
    notes: tuple[str, ...]
    below: tuple[int, ...]

    def width(self) -> float:
        """How wide the box is."""
        return LETTER * max(map(len, (*self.lines, *self.notes))) + 2 * PAD

    def height(self) -> float:
        """How high the box is."""
        return LINE * (len(self.lines) + len(self.notes)) + 2 * PAD


@dataclass(frozen=True)
class Gap:
    """Room in a row for a line that passes through it, from a box below up to one above."""

    above: int
    below: int

    def width(self) -> float:
        """How wide the room is."""
        return PAD


@dataclass(frozen=True)
class Row:
    """A row of the drawing: its upper and lower end, and where the middles of its boxes and gaps
    stand."""

    top: float
    bottom: float
    middles: dict[Box | Gap, float]


def draw(boxes: Sequence[Box]) -> str:
    """The boxes as SVG, the first one at the top, each above all that it reads."""
    slots = _slots(boxes)
    wide, top, rows = max(map(_width, slots)), OVER / 2, []
    for row in slots:
        left, middles = (wide - _width(row) + BESIDE) / 2, {}
        for slot in row:
            middles[slot] = left + slot.width() / 2
            left += slot.width() + BESIDE
        bottom = top + max((slot.height() for slot in row if isinstance(slot, Box)), default=0.0)
        rows.append(Row(top, bottom, middles))
        top = bottom + OVER
    told = [
        f'<svg xmlns="http://www.w3.org/2000/svg" width="{wide:.0f}" height="{top:.0f}" {STYLE}>',
        '<rect width="100%" height="100%" fill="white"/>',
    ]
    row_of = {slot.number: row for row in rows for slot in row.middles if isinstance(slot, Box)}
    by_number = {box.number: box for box in boxes}
    told += [
        _line(box, by_number[below], rows, row_of)
        for box in boxes
        for below in dict.fromkeys(box.below)
    ]
    for box in boxes:
        row = row_of[box.number]
        told += _box(box, row.middles[box] - box.width() / 2, row.top)
    return "\n".join([*told, "</svg>", ""])


def _width(row: Sequence[Box | Gap]) -> float:
    return sum(slot.width() + BESIDE for slot in row)


def _slots(boxes: Sequence[Box]) -> list[list[Box | Gap]]:
    """The rows: each box as far under the first one as the longest way to it, and gaps where lines
    pass."""
    by_number = {box.number: box for box in boxes}
    level = dict.fromkeys(by_number, 0)
    for number in _above_first(boxes[0].number, by_number):
        for below in by_number[number].below:
            level[below] = max(level[below], level[number] + 1)
    found: list[list[Box | Gap]] = [[] for _ in range(max(level.values()) + 1)]
    for box in boxes:
        found[level[box.number]].append(box)
        for below in dict.fromkeys(box.below):
            for between in range(level[box.number] + 1, level[below]):
                found[between].append(Gap(box.number, below))
    return [row for row in found if row]


def _above_first(top: int, boxes: dict[int, Box]) -> list[int]:
    """The numbers of the boxes, each before those that it reads, if none leads back to itself."""
    order: list[int] = []
    seen: set[int] = set()
    waiting = [(top, False)]
    while waiting:
        number, is_ready = waiting.pop()
        if is_ready:
            order.append(number)
        elif number not in seen:
            seen.add(number)
            waiting.append((number, True))
            waiting.extend((it, False) for it in boxes[number].below)
    return order[::-1]


def _line(box: Box, below: Box, rows: Sequence[Row], row_of: dict[int, Row]) -> str:
    """A line from the box below up to the one that reads it, through the gaps between them, with a
    head."""
    row, row_below, gap = row_of[box.number], row_of[below.number], Gap(box.number, below.number)
    x, y = row_below.middles[below], row_below.top
    told = [f"M {x:.1f} {y:.1f}"]
    for between in reversed([it for it in rows if gap in it.middles]):
        told += [_curve(x, y, between.middles[gap], between.bottom), f"V {between.top:.1f}"]
        x, y = between.middles[gap], between.top
    end, foot = row.middles[box], row.top + box.height()
    told.append(_curve(x, y, end, foot + HEAD))
    head = f"M {end - HEAD / 2:.1f} {foot + HEAD:.1f} h {HEAD:.1f} L {end:.1f} {foot:.1f} Z"
    return (
        f'<path d="{" ".join(told)}" fill="none" stroke="black"/><path d="{head}" fill="black"/>'
    )


def _curve(x: float, y: float, to_x: float, to_y: float) -> str:
    middle = (y + to_y) / 2
    return f"C {x:.1f} {middle:.1f}, {to_x:.1f} {middle:.1f}, {to_x:.1f} {to_y:.1f}"


def _box(box: Box, left: float, top: float) -> Iterator[str]:
    place = f'x="{left:.1f}" y="{top:.1f}" width="{box.width():.1f}" height="{box.height():.1f}"'
    yield f'<rect {place} rx="6" fill="#f6f8fb" stroke="black"/>'
    for number, text in enumerate((*box.lines, *box.notes)):
        colour = "black" if number < len(box.lines) else "#666666"
        place = f'x="{left + PAD:.1f}" y="{top + PAD + LINE * (number + 1) - 4:.1f}"'
        yield f'<text {place} fill="{colour}" xml:space="preserve">{escape(text)}</text>'
