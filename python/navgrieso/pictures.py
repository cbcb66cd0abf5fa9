"""Pictures of plans: the nodes that the root reads, each over what it reads, as DOT and as SVG.

Graphviz draws them where it is installed, and else a plain drawing of this package stands in.
"""
from __future__ import annotations

import shutil
import subprocess
import textwrap
from collections.abc import Sequence
from dataclasses import dataclass

from .drawing import Box, draw
from .labels import label_of
from .printing import shown
from .schemas import Document, Schema, inputs_of

LINE = 44
# Longer labels are cut.
MOST_LINES = 4
MOST_COLUMNS = 8


@dataclass(frozen=True)
class Picture:
    """A picture of a plan. A notebook shows it."""

    boxes: list[Box]

    def dot(self) -> str:
        """The picture as DOT, the language of Graphviz."""
        told = [
            "digraph plan {",
            '  rankdir = "BT"',
            '  node [shape = "box", style = "rounded", fontname = "Helvetica", fontsize = 11]',
        ]
        for box in self.boxes:
            label = "\\n".join(map(_escaped, box.lines))
            note = "\\n".join(map(_escaped, box.notes))
            told.append(
                f'  n{box.number} [label = "{label}\\n{note}"]'
                if note
                else f'  n{box.number} [label = "{label}"]'
            )
        told += [f"  n{below} -> n{box.number}" for box in self.boxes for below in box.below]
        return "\n".join([*told, "}", ""])

    def svg(self) -> str:
        """The picture as SVG, by Graphviz where it is installed."""
        dot = shutil.which("dot")
        if dot is not None:
            ran = subprocess.run(
                [dot, "-Tsvg"], input=self.dot().encode(), capture_output=True, check=False
            )
            if ran.returncode == 0:
                return ran.stdout.decode("utf-8")
        return draw(self.boxes)

    def save(self, path: str) -> None:
        """Writes the picture to a file: as DOT where its name ends in `.dot`, else as SVG."""
        with open(path, "w", encoding="utf-8") as file:
            file.write(self.dot() if path.endswith(".dot") else self.svg())

    def _repr_svg_(self) -> str:
        return self.svg()


def picture(
    document: Document, schemas: Sequence[Schema | None], names: Sequence[str] = ()
) -> Picture:
    """A picture of a document's plan, with the schemas of its nodes as far as they are known, and
    the names of its tables where they have some."""
    nodes = document["nodes"]
    boxes: list[Box] = []
    seen: set[int] = set()
    waiting = [document["root"]]
    while waiting:
        number = waiting.pop()
        if number in seen:
            continue
        seen.add(number)
        if number >= len(nodes):
            boxes.append(Box(number, (f"{number}: there is no such node",), (), ()))
            continue
        below = tuple(inputs_of(nodes[number]))
        lines = _wrapped(f"{number}: {label_of(document, number, names)}")
        boxes.append(Box(number, lines, _noted(schemas[number]), below))
        waiting.extend(reversed(below))
    return Picture(boxes)


def _wrapped(text: str) -> tuple[str, ...]:
    lines = textwrap.wrap(shown(text), LINE, break_long_words=True) or [""]
    return tuple(
        lines
        if len(lines) <= MOST_LINES
        else [*lines[: MOST_LINES - 1], lines[MOST_LINES - 1][: LINE - 3] + ".."]
    )


def _noted(schema: Schema | None) -> tuple[str, ...]:
    if schema is None:
        return ()
    told = [f"{name} {kind}" for name, kind in schema[:MOST_COLUMNS]]
    return _wrapped(
        ", ".join(told)
        + (f", .. {len(schema) - MOST_COLUMNS} more" if len(schema) > MOST_COLUMNS else "")
    )


def _escaped(text: str) -> str:
    return text.replace("\\", "\\\\").replace('"', '\\"')
