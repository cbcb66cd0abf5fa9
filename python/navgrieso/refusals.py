"""Exceptions of the program's refusals, with the step that they name, as the user wrote it."""
from __future__ import annotations

import difflib
import itertools
import json

from .checker import flaws_of
from .errors import BY_STATUS, ColumnNotFound, NavgriesoError, ProgramFailed
from .explanations import COUNTING, is_count_beside_a_number, mismatch, shape
from .plans import Built, encoded
from .program import Reply
from .query_plan import QueryPlan
from .schemas import Schema, inputs_of

REASONS = {
    2: "the program has no such command or setting",
    3: "this is no document",
    6: "the program couldn't read the document",
    7: "the program couldn't write its answer",
    8: "the document has more than 64 MiB",
    9: "the program was refused memory",
}
# How many flaws of a document are told.
MOST_FLAWS = 5
# Longer entries are cut.
MOST_ENTRY = 200
# So many names are told that are near one which isn't there, and so near they are.
MOST_NEAR, NEAR = 3, 0.6


def refusal(reply: Reply, built: Built | None = None) -> NavgriesoError:
    """The exception for a reply whose status isn't 0, to this document where there is one."""
    kind = BY_STATUS.get(reply.status)
    if kind is None:
        return ProgramFailed(
            f"the program ended with status {reply.status}: {reply.line}", line=reply.line
        )
    word, node, name = reply.at_node()
    told = [reply.line if reply.status in (4, 5) else f"{REASONS[reply.status]} ({reply.line})"]
    if reply.status == 3 and built is not None:
        told += [f"  {flaw}" for flaw in flaws_of(encoded(built.document))[:MOST_FLAWS]]
    if node is None or built is None:
        return kind("\n".join(told), line=reply.line)
    entry, source = _written(built, node)
    told.append(f"  in {entry}")
    if source:
        told.append(f"  at {source}")
    names = None
    if word == "ColumnNotFound":
        kind, names = ColumnNotFound, list(itertools.chain(*_names_below(built, node)))
        told += _columns_told(built, node, name)
    elif word == "SchemaMismatch":
        told += _mismatch_told(built, node)
    elif word == "InvalidPlan Shape":
        why = shape(built.document, node)
        told += [] if why is None else [f"  {why}"]
    return kind(
        "\n".join(told), line=reply.line, node=node, entry=entry, source=source, names=names
    )


def _columns_told(built: Built, node: int, name: str) -> list[str]:
    """What is told of a column that isn't there: a name that is near it, and those that there
    are."""
    sides = _names_below(built, node)
    told = []
    near = near_to(name, list(dict.fromkeys(itertools.chain(*sides))))
    if near:
        told.append(f"  did you mean {' or '.join(near)}?")
    if isinstance(built, QueryPlan) and f'"{name}"' in built.steps[node].text():
        told.append(f"  a name stands in double quotes, and a text in single ones: '{name}'")
    if len(sides) == 2:
        told += [
            f"  the columns on the {side} are {', '.join(names)}"
            for side, names in zip(("left", "right"), sides)
        ]
    elif any(sides):
        told.append(f"  the columns there are {', '.join(sides[0])}")
    else:
        told.append("  no column there is known")
    return told


def _mismatch_told(built: Built, node: int) -> list[str]:
    """What is told where kinds don't agree: which, and the columns with their kinds."""
    told = []
    why = mismatch(built, node) if node < len(built.document["nodes"]) else None
    if why is not None:
        told.append(f"  {why}")
        if is_count_beside_a_number(why):
            told.append(
                f"  a count is idx. As a whole number: {COUNTING}"
                if isinstance(built, QueryPlan)
                else "  a count is idx: .cast(nav.Int64) makes a whole number of it"
            )
    below = _schemas_below(built, node)
    if below:
        told.append("  the columns there are " + "; ".join(shown(schema) for schema in below))
    return told


def near_to(name: str, names: list[str]) -> list[str]:
    """Those of some names that are nearly this one, the nearest first."""
    alike = [it for it in names if it.casefold() == name.casefold()]
    near = difflib.get_close_matches(name, names, MOST_NEAR, NEAR)
    return alike or near


def shown(schema: Schema) -> str:
    """A schema as text: each name with its kind."""
    return ", ".join(f"{name} {kind}" for name, kind in schema)


def _written(built: Built, node: int) -> tuple[str, str]:
    """A node as the user wrote it, and where; of a document without steps as it stands there."""
    if built.steps:
        step = built.steps[min(node, len(built.steps) - 1)]
        return step.text(), step.source
    nodes = built.document["nodes"]
    text = json.dumps(nodes[node], ensure_ascii=False) if node < len(nodes) else f"node {node}"
    return text if len(text) <= MOST_ENTRY else text[: MOST_ENTRY - 2] + "..", ""


def _schemas_below(built: Built, node: int) -> list[Schema]:
    nodes = built.document["nodes"]
    if node >= len(nodes):
        return []
    below = (built.schemas[it] for it in inputs_of(nodes[node]) if it < len(built.schemas))
    return [schema for schema in below if schema is not None]


def _names_below(built: Built, node: int) -> list[list[str]]:
    """The names of the columns of each input of a node."""
    return [[name for name, _ in schema] for schema in _schemas_below(built, node)]
