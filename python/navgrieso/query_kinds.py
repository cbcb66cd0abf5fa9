"""The kinds of a query's columns, which CSV doesn't tell: the program is asked, over the same
tables without rows.

A column is of a kind exactly where the program takes a comparison of it with a value of that kind
for valid.
"""
from __future__ import annotations

from typing import Any

from .answers import Answer, read_answer
from .csv_text import rows_of
from .kinds import Kind, guessed_cells
from .plans import encoded
from .program import ask

# A value of each kind, in the words of a query.
VALUES = {Kind.INT64: "1", Kind.STRING: "''", Kind.BOOLEAN: "true", Kind.IDX: "len()"}


def typed_answer(document: dict[str, Any], output: bytes, plan_tool: str | None) -> Answer:
    """The answer to a query with its kinds, where `output` is what the program wrote. The program
    is asked once more where null may be mistaken for an empty text."""
    (_, header), *lines = rows_of(output.decode("utf-8"))
    names = [name or "" for name in header]
    fields = list(zip(*(row for _, row in lines))) or [()] * len(names)
    guessed = [guessed_cells(texts)[0] for texts in fields]
    kinds = (
        guessed
        if _are(document, names, guessed, plan_tool)
        else [
            next(
                (kind for kind in VALUES if _are(document, [name], [kind], plan_tool)), Kind.STRING
            )
            for name in names
        ]
    )
    schema = [(name, kind.value) for name, kind in zip(names, kinds)]
    texts = [name for name, kind in schema if kind == "str"]
    if not texts or not _has_empty_text(document):
        return read_answer(output, schema, {})
    marks = {name: f"is_null {place}{max(names)}" for place, name in enumerate(texts)}
    asked = ", ".join(
        f"{_quoted(mark)} = is_null({_quoted(name)})" for name, mark in marks.items()
    )
    reply = ask(["text"], encoded(_with_stage(document, f"with {asked}")), plan_tool)
    if reply.status:
        return read_answer(output, schema, {})
    return read_answer(
        reply.output, [*schema, *((mark, "bool") for mark in marks.values())], marks
    )


def _are(
    document: dict[str, Any], names: list[str], kinds: list[Kind], plan_tool: str | None
) -> bool:
    """Whether the query's columns of these names are of these kinds."""
    compared = ", ".join(
        f"c{at} = {_quoted(name)} == {VALUES[kind]}"
        for at, (name, kind) in enumerate(zip(names, kinds))
    )
    asked = _with_stage(without_rows(document), f"select {compared}")
    return ask(["text"], encoded(asked), plan_tool).status == 0


def without_rows(document: dict[str, Any]) -> dict[str, Any]:
    """The same document over the same tables without rows. Whether its plan is valid doesn't hang
    on rows."""
    return {
        **document,
        "tables": [[[name, kind, []] for name, kind, _ in table] for table in document["tables"]],
    }


def _with_stage(document: dict[str, Any], stage: str) -> dict[str, Any]:
    return {**document, "query": f"{document['query']} | {stage}"}


def _quoted(name: str) -> str:
    return '"' + name.replace('"', '""') + '"'


def _has_empty_text(document: dict[str, Any]) -> bool:
    return "''" in document["query"] or any(
        kind == "str" and "" in cells for table in document["tables"] for _, kind, cells in table
    )
