"""The answer to a query as JSON: an object for each row."""
from __future__ import annotations

import json
from collections.abc import Iterable, Sequence
from json.encoder import encode_basestring
from typing import Any

from .csv_text import sheet_of
from .plans import encoded
from .program import ask
from .schemas import Schema


def json_of(
    document: dict[str, Any], output: bytes, schema: Schema, plan_tool: str | None
) -> str:
    """An answer as an array of an object for each row, one a line.

    `document` is that of the query, `output` what the program wrote, and `schema` its columns. The
    program is asked once more where null may be mistaken for an empty text.
    """
    sheet = sheet_of(output.decode("utf-8"))
    columns, marks = sheet.columns, {}
    texts = [name for name, kind in schema if kind == "str"]
    if texts and _has_empty_text(document):
        marks = _nulls(document, texts, schema, plan_tool)
    cells = [
        _cells(kind, fields, marks.get(name)) for (name, kind), fields in zip(schema, columns)
    ]
    keys = (json.dumps(name, ensure_ascii=False).replace("%", "%%") for name, _ in schema)
    row = "{" + ", ".join(f"{key}: %s" for key in keys) + "}"
    rows = ",\n".join(map(row.__mod__, zip(*cells)))
    return f"[\n{rows}\n]\n" if rows else "[]\n"


def _cells(
    kind: str, fields: Sequence[str | None], nulls: Sequence[str | None] | None
) -> Iterable[str]:
    """The cells of a column as JSON's values."""
    if kind != "str":
        return [field or "null" for field in fields]
    if nulls is None:
        return [encode_basestring(field) if field else "null" for field in fields]
    return [
        "null" if null == "true" else encode_basestring(field or "")
        for field, null in zip(fields, nulls)
    ]


def _nulls(
    document: dict[str, Any], texts: list[str], schema: Schema, plan_tool: str | None
) -> dict[str, Sequence[str | None]]:
    """For columns of texts, the fields that say whether each cell is null; none where that can't be
    asked, since the query is as deep as one may be."""
    longest = max(name for name, _ in schema)
    marks = {name: f"is_null {place}{longest}" for place, name in enumerate(texts)}
    asked = ", ".join(f"{_quoted(mark)} = is_null({_quoted(name)})" for name, mark in marks.items())
    query = f"{document['query']} | select {asked}"
    reply = ask(["text"], encoded({**document, "query": query}), plan_tool)
    if reply.status:
        return {}
    sheet = sheet_of(reply.output.decode("utf-8"))
    return dict(zip(texts, sheet.columns))


def _quoted(name: str) -> str:
    return '"' + name.replace('"', '""') + '"'


def _has_empty_text(document: dict[str, Any]) -> bool:
    return "''" in document["query"] or any(
        kind == "str" and "" in cells for table in document["tables"] for _, kind, cells in table
    )
