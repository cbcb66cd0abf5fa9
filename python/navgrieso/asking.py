"""Asking the program for an answer to a plan."""
from __future__ import annotations

import json
from collections.abc import Mapping
from typing import Any

from .answers import Answer, read_answer
from .checker import flaws_of
from .csv_text import rows_of
from .errors import InvalidDocument, InvalidPlan, NotYet
from .kinds import Kind
from .plans import Built, encoded
from .program import ask, find, settings
from .refusals import refusal
from .schemas import Schema, Schemas

# A plan over more cells is asked over tables without rows first.
LARGE = 100_000


def collect(
    built: Built,
    *,
    workers: int | None = None,
    rows: int | None = None,
    serial: bool = False,
    plan_tool: str | None = None,
) -> Answer:
    """The answer to a plan. Raises an exception for each status but 0."""
    words = ["run", *settings(workers, rows, serial)]
    if _cells(built.document) > LARGE:
        # So that a slip is told before the cells are written, and read by the program.
        reply = ask(words, encoded(without_rows(built.document)), plan_tool)
        if reply.status == 4:
            raise refusal(reply, built)
    asked, marks = _with_marks(built)
    reply = ask(words, encoded(asked.document), plan_tool)
    if marks and reply.line.startswith("InvalidPlan Limits"):
        # What is asked beside the plan makes it deeper, and it may be as deep as plans may be.
        reply = ask(words, encoded(built.document), plan_tool)
        if reply.status == 0:
            return _without_marks(reply.output, _root_schema(built) or [], marks)
    if reply.status:
        raise refusal(reply, asked)
    # What the program answered had a schema; where it isn't known here, the fields are texts.
    return read_answer(reply.output, _root_schema(asked) or _texts(reply.output), marks)


def _without_marks(output: bytes, schema: Schema, marks: dict[str, str]) -> Answer:
    """The answer where no column says what is null, if no field leaves that open."""
    answer = read_answer(output, schema, {})
    if any(None in answer[name] for name in marks):
        raise InvalidPlan(
            "the answer has empty fields, and whether they are null or empty texts can't be asked: "
            "the plan is as deep as a plan may be. `write_csv` writes it as it is"
        )
    return answer


def write_csv(built: Built, path: str, *, plan_tool: str | None = None) -> None:
    """Writes the program's text to a file, once it was answered whole."""
    reply = ask(["run"], encoded(built.document), plan_tool)
    if reply.status:
        raise refusal(reply, built)
    with open(path, "wb") as file:
        file.write(reply.output)


def explain(built: Built, *, plan_tool: str | None = None) -> str:
    """The physical plan as the program tells it. Raises NotYet where the program has no command
    for it."""
    reply = ask(["explain"], encoded(built.document), plan_tool)
    if reply.status == 2:
        raise NotYet(
            f"this program has no command `explain` yet: {find(plan_tool)}", line=reply.line
        )
    if reply.status:
        raise refusal(reply, built)
    return reply.output.decode("utf-8")


def schema_of(built: Built, *, plan_tool: str | None = None) -> dict[str, Kind]:
    """The columns of a plan's answer with their kinds. Raises what the program refuses of it."""
    schema = _root_schema(built)
    if schema is None:
        reply = ask(["run"], encoded(without_rows(built.document)), plan_tool)
        if reply.status not in (0, 5):
            raise refusal(reply, built)
        raise InvalidPlan("the kinds of the answer's columns aren't known")
    return {name: Kind.of(kind) for name, kind in schema}


def read_document(document: Mapping[str, Any] | bytes | str) -> Built:
    """A document that wasn't made by a frame, as JSON's values or as text. Raises InvalidDocument,
    with its flaws."""
    text = (
        document
        if isinstance(document, bytes)
        else (
            document.encode("utf-8", "surrogatepass")
            if isinstance(document, str)
            else encoded(dict(document))
        )
    )
    flaws = flaws_of(text)
    if flaws:
        raise InvalidDocument("this is no document\n" + "\n".join(f"  {flaw}" for flaw in flaws))
    read = json.loads(text)
    schemas = Schemas(read)
    return Built(read, [], [schemas.of(number) for number in range(len(read["nodes"]))])


def without_rows(document: dict[str, Any]) -> dict[str, Any]:
    """The same document over the same tables without rows. Whether its plan is valid doesn't hang
    on rows."""
    return {
        **document,
        "tables": [[[name, kind, []] for name, kind, _ in table] for table in document["tables"]],
    }


def _with_marks(built: Built) -> tuple[Built, dict[str, str]]:
    """The document with a column beside each column of texts that says where it is null, if null
    may be mistaken for an empty text: where an empty text stands in a table or in a literal. And
    the names of these columns."""
    document, schema = built.document, _root_schema(built)
    nodes, root = document["nodes"], document["root"]
    if schema is None or nodes[root][0] != "sink" or not _has_empty_text(document):
        return built, {}
    taken = {name for name, _ in schema}
    marks: dict[str, str] = {}
    exprs = list(document["exprs"])
    made: list[list] = []
    for name, kind in schema:
        if kind == "str":
            mark = f"is_null {len(marks)}"
            while mark in taken:
                mark += "'"
            marks[name] = mark
            exprs += [["col", name], ["is_null", len(exprs)]]
            made.append([mark, len(exprs) - 1])
    if not marks:
        return built, {}
    nodes = [*nodes, ["hstack", nodes[root][1], made], ["sink", len(nodes)]]
    wide = [*schema, *((mark, "bool") for mark in marks.values())]
    asked = {**document, "exprs": exprs, "nodes": nodes, "root": len(nodes) - 1}
    return Built(asked, built.steps, [*built.schemas, wide, wide]), marks


def _cells(document: dict[str, Any]) -> int:
    """How many cells the tables have."""
    return sum(len(cells) for table in document["tables"] for _, _, cells in table)


def _root_schema(built: Built) -> Schema | None:
    root = built.document["root"]
    return built.schemas[root] if root < len(built.schemas) else None


def _has_empty_text(document: dict[str, Any]) -> bool:
    return ["str", ""] in document["exprs"] or any(
        kind == "str" and "" in cells for table in document["tables"] for _, kind, cells in table
    )


def _texts(output: bytes) -> list[tuple[str, str]]:
    _, header = next(rows_of(output.decode("utf-8")), (0, []))
    return [(name or "", "str") for name in header]
