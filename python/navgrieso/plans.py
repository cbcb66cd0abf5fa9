"""Plans as trees of steps, and the document that is made of one: its arenas, numbered."""
from __future__ import annotations

import json
from collections import Counter
from collections.abc import Callable
from dataclasses import dataclass, field
from typing import Any

from .errors import DocumentTooLong
from .expression_text import SIGNS
from .expressions import Expr, parts_of
from .kinds import Kind
from .schemas import Kinds, Schema, inputs_of, schema_of, with_inputs

MOST_BYTES = 2**26

# Gives an expression its number, over the columns of the step's first input or of another one.
Number = Callable[..., int]
# Makes the entry of a step of its inputs' numbers.
Entry = Callable[[list[int], Number], list]


@dataclass(frozen=True, eq=False)
class Table:
    """A table of a document: its columns, each a list of a name, a kind and cells, and the path of
    its file, where it is of one."""

    columns: list[list]
    path: str = ""


@dataclass(frozen=True, eq=False)
class Step:
    """A node of a plan: what it reads, the entry that it makes, how the user wrote it, and
    where."""

    inputs: tuple[Step, ...]
    entry: Entry
    text: Callable[[], str]
    source: str
    table: Table | None = None


@dataclass
class Built:
    """A document, for each of its nodes the step that it was made for, and its schema where it is
    known, and for its tables the names that are told, where they have some."""

    document: dict[str, Any]
    steps: list[Step] = field(default_factory=list)
    schemas: list[Schema | None] = field(default_factory=list)
    names: list[str] = field(default_factory=list)


def encoded(document: dict[str, Any]) -> bytes:
    """A document as the program reads it. Raises DocumentTooLong where it has more than 64 MiB."""
    text = json.dumps(document, ensure_ascii=False, separators=(",", ":")).encode()
    if len(text) > MOST_BYTES:
        raise DocumentTooLong(
            f"the document has {len(text):,} bytes: the program reads 64 MiB ({MOST_BYTES:,}). A "
            "document takes up to twice what the files of its tables have"
        )
    return text


def build(root: Step) -> Built:
    """The document of the plan that ends with this step and a sink.

    An entry that stands is not made again, and what is read at two places stands under a cache.
    """
    return _Builder().build(root)


class _Builder:
    def __init__(self) -> None:
        self._tables: list[list] = []
        self._table_numbers: dict[int, int] = {}
        self._names: list[str] = []
        self._exprs: list[list] = []
        self._places: dict[str, int] = {}

    def build(self, root: Step) -> Built:
        """Finds which steps are one node, and then numbers the nodes, with a cache over each that
        has two readers."""
        kept: list[tuple[Step, list, Schema | None]] = []
        kept_at: dict[str, int] = {}
        found: dict[int, int] = {}
        for step in _below_first(root):
            below = [found[id(it)] for it in step.inputs]
            schemas = [kept[at][2] for at in below]
            entry = self._entry(step, below, schemas)
            at = kept_at.setdefault(json.dumps(entry), len(kept))
            found[id(step)] = at
            if at == len(kept):
                known = [it for it in schemas if it is not None]
                is_known = len(known) == len(schemas)
                kept.append(
                    (
                        step,
                        entry,
                        schema_of(entry, known, self._exprs, self._tables) if is_known else None,
                    )
                )
        return self._numbered(kept)

    def _numbered(self, kept: list[tuple[Step, list, Schema | None]]) -> Built:
        readers = Counter(below for _, entry, _ in kept for below in inputs_of(entry))
        nodes: list[list] = []
        built = Built({"tables": self._tables, "exprs": self._exprs, "nodes": nodes})
        built.names = self._names
        numbers: list[int] = []
        caches = 0

        def add(entry: list, step: Step, schema: Schema | None) -> None:
            nodes.append(entry)
            built.steps.append(step)
            built.schemas.append(schema)

        for at, (step, entry, schema) in enumerate(kept):
            entry = with_inputs(entry, [numbers[below] for below in inputs_of(entry)])
            if entry[0] == "cache":
                entry, caches = ["cache", entry[1], caches], caches + 1
            add(entry, step, schema)
            if readers[at] > 1 and entry[0] != "cache":
                add(["cache", len(nodes) - 1, caches], step, schema)
                caches += 1
            numbers.append(len(nodes) - 1)
        step, _, schema = kept[-1]
        add(["sink", len(nodes) - 1], step, schema)
        built.document["root"] = len(nodes) - 1
        return built

    def _entry(self, step: Step, below: list[int], schemas: list[Schema | None]) -> list:
        if step.table is not None:
            number = self._table_numbers.setdefault(id(step.table), len(self._tables))
            if number == len(self._tables):
                self._tables.append(step.table.columns)
                self._names.append(step.table.path or f"table {number}")
            return ["scan", number, None]
        scopes = [_Scope(Kinds(self._exprs, schema)) for schema in schemas]
        return step.entry(below, lambda expr, side=0: self._number(expr, scopes[side]))

    def _number(self, expr: Expr, scope: _Scope) -> int:
        """The number of an expression over a schema; what it is made of comes before it."""
        waiting = [expr]
        while waiting:
            at = waiting[-1]
            below = [
                it for it in parts_of(at) if id(it) not in scope.numbers and it.word != "free"
            ]
            if id(at) in scope.numbers or not below:
                waiting.pop()
                if id(at) not in scope.numbers:
                    scope.numbers[id(at)] = self._placed(at, scope)
            else:
                waiting.extend(reversed(below))
        return scope.numbers[id(expr)]

    def _placed(self, expr: Expr, scope: _Scope) -> int:
        def numbered(part: object) -> object:
            if isinstance(part, list):
                return [numbered(it) for it in part]
            if not isinstance(part, Expr):
                return part
            if part.word == "free":
                return self._free(part, expr, scope)
            return scope.numbers[id(part)]

        if expr.word == "free":
            return self._free(expr, expr, scope)
        return self._place([expr.word, *map(numbered, expr.parts)])

    def _free(self, free: Expr, around: Expr, scope: _Scope) -> int:
        """A number or a null without a kind takes that of what stands beside it, where it fits."""
        cell = free.parts[0]
        beside = (
            around.parts[1:]
            if around.word == "ternary"
            else around.parts
            if around.word in SIGNS
            else ()
        )
        kinds = [scope.kinds.of(scope.numbers[id(it)]) for it in beside if it.word != "free"]
        kind = next((it for it in kinds if it is not None), None)
        if cell is None:
            if kind is None:
                raise ValueError(
                    "this null needs a kind, since nothing beside it has one: lit(None, Int64)"
                )
            return self._place(["null", kind])
        return self._place(["idx" if kind == "idx" and Kind.IDX.holds(cell) else "int", cell])

    def _place(self, entry: list) -> int:
        place = self._places.setdefault(json.dumps(entry), len(self._exprs))
        if place == len(self._exprs):
            self._exprs.append(entry)
        return place


@dataclass
class _Scope:
    """The expressions over one schema, with the numbers that they have by identity."""

    kinds: Kinds
    numbers: dict[int, int] = field(default_factory=dict)


def _below_first(root: Step) -> list[Step]:
    """The steps of a plan, each once, and behind those that it reads."""
    order: list[Step] = []
    seen: set[int] = set()
    waiting: list[tuple[Step, bool]] = [(root, False)]
    while waiting:
        step, is_ready = waiting.pop()
        if is_ready:
            order.append(step)
        elif id(step) not in seen:
            seen.add(id(step))
            waiting.append((step, True))
            waiting.extend((it, False) for it in reversed(step.inputs))
    return order
