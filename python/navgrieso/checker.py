"""What keeps a text from being a document, by docs/FORMATS.md: each flaw with the path of the
value that has it."""
from __future__ import annotations

import json
from collections.abc import Iterator
from typing import Any

from .kinds import Kind
from .rules import (
    HALVES,
    MOST_NUMBER,
    Flaw,
    NotWhole,
    Rule,
    flag,
    is_whole,
    number,
    one_of,
    or_null,
    row,
    shown,
    signed,
    some,
    text,
    together,
    wanted,
)

MOST_NESTED = 127
KINDS = ("bool", "int", "idx", "str")
MEMBERS = ("tables", "exprs", "nodes", "root")
LEFT_OUT = (
    "Alias Explode Implode AggGroups Window AnonymousFunction SeriesLiteral FloatLiteral Mean Var "
    "Std Median Quantile TrueDivide Scan PythonScan ExtContext Invalid MergeSorted OtherFunction "
    "AsOfJoin InequalityJoin GroupByApply DynamicGroupBy RollingGroupBy"
).split()


def flaws_of(text: bytes) -> list[Flaw]:
    """All flaws of a document, in the order of its members; none where it is one."""
    try:
        read = json.loads(
            text.decode("utf-8"), parse_int=_whole, parse_float=NotWhole, parse_constant=_no_json
        )
        nested = _nesting(read)
    except UnicodeDecodeError as error:
        return [Flaw("", f"this is no JSON: byte {error.start} is no UTF-8")]
    except RecursionError:
        nested = MOST_NESTED + 1
    except ValueError as error:
        return [Flaw("", f"this is no JSON: {error}")]
    if nested > MOST_NESTED:
        why = f"more than {MOST_NESTED} arrays and objects stand inside each other"
        return [Flaw("", f"this is no JSON that is read: {why}")]
    return list(_document(read))


def _whole(digits: str) -> int | NotWhole:
    return NotWhole(digits) if digits == "-0" or len(digits) > 24 else int(digits)


def _no_json(word: str) -> None:
    raise ValueError(f"{word} stands where a value is wanted")


def _nesting(read: Any) -> int:
    depth, level = 0, [read]
    while True:
        level = [it for it in level if isinstance(it, (list, dict))]
        if not level:
            return depth
        depth += 1
        level = [
            part
            for it in level
            for part in (it.values() if isinstance(it, dict) else it)
            if isinstance(part, (list, dict))
        ]


kind = one_of(*KINDS)
left_out = one_of(*LEFT_OUT)
cut = or_null(together(signed, number))
names = or_null(some(text))
named = some(together(text, number))
numbers, flags = some(number), some(flag)
how = one_of("inner", "left", "right", "full", "semi", "anti", "cross")

EXPRESSIONS: dict[str, tuple[Rule, ...]] = {
    "col": (text,),
    "null": (kind,),
    "bool": (flag,),
    "int": (signed,),
    "idx": (row,),
    "str": (text,),
    **dict.fromkeys(
        "eq ne lt le gt ge add sub mul floordiv mod and or filter".split(), (number, number)
    ),
    **dict.fromkeys(
        "not is_null is_not_null reverse min max sum first last n_unique".split(), (number,)
    ),
    "cast": (number, kind, flag),
    "ternary": (number, number, number),
    "sort": (number, flag, flag),
    "sort_by": (number, numbers, flags, flags),
    "gather": (number, number, flag),
    "slice": (number, number, number),
    "count": (number, flag),
    "len": (),
    "left_out": (left_out,),
}
NODES: dict[str, tuple[Rule, ...]] = {
    "scan": (number, names),
    "project": (number, some(text)),
    "select": (number, named),
    "hstack": (number, named),
    "filter": (number, number),
    "slice": (number, signed, number),
    "sink": (number,),
    "file_sink": (number,),
    "row_index": (number, text, or_null(row)),
    "map": (number, number),
    "sort": (number, numbers, flags, flags, cut),
    "union": (numbers, cut),
    "hconcat": (numbers,),
    "cache": (number, number),
    "group_by": (number, named, named, flag, cut),
    "join": (
        number,
        number,
        how,
        numbers,
        numbers,
        or_null(text),
        flag,
        one_of("m:m", "m:1", "1:m", "1:1"),
        cut,
    ),
    "distinct": (number, names, flag, one_of("first", "last", "any", "none"), cut),
    "left_out": (left_out,),
}


def _entry(words: dict[str, tuple[Rule, ...]], what: str) -> Rule:
    def rule(value: Any, path: str) -> Iterator[Flaw]:
        if not isinstance(value, list) or not value or not isinstance(value[0], str):
            yield from wanted(f"an array that begins with the word of {what}", value, path)
            return
        parts = words.get(value[0])
        if parts is None:
            yield Flaw(f"{path}[0]", f"{shown(value[0])} is no word of {what}")
        elif len(value) != len(parts) + 1:
            yield Flaw(
                path, f"{value[0]!r} has {len(parts)} parts behind it, and not {len(value) - 1}"
            )
        else:
            for place, (part, it) in enumerate(zip(parts, value[1:]), 1):
                yield from part(it, f"{path}[{place}]")

    return rule


CELLS: dict[str, Rule] = {
    "bool": or_null(flag),
    "int": or_null(signed),
    "idx": or_null(row),
    "str": or_null(text),
}


def _all_hold(word: str, cells: Any) -> bool:
    """Whether cells are quickly seen to be of a kind. Long columns mostly are."""
    if not isinstance(cells, list) or not all(map(Kind(word).holds, cells)):
        return False
    return word != "str" or not HALVES.search("".join(filter(None, cells)))


def _table(value: Any, path: str) -> Iterator[Flaw]:
    if not isinstance(value, list):
        yield from wanted("an array of columns", value, path)
        return
    seen: set[str] = set()
    heights: list[int] = []
    for place, column in enumerate(value):
        at = f"{path}[{place}]"
        if not isinstance(column, list) or len(column) != 3:
            yield from wanted("a column of a name, a kind and cells", column, at)
            continue
        name, word, cells = column
        yield from text(name, f"{at}[0]")
        if isinstance(name, str):
            if name in seen:
                yield Flaw(f"{at}[0]", f"the name {shown(name)} stands twice")
            seen.add(name)
        yield from kind(word, f"{at}[1]")
        if word in KINDS and not _all_hold(word, cells):
            yield from some(CELLS[word])(cells, f"{at}[2]")
        if isinstance(cells, list):
            heights.append(len(cells))
            if heights[0] != len(cells):
                yield Flaw(f"{at}[2]", f"{len(cells)} cells stand in a table of {heights[0]} rows")


def _document(read: Any) -> Iterator[Flaw]:
    if not isinstance(read, dict):
        yield from wanted(f"an object with the members {', '.join(MEMBERS)}", read, "")
        return
    yield from (Flaw(name, "this member is missing") for name in MEMBERS if name not in read)
    yield from (Flaw(name, "no document has this member") for name in read if name not in MEMBERS)
    rules = {
        "tables": some(_table),
        "exprs": some(_entry(EXPRESSIONS, "an expression")),
        "nodes": some(_entry(NODES, "a node")),
        "root": number,
    }
    for name, rule in rules.items():
        if name in read:
            yield from rule(read[name], name)
    tables, nodes = read.get("tables"), read.get("nodes")
    if isinstance(tables, list) and isinstance(nodes, list):
        for place, node in enumerate(nodes):
            is_scan = isinstance(node, list) and len(node) == 3 and node[0] == "scan"
            if is_scan and is_whole(node[1]) and len(tables) <= node[1] <= MOST_NUMBER:
                yield Flaw(
                    f"nodes[{place}][1]",
                    f"there is no table {node[1]}: the document has {len(tables)}",
                )
