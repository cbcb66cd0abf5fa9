"""Cases as text, and how the program's end of each is told.

A file of cases has a line each of these, and every line is about those below it:

    # a comment
    words run --rows 1 and run        the words of the program; each case is tried by each of them
    tables T and T                    the tables of the plans and queries below; forgets expressions and names
    exprs E,E                         the expressions of the plans below
    names "t","u"                     the names of the tables for the queries below
    input {..}                        the document for the words below
    N then N -> END                   a plan: these nodes over a scan of each table, and a sink of the last
    query "from t" -> END             a query over the named tables, as a JSON text
    document {..} -> END              a whole document, or what is none
    by run --serial -> END            words over the document of `input`

An end is the lines of the output with `/` between them, or a status, a colon and the line of standard error; behind
` or else ` stands another that is allowed. `{2..5:a#}` stands for `a2,a3,a4`.
"""

from __future__ import annotations

import dataclasses
import os
import pathlib
import re
import subprocess
from collections.abc import Iterator

PROGRAM = os.environ.get("PLAN_TOOL") or str(
    pathlib.Path(__file__).resolve().parent.parent / "crates/plan_tool/out/plan_tool"
)

_BRACES = re.compile(r"\{(\d+)\.\.(\d+):([^{}]*)\}")


@dataclasses.dataclass(frozen=True)
class Case:
    """A run of the program, and the ends that are allowed."""

    place: str
    words: tuple[str, ...]
    document: bytes
    ends: tuple[str, ...]


def _repeated(match: re.Match[str]) -> str:
    first, end, item = int(match[1]), int(match[2]), match[3]
    return ",".join(item.replace("#", str(number)) for number in range(first, end))


def written_out(text: str) -> str:
    """The text with its braces written out."""
    return _BRACES.sub(_repeated, text)


def plan_document(tables: list[str], exprs: str, nodes: list[str]) -> str:
    """A document of these nodes over a scan of each table; a sink of the last is the root."""
    scans = [f'["scan",{number},null]' for number in range(len(tables))]
    every = ",".join([*scans, *nodes, f'["sink",{len(scans) + len(nodes) - 1}]'])
    root = len(scans) + len(nodes)
    return f'{{"tables":[{",".join(tables)}],"exprs":[{exprs}],"nodes":[{every}],"root":{root}}}'


def query_document(tables: list[str], names: str, query: str) -> str:
    """A document of a query, given as a JSON text, over named tables."""
    return f'{{"names":[{names}],"tables":[{",".join(tables)}],"query":{query}}}'


def end_of(words: tuple[str, ...], document: bytes) -> str:
    """How the program ends: the lines of its answer with `/` between them, or its status and line."""
    ended = subprocess.run([PROGRAM, *words], input=document, capture_output=True, timeout=120)
    if ended.returncode == 0:
        lead, told, other = "", ended.stdout, ended.stderr
    else:
        lead, told, other = f"{ended.returncode}: ", ended.stderr, ended.stdout
    lines = told.decode().removesuffix("\n").replace("\n", "/")
    return lead + lines + (" and more" if other else "")


def read(path: pathlib.Path) -> Iterator[Case]:
    """The cases of a file.

    Raises ValueError where a line isn't written as it should be, or no case stands there.
    """
    words: list[tuple[str, ...]] = [("run",)]
    tables: list[str] = []
    exprs = names = given = ""
    count = 0
    for number, line in enumerate(path.read_text().splitlines(), start=1):
        line = written_out(line)
        kind, _, rest = line.partition(" ")
        if not line or kind == "#":
            continue
        if kind == "words":
            words = [tuple(those.split()) for those in rest.split(" and ")]
        elif kind == "tables":
            tables, exprs, names = rest.split(" and "), "", ""
        elif kind == "exprs":
            exprs = rest
        elif kind == "names":
            names = rest
        elif kind == "input":
            given = rest
        else:
            asked, arrow, ends = line.rpartition(" -> ")
            if not arrow:
                raise ValueError(f"{path.name}:{number}: a case without an end")
            every = words
            if kind == "query":
                document = query_document(tables, names, asked.removeprefix("query "))
            elif kind == "document":
                document = asked.removeprefix("document").removeprefix(" ")
            elif kind == "by":
                document, every = given, [tuple(asked.removeprefix("by").split())]
            else:
                document = plan_document(tables, exprs, asked.split(" then "))
            for those in every:
                count += 1
                yield Case(f"{path.name}:{number}", those, document.encode(), tuple(ends.split(" or else ")))
    if not count:
        raise ValueError(f"{path.name}: no cases")
