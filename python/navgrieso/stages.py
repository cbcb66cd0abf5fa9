"""The stages of a query's text, and the tables that they name."""
from __future__ import annotations

import re

NAME = r'\s*(?:"((?:[^"]|"")*)"|(\w+))'
FROM = re.compile(r"from" + NAME)
JOIN = re.compile(r"join\s+\w+" + NAME)
# A name in quotes, a text in quotes, or what holds no quote and no bar.
PIECE = re.compile(r'"[^"]*"?|\'[^\']*\'?|[^"\'|]+')


def stages_of(query: str) -> list[str]:
    """The parts of a query between its bars, the one with `from` first."""
    stages, at = [""], 0
    while at < len(query):
        found = PIECE.match(query, at)
        if found is None:
            stages.append("")
            at += 1
        else:
            stages[-1] += found[0]
            at = found.end()
    return [stage.strip() for stage in stages]


def table_named(stage: str) -> str | None:
    """The table that a stage names, if it names one."""
    return _name(FROM.match(stage) or JOIN.match(stage))


def _name(found: re.Match[str] | None) -> str | None:
    if found is None:
        return None
    quoted, word = found.groups()
    return word if quoted is None else quoted.replace('""', '"')
