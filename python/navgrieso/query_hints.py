"""What a query has in place of words and signs that other languages have."""
from __future__ import annotations

import re

from .explanations import COUNTING

# Functions that the language lacks, of which the first three have something in their place.
MEANS = ("mean", "avg", "average", "median", "std", "var", "stddev")
# Where a stage begins: words that begin none, and what does the same.
STAGES = {
    "head": "slice 0 {n}",
    "limit": "slice 0 {n}",
    "take": "slice 0 {n}",
    "top": "sort KEY desc | slice 0 {n}",
    "tail": "slice -{n} {n}",
    "offset": "slice {n} LENGTH",
    "where": "filter EXPR",
    "having": "filter EXPR, behind the group",
    "order": "sort KEY, or sort KEY desc",
    "orderby": "sort KEY, or sort KEY desc",
    "unique": "distinct",
    "derive": "with NAME = EXPR",
    "mutate": "with NAME = EXPR",
    "let": "with NAME = EXPR",
    "project": "select NAME = EXPR, ..",
    "rename": "select NEW = OLD, ..",
    "drop": "select with the columns that stay",
    "summarize": "group NAME = KEY agg NAME = sum(EXPR), ..",
    "aggregate": "group NAME = KEY agg NAME = sum(EXPR), ..",
    "groupby": "group NAME = KEY agg NAME = sum(EXPR), ..",
}
NUMBER = re.compile(r"[^|]*?([0-9]+)")
LAST_WORD = re.compile(r"([A-Za-z_]\w*)\s*\Z")
# What stands from the place on, what it follows, and what is told; the first that fits is.
HINTS = tuple(
    (re.compile(at, re.IGNORECASE), re.compile(f"(?:{behind})\\Z", re.IGNORECASE), hint)
    for at, behind, hint in (
        (
            r"(select|with)\b",
            r"\s*",
            "a query begins with its table: from TABLE | select NAME = EXPR, ..",
        ),
        (r"from\b", r"\s*", "words are written small: from TABLE"),
        (
            r"(?-i:AND|OR|NOT|DESC|ON|AGG|FILTER|SELECT|WITH|GROUP|SORT|JOIN|DISTINCT|SLICE|TRUE"
            r"|FALSE|NULL|FROM)\b",
            r".*",
            "words are written small",
        ),
        (r"=(?!=)", r".*", "== compares; a single = gives an expression its name"),
        (r">", r".*<\s*", "!= says that two values differ"),
        (r"/", r".*", "// divides whole numbers, rounded down; there is no /"),
        (
            r"\.[0-9]",
            r".*[0-9]",
            "there are no decimals: count in a smaller unit, as 45 tenths for 4.5",
        ),
        (r"\.", r".*\w", "a column has its name alone, without its table's"),
        (r"(asc|ascending)\b", r".*", "a sort goes up where no desc is said"),
        (r"descending\b", r".*", "the word is desc"),
        (r"nulls\b", r".*", "nulls come first; filter is_not_null(x) leaves them out"),
        (r"is\s+not\s+null\b", r".*", "is_not_null(x) asks that"),
        (r"is\b", r".*", "is_null(x) asks that"),
        (r"like\b|ilike\b", r".*", "texts are only compared: == != < <= > >="),
        (r"in\b", r".*", "a == 1 or a == 2 stands for in"),
        (r"between\b", r".*", "a >= 1 and a <= 9 stands for between"),
        (r"as\b", r".*", "a name stands in front: NAME = EXPR"),
        (r"case\b|if\b|when\b", r".*", "there are no choices: filter, or sum truth values"),
        (r"by\b", r".*sort\s+", "sort is followed by its keys"),
        (r"by\b", r".*group\s+", "group is followed by NAME = KEY"),
        (r"outer\b", r".*join\s+", "that join is named full"),
        (r"\S", r".*\bjoin\s+", "a join says how: join inner TABLE on NAME"),
        (r"\S", r".*\bnot\s+", "not has parentheses: not(x)"),
        (r"&&?|\|\|", r".*", "and, or and not(x) join truth values"),
        (r"!(?!=)", r".*", "not(x) says the opposite"),
        (r"\S", r".*[=<>(,+*/%]\s*-\s*", "0 - x says the opposite of a number"),
        (
            r"[,|]|\Z",
            r".*\b(select|with|group|agg)\b[^=|]*\w\s*",
            "each item has a name: NAME = EXPR",
        ),
        (r"\*", r".*\b(count|len)\s*\(\s*", "len() counts rows"),
        (r"\)", r".*\bcount\s*\(\s*", "len() counts rows, and count(x) those where x isn't null"),
        (r"\*", r".*\bselect\s+", "all columns stay where there is no select"),
        (r"\t", r".*", "spaces and line feeds stand between words, and no tabs"),
        (r";", r".*", "a query has no sign at its end"),
    )
)


def hint_of(query: str, place: int) -> str:
    """What may be told where a text can't be read on as a query from a place; empty where nothing
    is known."""
    before, rest = query[:place], query[place:]
    stage = re.match(r"([A-Za-z_]+)", rest)
    if stage is not None and before.rstrip().endswith("|"):
        told = STAGES.get(stage[1].lower())
        if told is not None:
            number = NUMBER.match(rest)
            return f"there is no {stage[1]}: {told.format(n=number[1] if number else 'N')}"
    if rest.startswith("("):
        named = LAST_WORD.search(before)
        if named is not None:
            return _no_function(named[1])
    line = before.replace("\n", " ")
    return next(
        (hint for at, behind, hint in HINTS if at.match(rest) and behind.match(line)), ""
    )


def _no_function(name: str) -> str:
    if name.lower() in MEANS[:3]:
        return f"there is no {name}, but what is like it (x without nulls): {COUNTING}"
    if name.lower() in MEANS:
        return f"there is no {name}"
    return (
        f"there is no function {name}: there are min, max, first, last, sum, n_unique, count, not, "
        "is_null, is_not_null and len"
    )
