"""Where a text stops being a query.

The grammar is the program's. A text is cut into tokens here, and the program is asked which of its
fronts go on to a query: those that are one with a little more behind them.
"""
from __future__ import annotations

import re
from collections.abc import Callable

from .plans import encoded
from .printing import CUT, cut_to, shown, width_of
from .program import ask
from .query_hints import hint_of

TOKEN = re.compile(
    r"[a-z_][a-z_0-9]*|[0-9]+"
    r'|"(?:[^"]|"")*"' + r"|'(?:[^']|'')*'"
    r"|==|!=|<=|>=|//|[|,=<>+\-*%()]"
)
SPACE = re.compile(r"[ \n]*")
WORD = re.compile(r"[^\W\d]\w*")
# What may come next somewhere in a query, with all that then has to come.
NEXT = ("", "x", "= x", "x = x", "distinct", "on x", "x on x", "inner x on x", "0", "0 0", "int")
# So much of a line is shown before the place, and so much behind it.
BEFORE, BEHIND = 40, 36


def tokens_of(query: str) -> tuple[list[tuple[int, int]], int | None]:
    """Where each token begins and ends, and the place of what begins none, if something does."""
    found: list[tuple[int, int]] = []
    at = 0
    while (at := SPACE.match(query, at).end()) < len(query):
        token = TOKEN.match(query, at)
        if token is None:
            return found, at
        found.append(token.span())
        at = token.end()
    return found, None


def goes_on(front: str, is_query: Callable[[str], bool]) -> bool:
    """Whether tokens are the front of a query, with what may come next."""
    spelled = [front[begin:end] for begin, end in tokens_of(front)[0]]
    closed = " )" * (spelled.count("(") - spelled.count(")"))
    return any(
        is_query(f"{front} {more}{closed}{rest}".strip())
        for rest in ("", " agg x = x")
        for more in NEXT
    )


def place_of(query: str, is_query: Callable[[str], bool]) -> int:
    """The place in a text that is no query from which it can't be read on: that of a token, of
    what begins none, or the end."""
    tokens, lost = tokens_of(query)
    # So many tokens go on to a query, and so many don't.
    read, unread = 0, len(tokens) + 1
    while unread - read > 1:
        middle = (read + unread) // 2
        if goes_on(query[: tokens[middle - 1][1]], is_query):
            read = middle
        else:
            unread = middle
    if read < len(tokens):
        return tokens[read][0]
    return len(query) if lost is None else lost


def no_query(query: str, plan_tool: str | None) -> str:
    """Why a text is no query: its line with a mark below the place from which it can't be read."""

    def is_query(text: str) -> bool:
        document = {"tables": [], "names": [], "query": text}
        return ask(["text"], encoded(document), plan_tool).line != "BadQuery"

    place = place_of(query, is_query)
    why = "it ends too early" if place == len(query) else "it can't be read on from the mark"
    said = [f"this is no query: {why}", *_marked(query, place), _hint(query, place, is_query)]
    return "\n  ".join([*filter(None, said), "`nav query --help` shows what a query is"])


def _marked(query: str, place: int) -> tuple[str, str]:
    """The line in which a place is, and the mark for the line below."""
    begin = query.rfind("\n", 0, place) + 1
    before, behind = query[begin:place], query[place:].split("\n", 1)[0]
    cut = CUT if len(before) > BEFORE else ""
    front = cut + shown(before[-BEFORE:])
    return front + cut_to(shown(behind), BEHIND), " " * width_of(front) + "^"


def _hint(query: str, place: int, is_query: Callable[[str], bool]) -> str:
    """What else may be told of what stands at the place."""
    if query[place : place + 1] in ('"', "'") and TOKEN.match(query, place) is None:
        return "this quote isn't closed"
    hint = hint_of(query, place)
    if hint:
        return hint
    word = WORD.match(query, place)
    if word is not None and goes_on(f'{query[:place]}"{word[0]}"', is_query):
        return f'as a name it stands in double quotes: "{word[0]}"'
    return ""
