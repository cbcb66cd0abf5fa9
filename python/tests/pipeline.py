"""Queries of the pipeline language as frames of the client: a second reading of what the program's
command `text` answers.

The grammar is read plainly, by descent.
"""
from __future__ import annotations

import re

import navgrieso as nav
from navgrieso import col, lit

TOKEN = re.compile(
    r"""(?P<word>[a-z_][a-z_0-9]*)|(?P<digits>[0-9]+)"""
    r"""|(?P<name>"(?:[^"]|"")*")|(?P<text>'(?:[^']|'')*')"""
    r"""|(?P<sign>==|!=|<=|>=|//|[|,=<>+\-*%()])|(?P<space>[ \n]+)"""
)
RESERVED = set(
    "from filter select with group agg sort slice distinct join on desc or and true false null".split()
)
FUNCTIONS = {
    "min": "min",
    "max": "max",
    "first": "first",
    "last": "last",
    "sum": "sum",
    "n_unique": "n_unique",
    "count": "count",
    "not": "not_",
    "is_null": "is_null",
    "is_not_null": "is_not_null",
}
COMPARISONS = {
    "==": "__eq__",
    "!=": "__ne__",
    "<": "__lt__",
    "<=": "__le__",
    ">": "__gt__",
    ">=": "__ge__",
}
SUMS = {"+": "__add__", "-": "__sub__"}
PRODUCTS = {"*": "__mul__", "//": "__floordiv__", "%": "__mod__"}
HOWS = ("inner", "left", "right", "full", "semi", "anti", "cross")


class NoReading(Exception):
    """The text is no query."""


class Reader:
    """Reads a query over tables by name."""

    def __init__(self, text: str, tables: dict[str, nav.LazyFrame]) -> None:
        self.tables = tables
        self.tokens: list[tuple[str, str]] = []
        self.at = 0
        place = 0
        while place < len(text):
            found = TOKEN.match(text, place)
            if (
                found is None
                or found.lastgroup == "space"
                and (place == 0 or found.end() == len(text))
            ):
                raise NoReading(text[place:])
            if found.lastgroup != "space":
                self.tokens.append((str(found.lastgroup), found[0]))
            place = found.end()

    def peek(self) -> tuple[str, str]:
        return self.tokens[self.at] if self.at < len(self.tokens) else ("end", "")

    def take(self, *words: str) -> str | None:
        """The next token, if it is one of these words or signs."""
        kind, text = self.peek()
        if kind in ("word", "sign") and text in words:
            self.at += 1
            return text
        return None

    def want(self, *words: str) -> str:
        found = self.take(*words)
        if found is None:
            raise NoReading(f"{words} wanted")
        return found

    def token(self, *kinds: str) -> str:
        kind, text = self.peek()
        if kind not in kinds:
            raise NoReading(f"{kinds} wanted")
        self.at += 1
        return text

    def name(self) -> str:
        kind, text = self.peek()
        if kind == "word" and text in RESERVED:
            raise NoReading(text)
        found = self.token("word", "name")
        return found if kind == "word" else found[1:-1].replace('""', '"')

    def query(self) -> nav.LazyFrame:
        self.want("from")
        frame = self.tables[self.name()]
        while self.take("|"):
            frame = self.stage(frame)
        if self.at < len(self.tokens):
            raise NoReading("more stands behind the query")
        return frame

    def stage(self, frame: nav.LazyFrame) -> nav.LazyFrame:
        word = self.want("filter", "select", "with", "group", "sort", "slice", "distinct", "join")
        if word == "filter":
            return frame.filter(self.expr())
        if word == "select":
            return frame.select(*self.items())
        if word == "with":
            return frame.with_columns(*self.items())
        if word == "group":
            keys = self.items()
            self.want("agg")
            return frame.group_by(*keys, maintain_order=True).agg(*self.items())
        if word == "sort":
            keys = self.listed(lambda: (self.expr(), self.take("desc") is not None))
            return frame.sort([key for key, _ in keys], descending=[down for _, down in keys])
        if word == "slice":
            return frame.slice(self.integer(), int(self.token("digits")))
        if word == "distinct":
            return frame.unique(keep="first", maintain_order=True)
        how, other = self.want(*HOWS), self.tables[self.name()]
        if how == "cross":
            return frame.join(other, how=how)
        self.want("on")
        return frame.join(other, on=[col(it) for it in self.listed(self.name)], how=how)

    def listed(self, item):
        found = [item()]
        while self.take(","):
            found.append(item())
        return found

    def items(self) -> list[nav.Expr]:
        def item() -> nav.Expr:
            name = self.name()
            self.want("=")
            return self.expr().alias(name)

        return self.listed(item)

    def integer(self) -> int:
        sign = -1 if self.take("-") else 1
        return sign * int(self.token("digits"))

    def expr(self) -> nav.Expr:
        return self.chain(
            {"or": "__or__"}, lambda: self.chain({"and": "__and__"}, self.comparison)
        )

    def comparison(self) -> nav.Expr:
        left = self.sum()
        sign = self.take(*COMPARISONS)
        return left if sign is None else getattr(left, COMPARISONS[sign])(self.sum())

    def sum(self) -> nav.Expr:
        return self.chain(SUMS, lambda: self.chain(PRODUCTS, self.primary))

    def chain(self, signs: dict[str, str], operand) -> nav.Expr:
        made = operand()
        while sign := self.take(*signs):
            made = getattr(made, signs[sign])(operand())
        return made

    def primary(self) -> nav.Expr:
        kind, text = self.peek()
        if self.take("("):
            made = self.expr()
            self.want(")")
            return made
        if kind == "digits" or (kind, text) == ("sign", "-"):
            return lit(self.integer(), nav.Int64)
        if kind == "text":
            return lit(self.token("text")[1:-1].replace("''", "'"))
        if word := self.take("true", "false"):
            return lit(word == "true")
        if self.take("null"):
            return lit(None, self.want("bool", "int", "idx", "str"))
        is_call = kind == "word" and self.tokens[self.at + 1 : self.at + 2] == [("sign", "(")]
        if not is_call:
            return col(self.name())
        word = self.want("len", *FUNCTIONS)
        self.want("(")
        made = nav.len() if word == "len" else getattr(self.expr(), FUNCTIONS[word])()
        self.want(")")
        return made
