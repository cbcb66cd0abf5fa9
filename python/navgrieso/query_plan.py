"""The plan of a query's text, as the document of a plan: the nodes and their numbers are those of
the program's command `text`.

It serves to explain what the program refuses, and to draw, check and explain the plan of a query.
Whether a text is a query, and what it answers, is the program's to say. The grammar is read
plainly, by descent.
"""
from __future__ import annotations

import json
import re
from collections.abc import Callable, Sequence
from typing import TypeVar

from .kinds import RANGES
from .plans import Built, Step
from .schemas import Schemas

TOKEN = re.compile(
    r"""(?P<word>[a-z_][a-z_0-9]*)|(?P<digits>[0-9]+)"""
    r"""|(?P<name>"(?:[^"]|"")*")|(?P<text>'(?:[^']|'')*')"""
    r"""|(?P<sign>==|!=|<=|>=|//|[|,=<>+\-*%()])|(?P<space>[ \n]+)"""
)
RESERVED = frozenset(
    (
        "from filter select with group agg sort slice distinct join on desc or and true false null"
    ).split()
)
STAGES = ("filter", "select", "with", "group", "sort", "slice", "distinct", "join")
FUNCTIONS = "min max first last sum n_unique count not is_null is_not_null".split()
COMPARISONS = {"==": "eq", "!=": "ne", "<": "lt", "<=": "le", ">": "gt", ">=": "ge"}
SUMS = {"+": "add", "-": "sub"}
PRODUCTS = {"*": "mul", "//": "floordiv", "%": "mod"}
HOWS = ("inner", "left", "right", "full", "semi", "anti", "cross")
# Deeper expressions are no query.
MOST_DEPTH = 200

Item = TypeVar("Item")


class NoReading(Exception):
    """The text is no query, or names a table that isn't there."""


class QueryPlan(Built):
    """The plan of a query, and the text of each of its expressions by number."""

    texts: dict[int, str]


def plan_of(query: str, names: Sequence[str], tables: Sequence[list]) -> QueryPlan:
    """The plan of a query over tables with these names; each of its nodes is told as its stage.
    Raises NoReading where there is none."""
    reader = _Reader(query, {name: at for at, name in enumerate(names)})
    reader.query()
    nodes = [*reader.nodes, ["sink", len(reader.nodes) - 1]]
    document = {
        "tables": list(tables),
        "exprs": reader.exprs,
        "nodes": nodes,
        "root": len(nodes) - 1,
    }
    schemas = Schemas(document)
    plan = QueryPlan(document, [], [schemas.of(number) for number in range(len(nodes))])
    plan.steps = [
        Step((), lambda i, e: [], lambda text=f"the stage {text}": text, "")
        for text in [*reader.stages, reader.stages[-1]]
    ]
    plan.texts = reader.texts
    return plan


class _Reader:
    """Reads a query over the numbers of tables by name."""

    def __init__(self, text: str, tables: dict[str, int]) -> None:
        self.tables = tables
        self.nodes: list[list] = []
        self.exprs: list[list] = []
        # The stage that made each node, and the text of each expression.
        self.stages: list[str] = []
        self.texts: dict[int, str] = {}
        self._text = text
        self._tokens: list[tuple[str, str, int]] = []
        self._places: dict[str, int] = {}
        self._at = 0
        self._depth = 0
        place = 0
        while place < len(text):
            found = TOKEN.match(text, place)
            is_outside = place == 0 or found is not None and found.end() == len(text)
            if found is None or found.lastgroup == "space" and is_outside:
                raise NoReading(text[place:])
            if found.lastgroup != "space":
                self._tokens.append((str(found.lastgroup), found[0], place))
            place = found.end()

    # Tokens.

    def peek(self) -> tuple[str, str]:
        """The next token and its kind."""
        return self._tokens[self._at][:2] if self._at < len(self._tokens) else ("end", "")

    def take(self, *words: str) -> str | None:
        """The next token, if it is one of these words or signs."""
        kind, text = self.peek()
        if kind in ("word", "sign") and text in words:
            self._at += 1
            return text
        return None

    def want(self, *words: str) -> str:
        """The next token, which is one of these words or signs."""
        found = self.take(*words)
        if found is None:
            raise NoReading(f"{' or '.join(words)} is wanted")
        return found

    def token(self, *kinds: str) -> str:
        """The next token, which is of one of these kinds."""
        kind, text = self.peek()
        if kind not in kinds:
            raise NoReading(f"{' or '.join(kinds)} is wanted")
        self._at += 1
        return text

    def name(self) -> str:
        """A name: a word that isn't reserved, or what stands in double quotes."""
        kind, text = self.peek()
        if kind == "word" and text in RESERVED:
            raise NoReading(text)
        found = self.token("word", "name")
        return found if kind == "word" else found[1:-1].replace('""', '"')

    def table(self) -> int:
        """The number of the table that is named."""
        name = self.name()
        if name not in self.tables:
            raise NoReading(f"there is no table {name}")
        return self.tables[name]

    def since(self, token: int) -> str:
        """The text from a token up to the next one."""
        *_, last, end = self._tokens[self._at - 1]
        return self._text[self._tokens[token][2] : end + len(last)]

    # Stages.

    def query(self) -> None:
        """The whole query."""
        self.stage(self.source)
        while self.take("|"):
            self.stage(self.step)
        if self._at < len(self._tokens):
            raise NoReading("more stands behind the query")

    def stage(self, read: Callable[[], list[list]]) -> None:
        """A stage, with the nodes that it makes."""
        begins = self._at
        self.nodes += read()
        self.stages += [self.since(begins)] * (len(self.nodes) - len(self.stages))

    def source(self) -> list[list]:
        """The scan of the query's table."""
        self.want("from")
        return [["scan", self.table(), None]]

    def step(self) -> list[list]:
        """The nodes of a stage over the last node."""
        below = len(self.nodes) - 1
        word = self.want(*STAGES)
        if word == "join":
            return self.join(below)
        if word == "filter":
            return [["filter", below, self.expr()]]
        if word == "select":
            return [["select", below, self.items()]]
        if word == "with":
            return [["hstack", below, self.items()]]
        if word == "group":
            keys = self.items()
            self.want("agg")
            return [["group_by", below, keys, self.items(), True, None]]
        if word == "sort":
            keys = self.listed(lambda: (self.expr(), self.take("desc") is not None))
            down = [is_down for _, is_down in keys]
            return [["sort", below, [key for key, _ in keys], down, [False], None]]
        if word == "slice":
            return [["slice", below, self.integer(), int(self.token("digits"))]]
        return [["distinct", below, None, True, "first", None]]

    def join(self, below: int) -> list[list]:
        """The scan of the table that is joined, and the join."""
        how, scan = self.want(*HOWS), ["scan", self.table(), None]
        keys: list[int] = []
        if how != "cross":
            self.want("on")
            keys = [self.place(["col", name], name) for name in self.listed(self.name)]
        join = ["join", below, below + 1, how, keys, keys, None, False, "m:m", None]
        return [scan, join]

    def listed(self, item: Callable[[], Item]) -> list[Item]:
        """Some items with commas between."""
        found = [item()]
        while self.take(","):
            found.append(item())
        return found

    def items(self) -> list[list]:
        """Expressions with their names."""

        def item() -> list:
            name = self.name()
            self.want("=")
            return [name, self.expr()]

        return self.listed(item)

    def integer(self) -> int:
        """A whole number."""
        sign = -1 if self.take("-") else 1
        return sign * int(self.token("digits"))

    # Expressions, by number.

    def place(self, entry: list, text: str) -> int:
        """The number of an expression, which stands once."""
        number = self._places.setdefault(json.dumps(entry), len(self.exprs))
        if number == len(self.exprs):
            self.exprs.append(entry)
            self.texts[number] = text
        return number

    def expr(self) -> int:
        """An expression."""
        self._depth += 1
        if self._depth > MOST_DEPTH:
            raise NoReading("an expression is too deep")
        made = self.chain({"or": "or"}, lambda: self.chain({"and": "and"}, self.comparison))
        self._depth -= 1
        return made

    def comparison(self) -> int:
        """A sum, or two that are compared."""
        begins, left = self._at, self.sum()
        sign = self.take(*COMPARISONS)
        if sign is None:
            return left
        return self.place([COMPARISONS[sign], left, self.sum()], self.since(begins))

    def sum(self) -> int:
        """Products that are added."""
        return self.chain(SUMS, lambda: self.chain(PRODUCTS, self.primary))

    def chain(self, signs: dict[str, str], operand: Callable[[], int]) -> int:
        """Operands with signs between, which group from the left."""
        begins, made = self._at, operand()
        while sign := self.take(*signs):
            made = self.place([signs[sign], made, operand()], self.since(begins))
        return made

    def primary(self) -> int:
        """A value, a column, a call, or an expression in parentheses."""
        begins = self._at
        kind, text = self.peek()
        if self.take("("):
            made = self.expr()
            self.want(")")
            return made
        if kind == "digits" or (kind, text) == ("sign", "-"):
            number = self.integer()
            least, greatest = RANGES["int"]
            if not least <= number <= greatest:
                raise NoReading(f"{number} is out of range")
            return self.place(["int", number], self.since(begins))
        if kind == "text":
            cell = self.token("text")[1:-1].replace("''", "'")
            return self.place(["str", cell], self.since(begins))
        if word := self.take("true", "false"):
            return self.place(["bool", word == "true"], word)
        if self.take("null"):
            word = self.want("bool", "int", "idx", "str")
            return self.place(["null", word], f"null {word}")
        calls = [it[:2] for it in self._tokens[self._at + 1 : self._at + 2]]
        if kind != "word" or calls != [("sign", "(")]:
            name = self.name()
            return self.place(["col", name], self.since(begins))
        word = self.want("len", *FUNCTIONS)
        self.want("(")
        entry = ["len"] if word == "len" else [word, self.expr()]
        self.want(")")
        return self.place([*entry, False] if word == "count" else entry, self.since(begins))
