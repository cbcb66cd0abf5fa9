"""Random texts of queries over two tables, most of them valid."""
from __future__ import annotations

import random

TABLES = {
    "t": {
        "a": ("int", [3, None, -1, 3, 0]),
        "b": ("int", [1, 2, None, 1, 7]),
        "s": ("str", ["x", "", None, "it's", 'a "b"']),
        "f": ("bool", [True, None, False, True, False]),
        "Two words": ("int", [5, 4, 3, 2, None]),
    },
    "on": {"a": ("int", [3, 0, 0, None]), "c": ("str", ["three", "zero", None, "null"])},
}
FUNCTIONS = {
    "int": ("min", "max", "first", "last", "sum"),
    "str": ("first", "last"),
    "bool": ("is_null", "is_not_null", "not"),
}
OPERATORS = {"int": ("+", "-", "*", "//", "%"), "bool": ("and", "or")}
JOINS = ("inner", "left", "right", "full", "semi", "anti")
COMPARISONS = ("==", "!=", "<", "<=", ">", ">=")
NUMBERS = ("0", "1", "2", "-1", "- 3", "9223372036854775807", "-9223372036854775808", "007")
WORDS = ("a", "b", "s", "f", "n", "len", "min", "int", "x_1", '"Two words"', '"or"', '"it""s"')


class Texts:
    """Random texts, the same for the same seed."""

    def __init__(self, seed: int) -> None:
        self.rng = random.Random(seed)

    def query(self) -> str:
        stages = [self.stage() for _ in range(self.rng.randrange(4))]
        return self.space().join(["from", *" | ".join(["t", *stages]).split(" ")])

    def space(self) -> str:
        return self.rng.choice((" ", " ", "  ", "\n"))

    def stage(self) -> str:
        pick = self.rng.choice
        return pick(
            (
                lambda: f"filter {self.expr('bool')}",
                lambda: f"select {self.items()}",
                lambda: f"with {self.items()}",
                lambda: f"group {self.items()} agg {self.items()}",
                lambda: f"sort {self.keys()}",
                lambda: f"slice {pick(('0', '1', '-2', '- 9'))} {pick(('0', '2', '9'))}",
                lambda: "distinct",
                lambda: f'join {pick(JOINS)} "on" on a',
                lambda: 'join cross "on"',
            )
        )()

    def items(self) -> str:
        names = self.rng.sample(WORDS, self.rng.randrange(1, 4))
        kinds = [self.rng.choice(("int", "int", "str", "bool")) for _ in names]
        return " , ".join(f"{name} = {self.expr(kind)}" for name, kind in zip(names, kinds))

    def keys(self) -> str:
        keys = [self.expr("int", 1) for _ in range(self.rng.randrange(1, 3))]
        return " , ".join(key + self.rng.choice(("", " desc")) for key in keys)

    def expr(self, kind: str, depth: int = 3) -> str:
        """An expression, most often of a kind. Parentheses may be missing, and so it may group
        otherwise than it was made."""
        shape = self.rng.random()
        if depth == 0 or shape < 0.3:
            return self.leaf(kind)
        if shape < 0.45:
            name = self.rng.choice(FUNCTIONS[kind])
            of = self.rng.choice(("int", "str")) if name.startswith("is_") else kind
            return f"{name}( {self.expr(of, depth - 1)} )"
        if kind == "bool" and shape < 0.75:
            of = self.rng.choice(("int", "str"))
            sign = self.rng.choice(COMPARISONS)
            return f"{self.expr(of, depth - 1)} {sign} {self.expr(of, depth - 1)}"
        if kind == "str":
            return self.leaf(kind)
        sign = self.rng.choice(OPERATORS[kind])
        made = f"{self.expr(kind, depth - 1)} {sign} {self.expr(kind, depth - 1)}"
        return f"( {made} )" if self.rng.random() < 0.6 else made

    def leaf(self, kind: str) -> str:
        named = {"int": ("a", "b", '"Two words"'), "str": ("s",), "bool": ("f",)}[kind]
        values = {"int": NUMBERS, "str": ("''", "'x'", "'it''s'"), "bool": ("true", "false")}[kind]
        null = {"int": "null int", "str": "null str", "bool": "null bool"}[kind]
        return self.rng.choice((*named, *named, self.rng.choice(values), null))
