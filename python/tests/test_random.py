"""500 random queries: the program answers the rows that a plain computation gives."""
from __future__ import annotations

import unittest

import navgrieso as nav

from . import reference
from .random_queries import Both, Chance, beside
from .reference import Rows

QUERIES = 500
NAMES = ["a", "b", "größe", "x, y", "日本", 'say "hi"', "d", ""]
# Joins and unions of longer tables are cut.
MOST_ROWS = 12
STEPS = (
    "filter",
    "select",
    "with_columns",
    "group_by",
    "sort",
    "unique",
    "slice",
    "row_index",
    "map",
    "join",
    "concat",
)


class Query:
    """A frame with the rows that it should have. Where `is_ordered` is false the rows may stand in
    any order."""

    def __init__(self, seed: int) -> None:
        self.chance = Chance(seed)
        self.rng = self.chance.rng
        self.frame, self.rows = self.chance.table(self.rng.sample(NAMES, self.rng.randint(1, 4)))
        self.is_ordered = True
        self.fresh = 0

    def name(self) -> str:
        self.fresh += 1
        return f"c{self.fresh}"

    def flag(self) -> bool:
        return self.rng.random() < 0.5

    def step(self) -> None:
        """One more operation on both."""
        getattr(self, f"_{self.rng.choice(STEPS)}")()
        if len(self.rows.rows) > MOST_ROWS and self.is_ordered:
            self.frame = self.frame.head(MOST_ROWS)
            self.rows = self.rows.with_rows(self.rows.rows[:MOST_ROWS])

    def _exprs(self, count: int) -> tuple[list[str], list[str], list[Both]]:
        kinds = [self.rng.choice(("bool", "int", "idx", "str")) for _ in range(count)]
        return (
            [self.name() for _ in kinds],
            kinds,
            [self.chance.expr(self.rows, kind) for kind in kinds],
        )

    def _filter(self) -> None:
        predicate = self.chance.expr(self.rows, "bool")
        cells = beside([list(range(len(self.rows.rows))), predicate.cells(self.rows)])
        self.frame = self.frame.filter(predicate.expr)
        self.rows = self.rows.with_rows([self.rows.rows[at] for at, kept in cells if kept is True])

    def _select(self) -> None:
        names, kinds, made = self._exprs(self.rng.randint(1, 4))
        self.frame = self.frame.select(**{name: it.expr for name, it in zip(names, made)})
        self.rows = Rows(names, kinds, beside([it.cells(self.rows) for it in made]))

    def _with_columns(self) -> None:
        names, kinds, made = self._exprs(self.rng.randint(1, 2))
        if self.flag():
            names[0] = self.rng.choice(self.rows.names)
        self.frame = self.frame.with_columns(
            *(it.expr.alias(name) for name, it in zip(names, made))
        )
        table = self.rows
        columns = {
            name: (kind, table.column(name)) for name, kind in zip(table.names, table.kinds)
        }
        columns |= {name: (kind, it.cells(table)) for name, kind, it in zip(names, kinds, made)}
        # A column that is replaced still counts for the height.
        rows = beside([list(range(len(table.rows))), *(cells for _, cells in columns.values())])
        self.rows = Rows(
            list(columns), [kind for kind, _ in columns.values()], [row[1:] for row in rows]
        )

    def _group_by(self) -> None:
        keys = self.rng.sample(self.rows.names, min(self.rng.randint(1, 2), len(self.rows.names)))
        names, kinds, words, made = [], [], [], []
        for _ in range(self.rng.randint(0, 3)):
            of = self.rng.choice(self.rows.names)
            kind = self.rows.kinds[self.rows.names.index(of)]
            word = self.rng.choice(
                ["min", "max", "first", "last", "n_unique", "count", "len"]
                + ["sum"] * 3 * (kind != "str")
            )
            names.append(self.name())
            words.append((word, kind, of))
            is_count = word in ("n_unique", "count", "len") or word == "sum" and kind == "bool"
            kinds.append("idx" if is_count else kind)
            made.append(getattr(nav.col(of), word)().alias(names[-1]))
        table, is_ordered = self.rows, self.flag()
        self.frame = self.frame.group_by(keys, maintain_order=is_ordered).agg(made)
        rows = []
        for key, group in reference.grouped(
            table.rows, [tuple(row[table.names.index(it)] for it in keys) for row in table.rows]
        ):
            cells = table.with_rows(group)
            rows.append(
                key
                + tuple(
                    reference.aggregate(word, kind, cells.column(of)) for word, kind, of in words
                )
            )
        self.rows = Rows(
            keys + names, [table.kinds[table.names.index(it)] for it in keys] + kinds, rows
        )
        self.is_ordered = is_ordered

    def _sort(self) -> None:
        keys = [
            self.chance.expr(self.rows, self.rng.choice(self.rows.kinds), 1, False)
            for _ in range(self.rng.randint(1, 3))
        ]
        down, last = [self.flag() for _ in keys], [self.flag() for _ in keys]
        height = len(self.rows.rows)
        cells = [
            it * height if len(it) == 1 else it for it in (key.cells(self.rows) for key in keys)
        ]
        self.frame = self.frame.sort([key.expr for key in keys], descending=down, nulls_last=last)
        self.rows = self.rows.with_rows(reference.ordered(self.rows.rows, cells, down, last))

    def _unique(self) -> None:
        names = self.rng.sample(self.rows.names, self.rng.randint(1, len(self.rows.names)))
        keep = self.rng.choice(("first", "last", "any", "none"))
        keys = [
            tuple(row[self.rows.names.index(name)] for name in names) for row in self.rows.rows
        ]
        if len(names) == len(self.rows.names) and self.flag():
            self.frame = self.frame.unique(keep=keep, maintain_order=True)
        else:
            self.frame = self.frame.unique(names, keep=keep, maintain_order=True)
        self.rows = self.rows.with_rows(reference.unique(self.rows.rows, keys, keep))

    def _slice(self) -> None:
        offset, length = self.rng.randint(-10, 10), self.rng.choice((None, 0, 1, 2, 5, 100))
        how = self.rng.choice(("slice", "head", "tail"))
        if how == "slice":
            self.frame = self.frame.slice(offset, length)
        else:
            length = length or 0
            self.frame, offset = getattr(self.frame, how)(length), 0 if how == "head" else -length
        self.rows = self.rows.with_rows(reference.sliced(self.rows.rows, offset, length))

    def _row_index(self) -> None:
        name, offset = self.name(), self.rng.choice((0, 1, 7))
        self.frame = self.frame.with_row_index(name, offset)
        rows = [(offset + at, *row) for at, row in enumerate(self.rows.rows)]
        self.rows = Rows([name, *self.rows.names], ["idx", *self.rows.kinds], rows)

    def _map(self) -> None:
        if self.flag():
            self.frame, self.rows = self.frame.reverse(), self.rows.with_rows(self.rows.rows[::-1])
            return
        self.frame = self.frame.negate()
        negated = (
            lambda kind, cell: reference.wrapped("int", -cell)
            if kind == "int" and cell is not None
            else cell
        )
        self.rows = self.rows.with_rows(
            [tuple(map(negated, self.rows.kinds, row)) for row in self.rows.rows]
        )

    def _join(self) -> None:
        other, right = self.chance.table([self.name(), self.rng.choice(self.rows.names)])
        pairs = [
            (one, two)
            for one, kind in zip(self.rows.names, self.rows.kinds)
            for two, other_kind in zip(right.names, right.kinds)
            if kind == other_kind
        ]
        how = (
            self.rng.choice(("inner", "left", "right", "full", "semi", "anti"))
            if pairs
            else "cross"
        )
        chosen = self.rng.sample(pairs, self.rng.randint(1, min(2, len(pairs)))) if pairs else []
        left_on, right_on = [one for one, _ in chosen], [two for _, two in chosen]
        equal, suffix = self.flag(), f"_{self.name()}"
        keys = {} if how == "cross" else {"left_on": left_on, "right_on": right_on}
        if keys and left_on == right_on:
            keys = {"on": left_on}
        self.frame = self.frame.join(
            other, how=how, nulls_equal=equal and how != "cross", suffix=suffix, **keys
        )
        self.rows = reference.joined(self.rows, right, left_on, right_on, how, equal, suffix)

    def _concat(self) -> None:
        if self.flag():
            self.frame = nav.concat([self.frame, self.frame.reverse(), self.frame])
            self.rows = self.rows.with_rows(self.rows.rows + self.rows.rows[::-1] + self.rows.rows)
            return
        other, right = self.chance.table([self.name() for _ in range(self.rng.randint(1, 2))])
        self.frame = nav.concat([self.frame, other], how="horizontal")
        left, height = self.rows, max(len(self.rows.rows), len(right.rows))
        filled = [
            table.rows + [(None,) * len(table.names)] * (height - len(table.rows))
            for table in (left, right)
        ]
        self.rows = Rows(
            left.names + right.names,
            left.kinds + right.kinds,
            [one + two for one, two in zip(*filled)],
        )


class RandomQueries(unittest.TestCase):
    def test_rows(self) -> None:
        for seed in range(QUERIES):
            query = Query(seed)
            for _ in range(query.rng.randint(1, 5)):
                if query.is_ordered:
                    query.step()
            with self.subTest(seed=seed):
                answer = query.frame.collect()
                self.assertEqual(answer.columns, query.rows.names)
                self.assertEqual([kind.value for kind in answer.schema.values()], query.rows.kinds)
                # A truth value is no number here, though Python has True equal 1.
                given, wanted = list(map(repr, answer.rows())), list(map(repr, query.rows.rows))
                if not query.is_ordered:
                    given, wanted = sorted(given), sorted(wanted)
                self.assertEqual(given, wanted)


if __name__ == "__main__":
    unittest.main()
