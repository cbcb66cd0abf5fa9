"""Snippets of Polars' pages give the answers of these pages; what Polars has besides is refused by
its name; and the calls that are made of others."""
import unittest

import navgrieso as nav
from navgrieso import col
from navgrieso.polars_names import EXPR, FRAME, MODULE

from .polars_snippets import SNIPPETS


class Snippets(unittest.TestCase):
    def test_answers(self) -> None:
        self.assertGreaterEqual(len(SNIPPETS), 60)
        for data, text, answer in SNIPPETS:
            with self.subTest(text):
                frame = eval(text, {"pl": nav, "lf": nav.LazyFrame(data)})
                found = frame.collect()
                self.assertEqual(found.to_dict(), answer)
                self.assertEqual(found.columns, list(answer))


class Names(unittest.TestCase):
    def test_what_is_not_here_is_refused_by_name(self) -> None:
        frame = nav.LazyFrame({"a": [1]})
        for of, owner, names in (
            ("LazyFrame", frame, FRAME),
            ("Expr", col("a"), EXPR),
            ("polars", nav, MODULE),
        ):
            for name, instead in names.items():
                with self.subTest(f"{of}.{name}"), self.assertRaises(nav.NotHere) as told:
                    getattr(owner, name)
                self.assertIn(f"{of}.{name}", str(told.exception))
                self.assertIn(instead, str(told.exception))
                self.assertIsInstance(told.exception, AttributeError)
        self.assertFalse(hasattr(frame, "no_such_name"))
        self.assertFalse(hasattr(nav, "no_such_name"))

    def test_what_is_here_is_not_refused(self) -> None:
        self.assertFalse(set(FRAME) & set(dir(nav.LazyFrame)))
        self.assertFalse(set(EXPR) & set(dir(nav.Expr)))


class Calls(unittest.TestCase):
    def setUp(self) -> None:
        self.frame = nav.LazyFrame(
            {"x": [3, None, 1], "g": ["a", "b", "a"], "b": [True, False, None]}
        )

    def test_schemas(self) -> None:
        kinds = {"x": nav.Int64, "g": nav.String, "b": nav.Boolean}
        self.assertEqual(self.frame.schema, kinds)
        self.assertEqual(self.frame.collect_schema(), kinds)
        self.assertEqual((self.frame.columns, self.frame.width), (list(kinds), 3))
        with self.assertRaises(nav.ColumnNotFound):
            self.frame.select("nothing", n=col("no") + 1).columns

    def test_many_columns_at_once(self) -> None:
        self.assertEqual(self.frame.select(col("x", "g")).columns, ["x", "g"])
        self.assertEqual(self.frame.select(col(["g", "b"])).columns, ["g", "b"])
        self.assertEqual(self.frame.select(nav.all().exclude("b")).columns, ["x", "g"])
        made = self.frame.group_by("g", maintain_order=True).agg(nav.all().count())
        self.assertEqual(made.collect().to_dict(), {"g": ["a", "b"], "x": [2, 0], "b": [1, 1]})
        kept = self.frame.filter(col("x", "b").is_not_null())
        self.assertEqual(kept.collect()["x"], [3])

    def test_values(self) -> None:
        for expr, cells in (
            (col("x").is_in([1, 7]), [False, None, True]),
            (col("g").is_in(["b"]), [False, True, False]),
            (col("x").is_in([]), [False, False, False]),
            (col("x").is_in(range(100)), [True, None, True]),
            (col("x").eq_missing(col("x")), [True, True, True]),
            (col("x").fill_null(0), [3, 0, 1]),
            (col("x").pipe(lambda it, n: it + n, 1), [4, None, 2]),
            (col("x").drop_nulls().sum(), [4]),
        ):
            with self.subTest(repr(expr)):
                self.assertEqual(self.frame.select(v=expr).collect()["v"], cells)
        with self.assertRaises(TypeError):
            col("x").is_in(col("x"))

    def test_a_name_that_is_not_there(self) -> None:
        for made in (self.frame.drop("z"), self.frame.rename({"z": "y"})):
            with self.assertRaises(nav.ColumnNotFound):
                made.collect()
        self.assertEqual(self.frame.drop("z", "b", strict=False).columns, ["x", "g"])
        self.assertEqual(self.frame.rename({"z": "y"}, strict=False).columns, ["x", "g", "b"])

    def test_answers(self) -> None:
        answer = self.frame.select("x", "g").collect()
        self.assertEqual((len(answer), answer.shape, answer.width), (3, (3, 2), 2))
        self.assertEqual(answer.to_dicts()[1], {"x": None, "g": "b"})
        self.assertEqual(answer.rows(named=True), answer.to_dicts())
        self.assertEqual(self.frame.select(nav.sum("x")).collect().item(), 4)
        with self.assertRaises(ValueError):
            answer.item()
        self.assertEqual(list(answer), ["x", "g"])
        self.assertEqual(dict(answer.items()), answer.to_dict())
        for part in ("<th>x</th>", "<td>null</td>", "<i>Int64</i>", "3 rows, 2 columns"):
            self.assertIn(part, answer._repr_html_())
        self.assertIn("<svg", self.frame._repr_html_())

    def test_values_of_numpy(self) -> None:
        class Scalar:
            dtype = "int64"

            def __init__(self, cell: object) -> None:
                self.cell = cell

            def item(self) -> object:
                return self.cell

        made = nav.table({"n": [Scalar(1), None], "t": [Scalar("x"), "y"]})
        found = made.filter(col("n") == Scalar(1)).collect()
        self.assertEqual(found.to_dict(), {"n": [1], "t": ["x"]})


if __name__ == "__main__":
    unittest.main()
