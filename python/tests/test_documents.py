"""How documents are made: numbers of entries, caches, kinds of numbers that are written without
one."""
import unittest

import navgrieso as nav
from navgrieso import col, lit, when


def frame() -> nav.LazyFrame:
    return nav.table({"a": [1, 2, None], "t": ["x", "", None]})


class Arenas(unittest.TestCase):
    def test_an_entry_that_stands_is_not_made_again(self) -> None:
        made = (
            frame().select(x=col("a") + 1, y=(col("a") + 1) * (col("a") + 1), z=lit(1)).document()
        )
        self.assertEqual(made["exprs"], [["col", "a"], ["int", 1], ["add", 0, 1], ["mul", 2, 2]])
        self.assertEqual(made["nodes"][1], ["select", 0, [["x", 2], ["y", 3], ["z", 1]]])

    def test_a_truth_value_is_no_number(self) -> None:
        made = frame().select(x=lit(True), y=lit(1), z=lit("1"), u=lit(1, nav.IdxSize)).document()
        self.assertEqual(made["exprs"], [["bool", True], ["int", 1], ["str", "1"], ["idx", 1]])

    def test_a_table_that_is_read_twice_stands_once(self) -> None:
        read = frame()
        made = nav.concat([read.filter(col("a") > 1), read.filter(col("a") < 1)]).document()
        self.assertEqual(len(made["tables"]), 1)
        self.assertEqual(
            [node[0] for node in made["nodes"]],
            ["scan", "cache", "filter", "filter", "union", "sink"],
        )

    def test_tables_that_are_alike_are_two(self) -> None:
        made = nav.concat([frame(), frame()]).document()
        self.assertEqual(
            made["nodes"],
            [["scan", 0, None], ["scan", 1, None], ["union", [0, 1], None], ["sink", 2]],
        )

    def test_a_frame_that_is_used_twice_becomes_a_cache(self) -> None:
        groups = frame().group_by("a").agg(nav.len())
        made = groups.join(groups, on="a", how="semi").document()
        self.assertEqual(
            made["nodes"][2:4],
            [["cache", 1, 0], ["join", 2, 2, "semi", [0], [0], "_right", False, "m:m", None]],
        )

    def test_frames_that_are_alike_are_one(self) -> None:
        read = frame()
        made = nav.concat([read.filter(col("a") > 1), read.filter(col("a") > 1)]).document()
        self.assertEqual(
            made["nodes"],
            [
                ["scan", 0, None],
                ["filter", 0, 2],
                ["cache", 1, 0],
                ["union", [2, 2], None],
                ["sink", 3],
            ],
        )

    def test_a_cache_that_is_asked_for_is_no_second_one(self) -> None:
        held = frame().cache()
        made = nav.concat([held, held.reverse()]).document()
        self.assertEqual(made["nodes"][:3], [["scan", 0, None], ["cache", 0, 0], ["map", 1, 1]])

    def test_caches_have_numbers_of_their_own(self) -> None:
        one, two = frame().reverse(), frame().negate()
        made = nav.concat([one, one, two, two]).document()
        self.assertEqual([node[2] for node in made["nodes"] if node[0] == "cache"], [0, 1])
        self.assertEqual(nav.concat([one, one, two, two]).collect().height, 12)

    def test_long_plans_and_expressions_are_built(self) -> None:
        long, sum_of = frame(), col("a")
        for _ in range(3000):
            long, sum_of = long.reverse(), sum_of + 1
        self.assertEqual(len(long.document()["nodes"]), 3002)
        self.assertEqual(len(frame().select(sum_of).document()["exprs"]), 3002)

    def test_many_ways_to_one_frame_are_one_way(self) -> None:
        deep = frame()
        for _ in range(60):
            deep = nav.concat([deep, deep])
        self.assertEqual(len(deep.document()["nodes"]), 122)


class Kinds(unittest.TestCase):
    def last_expressions(self, made: nav.LazyFrame, count: int) -> list:
        return made.document()["exprs"][-count:]

    def test_a_number_takes_the_kind_beside_it(self) -> None:
        counted = frame().group_by("a").agg(nav.len())
        self.assertEqual(
            self.last_expressions(counted.filter(col("len") > 2), 2), [["idx", 2], ["gt", 2, 3]]
        )
        self.assertEqual(
            self.last_expressions(counted.filter(2 < col("a")), 2), [["int", 2], ["gt", 0, 2]]
        )
        self.assertEqual(counted.filter(nav.len() == 3).collect().height, 3)

    def test_a_kind_that_is_said_stays(self) -> None:
        counted = frame().select(n=nav.len() == lit(3, nav.Int64))
        with self.assertRaises(nav.InvalidPlan):
            counted.collect()

    def test_the_same_expression_over_two_frames(self) -> None:
        small = col("n") < 2
        read = frame()
        left = read.select(n=col("a")).filter(small).select(n=col("n") + 0)
        right = read.select(n=nav.len()).filter(small).select(n=col("n").cast(int))
        self.assertEqual(nav.concat([left, right]).collect()["n"], [1])

    def test_a_null_takes_the_kind_beside_it(self) -> None:
        made = frame().select(
            x=when(col("a") > 1).then("t").otherwise(None), y=col("t") == None
        )  # noqa: E711
        self.assertIn(["null", "str"], made.document()["exprs"])
        self.assertEqual(
            made.collect().to_dict(), {"x": [None, "", None], "y": [None, None, None]}
        )

    def test_a_null_with_nothing_beside_it_needs_a_kind(self) -> None:
        with self.assertRaisesRegex(ValueError, "needs a kind"):
            frame().select(x=lit(None)).document()
        self.assertEqual(frame().select(x=lit(None, "idx")).collect()["x"], [None])

    def test_what_no_kind_holds(self) -> None:
        for given in (2**63, -(2**63) - 1):
            with self.subTest(given), self.assertRaises(ValueError):
                lit(given)
        with self.assertRaises(ValueError):
            lit(-1, nav.IdxSize)
        with self.assertRaises(TypeError):
            col("a") + object()
        with self.assertRaises(TypeError):
            bool(col("a") == 1)

    def test_tables_of_python_values(self) -> None:
        for data, schema in (
            ({"a": [1, "x"]}, None),
            ({"a": [1.5]}, None),
            ({"a": [1, 2], "b": [1]}, None),
            ({"a": [2**63]}, None),
            ({"a": [-1]}, {"a": "idx"}),
            ({"a": [True]}, {"a": int}),
            ({"a": [1]}, {"b": int}),
            ({1: [1]}, None),
        ):
            with self.subTest(data), self.assertRaises(ValueError):
                nav.table(data, schema)

    def test_null_and_the_empty_text_are_told_apart(self) -> None:
        self.assertEqual(frame().collect()["t"], ["x", "", None])
        self.assertEqual(
            frame().select(u=col("t"), v=lit("")).collect().to_dict(),
            {"u": ["x", "", None], "v": [""] * 3},
        )
        # Names that the client might have taken for its own columns.
        named = frame().select(col("t").alias("is_null 0"), col("t").alias("is_null 0'"))
        self.assertEqual(
            named.collect().to_dict(),
            {"is_null 0": ["x", "", None], "is_null 0'": ["x", "", None]},
        )

    def test_null_and_the_empty_text_in_the_deepest_plan(self) -> None:
        read = nav.table({"t": ["", "x"]})
        filled, both = read.filter(col("t") == "x"), read
        for _ in range(252):
            filled, both = filled.reverse(), both.reverse()
        self.assertEqual(filled.collect()["t"], ["x"])
        with self.assertRaisesRegex(nav.InvalidPlan, "null or empty texts"):
            both.reverse().reverse().collect()
        with self.assertRaisesRegex(nav.InvalidPlan, "InvalidPlan Limits at"):
            both.reverse().reverse().reverse().collect()

    def test_names_are_polars(self) -> None:
        made = frame().select(
            col("a") + 1, 2 * col("a").alias("b"), nav.len(), -col("a").alias("c")
        )
        self.assertEqual(made.collect().columns, ["a", "literal", "len", "c"])
        both = frame().select(when(col("a") > 1).then(col("a")).otherwise(0), lit(1))
        self.assertEqual(both.collect().columns, ["a", "literal"])

    def test_an_answer_is_a_table_again(self) -> None:
        answer = frame().with_row_index().collect()
        self.assertEqual(answer.schema, {"index": nav.IdxSize, "a": nav.Int64, "t": nav.String})
        again = nav.table(answer).collect()
        self.assertEqual((again.schema, again.to_dict()), (answer.schema, answer.to_dict()))

    def test_whole_columns(self) -> None:
        read = nav.table({"a": [3, 1, None, 2], "t": ["x", "", None, "y"]})
        for expr, cells in (
            (col("a").get(1), [1]),
            (col("a").gather(lit(3)), [2]),
            (col("a").filter(col("t") != "x"), [1, 2]),
            (col("a").slice(1), [1, None, 2]),
            (col("a").slice(-3, 2), [1, None]),
            (col("a").head(2), [3, 1]),
            (col("a").tail(1), [2]),
            (col("a").sort_by("t", descending=True), [None, 2, 3, 1]),
            (col("t").sort_by(["a"], nulls_last=[True]), ["", "y", "x", None]),
            (col("a").slice(nav.len().cast(int) - 1, 5), [2]),
            (col("a").len(), [4]),
            (col("a").count(), [3]),
            ((col("a") > 1).sum(), [2]),
            ((col("a") > 1).not_(), [False, True, None, False]),
        ):
            with self.subTest(repr(expr)):
                self.assertEqual(read.select(x=expr).collect()["x"], cells)

    def test_lists_and_flags(self) -> None:
        sorted_by = frame().sort(["a", "t"], descending=[True, False]).document()
        self.assertEqual(sorted_by["nodes"][1], ["sort", 0, [0, 1], [True, False], [False], None])
        self.assertEqual(frame().filter([col("a") > 0, col("t") == "x"]).collect()["a"], [1])
        self.assertEqual(frame().tail(2).collect()["a"], [2, None])
        self.assertEqual(frame().tail(0).collect()["a"], [])
        self.assertEqual(frame().slice(1).collect()["a"], [2, None])


if __name__ == "__main__":
    unittest.main()
