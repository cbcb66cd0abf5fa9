"""Every document of examples/ that has an answer, by the client: the answer is the same, byte for
byte."""
import json
import os
import tempfile
import unittest

import navgrieso as nav
from navgrieso import col, lit, when
from navgrieso.program import ask

EXAMPLES = os.path.join(os.path.dirname(__file__), "..", "..", "examples")


def text_of(name: str) -> str:
    with open(os.path.join(EXAMPLES, name), encoding="utf-8", newline="") as file:
        return file.read()


def days() -> nav.LazyFrame:
    return nav.table(
        {
            "city": ["Oslo", "Rome", "Oslo", "Lima", "Rome"],
            "day": [1, 1, 2, 2, 3],
            "degrees": [-4, 12, None, 21, 9],
        },
        schema={"day": nav.IdxSize},
    )


def join(**how: object) -> nav.LazyFrame:
    left = nav.table({"city": ["Oslo", "Lima", "Rome", None], "degrees": [-4, 21, 12, 5]})
    right = nav.table(
        {
            "city": ["Rome", "Oslo", "Rome", None, "Kiel"],
            "country": ["Italy", "Norway", "USA", "unknown", "Germany"],
        }
    )
    return left.join(right, on="city", **how)


def totals() -> nav.LazyFrame:
    orders = nav.table({"customer": [1, 2, 1, 3], "amount": [30, 20, 50, 10]})
    customers = nav.table({"id": [1, 2], "name": ["Ann", "Bo"]})
    return (
        orders.join(customers, left_on="customer", right_on="id")
        .group_by("name")
        .agg(total=col("amount").sum())
        .sort("total", descending=True)
    )


def cache() -> nav.LazyFrame:
    warmest = days().group_by("city", maintain_order=True).agg(warmest=col("degrees").max())
    return nav.concat([warmest.select("city"), warmest.select("warmest")], how="horizontal")


def expressions() -> nav.LazyFrame:
    frame = nav.table(
        {"a": [3, 1, None], "t": ["x", "7", "y"], "i": [2, 0, None]}, schema={"i": nav.IdxSize}
    )
    return frame.select(
        sorted=col("a").sort(),
        by_a=col("t").sort_by("a", nulls_last=True),
        picked=col("t").gather(col("i")),
        reversed=col("t").reverse(),
        number=col("t").cast(nav.Int64, strict=False),
        texts=col("t").n_unique(),
        first=col("a").first(),
    )


def sink() -> nav.LazyFrame:
    return nav.table(
        {
            "text": ["plain", "a, b", 'say "hi"', None],
            "truth": [True, False, None, None],
            "whole": [-(2**63), 2**63 - 1, 0, None],
            "row": [0, 2**32 - 1, None, 7],
        },
        schema={"row": "idx"},
    )


def join_cross() -> nav.LazyFrame:
    sizes = nav.table({"size": ["S", "M"], "code": [1, 2]})
    return sizes.join(
        nav.table({"colour": ["red", "blue"], "code": [7, 8]}), how="cross", suffix="_of_colour"
    )


BUILT = {
    "cache": cache,
    "distinct": lambda: days().unique("city", keep="first", maintain_order=True),
    "distinct_last": lambda: days().unique("city", keep="last", maintain_order=True),
    "distinct_none": lambda: days().unique("city", keep="none", maintain_order=True),
    "expressions": expressions,
    "filter": lambda: days().filter(col("degrees") > 8),
    "group_by": lambda: days()
    .group_by("city", maintain_order=True)
    .agg(days=nav.len(), total=col("degrees").sum(), measured=col("degrees").count()),
    "hconcat": lambda: nav.concat(
        [nav.table({"a": [1, 2]}), nav.table({"b": [7, 8, 9]})], how="horizontal"
    ),
    "hstack": lambda: days().with_columns(
        when(col("degrees").is_null()).then(lit(0)).otherwise(col("degrees")).alias("degrees"),
        frost=col("degrees") < 0,
    ),
    "join_anti": lambda: join(how="anti"),
    "join_cross": join_cross,
    "join_full": lambda: join(how="full"),
    "join_inner": join,
    "join_left": lambda: join(how="left"),
    "join_nulls": lambda: join(how="left", nulls_equal=True),
    "join_right": lambda: join(how="right"),
    "join_semi": lambda: join(how="semi"),
    "map": lambda: days().negate().reverse(),
    "none_kept": lambda: nav.table({"n": [1, 2, 3]}).filter(col("n") > 2**63 - 1),
    "project": lambda: days().select("city", "day"),
    "row_index": lambda: days().with_row_index("row", 10),
    "scan": lambda: days().select("degrees", "city"),
    "select": lambda: days().select(
        "city", fahrenheit=col("degrees") * 9 // 5 + 32, warmest=col("degrees").max()
    ),
    "sink": sink,
    "slice": lambda: days().slice(1, 3),
    "slice_from_end": lambda: days().slice(-2, 5),
    "sort": lambda: days().sort("city", "degrees", descending=[False, True], nulls_last=True),
    "totals": totals,
    "union": lambda: nav.concat([nav.table({"n": [1, 2]}), nav.table({"n": [3, None]})]).slice(
        1, 2
    ),
}
# The documents that come out as they stand in examples/, entry for entry.
ALIKE = [
    "distinct",
    "filter",
    "group_by",
    "hconcat",
    "map",
    "project",
    "select",
    "sink",
    "slice_from_end",
    "sort",
]


class Examples(unittest.TestCase):
    def test_each_example_with_an_answer_is_built(self) -> None:
        files = set(os.listdir(EXAMPLES))
        answered = {name.removesuffix(".json") for name in files if name.endswith(".json")}
        self.assertEqual(set(BUILT), {name for name in answered if f"{name}.csv" in files})

    def test_answers(self) -> None:
        for name, built in BUILT.items():
            with self.subTest(name):
                self.assertEqual(built().collect().csv(), text_of(f"{name}.csv"))

    def test_answers_to_the_documents_themselves(self) -> None:
        for name in BUILT:
            with self.subTest(name):
                self.assertEqual(nav.answer(text_of(f"{name}.json")).csv(), text_of(f"{name}.csv"))

    def test_physical_plans(self) -> None:
        plans = {name for name in os.listdir(EXAMPLES) if name.endswith(".plan")}
        self.assertIn("totals.plan", plans)
        for plan in plans:
            with self.subTest(plan):
                document = text_of(plan.removesuffix(".plan") + ".json")
                reply = ask(["explain"], document.encode(), None)
                self.assertEqual((reply.status, reply.output.decode()), (0, text_of(plan)))

    def test_documents_are_those_of_the_examples(self) -> None:
        for name in ALIKE:
            with self.subTest(name):
                self.assertEqual(BUILT[name]().document(), json.loads(text_of(f"{name}.json")))

    def test_written_files(self) -> None:
        with tempfile.TemporaryDirectory() as room:
            path = os.path.join(room, "totals.csv")
            totals().write_csv(path)
            with open(path, "rb") as file:
                self.assertEqual(file.read(), text_of("totals.csv").encode())

    def test_settings(self) -> None:
        for settings in (
            {"workers": 2},
            {"rows": 1},
            {"serial": True},
            {"workers": 1, "rows": 2, "serial": True},
        ):
            with self.subTest(settings):
                self.assertEqual(totals().collect(**settings).rows(), [("Ann", 80), ("Bo", 20)])


if __name__ == "__main__":
    unittest.main()
