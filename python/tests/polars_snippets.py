"""Snippets of Polars' pages, each with its frame and the answer that the page gives.

Decimal numbers of a page are whole ones here, and a query has `maintain_order=True` where its page
leaves an order open.
"""

FOO = {
    "foo": [1, 2, 3, None, 4, None, 0],
    "bar": [6, 7, 8, None, None, 9, 0],
    "ham": ["a", "b", "c", None, "d", "e", "f"],
}
HAM = {"foo": [1, 2, 3], "bar": [6, 7, 8], "ham": ["a", "b", "c"]}
SORTED = {"a": [1, 2, None], "b": [6, 5, 4], "c": ["a", "c", "b"]}
LETTERS = {"a": ["a", "b", "a", "b", "b", "c"], "b": [2, 1, 1, 3, 2, 1]}
GROUPS = {"a": ["a", "b", "a", "b", "c"], "b": [1, 2, 1, 3, 3], "c": [5, 4, 3, 2, 1]}
NULLS = {"a": [None, 1, None], "b": [10, None, 300], "c": [350, 650, 850]}
SIX = {"a": [1, 2, 3, 4, 5, 6], "b": [7, 8, 9, 10, 11, 12]}
FOUR = {"a": [1, 2, 3, 4], "b": [5, 6, 7, 8]}
PAIRS = {"a": [1, 3, 5], "b": [2, 4, 6]}
SAME = {"foo": [1, 2, 3, 1], "bar": ["a"] * 4, "ham": ["b"] * 4}
NUMBERS = {"num": [1, 2, 3, 4, 5]}
CASES = {"foo": [1, 3, 4], "bar": [3, 4, 0]}
VALUES = {"group": ["a", "a", "b", "b"], "value1": [1, 3, 4, 2], "value2": [8, 7, 6, 5]}
COUNTED = {"a": [1, 2, None], "b": [3, None, None], "c": ["foo", "bar", "foo"]}
FLAGS = {
    "a": [False, False, True, True, False, None],
    "b": [False, True, True, None, None, None],
    "c": ["u", "v", "w", "x", "y", "z"],
}
FRUIT = {
    "a": [1, 2, 2, 3, 4, 5],
    "c": [True, True, True, False, False, True],
    "d": ["Apple", "Orange", "Apple", "Apple", "Banana", "Banana"],
}
OTHER = 'pl.LazyFrame({"apple": ["x", "y", "z"], "ham": ["a", "b", "d"]})'

SNIPPETS = [
    (FOO, 'lf.filter(pl.col("foo") > 1)', {"foo": [2, 3, 4], "bar": [7, 8, None], "ham": ["b", "c", "d"]}),
    (FOO, 'lf.filter((pl.col("foo") < 3) & (pl.col("ham") == "a"))', {"foo": [1], "bar": [6], "ham": ["a"]}),
    (FOO, 'lf.filter(pl.col("foo") == 1, pl.col("ham") == "a")', {"foo": [1], "bar": [6], "ham": ["a"]}),
    (FOO, 'lf.filter(foo=1, ham="a")', {"foo": [1], "bar": [6], "ham": ["a"]}),
    (FOO, 'lf.filter((pl.col("foo") == 1) | (pl.col("ham") == "c"))', {"foo": [1, 3], "bar": [6, 8], "ham": ["a", "c"]}),
    (FOO, 'lf.filter(pl.col("foo") != pl.col("bar"))', {"foo": [1, 2, 3], "bar": [6, 7, 8], "ham": ["a", "b", "c"]}),
    ({"foo": [2, 3, None, 4, 0], "bar": [5, 6, None, None, 0]}, 'lf.remove(pl.col("bar") >= 5)', {"foo": [None, 4, 0], "bar": [None, None, 0]}),
    (SORTED, 'lf.sort("a")', {"a": [None, 1, 2], "b": [4, 6, 5], "c": ["b", "a", "c"]}),
    (SORTED, 'lf.sort(pl.col("a") + pl.col("b") * 2, nulls_last=True)', {"a": [2, 1, None], "b": [5, 6, 4], "c": ["c", "a", "b"]}),
    (SORTED, 'lf.sort(["c", "a"], descending=True)', {"a": [2, None, 1], "b": [5, 4, 6], "c": ["c", "b", "a"]}),
    (SORTED, 'lf.sort("c", "a", descending=[False, True])', {"a": [1, None, 2], "b": [6, 4, 5], "c": ["a", "b", "c"]}),
    (LETTERS, 'lf.top_k(4, by="b")', {"a": ["b", "a", "b", "b"], "b": [3, 2, 2, 1]}),
    (LETTERS, 'lf.top_k(4, by=["b", "a"])', {"a": ["b", "b", "a", "c"], "b": [3, 2, 2, 1]}),
    (LETTERS, 'lf.bottom_k(4, by="b")', {"a": ["b", "a", "c", "a"], "b": [1, 1, 1, 2]}),
    (LETTERS, 'lf.bottom_k(4, by=["a", "b"])', {"a": ["a", "a", "b", "b"], "b": [1, 2, 1, 2]}),
    (HAM, 'lf.select("foo")', {"foo": [1, 2, 3]}),
    (HAM, 'lf.select(["foo", "bar"])', {"foo": [1, 2, 3], "bar": [6, 7, 8]}),
    (HAM, 'lf.select(pl.col("foo"), pl.col("bar") + 1)', {"foo": [1, 2, 3], "bar": [7, 8, 9]}),
    (HAM, 'lf.select(threshold=pl.when(pl.col("foo") > 2).then(10).otherwise(0))', {"threshold": [0, 0, 10]}),
    ({"c": [True, True, False, True]}, 'lf.with_columns(pl.col("c").not_().alias("not c"))', {"c": [True, True, False, True], "not c": [False, False, True, False]}),
    (HAM, 'lf.rename({"foo": "apple"})', {"apple": [1, 2, 3], "bar": [6, 7, 8], "ham": ["a", "b", "c"]}),
    (HAM, 'lf.rename(lambda column_name: "c" + column_name[1:])', {"coo": [1, 2, 3], "car": [6, 7, 8], "cam": ["a", "b", "c"]}),
    (HAM, 'lf.drop("ham")', {"foo": [1, 2, 3], "bar": [6, 7, 8]}),
    (HAM, 'lf.drop("foo", "ham")', {"bar": [6, 7, 8]}),
    ({"foo": [1, 2, 3], "bar": [6, None, 8], "ham": ["a", "b", None]}, "lf.drop_nulls()", {"foo": [1], "bar": [6], "ham": ["a"]}),
    ({"foo": [1, 2, 3], "bar": [6, None, 8], "ham": ["a", "b", None]}, 'lf.drop_nulls(subset="bar")', {"foo": [1, 3], "bar": [6, 8], "ham": ["a", None]}),
    ({"a": [1, 2, None, 4], "b": [5, 4, None, 13]}, "lf.fill_null(99)", {"a": [1, 2, 99, 4], "b": [5, 4, 99, 13]}),
    (PAIRS, "lf.with_row_index()", {"index": [0, 1, 2], "a": [1, 3, 5], "b": [2, 4, 6]}),
    (PAIRS, 'lf.with_row_index("id", offset=1000)', {"id": [1000, 1001, 1002], "a": [1, 3, 5], "b": [2, 4, 6]}),
    (SAME, "lf.unique(maintain_order=True)", {"foo": [1, 2, 3], "bar": ["a"] * 3, "ham": ["b"] * 3}),
    (SAME, 'lf.unique(subset=["bar", "ham"], maintain_order=True)', {"foo": [1], "bar": ["a"], "ham": ["b"]}),
    (SAME, 'lf.unique(keep="last", maintain_order=True)', {"foo": [2, 3, 1], "bar": ["a"] * 3, "ham": ["b"] * 3}),
    ({"key": ["a", "b", "c"], "val": [1, 2, 3]}, "lf.reverse()", {"key": ["c", "b", "a"], "val": [3, 2, 1]}),
    ({"a": ["x", "y", "z"], "b": [1, 3, 5]}, "lf.slice(1, 2)", {"a": ["y", "z"], "b": [3, 5]}),
    (SIX, "lf.head()", {"a": [1, 2, 3, 4, 5], "b": [7, 8, 9, 10, 11]}),
    (SIX, "lf.limit(2)", {"a": [1, 2], "b": [7, 8]}),
    (SIX, "lf.tail(2)", {"a": [5, 6], "b": [11, 12]}),
    (PAIRS, "lf.first()", {"a": [1], "b": [2]}),
    (PAIRS, "lf.last()", {"a": [5], "b": [6]}),
    (FOUR, "lf.gather_every(2)", {"a": [1, 3], "b": [5, 7]}),
    (FOUR, "lf.gather_every(2, offset=1)", {"a": [2, 4], "b": [6, 8]}),
    ({"a": [1, 2, 3, 4], "b": [1, 2, 1, None], "c": [None] * 4}, "lf.count()", {"a": [4], "b": [3], "c": [0]}),
    ({"foo": [1, None, 3], "bar": [6, 7, None], "ham": ["a", "b", "c"]}, "lf.null_count()", {"foo": [1], "bar": [1], "ham": [0]}),
    ({"a": [1, 2, 3, 4], "b": [1, 2, 1, 1]}, "lf.max()", {"a": [4], "b": [2]}),
    ({"a": [1, 2, 3, 4], "b": [1, 2, 1, 1]}, "lf.min()", {"a": [1], "b": [1]}),
    ({"a": [1, 2, 3, 4], "b": [1, 2, 1, 1]}, "lf.sum()", {"a": [10], "b": [5]}),
    (GROUPS, 'lf.group_by("a", maintain_order=True).agg(pl.col("b").sum())', {"a": ["a", "b", "c"], "b": [2, 5, 3]}),
    (GROUPS, 'lf.group_by(["a", "b"], maintain_order=True).agg(pl.max("c"))', {"a": ["a", "b", "b", "c"], "b": [1, 2, 3, 3], "c": [5, 4, 2, 1]}),
    ({"a": ["apple", "apple", "orange"], "b": [1, None, 2]}, 'lf.group_by("a", maintain_order=True).len()', {"a": ["apple", "orange"], "len": [2, 1]}),
    ({"a": ["apple", "apple", "orange"], "b": [1, None, 2]}, 'lf.group_by("a", maintain_order=True).len(name="n")', {"a": ["apple", "orange"], "n": [2, 1]}),
    (FRUIT, 'lf.group_by("d", maintain_order=True).max()', {"d": ["Apple", "Orange", "Banana"], "a": [3, 2, 5], "c": [True, True, True]}),
    (FRUIT, 'lf.group_by("d", maintain_order=True).sum()', {"d": ["Apple", "Orange", "Banana"], "a": [6, 2, 9], "c": [2, 1, 1]}),
    (FRUIT, 'lf.group_by("d", maintain_order=True).n_unique()', {"d": ["Apple", "Orange", "Banana"], "a": [3, 1, 2], "c": [2, 1, 2]}),
    (HAM, f'lf.join({OTHER}, on="ham")', {"foo": [1, 2], "bar": [6, 7], "ham": ["a", "b"], "apple": ["x", "y"]}),
    (HAM, f'lf.join({OTHER}, on="ham", how="left")', {"foo": [1, 2, 3], "bar": [6, 7, 8], "ham": ["a", "b", "c"], "apple": ["x", "y", None]}),
    (HAM, f'lf.join({OTHER}, on="ham", how="semi")', {"foo": [1, 2], "bar": [6, 7], "ham": ["a", "b"]}),
    (HAM, f'lf.join({OTHER}, on="ham", how="anti")', {"foo": [3], "bar": [8], "ham": ["c"]}),
    ({"a": [1], "b": [3]}, 'pl.concat([lf, pl.LazyFrame({"a": [2], "b": [4]})])', {"a": [1, 2], "b": [3, 4]}),
    ({"a": [1], "b": [3]}, 'pl.concat([lf, pl.LazyFrame({"a": [2], "c": [4]})], how="diagonal")', {"a": [1, 2], "b": [3, None], "c": [None, 4]}),
    ({"l1": [1, 2], "l2": [3, 4]}, 'pl.concat([lf, pl.LazyFrame({"r1": [5, 6], "r2": [7, 8]})], how="horizontal")', {"l1": [1, 2], "l2": [3, 4], "r1": [5, 6], "r2": [7, 8]}),
    (NUMBERS, 'lf.select(x=pl.col("num").is_between(2, 4))', {"x": [False, True, True, True, False]}),
    (NUMBERS, 'lf.select(x=pl.col("num").is_between(2, 4, closed="left"))', {"x": [False, True, True, False, False]}),
    ({"a": ["a", "b", "c", "d", "e"]}, 'lf.select(x=pl.col("a").is_between(pl.lit("a"), pl.lit("c"), closed="both"))', {"x": [True, True, True, False, False]}),
    ({"a": [1, 2, 3], "b": [None, 4, 4]}, "lf.select(pl.all().count())", {"a": [3], "b": [2]}),
    ({"a": [1, 2, 3], "b": [None, 4, 4]}, "lf.select(pl.all().len())", {"a": [3], "b": [3]}),
    ({"x": [1, 1, 2, 2, 3], "y": [1, 1, 1, None, None]}, "lf.select(pl.all().n_unique())", {"x": [3], "y": [2]}),
    (NULLS, "lf.select(pl.all().null_count())", {"a": [2], "b": [1], "c": [0]}),
    (NULLS, "lf.select(pl.all().has_nulls())", {"a": [True], "b": [True], "c": [False]}),
    ({"a": [-50, 5, 50, None]}, 'lf.select(pl.col("a").clip(1, 10))', {"a": [1, 5, 10, None]}),
    ({"A": [-1, 0, 1, 2]}, 'lf.select(pl.col("A").abs())', {"A": [1, 0, 1, 2]}),
    ({"a": [-9, 0, 4, None]}, 'lf.select(pl.col("a").sign())', {"a": [-1, 0, 1, None]}),
    ({"a": [True, True], "b": [False, True], "c": [None, True]}, 'lf.select(pl.col("*").all())', {"a": [True], "b": [False], "c": [True]}),
    ({"a": [True, False], "b": [False, False], "c": [None, False]}, 'lf.select(pl.col("*").any())', {"a": [True], "b": [False], "c": [False]}),
    ({"a": [1, 2, None], "b": [4, None, 6]}, 'lf.with_columns(pl.col("b").fill_null(10))', {"a": [1, 2, None], "b": [4, 10, 6]}),
    ({"value": [1, 98, 2, 3, 99, 4]}, 'lf.select(pl.col("value").top_k())', {"value": [99, 98, 4, 3, 2]}),
    ({"value": [1, 98, 2, 3, 99, 4]}, 'lf.select(pl.col("value").bottom_k())', {"value": [1, 2, 3, 4, 98]}),
    ({"a": [1, None, 3, 2]}, 'lf.select(pl.col("a").sort(descending=True))', {"a": [None, 3, 2, 1]}),
    ({"a": [1, None, 3, 2]}, 'lf.select(pl.col("a").sort(nulls_last=True))', {"a": [1, 2, 3, None]}),
    (VALUES, 'lf.select(pl.col("group").sort_by("value1"))', {"group": ["a", "b", "a", "b"]}),
    (VALUES, 'lf.select(pl.col("group").sort_by(pl.col("value1") + pl.col("value2")))', {"group": ["b", "a", "a", "b"]}),
    (
        {"group_col": ["g1", "g1", "g2"], "b": [1, 2, 3]},
        'lf.group_by("group_col", maintain_order=True).agg('
        'lt=pl.col("b").filter(pl.col("b") < 2).sum(), gte=pl.col("b").filter(pl.col("b") >= 2).sum())',
        {"group_col": ["g1", "g2"], "lt": [1, 0], "gte": [2, 3]},
    ),
    (CASES, 'lf.with_columns(pl.when(pl.col("foo") > 2).then(1).otherwise(-1).alias("val"))', {"foo": [1, 3, 4], "bar": [3, 4, 0], "val": [-1, 1, 1]}),
    (CASES, 'lf.select(val=pl.when(pl.col("foo") > 2).then(1).when(pl.col("bar") > 2).then(4).otherwise(-1))', {"val": [4, 1, 1]}),
    ({"a": [1, None, None, None], "b": [1, 2, None, None], "c": [5, None, 3, None]}, 'lf.select(d=pl.coalesce("a", "b", "c", 10))', {"d": [1, 2, 3, 10]}),
    (FLAGS, 'lf.select(x=pl.all_horizontal("a", "b"))', {"x": [False, False, True, None, False, None]}),
    (FLAGS, 'lf.select(x=pl.any_horizontal("a", "b"))', {"x": [False, True, True, True, None, None]}),
    ({"aa": [1, 2, 3], "ba": ["a", "b", None], "cc": [None, 2, 1]}, 'lf.select(pl.exclude("ba"))', {"aa": [1, 2, 3], "cc": [None, 2, 1]}),
    (COUNTED, "lf.select(pl.len())", {"len": [3]}),
    (COUNTED, 'lf.select(pl.count("a"))', {"a": [2]}),
    (COUNTED, 'lf.select(pl.count("b", "c"))', {"b": [1], "c": [3]}),
    ({"a": [1, 8, 3], "b": [4, 5, 2], "c": ["foo", "bar", "foo"]}, 'lf.select(pl.max("a", "b"))', {"a": [8], "b": [5]}),
    ({"a": [1, 2], "b": [3, 4], "c": [5, 6]}, 'lf.select(pl.sum("a", "c"))', {"a": [3], "c": [11]}),
    ({"a": [1, 2, 3], "b": ["4", "5", "6"]}, 'lf.with_columns(pl.col("a").cast(pl.String), pl.col("b").cast(pl.Int64))', {"a": ["1", "2", "3"], "b": [4, 5, 6]}),
]
