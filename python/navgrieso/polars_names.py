"""The public names of Polars' LazyFrame and Expr that aren't here, each with what to use
instead."""
from __future__ import annotations

FLOATS = "there are no floats"
DATES = "there are no dates and times"
LISTS = "there are no lists"
WINDOW = "the engine has no windows; a group_by joined back by its keys often does it"
RANDOM = "nothing is random here"
READ = "read the answer's cells, and make a table of them"
COMPUTE = (
    "the program has two functions of its own, `reverse` and `negate`, and calls none of Python's"
)
UNPIVOT = "concat a select for each column"
FORMATS = "write the answer by write_csv, or hand it on by to_polars, to_pandas or to_arrow"
BITS = "there are no operations on bits"

FRAME = {
    "approx_n_unique": "select(nav.all().n_unique())",
    "collect_async": "collect",
    "collect_batches": "collect",
    "describe": "select the aggregates by name",
    "deserialize": "nav.answer asks a document",
    "drop_nans": FLOATS,
    "explode": LISTS,
    "fetch": "head(n).collect()",
    "fill_nan": FLOATS,
    "group_by_dynamic": DATES,
    "inspect": "collect at that step",
    "interpolate": FLOATS,
    "join_asof": DATES,
    "join_where": 'join(.., how="cross").filter(..)',
    "map_batches": COMPUTE,
    "match_to_schema": "select and cast",
    "mean": "sum() // count() of whole numbers, with the count cast to Int64",
    "median": "sort, and get the cell in the middle",
    "melt": UNPIVOT,
    "merge_sorted": "concat and sort",
    "pipe_with_schema": "pipe, and collect_schema within",
    "profile": "nothing is timed",
    "quantile": "sort, and get the cell at a place",
    "remote": "the program runs where you are",
    "rolling": WINDOW,
    "serialize": "document()",
    "shift": "concat a head of nulls and a slice",
    "show_graph": "show",
    "sink_batches": "collect",
    "sink_delta": FORMATS,
    "sink_ipc": FORMATS,
    "sink_ndjson": FORMATS,
    "sink_parquet": FORMATS,
    "sql": "the command nav has a language of its own; docs/FORMATS.md shows it beside SQL",
    "std": FLOATS,
    "unnest": "there are no structs",
    "unpivot": UNPIVOT,
    "update": "join, and coalesce the columns",
    "var": FLOATS,
    "with_context": "concat horizontally",
    "with_row_count": "with_row_index",
}

_FLOATS = (
    "arccos arccosh arcsin arcsinh arctan arctanh cbrt ceil cos cosh cot degrees entropy ewm_mean "
    "ewm_mean_by ewm_std ewm_var exp fill_nan drop_nans floor hist interpolate interpolate_by "
    "is_close is_finite is_infinite is_nan is_not_nan kurtosis log log10 log1p nan_max nan_min "
    "pct_change qcut quantile radians round round_sig_figs sin sinh skew sqrt std tan tanh truncate "
    "var"
).split()
_WINDOWS = (
    "backward_fill cum_count cum_max cum_min cum_prod cum_sum cumulative_eval diff forward_fill "
    "peak_max peak_min rank rle rle_id rolling rolling_kurtosis rolling_map rolling_max "
    "rolling_max_by rolling_mean rolling_mean_by rolling_median rolling_median_by rolling_min "
    "rolling_min_by rolling_quantile rolling_quantile_by rolling_rank rolling_rank_by rolling_skew "
    "rolling_std rolling_std_by rolling_sum rolling_sum_by rolling_var rolling_var_by shift"
).split()
_LISTS = "agg_groups arr explode flatten implode list repeat_by reshape".split()
_BITS = (
    "bitwise_and bitwise_count_ones bitwise_count_zeros bitwise_leading_ones "
    "bitwise_leading_zeros bitwise_or bitwise_trailing_ones bitwise_trailing_zeros bitwise_xor"
).split()

EXPR = {
    **dict.fromkeys(_FLOATS, FLOATS),
    **dict.fromkeys(_WINDOWS, WINDOW),
    **dict.fromkeys(_LISTS, LISTS),
    **dict.fromkeys(_BITS, BITS),
    "append": "concat of two frames",
    "approx_n_unique": "n_unique",
    "arg_max": "with_row_index, sort and head(1)",
    "arg_min": "with_row_index, sort and head(1)",
    "arg_sort": "with_row_index and sort",
    "arg_true": "with_row_index and filter",
    "arg_unique": "with_row_index and unique",
    "bin": "there are no bytes beside texts",
    "bottom_k_by": "sort_by(..).head(k)",
    "cat": "there are no categories: texts stand for them",
    "cut": "when(..).then(..).otherwise(..)",
    "deserialize": "nav.answer asks a document",
    "dot": "(a * b).sum()",
    "dt": DATES,
    "ext": "there are four kinds, and no others",
    "extend_constant": "concat of two frames",
    "from_json": "nav.answer asks a document",
    "gather_every": "LazyFrame.gather_every",
    "hash": "compare the values themselves",
    "index_of": "with_row_index and filter",
    "inspect": "collect at that step",
    "is_duplicated": "group_by(..).len(), joined back",
    "is_empty": "len() == 0",
    "is_first_distinct": 'LazyFrame.unique(keep="first", maintain_order=True)',
    "is_last_distinct": 'LazyFrame.unique(keep="last", maintain_order=True)',
    "is_unique": 'LazyFrame.unique(keep="none")',
    "item": "get(0)",
    "lower_bound": "the least of the kind, as a literal",
    "map_batches": COMPUTE,
    "map_elements": COMPUTE,
    "max_by": "sort_by(..).last()",
    "meta": "repr tells an expression",
    "min_by": "sort_by(..).first()",
    "mode": "group_by(..).len(), sorted",
    "name": "alias, or rename of a frame",
    "pow": "a product: col * col",
    "product": READ,
    "rechunk": "a column is one piece",
    "register_plugin": COMPUTE,
    "reinterpret": "cast",
    "replace": "when(..).then(..).otherwise(..)",
    "replace_strict": "a join with a table of both values",
    "sample": RANDOM,
    "search_sorted": "a join, or filter(..).len()",
    "set_sorted": "LazyFrame.set_sorted",
    "shrink_dtype": "cast",
    "shuffle": RANDOM,
    "str": "texts are only compared, and cast to whole numbers",
    "struct": "there are no structs",
    "to_physical": "cast",
    "top_k_by": "sort_by(.., descending=True).head(k)",
    "unique": "LazyFrame.unique, or n_unique",
    "unique_counts": "group_by(..).len()",
    "upper_bound": "the greatest of the kind, as a literal",
    "value_counts": "group_by(..).len()",
    "where": "filter",
}

# Names beside these of the module `polars`.
MODULE = {
    "DataFrame": "a frame is lazy: LazyFrame, whose collect() gives an Answer",
    "Series": "a column is a list of cells",
    "read_parquet": FORMATS,
    "scan_parquet": "read_csv, or table over a frame of Polars, pandas or Arrow",
    "concat_str": "texts are only compared",
    "struct": "there are no structs",
    "date": DATES,
    "datetime": DATES,
    "Float64": FLOATS,
    "Float32": FLOATS,
    "Date": DATES,
    "Datetime": DATES,
    "Int32": "whole numbers are Int64, and row counts IdxSize",
    "Utf8": "String",
    "UInt64": "whole numbers are Int64, and row counts IdxSize",
}


def refused(of: str, name: str, known: dict[str, str]) -> str:
    """What is told of a name that isn't there: what to use instead, where that is known."""
    if name in known:
        return f"{of}.{name} of Polars isn't here: {known[name]}"
    return f"{of} has no {name}"
