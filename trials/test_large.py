"""Documents that are long or deep, or cut: how the program ends on them."""

from __future__ import annotations

import json
import unittest

from trials.cases import end_of

FILTER = (
    b'{"tables":[[["a","int",[1,2,3]]]],"exprs":[["col","a"],["int",1],["gt",0,1]],'
    b'"nodes":[["scan",0,null],["filter",0,2],["sink",1]],"root":2}'
)
MOST_BYTES = 1 << 26


def plan(nodes: list, exprs: list = [], tables: object = [[["a", "int", [1, 2, 3]]]]) -> bytes:
    """A document of these nodes over a scan, and a sink of the last."""
    every = [["scan", 0, None], *nodes, ["sink", len(nodes)]]
    return json.dumps({"tables": tables, "exprs": exprs, "nodes": every, "root": len(nodes) + 1}).encode()


def query(text: str, count: int = 1) -> bytes:
    """A document of a query over so many tables of one row, t0 and so on."""
    names = [f"t{number}" for number in range(count)]
    tables = [[["a", "int", [number]]] for number in range(count)]
    return json.dumps({"names": names, "tables": tables, "query": text}).encode()


class Explained(unittest.TestCase):
    """Physical plans of long plans, known by their lengths and ends."""

    def lines(self, document: bytes) -> list[str]:
        return end_of(("explain",), document).split("/")

    def test_unions_of_unions(self) -> None:
        lines = self.lines(plan([["union", [i, i], None] for i in range(10)]))
        self.assertEqual(len(lines), 2048)
        self.assertEqual(lines[-1], "2047 in-memory-sink 11 2046.0")

    def test_many_filters(self) -> None:
        exprs = [["col", "a"], ["sum", 0], ["gt", 0, 1]]
        lines = self.lines(plan([["filter", i, 2] for i in range(200)], exprs))
        self.assertEqual(len(lines), 1002)
        self.assertEqual(lines[-1], "1001 in-memory-sink 201 1000.0")

    def test_many_sums(self) -> None:
        items = [[f"s{i}", 1] for i in range(2001)]
        lines = self.lines(plan([["select", 0, items]], [["col", "a"], ["sum", 0]]))
        self.assertEqual(lines, ["0 in-memory-source 0 -", "1 reduce 1 0.0", "2 select 1 1.0", "3 in-memory-sink 2 2.0"])


class Limits(unittest.TestCase):
    def test_too_many_occurrences(self) -> None:
        end = end_of(("run",), plan([["union", [i, i], None] for i in range(40)]))
        self.assertRegex(end, "^4: InvalidPlan Limits at (1[6-9]|[23][0-9]|4[01])$")

    def test_stages_of_a_query(self) -> None:
        # A scan, the stages and a sink are 256 deep, and one stage more is too deep.
        self.assertEqual(end_of(("text",), query("from t0" + " | distinct" * 254)), "a/0")
        self.assertEqual(end_of(("text",), query("from t0" + " | distinct" * 255)), "4: InvalidPlan Limits at 256")
        self.assertRegex(end_of(("text",), query("from t0" + " | distinct" * 5000)), "^4: ")

    def test_many_tables(self) -> None:
        self.assertEqual(end_of(("text",), query("from t4999", 5000)), "a/4999")

    def test_bytes(self) -> None:
        self.assertEqual(end_of(("run",), b" " * (MOST_BYTES + 1)), "8: TooLong")
        self.assertEqual(end_of(("run",), b" " * MOST_BYTES), "3: BadJson")


class Documents(unittest.TestCase):
    def test_one_that_is_cut_is_none(self) -> None:
        for length in range(len(FILTER)):
            with self.subTest(length=length):
                self.assertEqual(end_of(("run",), FILTER[:length]), "3: BadJson")

    def test_long_columns(self) -> None:
        # More than 16 bits count; numbers that all differ, few numbers, and few texts.
        count = 70_000
        columns = [["a", "int", list(range(count))], ["b", "int", [i % 7 for i in range(count)]]]
        columns.append(["c", "str", [f"t{i % 5}" for i in range(count)]])
        exprs = [["col", "a"], ["sum", 0], ["n_unique", 0], ["col", "b"], ["sum", 3], ["n_unique", 3]]
        exprs += [["col", "c"], ["n_unique", 6], ["len"]]
        items = [["s", 1], ["n", 2], ["t", 4], ["m", 5], ["u", 7], ["l", 8]]
        document = plan([["select", 0, items]], exprs, [columns])
        wanted = "s,n,t,m,u,l/2449965000,70000,210000,7,5,70000"
        self.assertEqual(end_of(("run",), document), wanted)
        # A name that stands twice isn't told from the tokens.
        self.assertEqual(end_of(("run",), b'{"tables":[],' + document[1:]), wanted)


if __name__ == "__main__":
    unittest.main()
