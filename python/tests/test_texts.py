"""The program's command `text`: its examples, random queries beside a second reading of them, and
where a text stops being a query."""
import json
import os
import unittest

import navgrieso as nav
from navgrieso.plans import encoded
from navgrieso.program import ask
from navgrieso.query_hints import hint_of
from navgrieso.query_place import no_query, place_of, tokens_of
from navgrieso.query_plan import NoReading as Unread
from navgrieso.query_plan import plan_of

from .pipeline import NoReading, Reader
from .random_texts import TABLES, Texts
from .running import EXAMPLES

QUERIES = 300


def is_query(text: str) -> bool:
    """Whether a text is a query, by the program."""
    return ask(["text"], encoded({"tables": [], "names": [], "query": text})).line != "BadQuery"


class Examples(unittest.TestCase):
    def test_each(self) -> None:
        folder = os.path.join(EXAMPLES, "text")
        names = sorted(it[:-5] for it in os.listdir(folder) if it.endswith(".json"))
        self.assertGreater(len(names), 10)
        refused = {}
        for name in names:
            with self.subTest(name), open(os.path.join(folder, f"{name}.json"), "rb") as file:
                reply = ask(["text"], file.read())
                if reply.status:
                    refused[name] = (reply.status, reply.line)
                    continue
                with open(os.path.join(folder, f"{name}.csv"), "rb") as wanted:
                    self.assertEqual(reply.output, wanted.read())
        self.assertEqual(refused["no_query"], (3, "BadQuery"))
        self.assertEqual(refused["unknown"], (3, "UnknownTable"))
        self.assertEqual(refused["refused"][0], 4)
        self.assertEqual(len(refused), 3)


class Random(unittest.TestCase):
    """A text gives what the plan gives that a second reader makes of it."""

    def test_queries(self) -> None:
        frames = {
            name: nav.table(
                {it: cells for it, (_, cells) in columns.items()},
                {it: kind for it, (kind, _) in columns.items()},
            )
            for name, columns in TABLES.items()
        }
        tables = [
            [[it, kind, cells] for it, (kind, cells) in columns.items()]
            for columns in TABLES.values()
        ]
        answered = 0
        for seed in range(QUERIES):
            query = Texts(seed).query()
            with self.subTest(seed=seed, query=query):
                document = {"tables": tables, "names": list(TABLES), "query": query}
                reply = ask(["text"], encoded(document))
                try:
                    plan = Reader(query, frames).query().document()
                except NoReading:
                    self.assertEqual((reply.status, reply.line), (3, "BadQuery"))
                    with self.assertRaises(Unread):
                        plan_of(query, list(TABLES), tables)
                    continue
                # The client's own reading has the program's nodes, with their numbers.
                own = plan_of(query, list(TABLES), tables)
                self.assertEqual(ask(["run"], encoded(own.document)), reply)
                wanted = ask(["run"], encoded(plan))
                self.assertEqual((reply.status, reply.output), (wanted.status, wanted.output))
                answered += reply.status == 0
        self.assertGreater(answered, QUERIES // 3)


class Places(unittest.TestCase):
    """A `!` stands where a text can't be read on; it is no part of the text."""

    def test_places(self) -> None:
        for marked in (
            "from t | filter!",
            "from t | filter a > !> 1",
            "from t | filter !Amount > 1",
            "from t | select a!",
            "from t | select !from = a",
            "from t | select a !a = 1",
            "from t | group a = a!",
            "!form t",
            "from !T",
            "from t | sort a, !'b",
            "from t | filter (a > 1 and b == 2 !| distinct",
            "from t | filter min(max(a) + !)",
            "from t | filter a < b !< c",
            "from t | filter a!\t> 1",
            "from t | join cross u !on a",
            "from t | join !outer u on a",
            "from t | join left u!",
            "from t | slice -1 !-2",
            "from t | filter a == 9223372036854775807 or a == !9223372036854775808",
            "from t | filter a == null !kind",
            "from t |\n filter a |\n sort by !a",
            "from t !where a > 1",
        ):
            with self.subTest(marked):
                place = marked.index("!")
                query = marked[:place] + marked[place + 1 :]
                self.assertFalse(is_query(query))
                self.assertEqual(place_of(query, is_query), place)

    def test_tokens(self) -> None:
        text = "a==-1 'it''s'\n\"x\"\"y\"//"
        found, lost = tokens_of(text)
        self.assertEqual(
            [text[begin:end] for begin, end in found],
            ["a", "==", "-", "1", "'it''s'", '"x""y"', "//"],
        )
        self.assertIsNone(lost)
        self.assertEqual(tokens_of("a ? b"), ([(0, 1)], 2))

    def test_what_is_told(self) -> None:
        self.assertEqual(
            no_query("from t | filter Größe > 1", None),
            "this is no query: it can't be read on from the mark\n"
            "  from t | filter Größe > 1\n"
            "                  ^\n"
            '  as a name it stands in double quotes: "Größe"\n'
            "  `nav query --help` shows what a query is",
        )
        self.assertIn("this quote isn't closed", no_query("from t | filter a == 'b", None))
        self.assertIn('double quotes: "from"', no_query("from t | sort from", None))
        self.assertIn("it ends too early", no_query("from t | sort", None))
        long = no_query("from t | sort " + "a, " * 100 + "b c, d" + ", e" * 100, None)
        self.assertTrue(all(len(line) < 82 for line in long.split("\n")))
        self.assertIn("b c, d", long)


class Hints(unittest.TestCase):
    """What is told at the `!`, where a text can't be read on; it is no part of the text."""

    def test_hints(self) -> None:
        for marked, hint in (
            ("from t | select b = a !/ 2", "// divides whole numbers"),
            ("from t | filter a > 4!.5", "there are no decimals"),
            ("from t | group k = k agg m = mean!(a)", "mean = sum(x) // sum(one)"),
            ("from t | group k = k agg m = AVG!(a)", "mean = sum(x) // sum(one)"),
            ("from t | select m = median!(a)", "there is no median"),
            ("from t | select m = lower!(a)", "there is no function lower: there are min, max"),
            ("from t | sort a !asc", "a sort goes up where no desc is said"),
            ("from t | filter not !x", "not has parentheses: not(x)"),
            ("from t | filter x !is null", "is_null(x) asks that"),
            ("from t | filter x !is not null", "is_not_null(x) asks that"),
            ("from t | !head 3", "there is no head: slice 0 3"),
            ("from t | !limit 10", "there is no limit: slice 0 10"),
            ("from t | !tail 2", "there is no tail: slice -2 2"),
            ("from t | !where a > 1", "there is no where: filter EXPR"),
            ("from t | !order by a", "sort KEY"),
            ("!SELECT a FROM t", "a query begins with its table: from TABLE"),
            ("!select a = a", "a query begins with its table: from TABLE"),
            ("!FROM t", "words are written small: from TABLE"),
            ("from t | filter a > 1 !AND b > 1", "words are written small"),
            ("from t | select a!, b", "each item has a name: NAME = EXPR"),
            ("from t | select a !as b", "a name stands in front: NAME = EXPR"),
            ("from t | group !by a", "group is followed by NAME = KEY"),
            ("from t | sort !by a", "sort is followed by its keys"),
            ("from t | join !outer u on a", "that join is named full"),
            ("from t | join !u on a", "a join says how: join inner TABLE on NAME"),
            ("from t | filter a <!> 1", "!= says that two values differ"),
            ("from t | filter a !&& b", "and, or and not(x)"),
            ("from t | filter a !in (1, 2)", "a == 1 or a == 2"),
            ("from t | filter a !between 1 and 2", "a >= 1 and a <= 9"),
            ("from t | group k = k agg n = count(!)", "len() counts rows"),
            ("from t | group k = k agg n = count(!*)", "len() counts rows"),
            ("from t | filter a == -!b", "0 - x says the opposite"),
            ("from t!;", "a query has no sign at its end"),
            ("from t | filter (a !", ""),
            ("from t | sort !from", ""),
        ):
            place = marked.index("!")
            with self.subTest(marked):
                told = hint_of(marked[:place] + marked[place + 1 :], place)
                self.assertIn(hint, told)
                self.assertEqual(bool(hint), bool(told), told)

    def test_a_single_sign(self) -> None:
        query = "from t | filter a = 1"
        self.assertIn("== compares", hint_of(query, query.index("=")))

    def test_the_hint_is_a_query(self) -> None:
        query = (
            "from t | with one = 1 | group a = a agg n = sum(one), mean = sum(b) // sum(one) "
            "| filter n > 1"
        )
        self.assertTrue(is_query(query))


class Documents(unittest.TestCase):
    def test_newlines_at_the_ends_are_no_part_of_a_query(self) -> None:
        for query in ("from t\n", "\nfrom t", "from t "):
            self.assertFalse(is_query(query))
        self.assertTrue(is_query("from\nt"))

    def test_no_document(self) -> None:
        good = {"tables": [[["a", "int", [1]]]], "names": ["t"], "query": "from t"}
        self.assertEqual(ask(["text"], encoded(good)).output, b"a\n1\n")
        for wrong in (
            {**good, "names": []},
            {**good, "names": ["t", "u"]},
            {**good, "query": 1},
            {**good, "more": 1},
            {"tables": [], "names": []},
            {**good, "tables": good["tables"] * 2, "names": ["t", "t"]},
        ):
            with self.subTest(json.dumps(wrong)):
                reply = ask(["text"], encoded(wrong))
                self.assertEqual((reply.status, reply.line), (3, "BadDocument"))


if __name__ == "__main__":
    unittest.main()
