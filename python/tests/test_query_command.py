"""`nav QUERY FILE..`, by a pipe and on a terminal."""
import gzip
import io
import json
import os
import signal
import stat
import subprocess
import time
import unittest
from unittest import mock

from navgrieso.progress import Progress
from navgrieso.query_plan import plan_of
from navgrieso.stages import stages_of, table_named

from .running import CUSTOMERS, NAV, ORDERS, Command

QUERY = (
    "from orders | join inner customers on id | group name = name agg total = sum(amount) "
    "| sort total desc"
)


class Query(Command):
    def test_a_pipe_gets_csv(self) -> None:
        self.assertEqual(
            self.nav(QUERY, ORDERS, CUSTOMERS), (0, "name,total\nAnn,80\nBo,20\n", "")
        )

    def test_a_terminal_gets_a_table(self) -> None:
        self.assertEqual(
            self.terminal(QUERY, ORDERS, CUSTOMERS),
            "name  total\n----  -----\nAnn      80\nBo       20\n",
        )
        self.assertEqual(
            self.terminal(QUERY, ORDERS, CUSTOMERS, "--csv"), "name,total\nAnn,80\nBo,20\n"
        )

    def test_a_wide_table_is_cut_to_the_terminal(self) -> None:
        path = self.file("t.csv", f"a,b\n{'x' * 100},1\n日本,22\n\x1b[31m,\n")
        wanted = (
            "a                b\n--------------  --\nxxxxxxxxxxxxx…   1\n日本            22\n"
            "\\x1b[31m\n"
        )
        self.assertEqual(self.terminal("from t", path, columns=18), wanted)

    def test_json_has_kinds(self) -> None:
        path = self.file("t.csv", 'n,t,b,d\n1,"",true,7\n,x,,\n')
        status, output, _ = self.nav(
            "from t | with l = len(), d = d", path, "--json", "--schema", "t.d=str"
        )
        self.assertEqual(status, 0)
        self.assertEqual(
            json.loads(output),
            [
                {"n": 1, "t": "", "b": True, "d": "7", "l": 2},
                {"n": None, "t": "x", "b": None, "d": None, "l": 2},
            ],
        )
        self.assertEqual(self.nav("from t | filter n > 5", path, "--json")[1], "[]\n")

    def test_names_of_tables(self) -> None:
        path = self.file("my-data.csv", "a\n1\n")
        self.assertEqual(self.nav('from "my-data"', path)[1], "a\n1\n")
        self.assertEqual(self.nav("from t", f"t={path}")[1], "a\n1\n")
        status, _, told = self.nav("from orders", ORDERS, f"orders={path}")
        self.assertEqual(status, 1)
        self.assertIn("two tables are named orders", told)

    def test_schemas(self) -> None:
        self.assertEqual(
            self.nav("from orders | filter id == 1", ORDERS, "--schema", "orders.id=idx")[0], 4
        )
        self.assertEqual(
            self.nav("from orders | filter id == '3'", ORDERS, "--schema", "orders.id=str")[1],
            "id,amount\n3,10\n",
        )
        self.assertIn(
            "the tables are orders", self.nav("from orders", ORDERS, "--schema", "x.id=idx")[2]
        )
        self.assertIn(
            "is no kind", self.nav("from orders", ORDERS, "--schema", "orders.id=float")[2]
        )
        self.assertIn(
            "the schema names 'x'", self.nav("from orders", ORDERS, "--schema", "orders.x=int")[2]
        )

    def test_what_is_refused(self) -> None:
        status, output, told = self.nav("from orders | filter", ORDERS)
        self.assertEqual((status, output), (3, ""))
        self.assertIn("this is no query: it ends too early\n  from orders | filter\n", told)
        status, _, told = self.nav("from orders | sort Amount", ORDERS)
        self.assertEqual(status, 3)
        self.assertIn("\n  from orders | sort Amount\n                     ^\n", told)
        status, _, told = self.nav("from nothing", ORDERS)
        self.assertEqual(status, 3)
        self.assertEqual(told, "nav: there is no table nothing: the tables are orders\n")
        status, _, told = self.nav('from orders | join cross "no ne"', ORDERS, CUSTOMERS)
        self.assertEqual(status, 3)
        self.assertEqual(told, "nav: there is no table no ne: the tables are orders, customers\n")
        status, _, told = self.nav(QUERY.replace("sort total", "sort totals"), ORDERS, CUSTOMERS)
        self.assertEqual(status, 4)
        self.assertIn(
            "ColumnNotFound at 4: totals\n  in the stage sort totals desc\n"
            "  did you mean total?\n  the columns there are name, total\n",
            told,
        )
        status, _, told = self.nav(QUERY.replace("on id", "on ident"), ORDERS, CUSTOMERS)
        self.assertIn(
            "in the stage join inner customers on ident\n"
            "  the columns on the left are id, amount\n  the columns on the right are id, name\n",
            told,
        )
        self.assertEqual(self.nav("from orders", ORDERS, "--workers", "0")[0], 2)

    def test_newlines_at_the_ends_are_taken_off(self) -> None:
        self.assertEqual(
            self.nav(f"\n{QUERY}\n\n", ORDERS, CUSTOMERS), (0, "name,total\nAnn,80\nBo,20\n", "")
        )

    def test_settings(self) -> None:
        words = ["--workers", "2", "--rows", "1", "--serial"]
        self.assertEqual(
            self.nav(QUERY, ORDERS, CUSTOMERS, *words)[1], "name,total\nAnn,80\nBo,20\n"
        )

    def test_files_that_are_refused(self) -> None:
        status, _, told = self.nav("from t", self.file("t.csv", "a,b\n1\n"))
        self.assertEqual(status, 1)
        self.assertIn("t.csv, line 2: 1 fields stand under a header of 2", told)
        self.assertEqual(self.nav("from t", os.path.join(self.room, "nothing.csv"))[0], 1)
        long = os.path.join(self.room, "long.csv")
        with open(long, "wb") as file:
            file.truncate(2**26 + 1)
        status, _, told = self.nav("from long", long)
        self.assertEqual(status, 8)
        self.assertIn("67,108,865", told)
        self.assertIn("64 MiB", told)

    def test_what_may_surprise_is_told(self) -> None:
        path = self.file("prices.csv", "price,n\n9.5,1\n10.25,2\n100,3\n")
        status, output, told = self.nav("from prices | sort price", path)
        self.assertEqual((status, output), (0, "price,n\n10.25,2\n100,3\n9.5,1\n"))
        line = f"{path}: price is read as text: line 2 has 9.5, and there are no decimals\n"
        self.assertTrue(told.startswith(line), told)
        self.assertIn("--schema 'prices.price=str'", told)
        status, output, told = self.nav("from prices", path, "--strict")
        self.assertEqual((status, output, told), (1, "", f"nav: {line}"))
        self.assertEqual(self.nav("from prices", path, "--schema", "prices.price=str")[2], "")
        missing = self.file("m.csv", "n\n1\nNA\n")
        self.assertEqual(
            self.nav("from m | filter n == 1", missing, "--null", "NA"), (0, "n\n1\n", "")
        )

    def test_separators(self) -> None:
        path = self.file("t.csv", "a;b\n1;2\n")
        self.assertIn("--sep ';'", self.nav("from t", path)[2])
        self.assertEqual(self.nav("from t | select b = b", path, "--sep", ";"), (0, "b\n2\n", ""))
        tabs = self.file("u.csv", "a\tb\n1\t2\n")
        self.assertEqual(self.nav("from u | select b = b", tabs, "--sep", "tab")[1], "b\n2\n")
        self.assertIn("--sep ab: one sign", self.nav("from t", path, "--sep", "ab")[2])

    def test_a_slip_costs_no_reading(self) -> None:
        # The second line is no row of this table: it is never read.
        path = self.file("t.csv", "a,b\n" + f"1,{'x' * 1000}\n" * 100 + "1\n")
        for query, why in (
            ("from t | filter", "it ends too early"),
            ("from u", "there is no table u: the tables are t"),
            ("from t | sort c", "ColumnNotFound at 1: c"),
        ):
            self.assertIn(why, self.nav(query, path)[2])
        self.assertIn("line 102: 1 fields", self.nav("from t", path)[2])

    def test_kinds_are_those_of_all_rows(self) -> None:
        path = self.file("t.csv", "a,b\n" + f"1,{'x' * 1000}\n" * 100 + "x,y\n")
        self.assertEqual(self.nav("from t | filter a == 'x'", path)[1], "a,b\nx,y\n")
        status, _, told = self.nav("from t | filter a == 1", path)
        self.assertEqual(status, 4)
        self.assertIn("a is str and 1 is int: both sides of == have one kind", told)

    def test_kinds_that_do_not_agree(self) -> None:
        query = "from orders | group id = id agg n = len() | filter n > 1"
        status, _, told = self.nav(query, ORDERS)
        self.assertEqual(status, 4)
        self.assertIn("  n is idx and 1 is int: both sides of > have one kind\n", told)
        self.assertIn("with one = 1 | group .. agg n = sum(one)", told)
        query = (
            "from orders | with one = 1 | group id = id "
            "agg n = sum(one), mean = sum(amount) // sum(one) | filter n > 1"
        )
        self.assertEqual(self.nav(query, ORDERS), (0, "id,n,mean\n1,2,40\n", ""))
        for stage, why in (
            ("filter amount", "amount is int, and a filter wants bool"),
            ("filter amount and true", "amount is int, and and wants bool"),
            ("select x = 'a' + 'b'", "'a' is str: + is of whole numbers"),
            ("select x = sum('a')", "'a' is str: sum is of numbers and truth values"),
            ("group id = id agg x = amount", "x = amount isn't one cell for a group"),
            (
                "with name = id | join inner customers on name",
                "name is int on the left and name is str on the right",
            ),
        ):
            with self.subTest(stage):
                status, _, told = self.nav(f"from orders | {stage}", ORDERS, CUSTOMERS)
                self.assertEqual(status, 4)
                self.assertIn(f"  {why}", told)

    def test_a_text_in_double_quotes(self) -> None:
        told = self.nav('from customers | filter name == "Ann"', CUSTOMERS)[2]
        self.assertIn("a text in single ones: 'Ann'", told)

    def test_standard_input(self) -> None:
        given = b"id,amount\n1,30\n"
        self.assertEqual(self.nav("from stdin", "-", given=given)[1], "id,amount\n1,30\n")
        self.assertEqual(self.nav("from t", "t=-", given=given)[1], "id,amount\n1,30\n")
        self.assertIn("read but once", self.nav("from t", "t=-", "u=-", given=given)[2])

    def test_a_file_for_the_answer(self) -> None:
        for name, wanted in (
            ("o.csv", "id,amount\n3,10\n"),
            ("o.json", '[\n{"id": 3, "amount": 10}\n]\n'),
            ("o.csv.gz", "id,amount\n3,10\n"),
        ):
            path = os.path.join(self.room, name)
            self.assertEqual(
                self.nav("from orders | filter id == 3", ORDERS, "-o", path), (0, "", "")
            )
            opened = gzip.open if name.endswith(".gz") else open
            with opened(path, "rt", encoding="utf-8") as file:
                self.assertEqual(file.read(), wanted)

    def test_a_packed_file(self) -> None:
        path = os.path.join(self.room, "orders.csv.gz")
        with open(ORDERS, "rb") as file, gzip.open(path, "wb") as packed:
            packed.write(file.read())
        self.assertEqual(self.nav("from orders | filter id == 3", path)[1], "id,amount\n3,10\n")

    def test_a_terminal_gets_the_rows_that_fit(self) -> None:
        path = self.file("t.csv", "a\n" + "".join(f"{it}\n" for it in range(100)))
        told = self.terminal("from t", path)
        self.assertTrue(told.endswith("17\n(82 more rows: --all shows them)\n"), told)
        self.assertTrue(self.terminal("from t", path, "--all").endswith("99\n"))

    def test_settings_are_told_to_change_nothing(self) -> None:
        self.assertIn("change nothing yet", self.nav("from orders", ORDERS, "--workers", "2")[2])

    def test_it_is_stopped(self) -> None:
        waits = self.file("plan_tool", "#!/bin/sh\nexec sleep 60\n")
        os.chmod(waits, stat.S_IRWXU)
        started = subprocess.Popen(
            [*NAV, "from orders", ORDERS, "--plan-tool", waits],
            stdout=subprocess.PIPE,
            stderr=subprocess.PIPE,
            env=self.environment,
        )
        children = f"/proc/{started.pid}/task/{started.pid}/children"
        while started.poll() is None:
            with open(children, encoding="ascii") as file:
                if file.read():
                    break
            time.sleep(0.05)
        started.send_signal(signal.SIGINT)
        output, told = started.communicate(timeout=60)
        self.assertEqual((started.returncode, output, told), (130, b"", b"nav: stopped\n"))

    def test_a_reader_that_has_enough(self) -> None:
        path = self.file("t.csv", "a\n" + "1\n" * 200_000)
        ran = subprocess.run(
            ["sh", "-c", '"$@" | head -n 1', "", *NAV, "from t", path],
            capture_output=True,
            env=self.environment,
            check=False,
        )
        self.assertEqual((ran.stdout, ran.stderr), (b"a\n", b""))


class Bars(unittest.TestCase):
    """What is shown while something takes long."""

    def shown(self, is_terminal: bool, seconds: float) -> str:
        stream = io.StringIO()
        stream.isatty = lambda: is_terminal  # type: ignore[method-assign]
        with mock.patch("time.monotonic", iter([0.0, seconds, seconds, seconds]).__next__):
            progress = Progress(stream)
            progress.at("reading orders.csv", 0.25)
        progress.end()
        return stream.getvalue()

    def test_a_bar(self) -> None:
        bar = "[#####...............] reading orders.csv, 3 s"
        self.assertEqual(self.shown(True, 3), f"\r{bar}\r{' ' * len(bar)}\r")

    def test_no_bar(self) -> None:
        self.assertEqual(self.shown(True, 0.5), "")
        self.assertEqual(self.shown(False, 3), "")


class Stages(unittest.TestCase):
    """The stages of a query's text."""

    def test_stages_and_their_tables(self) -> None:
        query = """from "a|b" | filter x == '|''|' | join left "c|"" d" on k | sort "|" """
        self.assertEqual(
            stages_of(query),
            ['from "a|b"', "filter x == '|''|'", 'join left "c|"" d" on k', 'sort "|"'],
        )
        self.assertEqual(
            [table_named(stage) for stage in stages_of(query)], ["a|b", None, 'c|" d', None]
        )
        self.assertEqual(table_named("join cross t"), "t")

    def test_the_stage_of_each_node(self) -> None:
        table = [["k", "int", []]]
        plan = plan_of("from t | sort k | join left u on k | distinct", ["t", "u"], [table] * 2)
        self.assertEqual(
            [step.text() for step in plan.steps],
            [
                "the stage from t",
                "the stage sort k",
                "the stage join left u on k",
                "the stage join left u on k",
                "the stage distinct",
                "the stage distinct",
            ],
        )


if __name__ == "__main__":
    unittest.main()
