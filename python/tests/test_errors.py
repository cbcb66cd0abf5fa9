"""Each class of error once, with what it carries."""
import os
import stat
import tempfile
import unittest
from unittest import mock

import navgrieso as nav
from navgrieso import col
from navgrieso.program import VARIABLE, Reply, ask, find
from navgrieso.refusals import refusal


def frame() -> nav.LazyFrame:
    return nav.table({"a": [1, 2, 3], "t": ["1", "x", None]})


class Refusals(unittest.TestCase):
    """What the program refuses."""

    def test_an_unknown_column(self) -> None:
        with self.assertRaises(nav.ColumnNotFound) as told:
            frame().filter(col("kelvin") > 273).collect()
        error = told.exception
        self.assertIsInstance(error, nav.InvalidPlan)
        self.assertEqual(
            (error.status, error.line, error.node), (4, "ColumnNotFound at 1: kelvin", 1)
        )
        self.assertEqual(error.entry, 'filter(col("kelvin") > 273)')
        self.assertEqual(error.names, ["a", "t"])
        self.assertIn("test_errors.py:", error.source)
        self.assertTrue(
            error.source.endswith('frame().filter(col("kelvin") > 273).collect()'), error.source
        )
        for part in (error.line, error.entry, error.source, "the columns there are a, t"):
            self.assertIn(part, str(error))

    def test_an_unknown_column_of_a_join(self) -> None:
        with self.assertRaises(nav.ColumnNotFound) as told:
            frame().join(frame().select(b="a"), left_on="a", right_on="c").collect()
        self.assertEqual(told.exception.names, ["a", "t", "b"])
        self.assertIn("join(other", told.exception.entry)

    def test_the_line_is_that_of_the_step(self) -> None:
        made = frame().select("a")
        refused = made.filter(col("a") == "x")  # this line
        later = refused.select("a").head(1)
        with self.assertRaises(nav.InvalidPlan) as told:
            later.collect()
        self.assertIn("# this line", told.exception.source)
        self.assertIn("the columns there are a int", str(told.exception))

    def test_under_a_cache(self) -> None:
        twice = frame().select(b=col("nothing"))
        with self.assertRaises(nav.ColumnNotFound) as told:
            nav.concat([twice, twice]).collect()
        self.assertEqual(told.exception.entry, 'select(col("nothing").alias("b"))')

    def test_where_a_column_of_nulls_was_asked_beside(self) -> None:
        # An empty text stands in the table, so the document that is asked has one node more.
        read = nav.table({"t": ["", "x"]})
        with self.assertRaises(nav.ColumnNotFound) as told:
            read.select("t").filter(col("u") == "x").collect()
        self.assertEqual(told.exception.entry, 'filter(col("u") == "x")')

    def test_a_slip_over_a_large_table_is_told_before_it_is_written(self) -> None:
        large = nav.table({"t": ["x" * 1000] * 100_001}).filter(col("u") == "x")
        with self.assertRaises(nav.ColumnNotFound):
            large.collect()

    def test_kinds_that_do_not_agree(self) -> None:
        counted = frame().group_by("a").agg(n=nav.len())
        with self.assertRaises(nav.InvalidPlan) as told:
            counted.filter(col("n") > col("a")).collect()
        text = str(told.exception)
        self.assertIn('  col("n") is idx and col("a") is int: both sides of > have one kind', text)
        self.assertIn(".cast(nav.Int64)", text)

    def test_a_name_that_is_near(self) -> None:
        read = nav.table({"amount": [1], "Name": ["x"]})
        with self.assertRaisesRegex(nav.ColumnNotFound, r"did you mean amount\?"):
            read.select("amout").collect()
        with self.assertRaisesRegex(nav.ColumnNotFound, r"did you mean Name\?"):
            read.select("name").collect()
        with self.assertRaises(nav.ColumnNotFound) as told:
            read.join(frame(), left_on="amount", right_on="x").collect()
        self.assertIn(
            "the columns on the left are amount, Name\n  the columns on the right are a, t",
            str(told.exception),
        )

    def test_a_fault_of_the_data(self) -> None:
        with self.assertRaises(nav.DataFault) as told:
            frame().select(n=col("t").cast(nav.Int64)).collect()
        self.assertEqual(
            (told.exception.status, told.exception.line), (5, "ComputeError StrictCast at 1")
        )

    def test_what_the_engine_leaves_out(self) -> None:
        for expr, word, text in (
            (col("a") / 2, "TrueDivide", 'col("a") / 2'),
            (col("a").mean(), "Mean", 'col("a").mean()'),
            (col("a") * 1.5, "FloatLiteral", 'col("a") * 1.5'),
            (col("a").sum().over("t"), "Window", None),
        ):
            with self.subTest(word), self.assertRaises(nav.InvalidPlan) as told:
                frame().select(x=expr).collect()
            self.assertEqual(told.exception.line, f"Unsupported {word} at 1")
            if text:
                self.assertIn(text, told.exception.entry)

    def test_a_plan_that_is_too_deep(self) -> None:
        deep = frame()
        for _ in range(300):
            deep = deep.reverse()
        with self.assertRaisesRegex(nav.InvalidPlan, "InvalidPlan Limits"):
            deep.collect()

    def test_words(self) -> None:
        with self.assertRaises(nav.WordsRefused) as told:
            frame().collect(workers=0)
        self.assertEqual((told.exception.status, told.exception.line), (2, "Usage"))

    def test_no_document(self) -> None:
        with self.assertRaises(nav.InvalidDocument) as told:
            nav.answer({"tables": [], "exprs": [], "nodes": [["sink", None]], "root": 0})
        self.assertEqual(told.exception.status, 3)
        self.assertIn("nodes[0][1]: a number is wanted, and not null", str(told.exception))

    def test_a_name_that_is_half_a_character_is_no_text(self) -> None:
        with self.assertRaises(ValueError):
            nav.table({"\ud800": [1]}).collect()

    def test_a_document_that_is_too_long(self) -> None:
        with self.assertRaisesRegex(nav.DocumentTooLong, "64 MiB"):
            nav.table({"t": ["x" * 2**26]}).collect()

    def test_the_program_says_that_it_is_too_long(self) -> None:
        self.assertEqual(ask(["run"], b" " * (2**26 + 1)), Reply(8, b"", "TooLong"))

    def test_statuses_that_a_user_seldom_meets(self) -> None:
        for status, line, kind in (
            (6, "ReadFault", nav.ReadFault),
            (7, "WriteFault", nav.WriteFault),
            (8, "TooLong", nav.DocumentTooLong),
            (9, "OutOfMemory", nav.OutOfMemory),
        ):
            with self.subTest(line):
                made = refusal(Reply(status, b"", line))
                self.assertEqual((type(made), made.status, made.line), (kind, status, line))
        self.assertIsInstance(refusal(Reply(77, b"", "?")), nav.ProgramFailed)

    def test_a_physical_plan_is_told(self) -> None:
        self.assertTrue(frame().explain().startswith("0 in-memory-source "))


class Program(unittest.TestCase):
    """Where the program is looked for."""

    def script(self, text: str) -> str:
        room = tempfile.mkdtemp()
        self.addCleanup(lambda: (os.remove(path), os.rmdir(room)))
        path = os.path.join(room, "plan_tool")
        with open(path, "w", encoding="utf-8") as file:
            file.write(text)
        os.chmod(path, stat.S_IRWXU)
        return path

    def test_the_word_and_then_the_variable(self) -> None:
        one, two = self.script("#!/bin/sh\nexit 3\n"), self.script("#!/bin/sh\nexit 0\n")
        with mock.patch.dict(os.environ, {VARIABLE: two}):
            self.assertEqual((find(one), find()), (one, two))

    def test_what_was_built_in_the_checkout(self) -> None:
        room = os.path.realpath(self.enterContext(tempfile.TemporaryDirectory()))
        built = os.path.join(room, "crates", "plan_tool", "out", "plan_tool")
        os.makedirs(os.path.join(room, "python", "deep"))
        os.makedirs(os.path.dirname(built))
        with open(built, "w", encoding="utf-8") as file:
            file.write("#!/bin/sh\n")
        os.chmod(built, stat.S_IRWXU)
        with mock.patch.dict(os.environ), mock.patch(
            "os.getcwd", lambda: os.path.join(room, "python", "deep")
        ):
            os.environ.pop(VARIABLE, None)
            with mock.patch("navgrieso.program.__file__", "/nowhere/navgrieso/program.py"):
                self.assertEqual(find(), built)

    def test_none(self) -> None:
        with mock.patch.dict(os.environ, {VARIABLE: "/nowhere/plan_tool"}), self.assertRaises(
            nav.ProgramNotFound
        ):
            frame().collect()
        with mock.patch.dict(os.environ), mock.patch("os.getcwd", lambda: "/"):
            os.environ.pop(VARIABLE, None)
            with mock.patch("navgrieso.program.__file__", "/nowhere/navgrieso/program.py"):
                with self.assertRaisesRegex(nav.ProgramNotFound, "set PLAN_TOOL"):
                    find()

    def test_a_program_that_is_stopped(self) -> None:
        with self.assertRaisesRegex(nav.ProgramFailed, "signal 9"):
            frame().collect(plan_tool=self.script("#!/bin/sh\nkill -9 $$\n"))

    def test_a_program_that_refuses_memory(self) -> None:
        with self.assertRaises(nav.OutOfMemory):
            frame().collect(plan_tool=self.script("#!/bin/sh\necho OutOfMemory >&2\nexit 9\n"))

    def test_a_program_that_answers_another_table(self) -> None:
        with self.assertRaises(nav.ProgramFailed):
            frame().collect(plan_tool=self.script("#!/bin/sh\ncat > /dev/null\necho b\n"))


if __name__ == "__main__":
    unittest.main()
