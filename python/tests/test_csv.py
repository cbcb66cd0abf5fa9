"""CSV files: quotes, line ends, empty fields, names, kinds, and what is refused with its line."""
import gzip
import os
import re
import tempfile
import unittest
import warnings
from unittest import mock

import navgrieso as nav
from navgrieso.csv_text import rows_of, text_of


class Reading(unittest.TestCase):
    def setUp(self) -> None:
        self.path = os.path.join(self.enterContext(tempfile.TemporaryDirectory()), "file.csv")

    def frame(self, text: str | bytes, schema: dict | None = None) -> nav.LazyFrame:
        with open(self.path, "wb") as file:
            file.write(text if isinstance(text, bytes) else text.encode())
        return nav.read_csv(self.path, schema)

    def read(self, text: str | bytes, schema: dict | None = None) -> dict:
        return self.frame(text, schema).collect().to_dict()

    def refused(self, text: str | bytes, why: str, schema: dict | None = None) -> None:
        with self.assertRaises(nav.CsvFault) as told:
            self.frame(text, schema)
        self.assertIn("file.csv", str(told.exception))
        self.assertIn(why, str(told.exception))

    def test_quotes(self) -> None:
        text = 'a,b\n"x, y","say ""hi"""\n"two\nlines",plain\n'
        self.assertEqual(
            self.read(text), {"a": ["x, y", "two\nlines"], "b": ['say "hi"', "plain"]}
        )

    def test_line_ends(self) -> None:
        for end in ("\n", "\r\n", "\r"):
            for last in (end, "", end * 3):
                with self.subTest(end=end, last=last):
                    self.assertEqual(
                        self.read(f"a,b{end}1,x{end}2,y{last}"), {"a": [1, 2], "b": ["x", "y"]}
                    )
                    self.assertEqual(
                        self.read(f'a,b{end}1,"x"{end}2,"y"{last}'), {"a": [1, 2], "b": ["x", "y"]}
                    )

    def test_line_ends_in_quotes_stay(self) -> None:
        self.assertEqual(self.read('a\r\n"x\r\ny"\r\n'), {"a": ["x\r\ny"]})

    def test_empty_fields(self) -> None:
        text = 'n,t,b,e\n,,,\n1,"",true,\n,x,,\n'
        wanted = {
            "n": [None, 1, None],
            "t": [None, "", "x"],
            "b": [None, True, None],
            "e": [None, None, None],
        }
        self.assertEqual(self.read(text), wanted)
        self.assertEqual(self.read('n\n1\n""\n2\n'), {"n": [1, None, 2]})

    def test_names(self) -> None:
        text = 'größe,"a ""b"", c",日本,\n1,2,3,4\n'
        self.assertEqual(self.read(text), {"größe": [1], 'a "b", c': [2], "日本": [3], "": [4]})
        self.assertEqual(self.read("\ufeffa\n1\n"), {"a": [1]})

    def test_a_header_alone(self) -> None:
        for text in ("a,b\n", "a,b", "a,b\r\n"):
            answer = self.frame(text).collect()
            self.assertEqual((answer.columns, answer.height), (["a", "b"], 0))
        typed = self.frame("a,b\n", {"a": "idx", "b": bool}).collect()
        self.assertEqual(typed.schema, {"a": nav.IdxSize, "b": nav.Boolean})

    def test_kinds_are_guessed_from_all_rows(self) -> None:
        kinds = {
            "1\n-2": nav.Int64,
            "1\nx": nav.String,
            "true\nfalse": nav.Boolean,
            "true\n1": nav.String,
            "007": nav.String,
            "+1": nav.String,
            "1.0": nav.String,
            " 1": nav.String,
            "-0": nav.String,
            "0": nav.Int64,
            "True": nav.String,
            "9223372036854775807": nav.Int64,
            "9223372036854775808": nav.String,
            "-9223372036854775808": nav.Int64,
            "1" * 5000: nav.String,
            "１": nav.String,
            '""': nav.String,
        }
        for text, kind in kinds.items():
            with self.subTest(text[:40]), warnings.catch_warnings():
                warnings.simplefilter("ignore", nav.SurprisingKind)
                self.assertEqual(self.frame(f"a\n{text}\n").collect().schema, {"a": kind})

    def test_what_may_surprise_is_told(self) -> None:
        told = {
            "9.5\n10.25\n100": "line 2 has 9.5, and there are no decimals",
            "1\n2\nNA": "line 4 has NA, and null is an empty field",
            "1\n+3\n2": "line 3 has +3, and a whole number has no plus",
            "1e3\n2": "line 2 has 1e3, and a whole number has digits alone",
            "1\n007": "line 3 has 007, and a whole number has no zero in front",
            "1\n9223372036854775808": "line 3 has 9223372036854775808, and whole numbers end at",
            "-9223372036854775809\n1": "line 2 has -9223372036854775809, and whole numbers begin",
            '"1,200"\n5': "line 2 has 1,200, and digits have nothing between them",
            "12\n12a\n13": "line 3 has 12a, and that is no whole number",
            " 1\n2": "line 2 has ' 1', and a number has no blanks beside it",
            "31/12/2023\n01/02/2024": "line 2 has 31/12/2023, and there are no dates",
            "True\nfalse": "line 2 has True, and truth values are true and false",
            "true\nno\n\nyes": "line 3 has no, and truth values are true and false",
        }
        for text, why in told.items():
            with self.subTest(text), self.assertWarnsRegex(
                nav.SurprisingKind, r"file\.csv: a is read as text: " + re.escape(why)
            ):
                self.frame(f"a\n{text}\n")
            with self.subTest(text), self.assertRaisesRegex(nav.CsvFault, re.escape(why)):
                nav.read_csv(self.path, strict=True)
            self.assertEqual(nav.read_csv(self.path, {"a": "str"}, strict=True).columns, ["a"])

    def test_plain_texts_surprise_nobody(self) -> None:
        with warnings.catch_warnings():
            warnings.simplefilter("error")
            for text in ("Ann\n7\nBo", "2023-12-31\n2024-01-01", "x\n\ny", "1\n2", "NW\nNA\nSE"):
                with self.subTest(text):
                    self.frame(f"a\n{text}\n")

    def test_separators(self) -> None:
        with self.assertWarnsRegex(nav.SurprisingKind, "its name has ';' in it: --sep ';'"):
            self.assertEqual(self.frame("a;b\n1;2\n").columns, ["a;b"])
        for sign in (";", "\t", "|"):
            read = nav.read_csv(self.path, separator=";")
            self.assertEqual(read.collect().to_dict(), {"a": [1], "b": [2]})
            with open(self.path, "w", encoding="utf-8") as file:
                file.write(f'a{sign}b\n"1{sign}"{sign}2\n')
            read = nav.read_csv(self.path, separator=sign)
            self.assertEqual(read.collect().to_dict(), {"a": [f"1{sign}"], "b": [2]})
            with open(self.path, "w", encoding="utf-8") as file:
                file.write("a;b\n1;2\n")
        for sign in ("", "ab", '"', "\n"):
            with self.assertRaises(ValueError):
                nav.read_csv(self.path, separator=sign)

    def test_fields_that_are_null(self) -> None:
        self.frame("n,t\n1,NA\nNA,x\n")
        read = nav.read_csv(self.path, null_values="NA").collect()
        self.assertEqual(read.to_dict(), {"n": [1, None], "t": [None, "x"]})

    def test_a_packed_file(self) -> None:
        packed = f"{self.path}.gz"
        with gzip.open(packed, "wb") as file:
            file.write(b"a\n1\n")
        self.assertEqual(nav.read_csv(packed).collect()["a"], [1])
        with open(packed, "wb") as file:
            file.write(b"a\n1\n")
        with self.assertRaisesRegex(nav.CsvFault, "no file that gzip has packed"):
            nav.read_csv(packed)

    def test_kinds_that_are_given(self) -> None:
        self.assertEqual(
            self.read("a,b\n007,1\n,2\n", {"a": int, "b": "str"}),
            {"a": [7, None], "b": ["1", "2"]},
        )
        self.refused(
            "a\n1\n\n-1\n", "line 4, column a: '-1' is no value of kind idx", {"a": "idx"}
        )
        self.refused(
            'a,b\n"x\ny",true\n"z",yes\n',
            "line 4, column b: 'yes' is no value of kind bool",
            {"b": bool},
        )
        self.refused("a\n" + "1" * 5000, "line 2, column a", {"a": int})
        self.refused("a\n1\n", "the schema names 'b'; the columns are 'a'", {"b": int})

    def test_ragged_rows_are_refused_with_their_line(self) -> None:
        self.refused("a,b\n1,2\n3\n", "line 3: 1 fields stand under a header of 2")
        self.refused("a,b\n1,2,3\n", "line 2: 3 fields stand under a header of 2")
        self.refused('a,b\n"x\ny\nz",2\n\n"1"\n', "line 6: 1 fields stand under a header of 2")
        self.refused("a,b\r\n1,2\r\n\r\n3\r\n", "line 4: 1 fields")

    def test_what_is_no_csv(self) -> None:
        self.refused("", "line 1: a header is wanted, and the file is empty")
        self.refused("\n\n", "the file is empty")
        self.refused("a,a\n1,2\n", "line 1: two columns are named 'a'")
        self.refused(
            'a\n1\nx"y\n', "line 3: a quote stands inside a field that doesn't begin with one"
        )
        self.refused('a\n"x"y\n', "line 2: something stands behind the quote that ends a field")
        self.refused('a\n1\n"x\ny\n', "line 3: a quote that begins a field is never closed")
        self.refused(b"a\n1\n\xff\n", "line 3: this is no UTF-8 text")

    def test_a_file_that_is_too_long(self) -> None:
        with mock.patch("os.path.getsize", lambda path: 2**26 + 1), self.assertRaises(
            nav.DocumentTooLong
        ) as told:
            self.frame("a\n1\n")
        self.assertIn("67,108,865 bytes", str(told.exception))
        self.assertIn("64 MiB", str(told.exception))

    def test_no_file(self) -> None:
        with self.assertRaises(FileNotFoundError):
            nav.read_csv(self.path)

    def test_what_was_written_is_read_again(self) -> None:
        cells = {
            "t": ['a "b", c', "two\nlines", "x\r", "é", "日本語"],
            "n": [1, None, -3, 2**63 - 1, 0],
            "b": [True, False, None, None, None],
        }
        nav.table(cells).write_csv(self.path)
        self.assertEqual(nav.read_csv(self.path).collect().to_dict(), cells)
        with open(self.path, encoding="utf-8", newline="") as file:
            self.assertEqual(nav.table(cells).collect().csv(), file.read())


class Text(unittest.TestCase):
    def test_rows_and_back(self) -> None:
        rows = [["a", "b"], ["1", None], ['"', ","], ["\n", "\r\n"], [None, "x"]]
        self.assertEqual([row for _, row in rows_of(text_of(rows))], rows)

    def test_a_row_that_shows_nothing(self) -> None:
        self.assertEqual(text_of([["a"], [None], ["x"]]), 'a\n""\nx\n')
        self.assertEqual(nav.table({"a": [None, "x"]}).collect().csv(), 'a\n""\nx\n')


if __name__ == "__main__":
    unittest.main()
