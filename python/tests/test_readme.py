"""The queries of README.md give the answers that stand there, and so does the SQL beside them, by
SQLite; and so do the commands of this and of the repository's README.md."""
import os
import re
import shlex
import sqlite3
import unittest

from navgrieso.csv_text import rows_of, text_of

from .running import EXAMPLES, ORDERS, Command

TOP = os.path.join(os.path.dirname(os.path.abspath(__file__)), "..")
SQL = re.compile(r"```sql\n(.*?)```\n", re.DOTALL)
COMMAND = re.compile(r"^    (nav '.*?\.csv)\n", re.DOTALL | re.MULTILINE)
PAIR = re.compile(r"```python\n(.*?)```\n```\n(.*?)```\n", re.DOTALL)


class Readme(unittest.TestCase):
    def setUp(self) -> None:
        with open(os.path.join(TOP, "README.md"), encoding="utf-8") as file:
            self.text = file.read()

    def test_queries(self) -> None:
        (first, shown), *queries = PAIR.findall(self.text)
        folder = os.getcwd()
        self.addCleanup(os.chdir, folder)
        os.chdir(os.path.join(TOP, ".."))
        names: dict[str, object] = {}
        *before, last = first.rstrip().split("\n")
        exec("\n".join(before), names)
        self.assertEqual(f"{eval(last, names)!r}\n", shown)
        self.assertEqual(len(queries), 10)
        for text, answer in queries:
            with self.subTest(text):
                self.assertEqual(eval(text, names).collect().csv(), answer)

    def test_sql(self) -> None:
        _, *queries = PAIR.findall(self.text)
        statements = SQL.findall(self.text)
        self.assertEqual(len(statements), 10)
        for statement, (_, answer) in zip(statements, queries):
            with self.subTest(statement), sqlite3.connect(":memory:") as base:
                # One statement speaks of a number for each row.
                is_numbered = "MAX(at)" in statement
                base.execute(f"CREATE TABLE orders (id, amount{', at' * is_numbered})")
                base.execute("CREATE TABLE customers (id, name)")
                for name, rows in (
                    ("orders", ((1, 30), (2, 20), (1, 50), (3, 10))),
                    ("customers", ((1, "Ann"), (2, "Bo"))),
                ):
                    for at, row in enumerate(rows):
                        row = (*row, at) if is_numbered and name == "orders" else row
                        base.execute(
                            f"INSERT INTO {name} VALUES ({', '.join('?' * len(row))})", row
                        )
                asked = base.execute(statement)
                found = [[it[0] for it in asked.description], *asked]
                # SQL orders rows only where it is told to.
                given, wanted = (
                    sorted(str(row) for _, row in rows_of(text))
                    for text in (text_of(found), answer)
                )
                self.assertEqual(given, wanted)


class Commands(Command):
    def test_commands(self) -> None:
        for folder in ("", ".."):
            with open(os.path.join(TOP, folder, "README.md"), encoding="utf-8") as file:
                command = COMMAND.search(file.read())
            _, query, *files = shlex.split(command[1])
            self.assertEqual(
                self.nav(query, *(os.path.join(EXAMPLES, os.path.basename(it)) for it in files)),
                (0, "name,total\nAnn,80\nBo,20\n", ""),
            )

    def test_messages(self) -> None:
        with open(os.path.join(TOP, "README.md"), encoding="utf-8") as file:
            text = file.read()
        for query in ("from orders | filter Amount > 15", "from orders | filter total > 15"):
            told = self.nav(query, ORDERS)[2]
            self.assertIn(f"```\n{told}```\n", text)


if __name__ == "__main__":
    unittest.main()
