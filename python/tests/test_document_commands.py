"""`nav check` and `nav plan`, and what `nav` says by itself."""
import os
import shutil
import stat
import subprocess
import unittest

from navgrieso.completions import COMMANDS, FLAGS
from navgrieso.program import find

from .running import CUSTOMERS, EXAMPLES, NAV, ORDERS, TOP, Command


class Documents(Command):
    def example(self, name: str) -> str:
        return os.path.join(EXAMPLES, f"{name}.json")

    def test_a_program_without_text(self) -> None:
        path = self.file("plan_tool", "#!/bin/sh\necho Usage >&2\nexit 2\n")
        os.chmod(path, stat.S_IRWXU)
        status, output, told = self.nav("from orders", ORDERS, "--plan-tool", path)
        self.assertEqual((status, output), (1, ""))
        self.assertRegex(told, r"\Anav: this program has no command `text`[^\n]*\n\Z")

    def test_check(self) -> None:
        status, output, told = self.nav("check", self.example("totals"))
        self.assertEqual((status, told), (0, ""))
        self.assertIn(
            '2: inner join(col("customer") = col("id")) of 0, 1\n'
            "    customer int, amount int, name str\n",
            output,
        )
        self.assertTrue(output.endswith("The plan is valid.\n"))
        status, _, told = self.nav("check", self.example("refused"))
        self.assertEqual(status, 4)
        self.assertIn("ColumnNotFound at 1: kelvin", told)
        self.assertIn("the columns there are city, day, degrees", told)
        # A fault of the data is none of the plan.
        self.assertEqual(self.nav("check", self.example("faulted"))[0], 0)

    def test_check_of_what_is_no_document(self) -> None:
        given = b'{"tables":[],"exprs":[],"nodes":[["sink"," 0"],["filter",0,"x"]],"root":0}'
        status, output, _ = self.nav("check", "-", given=given)
        self.assertEqual(status, 3)
        self.assertEqual(
            output,
            'nodes[0][1]: a number is wanted, and not " 0"\n'
            'nodes[1][2]: a number is wanted, and not "x"\n',
        )
        self.assertEqual(self.nav("check", "-", given=b"{")[0], 3)

    def test_check_without_a_program(self) -> None:
        del self.environment["PLAN_TOOL"]
        copied = shutil.copytree(
            os.path.join(TOP, "python", "navgrieso"), os.path.join(self.room, "navgrieso")
        )
        self.environment["PYTHONPATH"] = self.room
        self.assertTrue(copied)
        ran = subprocess.run(
            [*NAV, "check", self.example("totals")],
            capture_output=True,
            env=self.environment,
            cwd=self.room,
            check=False,
        )
        self.assertEqual(ran.returncode, 0)
        self.assertIn(b"5: sink of 4", ran.stdout)
        self.assertIn(b"there is no program to ask", ran.stderr)

    def test_plan(self) -> None:
        status, output, _ = self.nav("plan", self.example("totals"), "--dot")
        self.assertEqual(status, 0)
        self.assertTrue(output.startswith("digraph plan {\n"))
        self.assertIn("  n0 -> n2\n", output)
        for words in ((), ("--svg",)):
            self.assertIn("<svg", self.nav("plan", self.example("totals"), *words)[1])

    def test_the_physical_plan(self) -> None:
        status, output, told = self.nav("plan", self.example("totals"), "--physical")
        self.assertEqual((status, told), (0, ""))
        self.assertIn(" equi-join ", output)
        self.assertTrue(output.splitlines()[-1].split()[1].endswith("in-memory-sink"))

    def test_help(self) -> None:
        for words in (
            ["--help"],
            ["query", "--help"],
            ["check", "--help"],
            ["plan", "--help"],
            ["explain", "--help"],
            ["kinds", "--help"],
            ["completions", "--help"],
            ["from t", "--help"],
        ):
            status, output, told = self.nav(*words)
            self.assertEqual((status, told), (0, ""))
            self.assertIn("usage: nav", output)
        self.assertEqual(self.nav()[0], 2)
        self.assertEqual(self.nav("from t")[0], 2)

    def test_queries(self) -> None:
        query = "from orders | join left customers on id | sort name"
        status, output, told = self.nav("check", query, ORDERS, CUSTOMERS)
        self.assertEqual((status, told), (0, ""))
        self.assertIn(f"0: scan orders ({ORDERS})\n    id int, amount int\n", output)
        self.assertIn('2: left join(col("id") = col("id")) of 0, 1\n', output)
        self.assertTrue(output.endswith("The plan is valid.\n"))
        status, output, told = self.nav("check", "from orders | sort amout", ORDERS)
        self.assertEqual((status, output), (4, ""))
        self.assertIn("in the stage sort amout\n  did you mean amount?\n", told)
        self.assertEqual(self.nav("check", "from orders | filter", ORDERS)[0], 3)
        status, output, _ = self.nav("plan", query, ORDERS, CUSTOMERS, "--dot")
        self.assertEqual(status, 0)
        self.assertIn("scan customers", output)
        status, output, _ = self.nav("explain", query, ORDERS, CUSTOMERS)
        self.assertEqual(status, 0)
        self.assertEqual(len(output.splitlines()), 5)
        self.assertEqual(output, self.nav("plan", query, ORDERS, CUSTOMERS, "--physical")[1])
        self.assertIn("no files belong to it", self.nav("plan", ORDERS, ORDERS)[2])

    def test_explain(self) -> None:
        with open(os.path.join(EXAMPLES, "totals.plan"), encoding="utf-8") as file:
            self.assertEqual(self.nav("explain", self.example("totals")), (0, file.read(), ""))

    def test_kinds(self) -> None:
        path = self.file("p.csv", "price,n,flag\n9.5,,true\n10,7,false\n")
        status, output, told = self.nav("kinds", path, ORDERS)
        self.assertEqual((status, told), (0, ""))
        self.assertIn(f"p ({path}), 2 rows\n", output)
        for line in (
            r"price +str +0 +9\.5 +line 2 has 9\.5, and there are no decimals",
            r"n +int +1 +7",
            r"flag +bool +0 +true",
            r"amount +int +0 +30",
        ):
            self.assertRegex(output, f"(?m)^{line}$")
        self.assertEqual(self.nav("kinds", path, "--strict")[0], 1)

    def test_versions(self) -> None:
        self.assertEqual(self.nav("--version"), (0, "nav 0.1.0\nplan_tool 0.1.0\n", ""))

    def test_completions(self) -> None:
        for shell in ("bash", "zsh"):
            status, output, _ = self.nav("completions", shell)
            self.assertEqual(status, 0)
            for word in COMMANDS:
                self.assertIn(word, output)
            if shutil.which(shell):
                subprocess.run([shell, "-n"], input=output.encode(), check=True)
        words = self.nav("query", "--help")[1] + self.nav("plan", "--help")[1]
        for flag in FLAGS:
            self.assertIn(flag, words + "--version")

    def test_a_number_that_names_nothing(self) -> None:
        for nodes, why in (
            ('["filter",0,7]', "it names expression 7, and there are 1, from 0 on"),
            ('["filter",9,0]', "it reads node 9, and there are 3, from 0 on"),
            ('["filter",1,0]', "it reads itself"),
            ('["map",0,5]', "it names function 5, and there are 2, from 0 on"),
            ('["sink",0]', "a sink stands below the root"),
            ('["union",[],null]', "it has no input"),
        ):
            given = (
                '{"tables":[[["b","bool",[true]]]],"exprs":[["col","b"]],'
                f'"nodes":[["scan",0,null],{nodes},["sink",1]],"root":2}}'
            )
            with self.subTest(nodes):
                status, _, told = self.nav("check", "-", given=given.encode())
                self.assertEqual(status, 4)
                self.assertIn("InvalidPlan Shape at 1", told)
                self.assertIn(f"  {why}", told)

    def test_a_program_that_is_named(self) -> None:
        del self.environment["PLAN_TOOL"]
        self.assertEqual(self.nav("check", self.example("totals"), "--plan-tool", find())[0], 0)
        status, _, told = self.nav("check", self.example("totals"), "--plan-tool", "/nowhere")
        self.assertEqual(status, 0)
        self.assertIn("/nowhere, which is no program", told)


if __name__ == "__main__":
    unittest.main()
