"""Documents that are none, told by path; the checker and the program say the same of each."""
import json
import os
import unittest

import navgrieso as nav
from navgrieso.checker import flaws_of
from navgrieso.program import ask

WHOLE = {
    "tables": [
        [
            ["a", "int", [1, None]],
            ["t", "str", ["x", ""]],
            ["b", "bool", [True, None]],
            ["i", "idx", [0, 4294967295]],
        ]
    ],
    "exprs": [["col", "a"], ["int", 1], ["gt", 0, 1]],
    "nodes": [["scan", 0, None], ["filter", 0, 2], ["sink", 1]],
    "root": 2,
}


def changed(*path: object, to: object) -> bytes:
    made = json.loads(json.dumps(WHOLE))
    at = made
    for step in path[:-1]:
        at = at[step]
    at[path[-1]] = to
    return json.dumps(made).encode()


def entry(value: list) -> bytes:
    return changed("nodes", 1, to=value)


TEXT = json.dumps(WHOLE).encode()
NUMBER = "a number is wanted, and not "
FLAWED = [
    (entry(["filter", "x", 2]), "nodes[1][1]", NUMBER + '"x"'),
    (entry(["filter", 0, True]), "nodes[1][2]", NUMBER + "true"),
    (entry(["filter", 0]), "nodes[1]", "'filter' has 2 parts behind it, and not 1"),
    (entry(["filtre", 0, 2]), "nodes[1][0]", '"filtre" is no word of a node'),
    (
        entry([]),
        "nodes[1]",
        "an array that begins with the word of a node is wanted, and not an array of 0",
    ),
    (
        entry(["slice", 0, 2**63, 1]),
        "nodes[1][2]",
        f"a number from {-(2**63)} to {2**63 - 1} is wanted, and not {2**63}",
    ),
    (
        entry(["slice", 0, 0, -1]),
        "nodes[1][3]",
        f"a number from 0 to {2**64 - 1} is wanted, and not -1",
    ),
    (
        entry(["select", 0, [["x"]]]),
        "nodes[1][2][0]",
        "an array of 2 is wanted, and not an array of 1",
    ),
    (
        entry(["join", 0, 0, "outer", [0], [0], None, False, "m:m", None]),
        "nodes[1][3]",
        'one of inner, left, right, full, semi, anti, cross is wanted, and not "outer"',
    ),
    (
        entry(["row_index", 0, "n", -1]),
        "nodes[1][3]",
        "a number from 0 to 4294967295 is wanted, and not -1",
    ),
    (
        entry(["distinct", 0, None, False, "all", None]),
        "nodes[1][4]",
        'one of first, last, any, none is wanted, and not "all"',
    ),
    (entry(["union", [0], [1]]), "nodes[1][2]", "an array of 2 is wanted, and not an array of 1"),
    (entry(["left_out", "Validation"]), "nodes[1][1]", None),
    (entry(["scan", 1, None]), "nodes[1][1]", "there is no table 1: the document has 1"),
    (changed("exprs", 1, to=["int", 1.0]), "exprs[1][1]", "a whole number is wanted, and not 1.0"),
    (changed("exprs", 1, to=["idx", 2**32]), "exprs[1][1]", None),
    (changed("exprs", 1, to=["cast", 0, "float", True]), "exprs[1][2]", None),
    (
        changed("exprs", 1, to=["sort_by", 0, [0], False, [False]]),
        "exprs[1][3]",
        "an array is wanted, and not false",
    ),
    (changed("tables", 0, 0, 2, 0, to=True), "tables[0][0][2][0]", NUMBER + "true"),
    (changed("tables", 0, 1, 2, 1, to=7), "tables[0][1][2][1]", "a text is wanted, and not 7"),
    (
        changed("tables", 0, 2, 2, 1, to=0),
        "tables[0][2][2][1]",
        "true or false is wanted, and not 0",
    ),
    (changed("tables", 0, 3, 2, to=[0]), "tables[0][3][2]", "1 cells stand in a table of 2 rows"),
    (changed("tables", 0, 1, 0, to="a"), "tables[0][1][0]", 'the name "a" stands twice'),
    (changed("tables", 0, 1, to=["t", "str"]), "tables[0][1]", None),
    (changed("root", to="2"), "root", NUMBER + '"2"'),
    (changed("more", to=1), "more", "no document has this member"),
    (TEXT.replace(b'"root": 2', b'"root": -0'), "root", "a whole number is wanted, and not -0"),
    (TEXT.replace(b', "root": 2', b""), "root", "this member is missing"),
    (
        b"[]",
        "",
        "an object with the members tables, exprs, nodes, root is wanted, and not an array of 0",
    ),
    (b'{"tables": NaN}', "", "this is no JSON: NaN stands where a value is wanted"),
    (TEXT[:-1], "", None),
    (TEXT + b"x", "", None),
    (b"\xff", "", "this is no JSON: byte 0 is no UTF-8"),
    (b"", "", None),
    (b"[" * 128 + b"]" * 128, "", None),
    (b"[" * 100_000 + b"]" * 100_000, "", None),
    (TEXT.replace(b'"x"', b'"\\ud800"'), None, None),
]
RIGHT = [
    TEXT,
    b" \n" + TEXT + b"\t",
    TEXT.replace(b'"root": 2', b'"root": 1, "root": 2'),
    entry(["filter", 0, 99]),
    entry(["scan", 0, ["a"]]),
    entry(["map", 0, 77]),
    changed("root", to=2**64 - 1),
    changed("tables", to=[*WHOLE["tables"], []]),
    entry(["slice", 0, -(2**63), 2**64 - 1]),
    entry(["left_out", "Alias"]),
]


class Checker(unittest.TestCase):
    def test_flaws_have_their_paths(self) -> None:
        for text, path, why in FLAWED:
            with self.subTest(text[:200]):
                flaws = flaws_of(text)
                self.assertTrue(flaws)
                if path is not None:
                    self.assertEqual(flaws[0].path, path)
                if why is not None:
                    self.assertEqual(flaws[0].why, why)
                # The program says so too, in one word.
                self.assertEqual(ask(["run"], text).status, 3)

    def test_documents_have_none(self) -> None:
        for text in RIGHT:
            with self.subTest(text[:200]):
                self.assertEqual(flaws_of(text), [])
                self.assertNotEqual(ask(["run"], text).status, 3)

    def test_the_examples_have_none(self) -> None:
        folder = os.path.join(os.path.dirname(__file__), "..", "..", "examples")
        for name in os.listdir(folder):
            if name.endswith(".json"):
                with self.subTest(name), open(os.path.join(folder, name), "rb") as file:
                    self.assertEqual(flaws_of(file.read()), [])

    def test_all_flaws_are_told(self) -> None:
        text = json.dumps(
            {**WHOLE, "root": None, "nodes": [["sink", "x"], ["sink", "y"]]}
        ).encode()
        self.assertEqual(
            [flaw.path for flaw in flaws_of(text)], ["nodes[0][1]", "nodes[1][1]", "root"]
        )

    def test_an_exception_tells_them(self) -> None:
        with self.assertRaisesRegex(nav.InvalidDocument, r"nodes\[1\]\[1\]: a number is wanted"):
            nav.answer(entry(["filter", "x", 2]))


if __name__ == "__main__":
    unittest.main()
