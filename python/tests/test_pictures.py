"""Pictures of plans: DOT, SVG by Graphviz where it is installed, and the plain drawing."""
import json
import os
import re
import tempfile
import unittest
import xml.etree.ElementTree as xml
from unittest import mock

import navgrieso as nav
from navgrieso import col
from navgrieso.asking import read_document
from navgrieso.labels import label_of
from navgrieso.pictures import picture

from .test_examples import EXAMPLES, text_of, totals

LABELS = {
    "totals": [
        "scan table 0",
        "scan table 1",
        'inner join(col("customer") = col("id"))',
        'group_by(col("name")).agg(total = col("amount").sum())',
        'sort(col("total"), descending=True)',
        "sink",
    ],
    "scan": ["scan table 0 (degrees, city)", "sink"],
    "hstack": [
        "scan table 0",
        'with_columns(degrees = when(col("degrees").is_null()).then(0).otherwise(col("degrees")), '
        'frost = col("degrees") < 0)',
        "sink",
    ],
    "union": ["scan table 0", "scan table 1", "concat vertical.slice(1, 2)", "sink"],
    "distinct": ["scan table 0", "unique(city, keep first)", "sink"],
    "row_index": ["scan table 0", "with_row_index(row, 10)", "sink"],
    "left_out": ["left_out MergeSorted", "sink"],
}


def boxes_of(svg: str) -> list[tuple[float, float, float, float]]:
    """The boxes of a plain drawing: left, top, right and bottom."""
    found = re.findall(r'<rect x="([\d.]+)" y="([\d.]+)" width="([\d.]+)" height="([\d.]+)"', svg)
    return [(float(x), float(y), float(x) + float(w), float(y) + float(h)) for x, y, w, h in found]


class Pictures(unittest.TestCase):
    def plainly(self) -> mock._patch:
        return mock.patch("shutil.which", lambda name: None)

    def test_labels(self) -> None:
        for name, labels in LABELS.items():
            with self.subTest(name):
                document = json.loads(text_of(f"{name}.json"))
                self.assertEqual(
                    [label_of(document, at) for at in range(len(document["nodes"]))], labels
                )

    def test_each_example_is_drawn(self) -> None:
        for name in sorted(os.listdir(EXAMPLES)):
            if name.endswith(".json"):
                with self.subTest(name), self.plainly():
                    built = read_document(text_of(name))
                    made = picture(built.document, built.schemas)
                    svg = made.svg()
                    xml.fromstring(svg)
                    self.assertEqual(len(boxes_of(svg)), len(made.boxes))

    def test_boxes_stand_apart_and_over_what_they_read(self) -> None:
        with self.plainly():
            made = totals().show()
            boxes = boxes_of(made.svg())
        for at, (left, top, right, bottom) in enumerate(boxes):
            for other_left, other_top, other_right, other_bottom in boxes[:at]:
                self.assertTrue(
                    right < other_left
                    or other_right < left
                    or bottom < other_top
                    or other_bottom < top
                )
        places = {box.number: place for box, place in zip(made.boxes, boxes)}
        for box in made.boxes:
            for below in box.below:
                self.assertLess(places[box.number][3], places[below][1])

    def test_dot(self) -> None:
        dot = totals().show().dot()
        self.assertIn('  n0 [label = "0: scan table 0\\ncustomer int, amount int"]\n', dot)
        self.assertEqual(len(re.findall(r"^  n\d+ -> n\d+$", dot, re.MULTILINE)), 5)
        read = nav.read_csv(os.path.join(EXAMPLES, "orders.csv")).show().dot()
        self.assertRegex(read, r"0: scan [^\n]*orders\.csv")
        odd = nav.table({'a "b" \\ \n\x00<&': [1]}).show()
        self.assertIn('a \\"b\\" \\\\ \\\\n\\\\x00<&', odd.dot())

    def test_svg_is_xml_whatever_the_names(self) -> None:
        odd = (
            nav.table({'a "b" \\ \n\x00<&>': [1], "日本": [2]}).filter(col("日本") == "</svg>").show()
        )
        xml.fromstring(odd.svg())
        with self.plainly():
            xml.fromstring(odd.svg())
            self.assertIn("</svg>", odd._repr_svg_())

    def test_saved(self) -> None:
        room = self.enterContext(tempfile.TemporaryDirectory())
        for name, begins in (("a.svg", "<"), ("a.dot", "digraph plan {")):
            path = os.path.join(room, name)
            totals().show(path)
            with open(path, encoding="utf-8") as file:
                self.assertTrue(file.read().startswith(begins))

    def test_plans_that_are_refused(self) -> None:
        # A node that reads itself, and one that isn't there.
        made = read_document(
            '{"tables":[],"exprs":[],"nodes":[["union",[0,7],null],["sink",0]],"root":1}'
        )
        for patch in (self.plainly(), mock.patch("os.getpid", os.getpid)):
            with patch:
                xml.fromstring(picture(made.document, made.schemas).svg())
        self.assertEqual(made.schemas, [None, None])

    def test_many_ways_are_drawn_in_time(self) -> None:
        deep = nav.table({"a": [1]})
        for _ in range(60):
            deep = nav.concat([deep, deep])
        with self.plainly():
            self.assertEqual(len(boxes_of(deep.show().svg())), 122)


if __name__ == "__main__":
    unittest.main()
