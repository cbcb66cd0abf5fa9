"""Each case of the files beside this one ends as it says."""

from __future__ import annotations

import pathlib
import unittest

from trials.cases import end_of, read

FILES = sorted(pathlib.Path(__file__).resolve().parent.glob("*/*.txt"))


class Cases(unittest.TestCase):
    def test_there_are_cases(self) -> None:
        self.assertTrue(FILES)

    def test_each_case_ends_as_it_says(self) -> None:
        for path in FILES:
            for case in read(path):
                with self.subTest(at=case.place, words=" ".join(case.words)):
                    self.assertIn(end_of(case.words, case.document), case.ends)


if __name__ == "__main__":
    unittest.main()
