"""Tables of other libraries, by stand-ins where these aren't installed: what the client calls of
them."""
import importlib.util
import unittest

import navgrieso as nav

CELLS = {"a": [1, None, 3], "t": ["x", "", None], "b": [True, None, False]}


class Arrow:
    """As a table of pyarrow."""

    def to_pydict(self) -> dict:
        return CELLS


class Polars:
    """As a DataFrame of Polars."""

    def with_columns(self) -> None:
        """What tells it from pandas."""

    def to_dict(self, as_series: bool = True) -> dict:
        assert not as_series
        return CELLS


class Number(int):
    """As a number of numpy."""

    def item(self) -> int:
        return int(self)


class Column(list):
    """As a column of pandas."""

    def isna(self) -> list:
        return [cell is None for cell in self]


class Pandas:
    """As a DataFrame of pandas."""

    columns = list(CELLS)

    def isna(self) -> None:
        """What tells it from others."""

    def __getitem__(self, name: str) -> Column:
        return Column(Number(it) if type(it) is int else it for it in CELLS[name])


class OtherTables(unittest.TestCase):
    def test_stand_ins(self) -> None:
        for kind in (Arrow, Polars, Pandas):
            with self.subTest(kind.__name__):
                answer = nav.table(kind()).collect()
                self.assertEqual(answer.to_dict(), CELLS)
                self.assertEqual(
                    answer.schema, {"a": nav.Int64, "t": nav.String, "b": nav.Boolean}
                )
        with self.assertRaises(TypeError):
            nav.table([1, 2])

    def test_floats_of_pandas(self) -> None:
        class Floats(Pandas):
            columns = ["a"]

            def __getitem__(self, name: str) -> Column:
                return Column([1.0, None])

        with self.assertRaisesRegex(ValueError, "column 'a': .*convert_dtypes"):
            nav.table(Floats())

    def test_those_that_are_installed(self) -> None:
        answer = nav.table(CELLS).with_row_index().collect()
        for library, made in (
            ("polars", "to_polars"),
            ("pandas", "to_pandas"),
            ("pyarrow", "to_arrow"),
        ):
            if importlib.util.find_spec(library) is not None:
                with self.subTest(library):
                    again = nav.table(
                        getattr(answer, made)(), schema={"index": nav.IdxSize}
                    ).collect()
                    self.assertEqual(
                        (again.schema, again.to_dict()), (answer.schema, answer.to_dict())
                    )


if __name__ == "__main__":
    unittest.main()
