"""Python's operators over expressions."""
from __future__ import annotations

from typing import Self


class Operators:
    """What has Python's operators, each told by its word in a document.

    Both sides have one kind. Whole numbers wrap, `//` rounds down, and by 0 both `//` and `%` are
    null. Comparisons with null are null, `&` and `|` are three-valued as in SQL.
    """

    __slots__ = ()

    def _before(self, word: str, other: object) -> Self:
        """The operator over this expression and another operand."""
        raise NotImplementedError

    def _behind(self, word: str, other: object) -> Self:
        """The operator over another operand and this expression."""
        raise NotImplementedError

    def _alone(self, word: str) -> Self:
        """The operator over this expression alone."""
        raise NotImplementedError

    # Two expressions may be equal in each row: what they are is told by identity.
    __hash__ = object.__hash__

    def __add__(self, other: object) -> Self:
        return self._before("add", other)

    def __radd__(self, other: object) -> Self:
        return self._behind("add", other)

    def __sub__(self, other: object) -> Self:
        return self._before("sub", other)

    def __rsub__(self, other: object) -> Self:
        return self._behind("sub", other)

    def __mul__(self, other: object) -> Self:
        return self._before("mul", other)

    def __rmul__(self, other: object) -> Self:
        return self._behind("mul", other)

    def __floordiv__(self, other: object) -> Self:
        return self._before("floordiv", other)

    def __rfloordiv__(self, other: object) -> Self:
        return self._behind("floordiv", other)

    def __mod__(self, other: object) -> Self:
        return self._before("mod", other)

    def __rmod__(self, other: object) -> Self:
        return self._behind("mod", other)

    def __eq__(self, other: object) -> Self:  # type: ignore[override]
        return self._before("eq", other)

    def __ne__(self, other: object) -> Self:  # type: ignore[override]
        return self._before("ne", other)

    def __lt__(self, other: object) -> Self:
        return self._before("lt", other)

    def __le__(self, other: object) -> Self:
        return self._before("le", other)

    def __gt__(self, other: object) -> Self:
        return self._before("gt", other)

    def __ge__(self, other: object) -> Self:
        return self._before("ge", other)

    def __and__(self, other: object) -> Self:
        return self._before("and", other)

    def __rand__(self, other: object) -> Self:
        return self._behind("and", other)

    def __or__(self, other: object) -> Self:
        return self._before("or", other)

    def __ror__(self, other: object) -> Self:
        return self._behind("or", other)

    def __invert__(self) -> Self:
        return self._alone("not")
