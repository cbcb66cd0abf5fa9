"""Which columns of a CSV file were read as text though most of their fields look like something
else, and what kept them from it."""
from __future__ import annotations

import re
from collections import Counter
from collections.abc import Sequence
from dataclasses import dataclass

from .kinds import DIGITS, MOST_DIGITS, RANGES

# So many fields of a column are looked at, spread over it, to say what most of them look like.
MOST_SAMPLED = 1000
# Longer fields are cut where they are told.
MOST_FIELD = 30

NUMBER = re.compile(r"\s*[-+]?(?:[0-9][0-9,_' ]*(?:[.][0-9]*)?|[.][0-9]+)(?:[eE][-+]?[0-9]+)?\s*")
DATE = re.compile(
    r"[0-9]{1,4}([-/.])[0-9]{1,2}\1[0-9]{1,4}(?:[T ][0-9]{1,2}:[0-9]{2}(?::[0-9]{2}(?:[.][0-9]+)?)?"
    r"(?:Z|[-+][0-9:]+)?)?"
)
# Such dates stand in their order as texts too.
ORDERLY_DATE = re.compile(r"[0-9]{4}([-/.])[0-9]{2}\1[0-9]{2}(?:[T ].*)?")
TRUTHS = frozenset(("true", "false", "yes", "no"))
MISSING = frozenset(("na", "n/a", "#n/a", "nan", "null", "none", "nil", "-", "--", "?", "."))
# Other signs than a comma that may stand between fields.
SEPARATORS = {";": "';'", "\t": "tab", "|": "'|'"}


@dataclass(frozen=True)
class Doubt:
    """A column that is read as text, and the first field for which it is."""

    column: str
    line: int
    field: str
    why: str

    def __str__(self) -> str:
        return f"{self.column} is read as text: {self.short()}"

    def short(self) -> str:
        """What stands in which line, without the column."""
        text = self.field if self.field.strip() == self.field != "" else repr(self.field)
        text = text if len(text) <= MOST_FIELD else text[: MOST_FIELD - 2] + ".."
        return f"line {self.line} has {text}, and {self.why}"


def doubt_of(name: str, fields: Sequence[str | None], lines: Sequence[int]) -> Doubt | None:
    """The doubt about a column that is read as text: where more than half of its fields look like
    numbers, truth values, dates or words for null. None where most are plain texts, and of dates
    that stand in their order as texts."""
    step = max(1, len(fields) // MOST_SAMPLED)
    looks = Counter(_look(field) for field in fields[::step] if field)
    if not looks or looks["text"] * 2 >= looks.total():
        return None
    most = max(("number", "truth", "date"), key=lambda it: looks[it])
    if not looks[most]:
        most = "missing"
    # A text or a date after many numbers may be the first that isn't one.
    for line, field in zip(lines, fields):
        if field and (why := _why(field, most)):
            return Doubt(name, line, field, why)
    return None


def separator_doubt(names: Sequence[str]) -> str | None:
    """What is told where a header of one column holds a sign that may stand between fields."""
    if len(names) != 1:
        return None
    sign = next((it for it in SEPARATORS if it in names[0]), None)
    return (
        None
        if sign is None
        else f"one column is read, and its name has {SEPARATORS[sign]} in it: "
        f"--sep {SEPARATORS[sign]} says what stands between fields"
    )


def _look(field: str) -> str:
    """What a field looks like: a number, a truth value, a date, a word for null, or a text."""
    if NUMBER.fullmatch(field):
        return "number"
    if field.lower() in MISSING:
        return "missing"
    if field.lower() in TRUTHS:
        return "truth"
    return "date" if DATE.fullmatch(field) else "text"


def _why(field: str, most: str) -> str | None:
    """Why a field keeps its column from being what most of its fields look like."""
    if field.lower() in MISSING:
        return "null is an empty field"
    if most == "number":
        return _why_no_number(field)
    if most == "truth":
        return None if field in ("true", "false") else "truth values are true and false"
    if most == "date" and ORDERLY_DATE.fullmatch(field) is None:
        return "there are no dates: they stand in the order of their letters"
    return None


def _why_no_number(field: str) -> str | None:
    if not NUMBER.fullmatch(field):
        return "that is no whole number"
    text = field.strip()
    if text != field:
        return "a number has no blanks beside it"
    if any(it in text for it in "eE"):
        return "a whole number has digits alone"
    if "." in text:
        return "there are no decimals"
    if any(it in text for it in ",_' "):
        return "digits have nothing between them"
    if text.startswith("+"):
        return "a whole number has no plus"
    digits = text.removeprefix("-")
    if digits != "0" and digits.startswith("0"):
        return "a whole number has no zero in front"
    if text == "-0":
        return "the number is written 0"
    least, greatest = RANGES["int"]
    if len(text) > MOST_DIGITS or not DIGITS.fullmatch(text) or int(text) > greatest:
        return f"whole numbers end at {greatest}"
    return f"whole numbers begin at {least}" if int(text) < least else None
