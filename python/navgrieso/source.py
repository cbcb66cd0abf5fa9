"""The user's line of code."""
from __future__ import annotations

import linecache
import os
import sys

PACKAGE = os.path.dirname(os.path.abspath(__file__))


def source_line() -> str:
    """The line of code outside this package that asked, as `FILE:LINE: TEXT`; empty where there is
    none."""
    frame = sys._getframe(1)
    while (
        frame is not None and os.path.dirname(os.path.abspath(frame.f_code.co_filename)) == PACKAGE
    ):
        frame = frame.f_back
    if frame is None:
        return ""
    file, line = frame.f_code.co_filename, frame.f_lineno
    text = linecache.getline(file, line).strip()
    return f"{file}:{line}: {text}" if text else f"{file}:{line}"
