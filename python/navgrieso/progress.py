"""A bar on a terminal's standard error, for what takes long."""
from __future__ import annotations

import sys
import time
from typing import TextIO

WIDTH = 20
# So many seconds pass before a bar is shown, and between two changes of it.
BEFORE, BETWEEN = 1.0, 0.1


class Progress:
    """A bar that is shown from a second on, where the stream is a terminal; elsewhere nothing is
    written."""

    def __init__(self, stream: TextIO | None = None) -> None:
        self._stream = sys.stderr if stream is None else stream
        self._is_shown = self._stream.isatty()
        self._begun = self._next = time.monotonic()
        self._next += BEFORE
        self._what, self._part = "", 0.0
        self._drawn = 0

    def at(self, what: str, part: float) -> None:
        """Says what is done now, and which part of all is done, from 0 to 1."""
        self._what, self._part = what, min(max(part, 0.0), 1.0)
        self.wait()

    def wait(self) -> None:
        """Draws the bar again where it is time for it."""
        now = time.monotonic()
        if self._is_shown and now >= self._next:
            self._next = now + BETWEEN
            full = round(self._part * WIDTH)
            bar = "#" * full + "." * (WIDTH - full)
            self._draw(f"[{bar}] {self._what}, {now - self._begun:.0f} s")

    def end(self) -> None:
        """Takes the bar away."""
        if self._drawn:
            self._draw("")

    def _draw(self, text: str) -> None:
        self._stream.write("\r" + text.ljust(self._drawn) + ("" if text else "\r"))
        self._stream.flush()
        self._drawn = len(text)
