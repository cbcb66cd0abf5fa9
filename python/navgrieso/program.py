"""The program `plan_tool`: where it stands, and what it says to a document."""
from __future__ import annotations

import contextlib
import os
import re
import shutil
import subprocess
import threading
from collections.abc import Callable, Iterator
from dataclasses import dataclass
from typing import IO

from .errors import ProgramFailed, ProgramNotFound

VARIABLE = "PLAN_TOOL"
# What `rt run` and `rt ci` leave in a checkout.
BUILT = os.path.join("crates", "plan_tool", "out", "plan_tool")

# So many seconds pass between two calls while the program runs.
PATIENCE = 0.2

NAMES_NODE = re.compile(r"([A-Za-z]+(?: [A-Za-z]+)?) at ([0-9]+)(?:: (.*))?", re.DOTALL)


@dataclass(frozen=True)
class Reply:
    """How the program ended: its status, what it wrote to standard output, and its line on
    standard error."""

    status: int
    output: bytes
    line: str

    def at_node(self) -> tuple[str, int | None, str]:
        """What the line says, at which node, and of which name; the number and the name where it
        has them."""
        found = NAMES_NODE.fullmatch(self.line)
        return (found[1], int(found[2]), found[3] or "") if found else (self.line, None, "")


def find(given: str | None = None) -> str:
    """The path of the program: the one that is given, or that the variable PLAN_TOOL names, or
    what `rt run` built in the checkout around this package or around the current folder.

    Raises ProgramNotFound where there is none.
    """
    for name, path in (("--plan-tool", given), (VARIABLE, os.environ.get(VARIABLE))):
        if path:
            found = shutil.which(path)
            if found is None:
                raise ProgramNotFound(f"{name} names {path}, which is no program")
            return os.path.abspath(found)
    for folder in _folders():
        path = os.path.join(folder, BUILT)
        if os.access(path, os.X_OK) and os.path.isfile(path):
            return path
    raise ProgramNotFound(
        f"there is no program to ask: set {VARIABLE} to the path of plan_tool, or build it by "
        f"`rt run` in crates/plan_tool, which leaves it at {BUILT}"
    )


def _folders() -> Iterator[str]:
    for start in (os.path.dirname(os.path.abspath(__file__)), os.getcwd()):
        while True:
            yield start
            above = os.path.dirname(start)
            if above == start:
                break
            start = above


def settings(
    workers: int | None = None, rows: int | None = None, serial: bool = False
) -> list[str]:
    """The settings of `run` as words."""
    words: list[str] = []
    if workers is not None:
        words += ["--workers", str(workers)]
    if rows is not None:
        words += ["--rows", str(rows)]
    return [*words, "--serial"] if serial else words


def ask(
    words: list[str],
    document: bytes,
    plan_tool: str | None = None,
    waiting: Callable[[], None] | None = None,
) -> Reply:
    """Runs the program with these words, and the document on its standard input. While it runs
    `waiting` is called from time to time.

    Raises ProgramNotFound, and ProgramFailed where the program was ended by a signal.
    """
    path = find(plan_tool)
    pipe = subprocess.PIPE
    try:
        with subprocess.Popen([path, *words], stdin=pipe, stdout=pipe, stderr=pipe) as started:
            try:
                output, told = _answer(started, document, waiting)
            except BaseException:
                # Also where the user has had enough.
                started.kill()
                raise
            status = started.returncode
    except OSError as error:
        raise ProgramFailed(f"{path} can't be run: {error}") from error
    line = told.decode("utf-8", "replace").removesuffix("\n")
    if status < 0:
        raise ProgramFailed(f"{path} was ended by signal {-status}", line=line)
    return Reply(status, output, line)


def _answer(
    started: subprocess.Popen[bytes], document: bytes, waiting: Callable[[], None] | None
) -> tuple[bytes, bytes]:
    """Gives the document to the program, and takes what it writes."""
    if waiting is None:
        return started.communicate(document)
    # A thread gives the document, since `communicate` forgets what it had to send when it stops
    # waiting.
    stdin, started.stdin = started.stdin, None
    giver = threading.Thread(target=_give, args=(stdin, document), daemon=True)
    giver.start()
    while True:
        try:
            said = started.communicate(timeout=PATIENCE)
            giver.join()
            return said
        except subprocess.TimeoutExpired:
            waiting()


def _give(stdin: IO[bytes], document: bytes) -> None:
    """Writes the document, as far as the program reads it."""
    with contextlib.suppress(BrokenPipeError), stdin:
        stdin.write(document)


def version(plan_tool: str | None = None) -> str:
    """What the program says of its name and version."""
    return ask(["--version"], b"", plan_tool).output.decode("utf-8").strip()
