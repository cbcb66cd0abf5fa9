"""Runs the command `nav`, by pipes and on a terminal of its own."""
import os
import pty
import re
import select
import struct
import subprocess
import sys
import tempfile
import termios
import unittest
from fcntl import ioctl

from navgrieso.program import find

TOP = os.path.join(os.path.dirname(os.path.abspath(__file__)), "..", "..")
EXAMPLES = os.path.join(TOP, "examples")
ORDERS = os.path.join(EXAMPLES, "orders.csv")
CUSTOMERS = os.path.join(EXAMPLES, "customers.csv")
ENVIRONMENT = {**os.environ, "PYTHONPATH": os.path.join(TOP, "python"), "PYTHONUTF8": "1"}
# Without what is installed beside Python: the client needs nothing of it.
NAV = [sys.executable, "-S", "-m", "navgrieso"]


class Command(unittest.TestCase):
    def setUp(self) -> None:
        self.room = self.enterContext(tempfile.TemporaryDirectory())
        self.environment = dict(ENVIRONMENT, PLAN_TOOL=find())

    def file(self, name: str, text: str) -> str:
        path = os.path.join(self.room, name)
        with open(path, "w", encoding="utf-8") as file:
            file.write(text)
        return path

    def nav(self, *words: str, given: bytes = b"") -> tuple[int, str, str]:
        """Runs `nav` by pipes: its status, and what it wrote."""
        ran = subprocess.run(
            [*NAV, *words], input=given, capture_output=True, env=self.environment, check=False
        )
        return ran.returncode, ran.stdout.decode(), ran.stderr.decode()

    def terminal(self, *words: str, columns: int = 80) -> str:
        """What `nav` writes on a terminal, without the bar that a slow machine sees."""
        ours, its = pty.openpty()
        ioctl(its, termios.TIOCSWINSZ, struct.pack("HHHH", 24, columns, 0, 0))
        environment = {
            name: value
            for name, value in self.environment.items()
            if name not in ("COLUMNS", "LINES")
        }
        started = subprocess.Popen(
            [*NAV, *words], stdin=its, stdout=its, stderr=its, env=environment
        )
        os.close(its)
        seen = b""
        while select.select([ours], [], [], 120)[0]:
            try:
                more = os.read(ours, 65536)
            except OSError:
                break
            if not more:
                break
            seen += more
        self.assertEqual(started.wait(120), 0, seen)
        os.close(ours)
        return re.sub(r"\r[^\n]*\r", "", seen.decode().replace("\r\n", "\n"))
