"""The wheel that pip installs: all modules, with their digests, and the command."""
import base64
import csv
import hashlib
import importlib.util
import os
import tempfile
import unittest
import zipfile

import navgrieso as nav
from navgrieso.program import version

TOP = os.path.join(os.path.dirname(os.path.abspath(__file__)), "..")


class Package(unittest.TestCase):
    def setUp(self) -> None:
        spec = importlib.util.spec_from_file_location(
            "backend", os.path.join(TOP, "building", "backend.py")
        )
        self.backend = importlib.util.module_from_spec(spec)
        spec.loader.exec_module(self.backend)
        self.room = self.enterContext(tempfile.TemporaryDirectory())

    def files(self, name: str) -> dict[str, bytes]:
        with zipfile.ZipFile(os.path.join(self.room, name)) as wheel:
            return {path: wheel.read(path) for path in wheel.namelist()}

    def test_a_wheel_has_the_modules(self) -> None:
        name = self.backend.build_wheel(self.room)
        self.assertEqual(name, "navgrieso-0.1.0-py3-none-any.whl")
        files = self.files(name)
        modules = {
            f"navgrieso/{it}"
            for it in os.listdir(os.path.join(TOP, "navgrieso"))
            if it.endswith(".py")
        }
        self.assertEqual({path for path in files if path.endswith(".py")}, modules)
        self.assertIn("navgrieso/py.typed", files)
        info = "navgrieso-0.1.0.dist-info"
        self.assertEqual(
            files[f"{info}/entry_points.txt"], b"[console_scripts]\nnav = navgrieso.command:main\n"
        )
        self.assertIn(b"\nRequires-Python: >=3.11\n", files[f"{info}/METADATA"])
        told = {
            row[0]: row[1:] for row in csv.reader(files[f"{info}/RECORD"].decode().splitlines())
        }
        self.assertEqual(set(told), set(files))
        for path, (digest, size) in told.items():
            if digest:
                wanted = (
                    base64.urlsafe_b64encode(hashlib.sha256(files[path]).digest())
                    .decode()
                    .rstrip("=")
                )
                self.assertEqual((digest, int(size)), (f"sha256={wanted}", len(files[path])))

    def test_there_is_one_version(self) -> None:
        self.assertIn(f'version = "{nav.__version__}"', self.text("python", "pyproject.toml"))
        self.assertIn(f"\n## {nav.__version__}", self.text("CHANGELOG.md"))
        self.assertEqual(version(), f"plan_tool {nav.__version__}")

    def test_the_license(self) -> None:
        self.assertTrue(self.text("LICENSE").startswith("MIT License\n"))

    def text(self, *path: str) -> str:
        with open(os.path.join(TOP, "..", *path), encoding="utf-8") as file:
            return file.read()

    def test_an_editable_wheel_names_this_folder(self) -> None:
        files = self.files(self.backend.build_editable(self.room))
        self.assertEqual(
            os.path.realpath(files["navgrieso.pth"].decode().strip()), os.path.realpath(TOP)
        )

    def test_sources(self) -> None:
        self.assertEqual(self.backend.build_sdist(self.room), "navgrieso-0.1.0.tar.gz")


if __name__ == "__main__":
    unittest.main()
