"""Builds the package for pip with Python alone (PEP 517, PEP 660).

The wheel has the modules of the package and the metadata of pyproject.toml.
"""
from __future__ import annotations

import base64
import hashlib
import os
import tarfile
import tomllib
import zipfile
from typing import Any

HERE = os.path.dirname(os.path.dirname(os.path.abspath(__file__)))


def _project() -> dict[str, Any]:
    with open(os.path.join(HERE, "pyproject.toml"), "rb") as file:
        return tomllib.load(file)["project"]


def _files() -> dict[str, bytes]:
    """The package's modules by their paths, and the mark that they have types."""
    name = _project()["name"]
    folder = os.path.join(HERE, name)
    found = {}
    for module in sorted(os.listdir(folder)):
        if module.endswith(".py") or module == "py.typed":
            with open(os.path.join(folder, module), "rb") as file:
                found[f"{name}/{module}"] = file.read()
    return found


def _metadata() -> str:
    project = _project()
    with open(os.path.join(HERE, project["readme"]), encoding="utf-8") as file:
        readme = file.read()
    return "\n".join(
        [
            "Metadata-Version: 2.1",
            f"Name: {project['name']}",
            f"Version: {project['version']}",
            f"Summary: {project['description']}",
            f"Requires-Python: {project['requires-python']}",
            f"License: {project['license']['text']}",
            "Description-Content-Type: text/markdown",
            "",
            readme,
        ]
    )


def _write_wheel(folder: str, files: dict[str, bytes]) -> str:
    project = _project()
    stem = f"{project['name']}-{project['version']}"
    info = f"{stem}.dist-info"
    scripts = "".join(f"{name} = {call}\n" for name, call in project["scripts"].items())
    files = {
        **files,
        f"{info}/METADATA": _metadata().encode(),
        f"{info}/WHEEL": (
            b"Wheel-Version: 1.0\nGenerator: backend\nRoot-Is-Purelib: true\nTag: py3-none-any\n"
        ),
        f"{info}/entry_points.txt": f"[console_scripts]\n{scripts}".encode(),
    }
    record = "".join(
        f"{path},sha256={_digest(data)},{len(data)}\n" for path, data in files.items()
    )
    files[f"{info}/RECORD"] = f"{record}{info}/RECORD,,\n".encode()
    name = f"{stem}-py3-none-any.whl"
    with zipfile.ZipFile(os.path.join(folder, name), "w", zipfile.ZIP_DEFLATED) as wheel:
        for path, data in files.items():
            wheel.writestr(path, data)
    return name


def _digest(data: bytes) -> str:
    return base64.urlsafe_b64encode(hashlib.sha256(data).digest()).rstrip(b"=").decode()


def build_wheel(
    wheel_directory: str, config_settings: Any = None, metadata_directory: str | None = None
) -> str:
    """Writes the wheel into the folder, and gives its name."""
    return _write_wheel(wheel_directory, _files())


def build_editable(
    wheel_directory: str, config_settings: Any = None, metadata_directory: str | None = None
) -> str:
    """Writes a wheel that names this folder, so that the modules are used where they stand; gives
    its name."""
    return _write_wheel(wheel_directory, {f"{_project()['name']}.pth": f"{HERE}\n".encode()})


def build_sdist(sdist_directory: str, config_settings: Any = None) -> str:
    """Writes the sources into the folder, and gives the archive's name."""
    project = _project()
    stem = f"{project['name']}-{project['version']}"
    with tarfile.open(os.path.join(sdist_directory, f"{stem}.tar.gz"), "w:gz") as archive:
        for path in ("pyproject.toml", project["readme"], "building/backend.py", *_files()):
            archive.add(os.path.join(HERE, path), f"{stem}/{path}")
    return f"{stem}.tar.gz"
