"""Builds the package for pip, without any other package: the two hooks of PEP 517 that are mandatory.

The shared library and git-proved are not inside; kit/tools/package.d/wheel.py makes the wheel that has them.
"""

from __future__ import annotations

import base64
import hashlib
import io
import os
import re
import tarfile
import zipfile

TOP = os.path.dirname(os.path.abspath(__file__))
SOURCES = ("pyproject.toml", "backend.py", "README.md")


def read(path: str) -> str:
    with open(f"{TOP}/{path}", encoding="utf-8") as file:
        return file.read()


def field(name: str) -> str:
    """Returns a text of pyproject.toml."""
    found = re.search(rf'^{name} = "([^"]*)"$', read("pyproject.toml"), re.M)
    if found is None:
        raise ValueError(f"pyproject.toml has no {name}")
    return found[1]


VERSION = field("version")
TITLE = f"gix_revision_proved-{VERSION}"
METADATA = f"""Metadata-Version: 2.1
Name: {field("name")}
Version: {VERSION}
Summary: {field("description")}
License: MIT OR Apache-2.0
Requires-Python: {field("requires-python")}
Description-Content-Type: text/markdown

{read("README.md")}"""


def modules() -> list[str]:
    """Returns the paths of the files that are installed."""
    found = ["gix_revision.py"]
    for at, folders, names in os.walk(f"{TOP}/gix_revision_proved"):
        folders[:] = [it for it in folders if it != "__pycache__"]
        found += [os.path.relpath(f"{at}/{it}", TOP) for it in names]
    return sorted(found)


def row_of(path: str, text: str) -> str:
    """Returns the row of RECORD about a file."""
    data = text.encode()
    digest = base64.urlsafe_b64encode(hashlib.sha256(data).digest()).rstrip(b"=").decode()
    return f"{path},sha256={digest},{len(data)}\n"


def build_wheel(wheel_directory: str, config_settings: object = None, metadata_directory: str | None = None) -> str:
    info, name = f"{TITLE}.dist-info", f"{TITLE}-py3-none-any.whl"
    wheel = "Wheel-Version: 1.0\nGenerator: gix_revision\nRoot-Is-Purelib: true\nTag: py3-none-any\n"
    files = {it: read(it) for it in modules()} | {f"{info}/METADATA": METADATA, f"{info}/WHEEL": wheel}
    files[f"{info}/RECORD"] = "".join(row_of(*it) for it in files.items()) + f"{info}/RECORD,,\n"
    with zipfile.ZipFile(f"{wheel_directory}/{name}", "w", zipfile.ZIP_DEFLATED) as archive:
        for path, text in files.items():
            archive.writestr(path, text)
    return name


def build_sdist(sdist_directory: str, config_settings: object = None) -> str:
    name = f"{TITLE}.tar.gz"
    with tarfile.open(f"{sdist_directory}/{name}", "w:gz") as archive:
        for path in [*SOURCES, *modules()]:
            archive.add(f"{TOP}/{path}", f"{TITLE}/{path}")
        info = tarfile.TarInfo(f"{TITLE}/PKG-INFO")
        info.size = len(METADATA.encode())
        archive.addfile(info, io.BytesIO(METADATA.encode()))
    return name
