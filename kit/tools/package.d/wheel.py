#!/usr/bin/env -S python3 -B
"""Writes the wheel, the Python package with the shared library and git-proved inside: wheel.py PREFIX FOLDER

It is tagged for the oldest glibc that both run on.
"""

from __future__ import annotations

import base64
import hashlib
import os
import sys

from archives import PROGRAMS, File, bytes_of, needs_of, python_package, write, zip_of
from documents import origin

VERSION = os.environ["VERSION"]
SONAME = os.environ["SONAME"]
NAME = f"gix_revision_proved-{VERSION}"
URLS = f"Project-URL: Source, {os.environ['URL']}\n" if os.environ["URL"] else ""

METADATA = f"""Metadata-Version: 2.1
Name: gix-revision-proved
Version: {VERSION}
Summary: Merge bases, commit descriptions and git revisions, over proved code
License: MIT OR Apache-2.0
Platform: Linux, x86-64-v2
Requires-Python: >=3.10
{URLS}Description-Content-Type: text/markdown

{bytes_of("bindings/python/README.md").decode()}
{origin()}
"""


def row_of(it: File) -> str:
    """Returns the row of RECORD about a file."""
    digest = base64.urlsafe_b64encode(hashlib.sha256(it.data).digest()).rstrip(b"=").decode()
    return f"{it.path},sha256={digest},{len(it.data)}\n"


def contents(prefix: str, tag: str) -> list[File]:
    info = f"{NAME}.dist-info"
    described = f"Wheel-Version: 1.0\nGenerator: gix_revision ({VERSION})\nRoot-Is-Purelib: false\nTag: {tag}\n"
    files = python_package()
    files.append(File(f"gix_revision_proved/{SONAME}", bytes_of(f"{prefix}/lib/{SONAME}")))
    # Repository finds the program beside the library, and git finds the one that pip puts into bin/.
    program = bytes_of(f"{prefix}/{PROGRAMS}/git-proved")
    for folder in ("gix_revision_proved", f"{NAME}.data/scripts"):
        files.append(File(f"{folder}/git-proved", program, runs=True))
    for it in ("LICENSE-APACHE", "LICENSE-MIT", "THIRD-PARTY"):
        files.append(File(f"{info}/licenses/{it}", bytes_of(f"{prefix}/share/licenses/gix_revision/{it}")))
    return [*files, File(f"{info}/METADATA", METADATA.encode()), File(f"{info}/WHEEL", described.encode())]


def main(prefix: str, folder: str) -> None:
    major, minor = needs_of(f"{prefix}/lib/{SONAME}", f"{prefix}/{PROGRAMS}/git-proved").glibc
    tag = f"py3-none-manylinux_{major}_{minor}_x86_64"
    files = contents(prefix, tag)
    record = f"{NAME}.dist-info/RECORD"
    rows = "".join(map(row_of, files)) + f"{record},,\n"
    write(f"{folder}/{NAME}-{tag}.whl", zip_of([*files, File(record, rows.encode())]))


main(*sys.argv[1:])
