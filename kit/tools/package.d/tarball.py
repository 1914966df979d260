#!/usr/bin/env -S python3 -B
"""Writes the tarball, all that is installed under one prefix: tarball.py PREFIX FOLDER

It may be unpacked anywhere: pkg-config finds the prefix from the place of its own file.
"""

from __future__ import annotations

import os
import sys

from archives import File, files_below, python_package, tar_of, write, xz_of
from documents import documents

TOP = f"gix-revision-proved-{os.environ['VERSION']}-x86_64-linux"


def moved(it: File) -> File:
    """Returns a file of the prefix /usr as it is in the tarball."""
    if not it.path.endswith(".pc"):
        return it
    return it._replace(data=it.data.replace(b"prefix=/usr\n", b"prefix=${pcfiledir}/../..\n"))


def main(prefix: str, folder: str) -> None:
    files = [moved(it) for it in files_below(prefix)] + documents("share/doc/gix_revision")
    files += [it.at(f"lib/{it.path}") for it in python_package()]
    write(f"{folder}/{TOP}.tar.xz", xz_of(tar_of(files, TOP)))


main(*sys.argv[1:])
