#!/usr/bin/env -S python3 -B
"""Writes the kit as a tarball, with which anybody links the objects: kit.py KIT FOLDER"""

from __future__ import annotations

import os
import sys

from archives import files_below, gzip_of, tar_of, write

TOP = f"gix-revision-proved-{os.environ['VERSION']}"


def main(kit: str, folder: str) -> None:
    # Each Debian has gzip, and not each has xz.
    write(f"{folder}/{TOP}.tar.gz", gzip_of(tar_of(files_below(kit), TOP)))


main(*sys.argv[1:])
