"""Writes archives whose bytes depend only on the files in them: tar, ar and zip.

Every file belongs to root, and has the time SOURCE_DATE_EPOCH.
"""

from __future__ import annotations

import gzip
import io
import lzma
import os
import re
import subprocess
import tarfile
import time
import zipfile
from typing import NamedTuple

EPOCH = int(os.environ["SOURCE_DATE_EPOCH"])

# Where a program is looked for in the installed files. Links in `bin` lead there.
PROGRAMS = "libexec/gix_revision/bin"
# What loads a program, and the shared libraries that it may need, each with Debian's package.
LOADER = b"/lib64/ld-linux-x86-64.so.2\0"
LIBRARIES = dict.fromkeys(("libc.so.6", "libm.so.6", "libpthread.so.0", "libdl.so.2", "librt.so.1", "ld-linux-x86-64.so.2"), "libc6")
LIBRARIES["libgcc_s.so.1"] = "libgcc-s1"


class File(NamedTuple):
    """A file of a package: its path, its bytes, and whether it can be run. A link has its target as bytes."""

    path: str
    data: bytes
    runs: bool = False
    is_link: bool = False

    def at(self, path: str) -> File:
        return self._replace(path=path)


def files_below(folder: str) -> list[File]:
    """Returns all files below a folder, sorted by path."""
    found = []
    for at, _, names in os.walk(folder):
        for name in names:
            path = f"{at}/{name}"
            shown = os.path.relpath(path, folder)
            if os.path.islink(path):
                found.append(File(shown, os.readlink(path).encode(), is_link=True))
            else:
                found.append(File(shown, bytes_of(path), os.access(path, os.X_OK)))
    return sorted(found)


def bytes_of(path: str) -> bytes:
    with open(path, "rb") as file:
        return file.read()


def python_package() -> list[File]:
    """Returns the modules for Python."""
    files = [it for it in files_below("bindings/python") if it.path.startswith("gix_revision") and "__pycache__" not in it.path]
    return [it for it in files if it.path.endswith((".py", "py.typed"))]


def folders_of(files: list[File]) -> list[str]:
    """Returns the folders of some files, each after those above it."""
    found = set()
    for it in files:
        parts = it.path.split("/")[:-1]
        found |= {"/".join(parts[: k + 1]) for k in range(len(parts))}
    return sorted(found)


def header(path: str, kind: bytes, mode: int, size: int = 0, link: str = "") -> tarfile.TarInfo:
    info = tarfile.TarInfo(path)
    info.type, info.mode, info.size, info.linkname = kind, mode, size, link
    info.uname = info.gname = "root"
    info.mtime = EPOCH
    return info


def tar_of(files: list[File], top: str) -> bytes:
    """Returns a tar archive of files with their folders, all below the folder `top`."""
    out = io.BytesIO()
    with tarfile.open(fileobj=out, mode="w", format=tarfile.GNU_FORMAT) as tar:
        tar.addfile(header(f"{top}/", tarfile.DIRTYPE, 0o755))
        for it in folders_of(files):
            tar.addfile(header(f"{top}/{it}/", tarfile.DIRTYPE, 0o755))
        for it in sorted(files):
            if it.is_link:
                tar.addfile(header(f"{top}/{it.path}", tarfile.SYMTYPE, 0o777, link=it.data.decode()))
            else:
                mode = 0o755 if it.runs else 0o644
                tar.addfile(header(f"{top}/{it.path}", tarfile.REGTYPE, mode, len(it.data)), io.BytesIO(it.data))
    return out.getvalue()


def xz_of(data: bytes) -> bytes:
    return lzma.compress(data, preset=6)


def gzip_of(data: bytes) -> bytes:
    """Returns the bytes of `gzip -9n`: no name and no time."""
    return gzip.compress(data, 9, mtime=0)


def ar_of(members: list[tuple[str, bytes]]) -> bytes:
    """Returns an ar archive."""
    out = b"!<arch>\n"
    for name, data in members:
        out += f"{name:<16}{EPOCH:<12}{0:<6}{0:<6}{'100644':<8}{len(data):<10}`\n".encode() + data + b"\n" * (len(data) % 2)
    return out


def zip_of(files: list[File]) -> bytes:
    """Returns a zip archive of files in their order. The first year of its times is 1980."""
    out = io.BytesIO()
    with zipfile.ZipFile(out, "w") as archive:
        for it in files:
            info = zipfile.ZipInfo(it.path, time.gmtime(max(EPOCH, 315532800))[:6])
            info.compress_type, info.create_system = zipfile.ZIP_DEFLATED, 3
            info.external_attr = (0o100755 if it.runs else 0o100644) << 16
            archive.writestr(info, it.data, compresslevel=9)
    return out.getvalue()


class Needs(NamedTuple):
    """What native files need: the oldest glibc that has it all, and Debian's packages of their shared libraries."""

    glibc: tuple[int, int]
    packages: list[str]


def needs_of(*paths: str) -> Needs:
    """Returns what programs and shared libraries need together. Ends with a message if one would not run elsewhere.

    The version of glibc is at least 2.5, the oldest that a wheel may name.
    """
    versions, packages = [(2, 5)], set()
    for path in paths:
        data = bytes_of(path)
        if not data.startswith(b"\x7fELF"):
            raise SystemExit(f"tools/package: '{path}' is not a native program or library")
        said = subprocess.run(["objdump", "-p", path], check=True, stdout=subprocess.PIPE, text=True).stdout
        if " INTERP " in said and LOADER not in data:
            raise SystemExit(f"tools/package: '{path}' is not loaded by {LOADER[:-1].decode()}")
        if re.search(r"^ *(RPATH|RUNPATH) ", said, re.M):
            raise SystemExit(f"tools/package: '{path}' looks for libraries in a folder of this machine")
        for name in re.findall(r"^ *NEEDED +(\S+)", said, re.M):
            if name not in LIBRARIES:
                raise SystemExit(f"tools/package: '{path}' needs {name}, which no package depends on")
            packages.add(LIBRARIES[name])
        versions += [(int(major), int(minor)) for major, minor in re.findall(r" GLIBC_(\d+)\.(\d+)", said)]
        # Compact relocations, which glibc 2.36 was the first to read.
        versions += [(2, 36)] * (" GLIBC_ABI_DT_RELR" in said)
    return Needs(max(versions), sorted(packages))


def write(path: str, data: bytes) -> None:
    with open(path, "wb") as file:
        file.write(data)
