#!/usr/bin/env -S python3 -B
"""Writes the three packages for Debian and its kin: debs.py PREFIX FOLDER

- gix-revision-proved has the programs, their manual pages, the completion, and documents.
- libgix-revisionN has the shared library; N is the end of its soname.
- libgix-revision-dev has the header, the archive, the files for pkg-config and CMake, and documents.

No package has a script that runs when it is installed.
"""

from __future__ import annotations

import hashlib
import os
import re
import sys
import textwrap
from email.utils import formatdate
from typing import NamedTuple

from archives import EPOCH, PROGRAMS, File, ar_of, bytes_of, files_below, folders_of, gzip_of, needs_of, tar_of, write, xz_of
from documents import OF_PROGRAMS, documents, origin, pages

VERSION = os.environ["VERSION"]
SONAME = os.environ["SONAME"]
NUMBER = SONAME.removeprefix("libgix_revision.so.")
LIBRARY = f"libgix-revision{NUMBER}"
MAINTAINER = "The gix_revision developers <maintainers@users.noreply.baeftolk.example>"
# Where Debian has libraries, so that several architectures can be installed.
FOLDER = "usr/lib/x86_64-linux-gnu"

WHAT = """\
 gix_revision finds merge bases, describes commits by their tags, and resolves
 revisions such as main~2 and v1.0..topic. The answers of the library come from
 calls with a machine-checked proof. git-proved reads names and options by code
 that is tested, not proved.
 .
"""

# What lintian reports and is wanted so, by package, with the reason.
OVERRIDES = {
    "gix-revision-proved": """\
# The programs are not compiled from C.
gix-revision-proved: hardening-no-fortify-functions [usr/libexec/gix_revision/bin/*]
""",
}


class Package(NamedTuple):
    """A package: its fields of control, its files, and the other files of its control archive."""

    name: str
    section: str
    depends: str
    summary: str
    text: str
    files: list[File]
    control: list[File] = []
    multi_arch: str = ""
    recommends: str = ""


def programs(prefix: str) -> Package:
    files = []
    for it in files_below(prefix):
        if it.path.startswith("share/man/"):
            files.append(File(f"usr/{it.path}.gz", gzip_of(it.data)))
        elif it.path.startswith(("bin/", "libexec/", "share/bash-completion/")):
            files.append(it.at(f"usr/{it.path}"))
    files += pages("usr/share/doc/gix-revision-proved", OF_PROGRAMS)
    text = " The package has the programs: git-proved, which git runs as `git proved`,\n git-proved-or-git, revtool and from-git.\n"
    depends = depends_of(*(f"{prefix}/{PROGRAMS}/{it}" for it in ("git-proved", "revtool")))
    # git runs git-proved as `git proved`; git-proved-or-git and from-git run git.
    return Package("gix-revision-proved", "vcs", depends, "merge bases, descriptions and revisions of git, proved", text, files, recommends="git")


def exported() -> list[tuple[str, str]]:
    """Returns the symbols of the shared library, and the first two numbers of the version that had each first."""
    found = []
    for node, since, names in re.findall(r"^(GIX_REVISION_([\d.]+)) \{(.*?)^\}", bytes_of("library.map").decode(), re.M | re.S):
        found += [(f"{it}@{node}", since) for it in [node, *re.findall(r"\bgix_\w+(?=;)", names)]]
    return sorted(found)


def library(prefix: str) -> Package:
    path = f"{prefix}/lib/{SONAME}"
    symbols = f"{SONAME} {LIBRARY} #MINVER#\n* Build-Depends-Package: libgix-revision-dev\n"
    symbols += "".join(f" {it} {since}.0\n" for it, since in exported())
    control = [
        File("shlibs", f"libgix_revision {NUMBER} {LIBRARY} (>= {VERSION})\n".encode()),
        File("symbols", symbols.encode()),
        File("triggers", b"activate-noawait ldconfig\n"),
    ]
    files = [File(f"{FOLDER}/{SONAME}", bytes_of(path))]
    text = " The package has the shared library.\n"
    return Package(LIBRARY, "libs", depends_of(path), "proved answers about git histories: library", text, files, control, "same")


# The functions of gix_repository.h, which a program compiles.
REPOSITORY = "share/gix_revision/gix_repository.c"


def development(prefix: str) -> Package:
    described = bytes_of(f"{prefix}/lib/pkgconfig/gix_revision.pc").replace(b"/lib\n", b"/lib/x86_64-linux-gnu\n")
    files = [
        *(File(f"usr/{it}", bytes_of(f"{prefix}/{it}")) for it in ("include/gix_revision.h", "include/gix_repository.h", REPOSITORY)),
        File(f"{FOLDER}/libgix_revision.a", bytes_of(f"{prefix}/lib/libgix_revision.a")),
        File(f"{FOLDER}/libgix_revision.so", SONAME.encode(), is_link=True),
        File(f"{FOLDER}/pkgconfig/gix_revision.pc", described),
        *(it.at(f"{FOLDER}/{it.path[4:]}") for it in files_below(prefix) if it.path.startswith("lib/cmake/")),
        *documents("usr/share/doc/libgix-revision-dev"),
    ]
    summary, depends = "proved answers about git histories: files for development", f"{LIBRARY} (= {VERSION})"
    text = " The package has the C headers, the static library, the files for pkg-config\n and CMake, and the documents.\n"
    return Package("libgix-revision-dev", "libdevel", depends, summary, text, files, [], "same")


def depends_of(*paths: str) -> str:
    """Returns what a package with these programs and shared libraries depends on."""
    needs = needs_of(*paths)
    libc = "libc6 (>= {}.{})".format(*needs.glibc)
    return ", ".join([libc, *(it for it in needs.packages if it != "libc6")])


def field(text: str) -> str:
    """Returns a text as the lines of a field after its first one."""
    return "".join(f" {it or '.'}\n" for it in text.rstrip("\n").split("\n"))


def copyright_of(prefix: str) -> bytes:
    """Returns the file `copyright`, with the license of this project and those of the toolchain's crates."""
    holder, mit = re.fullmatch(r".*^Copyright \(c\) (.*?)\n+(.*)", bytes_of("LICENSE-MIT").decode(), re.M | re.S).groups()
    third = bytes_of(f"{prefix}/share/licenses/gix_revision/THIRD-PARTY").decode()
    return f"""Format: https://www.debian.org/doc/packaging-manuals/copyright-format/1.0/
Upstream-Name: gix_revision
Comment:
 The compiled code also contains parts of crates of the Rattle toolchain. These
 are their licenses.
 .
{field(third)}
Files: *
Copyright: {holder}
License: MIT or Apache-2.0

License: MIT
{field(mit)}
License: Apache-2.0
 On Debian systems, /usr/share/common-licenses/Apache-2.0 has this license.
""".encode()


def changelog() -> bytes:
    change = textwrap.fill(origin(), 78, initial_indent="  * ", subsequent_indent="    ")
    head, foot = f"gix-revision-proved ({VERSION}) unstable; urgency=medium", f" -- {MAINTAINER}  {formatdate(EPOCH)}"
    return gzip_of(f"{head}\n\n{change}\n\n{foot}\n".encode())


def with_documents(package: Package, prefix: str) -> list[File]:
    """Returns the files of a package, with those that each package has."""
    folder = f"usr/share/doc/{package.name}"
    files = [*package.files, File(f"{folder}/copyright", copyright_of(prefix)), File(f"{folder}/changelog.gz", changelog())]
    if package.name in OVERRIDES:
        files.append(File(f"usr/share/lintian/overrides/{package.name}", OVERRIDES[package.name].encode()))
    return files


def control_of(package: Package, files: list[File]) -> bytes:
    # In KiB, with a block for each folder and each link, as dpkg-gencontrol counts.
    size = sum(1 if it.is_link else -(-len(it.data) // 1024) for it in files) + len(folders_of(files))
    lines = [f"Package: {package.name}"]
    if package.name != "gix-revision-proved":
        lines.append("Source: gix-revision-proved")
    lines += [f"Version: {VERSION}", "Architecture: amd64", f"Maintainer: {MAINTAINER}", f"Installed-Size: {size}"]
    lines += [f"Depends: {package.depends}"]
    if package.recommends:
        lines += [f"Recommends: {package.recommends}"]
    lines += [f"Section: {package.section}", "Priority: optional"]
    if os.environ["URL"]:
        lines.append(f"Homepage: {os.environ['URL']}")
    if package.multi_arch:
        lines.append(f"Multi-Arch: {package.multi_arch}")
    return ("\n".join(lines) + f"\nDescription: {package.summary}\n{WHAT}{package.text}").encode()


def deb_of(package: Package, prefix: str) -> bytes:
    files = with_documents(package, prefix)
    sums = "".join(f"{hashlib.md5(it.data).hexdigest()}  {it.path}\n" for it in sorted(files) if not it.is_link)
    control = [File("control", control_of(package, files)), File("md5sums", sums.encode()), *package.control]
    members = [("debian-binary", b"2.0\n"), ("control.tar.xz", xz_of(tar_of(control, "."))), ("data.tar.xz", xz_of(tar_of(files, ".")))]
    return ar_of(members)


def main(prefix: str, folder: str) -> None:
    for package in (programs(prefix), library(prefix), development(prefix)):
        write(f"{folder}/{package.name}_{VERSION}_amd64.deb", deb_of(package, prefix))


main(*sys.argv[1:])
