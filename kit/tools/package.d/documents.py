"""The documents that packages have, and what each says of its origin."""

from __future__ import annotations

import os
import re

from archives import File, bytes_of, files_below

# The pages for users of the library, and those for users of the programs.
OF_LIBRARY = ("C", "LINES", "PROMISES", "TRUST", "DIFFERENCES", "PORTING")
OF_PROGRAMS = ("LINES", "DIFFERENCES", "PORTING")

_LINK = re.compile(r"(?<!!)\[([^\]]*)\]\(([^)#]*)(#[^)]*)?\)")
_PICTURE = re.compile(r"!\[[^\]]*\]\(([^)]*)\)")


def pages(folder: str, names: tuple[str, ...]) -> list[File]:
    """Returns these pages and their pictures. A link to a file that is not among them becomes plain text."""
    there = {"", *(f"{it}.md" for it in names)}
    files = {}
    for name in names:
        text = bytes_of(f"docs/{name}.md").decode()
        for picture in _PICTURE.findall(text):
            files[picture] = File(f"{folder}/{picture}", bytes_of(f"docs/{picture}"))
        kept = _LINK.sub(lambda it: it[0] if it[2] in there or "://" in it[2] else it[1], text)
        files[name] = File(f"{folder}/{name}.md", kept.encode())
    return list(files.values())


def documents(folder: str) -> list[File]:
    """Returns the pages for users of the library, the examples in C, and the reference in HTML."""
    examples = [File(f"{folder}/examples/{it}.c", bytes_of(f"examples/c/{it}.c")) for it in ("bases", "libgit2", "tasks")]
    reference = [it.at(f"{folder}/reference/{it.path}") for it in files_below("docs/reference")]
    return [*pages(folder, OF_LIBRARY), *examples, *reference]


def origin() -> str:
    """Returns the toolchain and the commit that a package is made with, in one line."""
    return f"Toolchain: {os.environ['TOOLCHAIN']}. Commit: {os.environ['COMMIT']}."
