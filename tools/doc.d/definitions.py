"""Reads definitions (`specs/*.antt`), each with the comment above it."""

from __future__ import annotations

import re
from dataclasses import dataclass, field

_START = re.compile(r"^( *)(abbrev|unfoldable|pub record|pub data|record|data)( pub)? ([^ :(]+)")
_USE = re.compile(r"^(pub )?use Rattle\.([\w.]+?)(?:\.\{([^}]*)\})?(?: as (\w+))?;?$")


@dataclass
class Definition:
    crate: str
    file: str
    name: str
    word: str
    comment: list[str]
    lines: list[str]
    # The line `module _ (..) where` that it is below.
    module: str
    # Constructors of `data`, fields of a record.
    members: list[str] = field(default_factory=list)

    @property
    def key(self) -> tuple[str, str, str]:
        return (self.crate, self.file, self.name)

    @property
    def anchor(self) -> str:
        return f"specs.{self.file}.{self.name}"

    @property
    def size(self) -> int:
        return len(self.comment) + len(self.lines)

    def right_side(self) -> str:
        """Returns what stands behind the sign of equality, if there is one equation without cases."""
        body = [it for it in self.lines[1:] if not it.startswith(" ")]
        text = "\n".join(self.lines)
        at = re.search(rf"^{re.escape(self.name)} =\s+", text, re.M)
        return text[at.end() :] if at and len(body) == 1 else ""


@dataclass
class SpecFile:
    crate: str
    name: str
    doc: list[str] = field(default_factory=list)
    definitions: list[Definition] = field(default_factory=list)
    # What a name means: a path from a crate on. What `pub use` gives is also in `exported`.
    imported: dict[str, list[str]] = field(default_factory=dict)
    exported: dict[str, list[str]] = field(default_factory=dict)


def uses(lines: list[str]) -> list[tuple[str, list[str], bool]]:
    """Returns of some lines of `use` the names that they give, the path of each, and whether it is public."""
    found = []
    for line in lines:
        it = _USE.match(re.sub(r"\s+", " ", line.strip()))
        if not it:
            continue
        path = it[2].split(".")
        if it[3] is None:
            found.append((it[4] or path[-1], path, bool(it[1])))
        for name in (it[3] or "").split(","):
            name, _, alias = name.strip().partition(" as ")
            if name:
                found.append((alias.strip() or name, [*path, name], bool(it[1])))
    return found


def read(text: str, crate: str, name: str) -> SpecFile:
    file = SpecFile(crate, name)
    lines = text.split("\n")
    module, comment, at, is_front = "", [], 0, True
    while at < len(lines):
        line, start = lines[at], _START.match(lines[at])
        if line.strip().startswith("--"):
            comment.append(line.strip()[2:].strip())
        elif start:
            depth, first = len(start[1]), at
            at += 1
            while at < len(lines) and not _ends(lines, at, depth, start[4]):
                at += 1
            taken = [it[depth:] for it in lines[first:at]]
            while not taken[-1].strip():
                taken.pop()
            if not depth:
                module = ""
            it = Definition(crate, name, start[4], start[2].removeprefix("pub "), comment, taken, module)
            if it.word in ("record", "data"):
                it.members = [member for line in taken[1:] for member in re.findall(r"^  (?:pub )?([^\s:(]+) :", line)]
            file.definitions.append(it)
            comment, is_front = [], False
            continue
        elif line.startswith("module "):
            module, comment = line.removesuffix(" where"), []
        else:
            if is_front and comment and not file.doc:
                file.doc = comment
            comment = []
            is_front = is_front and (not line or "use " in line)
            for alias, path, is_public in uses([line]):
                file.imported[alias] = path
                if is_public:
                    file.exported[alias] = path
        at += 1
    return file


def _ends(lines: list[str], at: int, depth: int, name: str) -> bool:
    """Tests whether a definition does not go on in this line."""
    line = lines[at]
    if not line.strip():
        after = next((it for it in lines[at:] if it.strip()), "")
        return not after or (len(after) - len(after.lstrip()) <= depth and not after.strip().startswith(f"{name} "))
    indent = len(line) - len(line.lstrip())
    return indent < depth or (indent == depth and (line.strip().startswith("--") or bool(_START.match(line)) or line.startswith("module ")))
