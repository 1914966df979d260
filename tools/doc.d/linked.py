"""Writes signatures, clauses and definitions as HTML, in which each name leads to what it means."""

from __future__ import annotations

import re
from html import escape
from typing import Callable
from urllib.parse import quote

import definitions
from definitions import Definition
from project import Project, Target
from rattle import Item

# The width up to which the text of a clause stays on one line.
WIDTH = 88

_LOGIC = re.compile(r"""--[^\n]*|"(?:\\.|[^"\\])*"|(?<!\w)(?P<name>[^\W\d][\w']*(?:\.[\w']+)*)""")
_CODE = re.compile(r"""//[^\n]*|"(?:\\.|[^"\\])*"|'[a-z_]\w*|(?P<name>[^\W\d]\w*(?:::[^\W\d]\w*)*)(?P<bind>\s*:(?!:))?""")

Lookup = Callable[[str], "Target | None"]


def place(text: str) -> str:
    """Returns a place as it is written in a link."""
    return quote(text, safe="#.:/-")


def laid_out(text: str) -> str:
    """Breaks the text of a clause before arrows, factors and arguments, as far as it is too long."""
    if "--" in text or "record" in text and "\n" in text:
        lines = text.split("\n")
        least = min((len(it) - len(it.lstrip()) for it in lines[1:] if it.strip()), default=0)
        return "\n".join([lines[0], *(it[least:] if least < 4 else "  " + it[least:] for it in lines[1:])])
    return _broken(re.sub(r"\s+", " ", text).strip(), ("→", "×", "⊎", "↔", "≡", "("), 0)


def _broken(text: str, signs: tuple[str, ...], indent: int) -> str:
    if len(text) + indent <= WIDTH or not signs:
        return text
    # What a sign and one pair of brackets enclose is broken inside of them.
    front = 2 if text[0] in "→×⊎↔≡" else 0
    if text[front] == "(" and _end_of(text, front) == len(text) - 1:
        inner = _broken(text[front + 1 : -1], ("→", "×", "⊎", "↔", "≡", "("), indent + front + 1)
        return f"{text[: front + 1]}{inner})"
    depth, cuts = 0, []
    for at, it in enumerate(text):
        if it == signs[0] and depth == 0 and at > front and text[at - 1] == " ":
            cuts.append(at)
        depth += (it in "([{⟦") - (it in ")]}⟧")
    if not cuts:
        return _broken(text, signs[1:], indent)
    parts = [text[a:b].strip() for a, b in zip([0, *cuts], [*cuts, len(text)])]
    pad = "\n" + " " * (indent + 2)
    return pad.join(_broken(it, signs if it is not parts[0] else signs[1:], indent + 2) for it in parts)


def _end_of(text: str, at: int) -> int:
    """Returns where the bracket at a place is closed."""
    depth = 0
    for k in range(at, len(text)):
        depth += (text[k] in "([{⟦") - (text[k] in ")]}⟧")
        if depth == 0:
            return k
    return -1


class Linker:
    def __init__(self, project: Project) -> None:
        self.project = project
        self.known: dict[object, dict[str, list[str]]] = {}
        # Names of these crates that are imported, and not found.
        self.lost: set[str] = set()

    # What names mean at a place.

    def of_item(self, item: Item, owner: Item | None = None) -> Lookup:
        """Returns what names mean in a clause of an item."""
        found: dict[str, Target | None] = {}
        imported: dict[str, list[str]] = {}
        for scope in item.scopes:
            key = tuple(scope.ghost_uses)
            if key not in self.known:
                self.known[key] = {name: path for name, path, _ in definitions.uses([f"use Rattle.{it.removeprefix('Rattle.')}" for it in scope.ghost_uses])}
            imported.update(self.known[key])

        def look(name: str) -> Target | None:
            if name not in found:
                found[name] = None
                if name in imported:
                    found[name] = self.project.meaning(imported[name])
                elif owner and owner.kind == "trait" and (member := self.project.member(owner, name)):
                    found[name] = self.of_code(member, f"{owner.name}::{name}")
                else:
                    there = self.project.find(item.crate, item.module, [name])
                    if isinstance(there, Item) and there.kind != "fn":
                        found[name] = self.of_code(there, name)
            return found[name]

        return look

    def of_code(self, item: Item, name: str) -> Target:
        shown = self.project.place_of(item)
        return Target(f"{item.crate}::{item.anchor.replace('.', '::')}" if shown else f"private: {item.crate}::{'::'.join((*item.module, name))}", shown, item=item)

    def of_file(self, definition: Definition) -> Lookup:
        """Returns what names mean in a definition."""
        file = self.project.crates[definition.crate].specs[definition.file]
        own = {it.name: it for it in file.definitions}
        own.update({member: it for it in file.definitions if it.word == "data" for member in it.members if member not in own})

        def look(name: str) -> Target | None:
            if name in own:
                it = own[name]
                return Target(f"{it.crate}/{it.file}", f"{it.crate}.html#{it.anchor}", it)
            return self.project.meaning(file.imported[name]) if name in file.imported else None

        return look

    # Text as HTML.

    def logic(self, text: str, look: Lookup, local: set[str], refs: list[Target], item: Item | None = None) -> str:
        bound = {word for it in re.findall(r"λ ([^.]*?)\.|[({]([\w' ]+) :", text) for word in " ".join(it).split()} | local
        out, at = [], 0
        for it in _LOGIC.finditer(text):
            out.append(escape(text[at : it.start()], quote=False))
            at = it.end()
            name = it["name"]
            if name is None:
                shown = escape(it[0], quote=False)
                out.append(f'<span class="c">{shown}</span>' if shown.startswith("--") else shown)
            elif (text[it.start() - 1 : it.start()] == "." and it.start()) or re.match(r" =(?!=)", text[at : at + 3]):
                out.append(escape(name, quote=False))
            else:
                out.append(self.name(name, look, bound, refs, item))
        return "".join(out) + escape(text[at:], quote=False)

    def name(self, name: str, look: Lookup, bound: set[str], refs: list[Target], item: Item | None) -> str:
        first, dot, rest = name.partition(".")
        second, dot_after, tail = rest.partition(".")
        if item and dot:
            for trait in [it for scope in item.scopes for it in scope.bounds.get(first, [])]:
                if member := self.project.ghost(item, trait, second):
                    refs.append(self.of_code(member, second))
                    return f"{first}.{self.link(second, refs[-1])}{dot_after}{tail}"
        target = None if first in bound else look(first)
        if target is None:
            return escape(name, quote=False)
        inner = None
        if dot and target.below and second:
            inner = self.project.meaning([*target.below, second])
        elif dot and target.item and target.item.kind == "enum" and (member := self.project.member(target.item, second)):
            inner = self.of_code(member, second)
        if inner and (inner.place or inner.definition or inner.item):
            refs.append(inner)
            return self.link(f"{first}.{second}", inner) + dot_after + escape(tail, quote=False)
        refs.append(target)
        return self.link(first, target) + dot + escape(rest, quote=False)

    def link(self, shown: str, target: Target) -> str:
        shown, title = escape(shown, quote=False), escape(target.title)
        if target.place:
            return f'<a href="{place(target.place)}" title="{title}">{shown}</a>'
        if title.split(".")[0] in self.project.crates and not target.item:
            self.lost.add(target.title)
        return f'<span title="{title}">{shown}</span>'

    def definition(self, it: Definition, refs: list[Target]) -> str:
        look, text = self.of_file(it), "\n".join(it.lines)
        local = {it.name, *(it.members if it.word == "record" else [])}
        if it.word == "data":
            local |= set(it.members)
        for left in re.findall(rf"^{re.escape(it.name)} (.*?) =(?:\s|$)", text, re.M):
            for word in re.findall(r"[^\W\d][\w']*", left):
                target = look(word)
                if word[0].islower() and not (target and target.definition and word in target.definition.members):
                    local.add(word)
        local |= {word for names in re.findall(r"[({]([\w' ]+) :", it.module) for word in names.split()}
        return self.logic(text, look, local, refs)

    def code(self, text: str, item: Item) -> str:
        """Returns a signature in which types lead to where they are."""
        out, at = [], 0
        for it in _CODE.finditer(text):
            name = it["name"]
            if not name or it["bind"]:
                continue
            there = self.project.find(item.crate, item.module, name.split("::"))
            shown = self.project.place_of(there) if isinstance(there, Item) and there is not item else ""
            if shown:
                out += [escape(text[at : it.start("name")], quote=False), f'<a href="{place(shown)}">{escape(name)}</a>']
                at = it.end("name")
        return "".join(out) + escape(text[at:], quote=False)
