"""Reads sources of Rattle (`*.rt`): items with their doc comments, signatures and clauses.

A file is cut into tokens, and brackets are matched, before anything is looked for: a word in a comment, a string or a
body is never taken for an item.
"""

from __future__ import annotations

import re
from dataclasses import dataclass, field

_TOKEN = re.compile(
    r"""(?P<doc>//[/!](?!/)[^\n]*) | (?P<comment>//[^\n]*|/\*.*?\*/)
    | (?P<string>b?r(?P<hashes>\#*)".*?"(?P=hashes) | b?c?"(?:\\.|[^"\\])*")
    | (?P<char>b?'(?:\\(?:x..|u\{[^}]*\}|.)|[^\\'\n])') | (?P<life>'\w+)
    | (?P<word>[^\W\d]\w*'*) | (?P<number>\d\w*) | (?P<arrow>->|=>) | (?P<mark>\S)""",
    re.X | re.S,
)
_CLOSED_BY = {"(": ")", "[": "]", "{": "}"}


@dataclass
class Clause:
    """A clause of a contract: the word before its name, its name, the comment above it, and its text."""

    word: str
    name: str
    comment: str
    text: str


@dataclass
class Scope:
    """What names mean at a place: lines of `ghost use`, and bounds of type parameters."""

    ghost_uses: list[str] = field(default_factory=list)
    bounds: dict[str, list[str]] = field(default_factory=dict)


@dataclass
class Item:
    kind: str
    name: str
    is_public: bool
    doc: list[str]
    head: str
    clauses: list[Clause] = field(default_factory=list)
    members: list["Item"] = field(default_factory=list)
    scopes: list[Scope] = field(default_factory=list)
    trait: str = ""
    # The head of the implementation that it is in.
    within: str = ""
    local: set[str] = field(default_factory=set)
    # Where it is declared, and where a reader finds it.
    crate: str = ""
    module: tuple[str, ...] = ()
    anchor: str = ""


@dataclass
class Module:
    """A file, or a module within one."""

    doc: list[str] = field(default_factory=list)
    items: list[Item] = field(default_factory=list)
    impls: list[Item] = field(default_factory=list)
    # Of each `use`: the path, the name that it gives (`*` for all), and whether it is public.
    uses: list[tuple[list[str], str, bool]] = field(default_factory=list)
    # Of each module: its name, whether it is public, and what is in it if it is in this file.
    modules: list[tuple[str, bool, "Module | None"]] = field(default_factory=list)
    # The order of what is public, items and uses.
    order: list[object] = field(default_factory=list)
    scope: Scope = field(default_factory=Scope)


def use_leaves(text: str, front: tuple[str, ...] = ()) -> list[tuple[list[str], str]]:
    """Returns the paths of a `use`, and the name that each gives: `a::{b, c as d}` has two."""
    text = text.strip()
    at = text.find("{")
    if at < 0:
        path, _, alias = text.partition(" as ")
        parts = [*front, *(it.strip() for it in path.split("::") if it.strip())]
        if parts[-1] == "self":
            parts.pop()
        return [(parts, alias.strip() or parts[-1])]
    front = (*front, *(it.strip() for it in text[:at].split("::") if it.strip()))
    found, depth, start = [], 0, at + 1
    for k in range(at, len(text)):
        depth += {"{": 1, "}": -1}.get(text[k], 0)
        if (text[k] == "," and depth == 1) or (text[k] == "}" and depth == 0):
            if text[start:k].strip():
                found += use_leaves(text[start:k], front)
            start = k + 1
    return found


def bounds_of(head: str) -> dict[str, list[str]]:
    """Returns the traits that a head asks of its type parameters."""
    found: dict[str, list[str]] = {}
    for name, traits in re.findall(r"\b([A-Z]\w*)\s*:(?!:)\s*((?:'?\w+(?:::\w+)*(?:<[^<>]*>)?\s*\+?\s*)+)", head):
        found.setdefault(name, []).extend(re.findall(r"[A-Z]\w*", traits))
    return found


class _Reader:
    def __init__(self, text: str) -> None:
        self.text = text
        self.tokens = [(it.lastgroup if it.lastgroup != "hashes" else "string", it[0], it.start()) for it in _TOKEN.finditer(text)]
        self.pair: dict[int, int] = {}
        opened: list[int] = []
        for at, (kind, word, _) in enumerate(self.tokens):
            if kind == "mark" and word in _CLOSED_BY:
                opened.append(at)
            elif kind == "mark" and opened and word == _CLOSED_BY[self.tokens[opened[-1]][1]]:
                self.pair[opened.pop()] = at
        if opened:
            raise ValueError(f"the bracket at byte {self.tokens[opened[0]][2]} is never closed")

    def word(self, at: int) -> str:
        return self.tokens[at][1] if at < len(self.tokens) else ""

    def start(self, at: int) -> int:
        return self.tokens[at][2] if at < len(self.tokens) else len(self.text)

    def end(self, at: int) -> int:
        return self.tokens[at][2] + len(self.tokens[at][1])

    def between(self, first: int, last: int) -> str:
        """Returns the text from one token up to another one, indented as if it began a line."""
        start = self.start(first)
        column = start - self.text.rfind("\n", 0, start) - 1
        return re.sub(rf"\n {{0,{column}}}", "\n", self.text[start : self.start(last)]).strip()

    def inside(self, at: int) -> str:
        return self.text[self.end(at) : self.start(self.pair[at])].strip()

    def past(self, at: int) -> int:
        """Returns the place behind a token, or behind what it opens."""
        return self.pair.get(at, at) + 1

    def until(self, at: int, end: int, stops: str) -> int:
        """Returns the first place of one of some marks outside of brackets; a comma also outside of angle brackets."""
        depth = 0
        while at < end:
            kind, word, _ = self.tokens[at]
            if kind == "mark" and word in stops and depth <= 0:
                return at
            depth += (word == "<") - (word == ">") if kind == "mark" and stops == "," else 0
            at = self.past(at)
        return end

    def comment_above(self, at: int) -> str:
        """Returns the comment whose last line is directly above a token."""
        lines = []
        while at > 0 and self.tokens[at - 1][0] == "comment" and "\n\n" not in self.text[self.end(at - 1) : self.start(at)].replace(" ", ""):
            at -= 1
            lines.insert(0, self.word(at)[2:].strip())
        return " ".join(lines)

    def head(self, item: Item, start: int, at: int, end: int) -> int:
        """Reads signature and clauses up to the body or the semicolon; returns the place behind the item."""
        first = 0
        while at < end and self.word(at) not in "{;":
            kind, word, _ = self.tokens[at]
            if kind == "word" and word in ("ensures", "requires", "ghost"):
                key, name_at = word, at + 1
                if self.word(name_at) == "*":
                    key, name_at = key + "*", name_at + 1
                name = self.word(name_at) if self.tokens[name_at][0] == "word" else ""
                open_at = name_at + (1 if name else 0) + (1 if word == "ghost" else 0)
                if self.word(open_at) == "{":
                    first = first or at
                    item.clauses.append(Clause(key, name, self.comment_above(at), self.inside(open_at)))
                    at = self.past(open_at)
                    continue
            at = self.past(at)
        last = first or at
        while self.tokens[min(last, len(self.tokens)) - 1][0] == "comment":
            last -= 1
        item.head = self.between(start, last)
        item.local |= {"result", "self"} | {it.name for it in item.clauses if it.word == "ghost"} | set(re.findall(r"\b([a-z_]\w*)\s*:(?!:)", item.head))
        item.scopes.append(Scope([], bounds_of(item.head)))
        return self.past(at)

    def fields(self, at: int, end: int) -> list[Item]:
        """Reads fields of a struct, or variants of an enum."""
        found, doc = [], []
        while at < end:
            kind, word, _ = self.tokens[at]
            if kind == "doc":
                doc.append(word[3:])
            elif word == "#":
                at = self.past(at + 1)
                continue
            elif kind != "comment" and word != ",":
                stop = self.until(at, end, ",")
                is_public = word == "pub" and self.word(at + 1) != "("
                name_at = at + (1 if is_public else 0)
                name_at = name_at + 1 if self.word(name_at) == "ghost" else name_at
                found.append(Item("field", self.word(name_at), is_public, doc, self.between(at, stop)))
                doc, at = [], stop
            at += 1
        return found

    def items(self, at: int, end: int, module: Module, scopes: list[Scope], is_inside: bool = False) -> list[Item]:
        """Reads the items between two places. Those of a trait or an implementation are only returned."""
        found: list[Item] = []
        doc: list[str] = []
        while at < end:
            kind, word, _ = self.tokens[at]
            if kind == "doc":
                (module.doc if word.startswith("//!") else doc).append(word[3:])
                at += 1
                continue
            if word == "#":
                at += 2 if self.word(at + 1) == "!" else 1
                at = self.past(at)
                continue
            if kind != "word":
                at = self.past(at)
                continue
            start, is_public = at, False
            if word == "pub":
                is_public = self.word(at + 1) != "("
                at = at + 1 if is_public else self.past(at + 1)
            while self.is_before_fn(at):
                at += 1
            word, name = self.word(at), self.word(at + 1)
            item = Item(word, name, is_public, doc, "", scopes=[*scopes])
            doc = []
            if word == "use" or (word == "ghost" and name == "use"):
                stop = self.until(at, end, ";")
                text = self.between(at + (2 if word == "ghost" else 1), stop)
                if word == "ghost":
                    scopes[-1].ghost_uses.append(text)
                else:
                    leaves = [(path, name, is_public) for path, name in use_leaves(text)]
                    module.uses += leaves
                    module.order += leaves
                at = stop + 1
            elif word == "mod":
                inner = None
                if self.word(at + 2) == "{":
                    inner = Module(scope=Scope([*module.scope.ghost_uses]))
                    self.items(at + 3, self.pair[at + 2], inner, [inner.scope])
                module.modules.append((name, is_public, inner))
                at = self.past(at + 2)
            elif word == "fn":
                at = self.head(item, start, at, end)
                found.append(item)
            elif word in ("struct", "union", "enum", "trait", "impl"):
                stop = self.until(at, end, "{;")
                item.head = self.between(start, stop)
                own = Scope([], bounds_of(item.head))
                if word == "trait":
                    own.bounds["Self"] = [name, *own.bounds.get(name, [])]
                item.scopes.append(own)
                if self.word(stop) == "{":
                    inside = (stop + 1, self.pair[stop])
                    item.members = self.fields(*inside) if word in ("struct", "union", "enum") else self.items(*inside, module, [*scopes, own], True)
                if word == "impl":
                    self.impl(item, at, stop)
                    module.impls.append(item)
                else:
                    found.append(item)
                at = self.past(stop)
            elif word in ("const", "static", "type"):
                stop = self.until(at, end, ";")
                item.head = self.between(start, stop)
                found.append(item)
                at = stop + 1
            elif word == "ghost":
                stop = self.until(at, end, ";,")
                item.head = self.between(start, stop)
                found.append(item)
                at = stop + 1
            else:
                at = self.past(at)
        if not is_inside:
            module.items += found
            module.order += found
        return found

    def is_before_fn(self, at: int) -> bool:
        """Tests whether a word, such as `unsafe`, only says more of the function whose declaration it is in."""
        if self.word(at) == "const":
            return self.word(at + 1) in ("fn", "unsafe", "extern")
        return self.word(at) in ("unsafe", "extern", "default") or self.tokens[at][0] == "string"

    def impl(self, item: Item, at: int, stop: int) -> None:
        """Finds for which type an implementation is, and of which trait."""
        at += 1
        if self.word(at) == "<":
            depth = 0
            while at < stop:
                depth += (self.word(at) == "<") - (self.word(at) == ">")
                at += 1
                if depth == 0:
                    break
        where = next((k for k in range(at, stop) if self.word(k) == "where"), stop)
        split = next((k for k in range(at, where) if self.word(k) == "for" and self.word(k + 1) != "<"), 0)
        item.trait = self.between(at, split) if split else ""
        item.name = self.between(split + 1 if split else at, where)
        for member in item.members:
            member.within = re.sub(r"\s+", " ", item.head)


def read(text: str) -> Module:
    """Returns what is in a file."""
    reader, module = _Reader(text), Module()
    reader.items(0, len(reader.tokens), module, [module.scope])
    return module
