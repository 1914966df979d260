"""Reads all crates, and finds what a name means in code, in a clause or in a definition."""

from __future__ import annotations

import glob
import os
import re
from dataclasses import dataclass, field

import definitions
import rattle
from definitions import Definition, SpecFile
from rattle import Item, Module

# Crates that serve tests.
LEFT_OUT = ("fixtures", "library_tests", "object_lines")

Path = tuple[str, ...]


@dataclass
class Target:
    """What a name means: where it is shown, if it is, and what it is called in full."""

    title: str
    place: str = ""
    definition: Definition | None = None
    item: Item | None = None
    # If it is a module of specs, or of variants: its path. Names behind a dot are looked up below it.
    below: list[str] | None = None


@dataclass
class Crate:
    name: str
    modules: dict[Path, Module] = field(default_factory=dict)
    public_modules: list[Path] = field(default_factory=list)
    specs: dict[str, SpecFile] = field(default_factory=dict)
    depends_on: list[str] = field(default_factory=list)
    # C sees the functions of all modules, private ones, too.
    is_for_c: bool = False
    # In the order of a page: of each public module its items, and its re-exports with what they lead to.
    shown: dict[Path, list[Item]] = field(default_factory=dict)
    passed_on: dict[Path, list[tuple[str, list[str]]]] = field(default_factory=dict)
    # Private types that definitions name.
    private: list[Item] = field(default_factory=list)
    # Implementations by the item that they are for.
    impls: dict[int, list[Item]] = field(default_factory=dict)

    @property
    def page(self) -> str:
        return f"{self.name}.html"

    @property
    def doc(self) -> list[str]:
        return self.modules[()].doc

    def items(self) -> list[Item]:
        return [it for items in self.shown.values() for it in items]

    def definitions(self) -> list[Definition]:
        return [it for file in self.specs.values() for it in file.definitions]

    def methods(self, item: Item) -> list[Item]:
        """Returns what a reader calls on a type: its public functions and constants, or the functions of a trait."""
        if item.kind == "trait":
            return [it for it in item.members if it.kind != "ghost"]
        return [it for impl in self.impls.get(id(item), []) if not impl.trait for it in impl.members if it.is_public]


def _text(path: str) -> str:
    with open(path, encoding="utf-8") as file:
        return file.read()


class Project:
    def __init__(self, top: str) -> None:
        self.top = top
        lines = [it.partition(":") for it in _text(f"{top}/crates.txt").splitlines() if it.split("#")[0].strip()]
        self.crates = {it[0].split()[0]: self.crate(it[0].split()[0]) for it in lines if it[0].split()[0] not in LEFT_OUT}
        for front, _, rest in lines:
            if crate := self.crates.get(front.split()[0]):
                crate.depends_on = [it for it in rest.split() if it in self.crates]
                crate.is_for_c = "staticlib" in front.split()
        for crate in self.crates.values():
            self.publish(crate)
        for crate in self.crates.values():
            self.place_impls(crate)

    # Reading.

    def crate(self, name: str) -> Crate:
        crate, root = Crate(name), f"{self.top}/crates/{name}"
        first = next(it for it in ("lib.rt", "main.rt") if os.path.exists(f"{root}/src/{it}"))
        self.read_module(crate, (), f"{root}/src/{first}", f"{root}/src", None)
        for path in sorted(glob.glob(f"{root}/specs/*.antt")):
            file = os.path.basename(path)[:-5]
            crate.specs[file] = definitions.read(_text(path), name, file)
        return crate

    def read_module(self, crate: Crate, path: Path, file: str, folder: str, module: Module | None) -> None:
        try:
            module = module or rattle.read(_text(file))
        except ValueError as error:
            raise SystemExit(f"tools/doc: {os.path.relpath(file, self.top)}: {error}") from None
        crate.modules[path] = module
        for item in module.items + [member for it in module.items + module.impls for member in it.members] + module.impls:
            item.crate, item.module = crate.name, path
        for name, _, inner in module.modules:
            below = [it for it in (f"{folder}/{name}.rt", f"{folder}/{name}/mod.rt") if os.path.exists(it)]
            if inner or below:
                self.read_module(crate, (*path, name), below[0] if below else "", f"{folder}/{name}", inner)

    # What is public.

    def publish(self, crate: Crate) -> None:
        """Finds where each public item is shown: in a public module, or where a public module re-exports it."""
        queue: list[Path] = [()]
        while queue:
            path = queue.pop(0)
            crate.public_modules.append(path)
            queue[:0] = [(*path, name) for name, is_public, _ in crate.modules[path].modules if (is_public or crate.is_for_c) and (*path, name) in crate.modules]
        for path in crate.public_modules:
            crate.shown[path], crate.passed_on[path] = [], []
            for item in crate.modules[path].items:
                if item.is_public:
                    self.show(crate, path, item, item.name)
        for path in crate.public_modules:
            order: list[Item] = []
            for entry in crate.modules[path].order:
                if isinstance(entry, Item):
                    order += [entry] if entry.is_public else []
                elif entry[2]:
                    for name, target in self.all_of(crate, path, entry):
                        item = self.find(crate.name, path, target)
                        if isinstance(item, Item) and item.crate == crate.name and not item.anchor:
                            self.show(crate, path, item, name)
                            order.append(item)
                        else:
                            crate.passed_on[path].append((name, target))
            crate.shown[path] = order

    def all_of(self, crate: Crate, path: Path, use: tuple[list[str], str, bool]) -> list[tuple[str, list[str]]]:
        """Returns the names that a `pub use` gives, with the path of each."""
        if use[1] != "*":
            return [(use[1], use[0])]
        found = self.find(crate.name, path, use[0][:-1])
        module = self.module_of(found) if isinstance(found, tuple) else None
        return [(it.name, [*use[0][:-1], it.name]) for it in (module.items if module else []) if it.is_public]

    def show(self, crate: Crate, path: Path, item: Item, name: str) -> None:
        anchor = ".".join((*path, name))
        taken = {it.anchor for items in crate.shown.values() for it in items}
        item.anchor = f"{anchor}-{item.kind}" if anchor in taken else anchor
        crate.shown[path].append(item)

    def place_impls(self, crate: Crate) -> None:
        for path, module in crate.modules.items():
            for impl in module.impls:
                name = re.match(r"(?:&(?:'\w+)? ?(?:mut )?)*([\w:]+)", impl.name)
                item = self.find(crate.name, path, name[1].split("::")) if name else None
                if isinstance(item, Item) and item.anchor:
                    self.crates[item.crate].impls.setdefault(id(item), []).append(impl)
        for item in crate.items():
            seen: dict[str, int] = {}
            members = [it for it in item.members if it.kind in ("field", "ghost")]
            for member in crate.methods(item) + members:
                seen[member.name] = at = seen.get(member.name, 0) + 1
                member.anchor = f"{item.anchor}.{member.name}" + (f"-{at}" if at > 1 else "")

    # Names of code.

    def module_of(self, found: tuple[str, Path]) -> Module | None:
        crate = self.crates.get(found[0])
        return crate.modules.get(found[1]) if crate else None

    def find(self, crate: str, path: Path, parts: list[str], depth: int = 0) -> "Item | tuple[str, Path] | None":
        """Returns the item or the module (crate and path) of a path in code, seen from a module; None if it is not here."""
        if depth > 24:
            return None
        at: "Item | tuple[str, Path] | None" = (crate, path)
        for k, part in enumerate(parts):
            if isinstance(at, Item):
                return self.member(at, part) if k == len(parts) - 1 else None
            if at is None:
                return None
            here, inside = at
            if part in ("crate", "self", "super"):
                at = (here, () if part == "crate" else inside[:-1] if part == "super" else inside)
                continue
            at = self.child(here, inside, part, depth, k == 0)
        return at

    def child(self, crate: str, path: Path, name: str, depth: int, is_first: bool) -> "Item | tuple[str, Path] | None":
        module = self.crates[crate].modules.get(path)
        if module is None:
            return None
        if (*path, name) in self.crates[crate].modules and not any(it.name == name and it.kind in ("fn",) and not is_first for it in module.items):
            return (crate, (*path, name))
        for item in module.items:
            if item.name == name:
                return item
        for parts, alias, _ in module.uses:
            if alias == name and parts != [name]:
                if found := self.find(crate, path, parts, depth + 1):
                    return found
        for parts, alias, _ in module.uses:
            if alias == "*" and (inside := self.find(crate, path, parts[:-1], depth + 1)) and isinstance(inside, tuple):
                if found := self.child(*inside, name, depth + 1, False):
                    return found
        if is_first and name in self.crates:
            return (name, ())
        return None

    def member(self, item: Item, name: str) -> Item | None:
        crate = self.crates[item.crate]
        owned = [*item.members, *(it for impl in crate.impls.get(id(item), []) for it in impl.members)]
        return next((it for it in owned if it.name == name), None)

    def ghost(self, item: Item, trait: str, name: str, depth: int = 0) -> Item | None:
        """Returns a ghost member of a trait, or of a trait that it asks for, as an item names the trait."""
        found = self.find(item.crate, item.module, [trait])
        if not isinstance(found, Item) or found.kind != "trait" or depth > 8:
            return None
        member = next((it for it in found.members if it.kind == "ghost" and it.name == name), None)
        above = found.scopes[-1].bounds.get(found.name, [])
        return member or next((it for it in (self.ghost(found, other, name, depth + 1) for other in above) if it), None)

    def place_of(self, found: "Item | tuple[str, Path] | None") -> str:
        """Returns where an item or a module is shown."""
        if isinstance(found, Item):
            return f"{found.crate}.html#{found.anchor}" if found.anchor else ""
        if found and found[0] in self.crates:
            return f"{found[0]}.html" + (f"#mod.{'.'.join(found[1])}" if found[1] else "") if found[1] in self.crates[found[0]].public_modules else ""
        return ""

    # Names of the logic.

    def meaning(self, path: list[str]) -> Target:
        """Returns what a path of `use Rattle.` means."""
        title = ".".join(path)
        if len(path) < 3 or path[0] not in self.crates:
            return Target(title, below=path)
        crate, kind, rest = self.crates[path[0]], path[1], path[2:]
        if kind != "specs":
            return Target(title)
        if rest[0] in ("declared", "contracts"):
            return self.declared(crate, rest[1:], path)
        if rest[0] in crate.specs:
            file = crate.specs[rest[0]]
            if len(rest) == 1:
                return Target(title, f"{crate.page}#specs.{file.name}", below=path)
            for it in file.definitions:
                if it.name == rest[1] or (it.word == "data" and rest[1] in it.members):
                    return Target(f"{it.crate}/{it.file}", f"{crate.page}#{it.anchor}", it)
            if rest[1] in file.exported:
                return self.meaning([*file.exported[rest[1]], *rest[2:]])
        else:
            library = crate.specs.get("Lib")
            if library and rest[0] in library.exported:
                return self.meaning([*library.exported[rest[0]], *rest[1:]])
        return Target(title)

    def declared(self, crate: Crate, rest: list[str], path: list[str]) -> Target:
        """Returns what a path below `declared` means: a type of the code, or one of its variants."""
        title, inside = "::".join((crate.name, *rest)), 0
        while inside < len(rest) and tuple(rest[: inside + 1]) in crate.modules:
            inside += 1
        module = crate.modules[tuple(rest[:inside])]
        name = rest[inside] if inside < len(rest) else ""
        if name == "TheConstants":
            name = rest[-1]
        item = next((it for it in module.items if it.name == name), None)
        if item is None:
            return Target(title)
        last, place, front = rest[-1], self.place_of(item), ""
        if not place:
            if all(it is not item for it in crate.private):
                crate.private.append(item)
            place, front = f"{crate.page}#{private_anchor(item)}", "private: "
        if last == "TheVariants":
            return Target(title, place, item=item, below=path)
        title = f"{front}{crate.name}::{'::'.join((*rest[:inside], name))}"
        if "TheVariants" in rest and (variant := self.member(item, last)):
            return Target(f"{title}::{last}", self.place_of(variant) or place, item=item)
        return Target(title, place, item=item)


def private_anchor(item: Item) -> str:
    return ".".join(("private", *item.module, item.name))


def clause_anchor(item: Item, clause: rattle.Clause) -> str:
    """Returns the anchor of a clause: that of its function, and its name or its number."""
    same = [it for it in item.clauses if (it.name or it.word) == (clause.name or clause.word)]
    at = next(k for k, it in enumerate(same) if it is clause)
    return f"{item.anchor}:{(clause.name or clause.word).replace('*', '')}" + (f"-{at + 1}" if at else "")
